"""Cases of netlogon_seal.

`netlogon.run KEY SIDE STEP..`: the steps at one end of a channel of that session key, the `requester` or the
`responder`. They are `seal,UNIT,FROM,TO,CONFOUNDER` and `open,UNIT,FROM,TO`; each gives its answer and what the unit
then is. The answers stand with `;` between them.

Sealed units are worked out here with Python's hmac and hashlib and an RC4 of its own (MS-NRPC 3.3.4.2). PUBLISHED holds
what `SEAL` of impacket's nrpc (version 0.10) makes of whole units as the requester, which is the client of MS-NRPC.
"""

import hashlib
import hmac

from forms import agree, err, line, ok

ALGORITHMS = bytes.fromhex("77007a00ffff0000")
KEY = bytes(range(0x10, 0x20))
CONFOUNDER = bytes.fromhex("0102030405060708")
LAST = 2**32 - 1

# Number, plain bytes, and impacket's signature.
PUBLISHED = [
    (0, b"a plain stub of 0 bytes", "77007a00ffff000076672ac7dca3ba4e4131ab104ec82ddc63139d6d86a04713"),
    (1, b"a plain stub of 1 bytes", "77007a00ffff0000c3a24e0af1528985411c8cf9d8a49e5d63a64fc658c11b61"),
    (255, b"a plain stub of 255 bytes", "77007a00ffff00001496a6298f6fcbd32916b28c5930eae0a9b73992e0c8ea73"),
    (0x01020304, b"a plain stub of 16909060 bytes", "77007a00ffff00005134a224e3f072037bdb53c5e3d60bd22ee47dd9c69dbd75"),
    (LAST - 1, b"a plain stub of 4294967294 bytes", "77007a00ffff0000e7890fedebf64d573884810d41a2866c604c720975d6e160"),
]


def digest(key, message):
    return hmac.new(key, message, hashlib.md5).digest()


def rc4(key, data):
    table, j = list(range(256)), 0
    for i in range(256):
        j = (j + table[i] + key[i % len(key)]) % 256
        table[i], table[j] = table[j], table[i]
    out, i, j = bytearray(), 0, 0
    for byte in data:
        i = (i + 1) % 256
        j = (j + table[i]) % 256
        table[i], table[j] = table[j], table[i]
        out.append(byte ^ table[(table[i] + table[j]) % 256])
    return bytes(out)


def sequence(number, requester):
    return number.to_bytes(4, "big") + (bytes([0x80, 0, 0, 0]) if requester else bytes(4))


def sealed(number, requester, plain, start, end, confounder=CONFOUNDER, key=KEY):
    """A plain unit, sealed, with its signature."""
    under = digest(digest(bytes(byte ^ 0xF0 for byte in key), bytes(4)), sequence(number, requester))
    check = digest(key, hashlib.md5(bytes(4) + ALGORITHMS + confounder + plain).digest())[:8]
    hiding = digest(digest(key, bytes(4)), check)
    body = plain[:start] + rc4(under, plain[start:end]) + plain[end:]
    return body + ALGORITHMS + rc4(hiding, sequence(number, requester)) + check + rc4(under, confounder)


UNITS = [
    (bytes(range(24)) + b"sixteen bytes..." + bytes(range(100, 108)), 24, 40),
    (b"nothing of this is sealed", 3, 3),
    (b"", 0, 0),
    (bytes(200), 0, 200),
    (bytes(range(256)) * 6, 24, 1500),
]


def seal_step(plain, start, end, then, confounder=CONFOUNDER):
    """A unit is sealed, over 32 bytes of any value."""
    return f"seal,{(plain + bytes([0xEE] * 32)).hex()},{start},{end},{confounder.hex()}", f"{ok('()')} {then.hex()}"


def open_step(unit, start, end, answer, left):
    return f"open,{unit.hex()},{start},{end}", f"{answer} {left.hex()}"


def opened(unit, plain, start, end):
    """A unit is opened: its signature stays."""
    return open_step(unit, start, end, ok("()"), plain + unit[-32:])


def scenario(side, steps, key=KEY):
    return line("netlogon.run", key, side, *[step for step, _ in steps]), ";".join(answer for _, answer in steps)


def both_ways():
    """Each end's units, as they are sealed and as the other end opens them; and both directions on one end."""
    out = []
    for side, requester in (("requester", True), ("responder", False)):
        other = "responder" if requester else "requester"
        units = [sealed(n, requester, *unit) for n, unit in enumerate(UNITS)]
        back = [sealed(n, not requester, *unit) for n, unit in enumerate(UNITS)]
        sealing = [seal_step(*plain, then) for plain, then in zip(UNITS, units)]
        opening = [opened(unit, *plain) for plain, unit in zip(UNITS, back)]
        out.append(scenario(side, sealing))
        out.append(scenario(other, [opened(unit, *plain) for plain, unit in zip(UNITS, units)]))
        out.append(scenario(side, [step for pair in zip(sealing, opening) for step in pair]))
    return out


def zeroed(unit, start, end):
    return unit[:start] + bytes(end - start) + unit[end:]


def altered(unit, at):
    return unit[:at] + bytes([unit[at] ^ 1]) + unit[at + 1 :]


def refusals():
    """Each refusal leaves the number: the right unit is opened after it. All but a wrong checksum leave the unit."""
    plain, start, end = UNITS[0]
    first, second = sealed(0, True, plain, start, end), sealed(1, True, plain, start, end)
    wanted = lambda number: err(f"BadSequence {{ wanted: {number} }}")
    good = opened(first, plain, start, end)

    def refused(unit, answer, left=None):
        return open_step(unit, start, end, answer, left or unit)

    bad = err("BadChecksum")
    size = len(first)
    lists = [
        # A unit that comes twice, early, from this very end, or under another key.
        [good, refused(first, wanted(1)), opened(second, plain, start, end)],
        [refused(second, wanted(0)), good],
        [refused(sealed(0, False, plain, start, end), wanted(0)), good],
        [refused(sealed(0, True, plain, start, end, key=bytes(16)), wanted(0)), good],
        # A changed number or checksum is another number; so a changed checksum alone is never seen as one.
        [*[refused(altered(first, size - at), wanted(0)) for at in (24, 16, 9)], good],
        # A changed confounder, header, range or trailer.
        *[
            [refused(altered(first, at), bad, zeroed(altered(first, at), start, end)), good]
            for at in (size - 8, size - 1, 0, start, end - 1, end)
        ],
        # Another range.
        [open_step(first, start, end - 1, bad, zeroed(first, start, end - 1)), good],
    ]
    # Other algorithms, at each byte; they come before a wrong number.
    lists += [[refused(altered(second, size - 32 + at), err("BadAlgorithm")), good] for at in range(8)]
    return [scenario("responder", steps) for steps in lists]


def published():
    """impacket's signatures."""
    for number, plain, signature in PUBLISHED:
        unit = sealed(number, True, plain, 0, len(plain))
        agree(lambda unit=unit: unit[-32:].hex(), signature, f"netlogon_seal {number}")
    plains = [plain for number, plain, _ in PUBLISHED if number < 2]
    units = [sealed(n, True, plain, 0, len(plain)) for n, plain in enumerate(plains)]
    assert [unit[-32:].hex() for unit in units] == [signature for _, _, signature in PUBLISHED[:2]]
    return [scenario("requester", [seal_step(plain, 0, len(plain), unit) for plain, unit in zip(plains, units)])]


def cases():
    """Each line and its answer."""
    return both_ways() + refusals() + published()
