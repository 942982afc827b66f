"""NTLM's keys and sessions, by MS-NLMP 3.3, 3.4 and 3.4.5, for values that follow from a logon; and units of RPC under
them (MS-RPCE 2.2.2.11)."""

import hashlib
import hmac

from des import des, spread
from forms import agree, values
from md4 import md4
from rpc_units import may_be_written
from rpc_units import write as write_unit
from wire import le

UNICODE, NTLM, ESS, KEY_EXCH, KEY_128, KEY_56 = 0x1, 0x200, 0x80000, 0x40000000, 0x20000000, 0x80000000
NTLMSSP, INTEGRITY, PRIVACY = 10, 5, 6
NAMES = {"client": "client-to-server", "server": "server-to-client"}
OTHER = {"client": "server", "server": "client"}


def hmac_md5(key, data):
    return hmac.new(key, data, "md5").digest()


def upper(units):
    """The upper case of ASCII letters in a text of 16-bit units."""
    pairs = (units[at:at + 2] for at in range(0, len(units), 2))
    return b"".join(pair.upper() if pair[1] == 0 and pair[0] < 0x80 else pair for pair in pairs)


# ---- responses


def desl(secret, data):
    padded = secret + bytes(5)
    return b"".join(des(spread(padded[at:at + 7]), data) for at in (0, 7, 14))


def respond_v2(secret, user, domain, challenge, time, client, pairs):
    """An NTLMv2 response."""
    key = hmac_md5(secret, upper(user) + domain)
    temp = b"\1\1" + bytes(6) + le(time, 8) + client + bytes(4) + pairs + bytes(4)
    return hmac_md5(key, challenge + temp) + temp


def base_key(secret, user, domain, challenge, nt):
    """The session base key where the NT response is right; else None."""
    if len(nt) == 24:
        return md4(secret) if nt == desl(secret, challenge) else None
    if len(nt) < 44:
        return None
    key = hmac_md5(secret, upper(user) + domain)
    return hmac_md5(key, nt[:16]) if nt[:16] == hmac_md5(key, challenge + nt[16:]) else None


def challenge_for(flags, challenge, lm, nt):
    """The challenge that a response answers."""
    if flags & ESS and len(lm) == len(nt) == 24:
        return hashlib.md5(challenge + lm[:8]).digest()[:8]
    return challenge


def exchange_key(base, flags, challenge, lm, nt):
    if flags & ESS and len(lm) == len(nt) == 24:
        return hmac_md5(base, challenge + lm[:8])
    return base


class Rc4:
    """A running RC4."""

    def __init__(self, key):
        self.table, self.i, self.j, j = list(range(256)), 0, 0, 0
        for i in range(256):
            j = (j + self.table[i] + key[i % len(key)]) % 256
            self.table[i], self.table[j] = self.table[j], self.table[i]

    def crypt(self, data):
        out = []
        for byte in data:
            self.i = (self.i + 1) % 256
            self.j = (self.j + self.table[self.i]) % 256
            self.table[self.i], self.table[self.j] = self.table[self.j], self.table[self.i]
            out.append(byte ^ self.table[(self.table[self.i] + self.table[self.j]) % 256])
        return bytes(out)


def exported_key(exchange, flags, key):
    """The exported key of a key field."""
    return Rc4(exchange).crypt(key) if flags & KEY_EXCH else exchange


# ---- sessions


class Direction:
    """What one side sends."""

    def __init__(self, exported, flags, side):
        name = NAMES[side].encode()
        size = 16 if flags & KEY_128 else 7 if flags & KEY_56 else 5
        self.signing = hashlib.md5(exported + b"session key to " + name + b" signing key magic constant\0").digest()
        sealing = hashlib.md5(exported[:size] + b"session key to " + name + b" sealing key magic constant\0").digest()
        self.cipher, self.exchanges, self.number = Rc4(sealing), flags & KEY_EXCH, 0

    def signature(self, plain):
        check = hmac_md5(self.signing, le(self.number, 4) + plain)[:8]
        if self.exchanges:
            check = self.cipher.crypt(check)
        self.number += 1
        return le(1, 4) + check + le(self.number - 1, 4)

    def sign(self, unit):
        return self.signature(unit)

    def seal(self, unit, start, end):
        """The sealed unit and its signature."""
        hidden = self.cipher.crypt(unit[start:end])
        return unit[:start] + hidden + unit[end:], self.signature(unit)

    def open(self, unit, start, end, signature):
        """The plain unit; None where the signature isn't its."""
        plain = unit[:start] + self.cipher.crypt(unit[start:end]) + unit[end:]
        return plain if self.signature(plain) == signature else None

    def check(self, unit, signature):
        return self.signature(unit) == signature


class Session:
    """One side of a session."""

    def __init__(self, exported, flags, side):
        self.sending, self.taking = Direction(exported, flags, side), Direction(exported, flags, OTHER[side])


def protected(session, level, context, unit, kind=NTLMSSP):
    """The bytes of a unit that is sent at the level: signed or sealed with a trailer, of that type and context, or
    plain without one."""
    if level not in (INTEGRITY, PRIVACY):
        return write_unit(unit)
    unit = unit | {"trailer": (kind, level, context, bytes(16))}
    assert may_be_written(unit)
    data = write_unit(unit)
    if level == INTEGRITY:
        return data[:-16] + session.sending.sign(data[:-16])
    hidden, signature = session.sending.seal(data[:-16], 24, len(data) - 24)
    return hidden + signature


def taken(session, level, data, unit):
    """The plain bytes of a unit that came at the level; None where its trailer isn't of the level or doesn't check."""
    if level not in (INTEGRITY, PRIVACY):
        return data
    trailer = unit["trailer"]
    if trailer is None or trailer[1] != level or len(trailer[3]) != 16:
        return None
    if level == INTEGRITY:
        return data if session.taking.check(data[:-16], data[-16:]) else None
    plain = session.taking.open(data[:-16], 24, len(data) - 24, data[-16:])
    return None if plain is None else plain + data[-16:]


def check_formulas():
    """The formulas above give the published values."""
    for case in values("ntlm")["settings"]:
        secret, challenge = bytes.fromhex(case["nt_hash"]), bytes.fromhex(case["server_challenge"])
        user, domain = bytes.fromhex(case["user_utf16"]), bytes.fromhex(case["domain_utf16"])
        agree(desl(secret, challenge).hex, case["v1"]["nt_response"], case["name"])
        agree(base_key(secret, user, domain, challenge, desl(secret, challenge)).hex, case["v1"]["base_key"], case["name"])
        nt = bytes.fromhex(case["v2"]["nt_response"])
        agree(base_key(secret, user, domain, challenge, nt).hex, case["v2"]["base_key"], case["name"])
        for found in case["v1_ess"]["sessions"] + case["v2"]["sessions"]:
            exported, flags = bytes.fromhex(found["exported_key"]), int(found["flags"], 16)
            for side in NAMES:
                one, other = Session(exported, flags, side), Session(exported, flags, OTHER[side])
                for unit in found.get(f"{side}_sealed") or []:
                    plain = bytes.fromhex(unit["unit"])
                    hidden, signature = one.sending.seal(plain, unit["from"], unit["to"])
                    agree(lambda: (hidden.hex(), signature.hex()), (unit["sealed_unit"], unit["signature"]), case["name"])
                    assert other.taking.open(hidden, unit["from"], unit["to"], signature) == plain
                one = Session(exported, flags, side)
                for unit in found.get(f"{side}_signed") or []:
                    agree(one.sending.sign(bytes.fromhex(unit["unit"])).hex, unit["signature"], case["name"])
