"""Cases of secret_change that need no stub: secrets as they travel, and the secrets that a machine keeps.

`secrets.hide KEY SECRET` and `secrets.show KEY HIDDEN`: the bytes hidden, and shown.

`secrets.run TEXT STEP..`: the text of the secrets, the one that is tried and the next one (`none`), of a text and after
each of the steps `begin,SECRET`, `denied`, `opened` and `confirmed`; `NotSecrets` of a text of another form.

HIDDEN holds what `SamEncryptNTLMHash` of impacket's crypto (version 0.10) makes (MS-SAMR 2.2.11.1.1). Of other keys,
the session keys of `values/netlogon.json`, what is hidden is worked out by the DES of `des.py`.
"""

from des import des, spread
from forms import agree, line, struct, values

HIDDEN = [("101112131415161718191a1b1c1d1e1f", "61" * 16, "7c29219848305ef4d7dfc671f52e74b7")]

ONE, TWO, THREE = "61" * 16, "62" * 16, "aBcDeF0123456789" * 2


def text_of(current, following=None):
    return "".join(secret.lower() + "\n" for secret in (current, following) if secret).encode()


def state(current, following=None, tried=None):
    return f"{text_of(current, following).hex()} {tried or current} {following or 'none'}"


def run(text, steps, answer):
    return line("secrets.run", text.encode().hex(), *steps), answer


def busy(secret):
    numbers = ", ".join(str(byte) for byte in bytes.fromhex(secret))
    return f"Err({struct('Busy', next=f'[{numbers}]')})"


def forms():
    """Texts of the form, and of other forms."""
    good = [(ONE, state(ONE)), (ONE + "\n", state(ONE))]
    good += [(ONE + "\n" + TWO, state(ONE, TWO)), (ONE + "\n" + TWO + "\n", state(ONE, TWO))]
    good += [(THREE + "\n", state(THREE.lower())), (ONE + "\n" + ONE + "\n", state(ONE, ONE))]
    bad = ["", "\n", ONE[:-1], ONE[:-1] + "\n", ONE + "0", ONE + " ", ONE + "\r\n", ONE + "\n\n"]
    bad += ["\n" + ONE, " " + ONE, ONE[:-1] + "g", ONE + TWO]
    bad += [ONE + "\n" + second for second in (TWO[:-1], TWO + "\n\n", TWO + "\n" + ONE, TWO + "\r\n")]
    bad += [ONE + "\n\n" + TWO, ONE + "\n" + TWO + "0"]
    return [run(text, [], answer) for text, answer in good] + [run(text, [], "NotSecrets") for text in bad]


def changes():
    """A change that is confirmed, one whose reply is lost, one whose call is lost, and what is refused meanwhile."""
    both, next_tried = state(ONE, TWO), state(ONE, TWO, TWO)
    begun = f"Ok(()) {both}"
    refused = f"{busy(TWO)} {both}"
    return [
        run(ONE, [f"begin,{TWO}", "confirmed"], ";".join([state(ONE), begun, state(TWO)])),
        run(
            ONE,
            [f"begin,{TWO}", "opened", f"begin,{ONE}", f"begin,{TWO}"],
            ";".join([state(ONE), begun, both, refused, refused]),
        ),
        # The call is lost: the current one opens, the next one stays.
        run(ONE + "\n" + TWO, ["opened", "confirmed"], ";".join([both, both, state(TWO)])),
        # The reply is lost: the current one is denied, the next one opens.
        run(ONE + "\n" + TWO, ["denied", "opened", "opened"], ";".join([both, next_tried, state(TWO), state(TWO)])),
        run(ONE + "\n" + TWO, ["denied", "denied", "denied"], ";".join([both, next_tried, both, next_tried])),
        # The next one is tried when the change is confirmed.
        run(ONE + "\n" + TWO, ["denied", "confirmed"], ";".join([both, next_tried, state(TWO)])),
        run(ONE + "\n" + TWO, ["denied", f"begin,{ONE}"], ";".join([both, next_tried, f"{busy(TWO)} {next_tried}"])),
        # Nothing is next.
        run(ONE, ["denied", "opened", "confirmed"], ";".join([state(ONE), state(ONE), state(ONE), "no such case"])),
    ]


def hide(key, secret):
    """Each half under DES, with the first 7 bytes of the key and the next 7."""
    return des(spread(key[:7]), secret[:8]) + des(spread(key[7:14]), secret[8:])


def hiding():
    for key, secret, hidden in HIDDEN:
        agree(lambda key=key, secret=secret: hide(bytes.fromhex(key), bytes.fromhex(secret)).hex(), hidden, "HIDDEN")
    channels = values("netlogon")["channels"][:4]
    keys = [channel[name] for channel in channels for name in ("strong_key", "des_key")]
    secrets = [bytes(range(place, place + 16)) for place in range(0, 128, 16)]
    made = [(key, secret.hex(), hide(bytes.fromhex(key), secret).hex()) for key, secret in zip(keys, secrets)]
    out = []
    for key, secret, hidden in HIDDEN + made:
        out += [(line("secrets.hide", key, secret), hidden), (line("secrets.show", key, hidden), secret)]
        # The last two bytes of the key are passed over.
        out.append((line("secrets.hide", key[:-4] + "0000", secret), hidden))
    return out


def cases():
    """Each line and its answer."""
    return hiding() + forms() + changes()
