"""What the libraries of wire_cases have in common: numbers on the wire, and long byte strings as words."""

# A run of at least so many equal bytes is written as a count.
RUN = 32


def le(number, size):
    """A little-endian number of so many bytes."""
    return number.to_bytes(size, "little")


def short(data, at):
    """The 16-bit number at a place; 0 where the bytes end before it does."""
    return int.from_bytes(data[at:at + 2], "little") if len(data) >= at + 2 else 0


def long(data, at):
    """The 32-bit number at a place; 0 where the bytes end before it does."""
    return int.from_bytes(data[at:at + 4], "little") if len(data) >= at + 4 else 0


def compact(data):
    """Bytes as a word: hex in which a run of 32 equal bytes or more is `COUNT*HEX`, all parts joined by `+`; `-` where
    there are none."""
    parts = []
    at = 0
    plain = b""
    while at < len(data):
        end = at
        while end < len(data) and data[end] == data[at]:
            end += 1
        if end - at >= RUN:
            if plain:
                parts.append(plain.hex())
                plain = b""
            parts.append(f"{end - at}*{data[at]:02x}")
        else:
            plain += data[at:end]
        at = end
    if plain:
        parts.append(plain.hex())
    return "+".join(parts) or "-"


def expanded(word):
    """The bytes of such a word."""
    data = b""
    for part in [] if word == "-" else word.split("+"):
        count, _, digits = part.rpartition("*")
        data += int(count or 1) * bytes.fromhex(digits)
    return data


def changed(data, at, new):
    """The bytes with others put at a place."""
    return data[:at] + new + data[at + len(new):]


def flipped(data, at, mask):
    """The bytes with bits of one turned."""
    return changed(data, at, bytes([data[at] ^ mask]))


def numbers(values):
    """Numbers as `{:?}` prints a slice of them."""
    return "[" + ", ".join(str(value) for value in values) + "]"


def lent(data):
    """Bytes as `{:?}` prints a slice of them."""
    return numbers(data)


def truth(value):
    """A truth value as Rust prints it."""
    return "true" if value else "false"


def steps(answers):
    """The answers of a scenario's steps."""
    return ";".join(answers)
