"""Cases of des_cipher.

`des.block8 KEY BLOCK`, `des.block KEY BLOCK`, `des.back KEY BLOCK`, `des.spread KEY`; the same with `plain_` before,
which are the bodies on bits; `des.schedule KEY BLOCK` and `des.schedule_back KEY BLOCK` (what a kept schedule makes of
the block, and back again).
"""

from forms import line, values

# Cases beside the file's, with their source: a key of 8 bytes, a block, the block enciphered.
KEYS_OF_8_BYTES = [
    # The textbook example with all parity bits flipped (FIPS 46-3: they have no effect).
    ("123556789abddef0", "0123456789abcdef", "85e813540f0ab405"),
]


def both(operation, words, answer):
    """A line of an operation on words of the machine, and one of the same on bits."""
    return [
        (line(f"des.{operation}", *words), answer),
        (line(f"des.plain_{operation}", *words), answer),
    ]


def without_parity(key):
    """The seven upper bits of each of the 8 bytes of a key, as the key of 7 bytes whose spread form it is but for
    parity (FIPS 46-3)."""
    bits = "".join(f"{byte >> 1:07b}" for byte in bytes.fromhex(key))
    return f"{int(bits, 2):014x}"


def cases():
    """Each line and its answer."""
    des = values("des")
    out = []
    for case in des["keys_of_8_bytes"]:
        out += both("block8", [case["key"], case["block"]], case["result"])
        out += both("back", [without_parity(case["key"]), case["block"]], case["decrypted_block"])
    for key, block, result in KEYS_OF_8_BYTES:
        out += both("block8", [key, block], result)
    for case in des["keys_of_7_bytes"]:
        key, block, result, back = case["key"], case["block"], case["result"], case["decrypted_block"]
        out += both("spread", [key], case["spread_key"])
        out += both("block", [key, block], result)
        out += both("block8", [case["spread_key"], block], result)
        out += both("back", [key, block], back)
        out += both("back", [key, result], block)
        out.append((line("des.schedule", key, block), f"{result};{block}"))
        out.append((line("des.schedule", key, back), f"{block};{back}"))
        out.append((line("des.schedule_back", key, block), f"{back};{block}"))
        out.append((line("des.schedule_back", key, result), f"{block};{result}"))
    return out
