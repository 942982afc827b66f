"""Cases of rc4_stream.

`rc4.apply KEY USED TEXT`: what the key's stream makes of a text after as many bytes of it are used; `rc4.twice KEY AT
TEXT`: the same from the stream's begin, in two parts that meet at a place.
"""

from forms import line, values


def cases():
    """Each line and its answer."""
    out = []
    for case in values("digests")["rc4"]:
        key, text, result = case["key"], case["plaintext"], case["ciphertext"]
        out.append((line("rc4.apply", key, case["offset"], text), result))
        # RC4 undoes itself.
        out.append((line("rc4.apply", key, case["offset"], result), text))
        if case["offset"] == 0:
            for at in sorted({0, 1, len(text) // 4, len(text) // 2}):
                out.append((line("rc4.twice", key, at, text), result))
    return out
