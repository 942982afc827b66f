"""Cases of digest_parts.

`digest.md4 MESSAGE`, `digest.hmac KEY MESSAGE`; `digest.md4_pieces SIZE MESSAGE` and `digest.hmac_pieces SIZE KEY
MESSAGE` take the message in pieces of a size, and must give the same.
"""

from forms import line, values

# Sizes of pieces about the length of a block, which is 64.
SIZES = [1, 7, 63, 64, 65, 200]


def cases():
    """Each line and its answer."""
    digests = values("digests")
    out = []
    for case in digests["md4"]:
        message, digest = case["message"], case["digest"]
        out.append((line("digest.md4", message), digest))
        for size in SIZES:
            out.append((line("digest.md4_pieces", size, message), digest))
    for case in digests["hmac_md5"]:
        key, message, digest = case["key"], case["message"], case["digest"]
        out.append((line("digest.hmac", key, message), digest))
        for size in SIZES:
            out.append((line("digest.hmac_pieces", size, key, message), digest))
    return out
