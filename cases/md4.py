"""MD4 (RFC 1320), for values that follow from a password's hash: written from the standard's text."""

import struct


def rotated(value, count):
    """A word rotated to the left."""
    value &= 0xFFFFFFFF
    return (value << count | value >> (32 - count)) & 0xFFFFFFFF


def md4(message):
    """The digest of a message, as bytes."""
    padded = message + b"\x80" + bytes((55 - len(message)) % 64) + struct.pack("<Q", 8 * len(message))
    state = [0x67452301, 0xEFCDAB89, 0x98BADCFE, 0x10325476]
    rounds = [
        (lambda x, y, z: x & y | ~x & z, 0, range(16), [3, 7, 11, 19]),
        (
            lambda x, y, z: x & y | x & z | y & z,
            0x5A827999,
            [0, 4, 8, 12, 1, 5, 9, 13, 2, 6, 10, 14, 3, 7, 11, 15],
            [3, 5, 9, 13],
        ),
        (
            lambda x, y, z: x ^ y ^ z,
            0x6ED9EBA1,
            [0, 8, 4, 12, 2, 10, 6, 14, 1, 9, 5, 13, 3, 11, 7, 15],
            [3, 9, 11, 15],
        ),
    ]
    for at in range(0, len(padded), 64):
        words = struct.unpack("<16I", padded[at : at + 64])
        a, b, c, d = state
        for function, constant, order, shifts in rounds:
            for step, word in enumerate(order):
                value = rotated(a + function(b, c, d) + words[word] + constant, shifts[step % 4])
                a, b, c, d = d, value, b, c
        state = [(old + new) & 0xFFFFFFFF for old, new in zip(state, (a, b, c, d))]
    return struct.pack("<4I", *state)


# RFC 1320 A.5.
assert md4(b"message digest").hex() == "d9130a8164549fe818874806e1c7014b"
