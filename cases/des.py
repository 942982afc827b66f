"""DES of one block, by the tables of FIPS 46-3, for values that follow from a key: written from the standard's text.
What is asked again is kept."""

from functools import cache

INITIAL = [first - 8 * column for first in (58, 60, 62, 64, 57, 59, 61, 63) for column in range(8)]
FINAL = [INITIAL.index(place) + 1 for place in range(1, 65)]
EXPANSION = [(4 * row + column - 1) % 32 + 1 for row in range(8) for column in range(6)]
PERMUTATION = [
    16, 7, 20, 21, 29, 12, 28, 17, 1, 15, 23, 26, 5, 18, 31, 10,
    2, 8, 24, 14, 32, 27, 3, 9, 19, 13, 30, 6, 22, 11, 4, 25,
]
FIRST_CHOICE = [
    57, 49, 41, 33, 25, 17, 9, 1, 58, 50, 42, 34, 26, 18, 10, 2, 59, 51, 43, 35, 27, 19, 11, 3, 60, 52, 44, 36,
    63, 55, 47, 39, 31, 23, 15, 7, 62, 54, 46, 38, 30, 22, 14, 6, 61, 53, 45, 37, 29, 21, 13, 5, 28, 20, 12, 4,
]
SECOND_CHOICE = [
    14, 17, 11, 24, 1, 5, 3, 28, 15, 6, 21, 10, 23, 19, 12, 4, 26, 8, 16, 7, 27, 20, 13, 2,
    41, 52, 31, 37, 47, 55, 30, 40, 51, 45, 33, 48, 44, 49, 39, 56, 34, 53, 46, 42, 50, 36, 29, 32,
]
ROTATIONS = [1, 1, 2, 2, 2, 2, 2, 2, 1, 2, 2, 2, 2, 2, 2, 1]
# The S-boxes: rows 0 to 3, of 16 hex digits each.
BOXES = [
    "e4d12fb83a6c59070f74e2d1a6cb953841e8d62bfc973a50fc8249175b3ea06d",
    "f18e6b34972dc05a3d47f28ec01a69b50e7ba4d158c6932fd8a13f42b67c05e9",
    "a09e63f51dc7b428d709346a285ecbf1d6498f30b12c5ae71ad069874fe3b52c",
    "7de3069a1285bc4fd8b56f03472c1ae9a690cb7df13e52843f06a1d8945bc72e",
    "2c417ab6853fd0e9eb2c47d150fa3986421bad78f9c5630eb8c71e2d6f09a453",
    "c1af92680d34e75baf427c9561de0b389ef528c3704a1db6432c95fabe17608d",
    "4b2ef08d3c975a61d0b7491ae35c2f8614bdc37eaf6805926bd814a7950fe23c",
    "d2846fb1a93e50c71fd8a374c56b0e927b419ce206adf35821e74a8dfc90356b",
]


def bits_of(data):
    """The bits of bytes, the highest first."""
    return [byte >> place & 1 for byte in data for place in range(7, -1, -1)]


def permuted(bits, places):
    """The bits at these places, counted from 1."""
    return [bits[place - 1] for place in places]


def number(bits):
    """The number of bits, the highest first."""
    return int("".join(map(str, bits)), 2)


@cache
def box(place, six):
    """The four bits of a box for six: the first and the last give the row, the middle four the column."""
    entry = int(BOXES[place][16 * number([six[0], six[5]]) + number(six[1:5])], 16)
    return [entry >> shift & 1 for shift in (3, 2, 1, 0)]


def round_function(half, key):
    """The function f of a round."""
    mixed = [bit ^ other for bit, other in zip(permuted(half, EXPANSION), key)]
    return permuted([bit for place in range(8) for bit in box(place, tuple(mixed[6 * place:6 * place + 6]))], PERMUTATION)


@cache
def round_keys(key):
    """The sixteen keys of the rounds."""
    halves = permuted(bits_of(key), FIRST_CHOICE)
    left, right, keys = halves[:28], halves[28:], []
    for count in ROTATIONS:
        left, right = left[count:] + left[:count], right[count:] + right[:count]
        keys.append(permuted(left + right, SECOND_CHOICE))
    return keys


def ciphered(keys, block):
    """What the rounds with these keys make of eight bytes."""
    bits = permuted(bits_of(block), INITIAL)
    left, right = bits[:32], bits[32:]
    for key_bits in keys:
        left, right = right, [bit ^ other for bit, other in zip(left, round_function(right, key_bits))]
    return number(permuted(right + left, FINAL)).to_bytes(8, "big")


@cache
def des(key, block):
    """DES of eight bytes under a key of eight bytes, of which the lowest bit of each has no effect."""
    return ciphered(round_keys(key), block)


def undes(key, block):
    """The eight bytes that DES under the key makes these of: the keys of the rounds in reverse order (FIPS 46-3)."""
    return ciphered(round_keys(key)[::-1], block)


def spread(key):
    """Seven bytes as eight, of which each has seven of the bits, in order, and a low zero."""
    bits = bits_of(key)
    return bytes(number(bits[7 * place:7 * place + 7]) << 1 for place in range(8))
