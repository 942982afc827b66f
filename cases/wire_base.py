"""Cases of wire_base.

`base.u16 BYTES PLACE`, `base.u32 ..`, `base.u64 ..`: the little-endian number at the place.
`base.blob BYTES`: the bytes copied, then the bytes given back as a vector. `base.blob_back BYTES`: the latter alone.
`base.list NUMBER ..`: of a list of the numbers, pushed one after the other: whether it is empty before the first and
after the last, how many there are, each by its place, the one behind the last, and a copy.
`base.upper UNIT`: the ASCII upper case of a unit.
`base.units BYTES`: the text of UTF-16LE bytes, then a duplicate's bytes and its units. `base.units_back BYTES`: the
duplicate's bytes alone.
`base.name BYTES`: the name, then its copy's bytes and its units.
`base.same BYTES BYTES`: whether two names are the same.
`base.same_units BYTES UNITS`: whether a name and a text of UTF-16LE are the same name. `base.same_texts UNITS UNITS`:
whether two texts are.
`base.sid TEXT`: the security identifier that the text writes, then its authority, its numbers and a copy.
`base.sid_of AUTHORITY NUMBER ..`: the identifier of these parts, where they are in range.
`base.numbers STEP ..`: a map by numbers: `add/KEY/VALUE` an entry behind the others, `put/KEY/VALUE` the entry in place
of the first of its key,
`take/KEY` the value of the first of the key and the map without it, `find/KEY` the value. `base.names STEP ..`: the
same by names, which are texts of UTF-16LE, without `find`.
"""

import random

from forms import err, items, line, ok, option, struct
from wire import compact, lent, numbers, steps, truth

ASCII_TEXTS = ["", "A", "a", "File1$", "fILE1$", "FILE1", "[", "{", "@", "`", "~", " ", "ann", "ANN", "a b", "CORP\\ann", "S-1-5-21"]


def number_cases():
    data = bytes(range(1, 18))
    out = []
    for size in (2, 4, 8):
        for count in (0, 1, size - 1, size, size + 1, 17):
            for at in sorted({0, 1, 3, count - size, count - size + 1, count - 1, count, count + 1, 2**32, 2**63, 2**64 - size, 2**64 - 1}):
                if at < 0:
                    continue
                piece = data[:count]
                found = int.from_bytes(piece[at:at + size], "little") if at + size <= count else None
                out.append((line(f"base.u{8 * size}", piece, at), option(found)))
        for piece in (bytes(size), b"\xff" * size, b"\x80" + bytes(size - 1), bytes(size - 1) + b"\x80"):
            out.append((line(f"base.u{8 * size}", piece, 0), option(int.from_bytes(piece, "little"))))
    return out


def decimal_of(text):
    """The number of decimal digits without a sign or a leading zero, below 2^64: this project's own choice."""
    if not text or any(byte not in b"0123456789" for byte in text) or (len(text) > 1 and text[0] == ord("0")):
        return None
    return int(text) if int(text) < 2**64 else None


def decimal_cases():
    """Decimal numbers as authorities and as numbers of an identifier."""
    texts = [b"", b"0", b"1", b"9", b"10", b"07", b"00", b"+7", b"-0", b"-1", b" 7", b"7 ", b"7\x00", b"1_0", b"1e3", b"0x10", b"a", b"/",
             b":", b"4294967295",
             b"4294967296", b"281474976710655", b"281474976710656", b"18446744073709551614", b"18446744073709551615",
             b"18446744073709551616", b"18446744073709551617",
             b"18446744073709551625", b"99999999999999999999", b"184467440737095516150", b"018446744073709551615", b"1" * 40, b"\xc2\xb2",
             b"\xff", "\u0663".encode()]
    return [case for text in texts for case in (sid_case(b"S-1-" + text + b"-1"), sid_case(b"S-1-5-" + text),
                                                sid_case(b"S-1-5-21-" + text + b"-1"))]


def blob_cases():
    out = []
    for data in (b"", b"\x00", b"abc", bytes(range(256))):
        out.append((line("base.blob", data), steps([struct("Blob", bytes=lent(data)), compact(data)])))
    data = b"\x41" * 65536
    out.append((line("base.blob_back", compact(data)), compact(data)))
    return out


def list_cases():
    out = []
    for values in ([], [7], [7, 9], [0, 2**32 - 1, 0], list(range(20))):
        answers = [truth(True), truth(not values), str(len(values))]
        answers += [option(value) for value in values] + [option(None)]
        answers += [items([str(value) for value in values]), numbers(values)]
        out.append((line("base.list", *values), steps(answers)))
    return out


def upper(unit):
    """ASCII letters alone."""
    return unit - 0x20 if 0x61 <= unit <= 0x7A else unit


def upper_cases():
    units = sorted(set(range(0x3F, 0x80)) | {0, 0x20, 0xE9, 0xDF, 0xFF, 0x100, 0x161, 0x3B1, 0x130, 0x131, 0x161, 0x1061, 0x6100, 0x6161,
                                             0xD83D, 0xFF41, 0xFFFF})
    return [(line("base.upper", unit), str(upper(unit))) for unit in units]


def paired(data):
    return [data[i] | data[i + 1] << 8 for i in range(0, len(data), 2)]


def unit_cases():
    out = []
    texts = ["", "D", "Domain", "é", "Ω€", "\U0001F600"]
    pieces = [text.encode("utf-16-le") for text in texts] + [b"\x44\x00\x3d\xd8", b"\x00\xdc", b"\xff\xff", b"\x00\x00", bytes(range(64))]
    for data in pieces:
        units = paired(data)
        shown = ok(struct("Units", units=numbers(units)))
        out.append((line("base.units", data), steps([shown, compact(data), numbers(units)])))
    for data in (b"\x44", b"\x44\x00\x3d", bytes(63), b"\xff" * 1001):
        out.append((line("base.units", compact(data)), err("Odd")))
    data = b"\x41" * 65536
    out.append((line("base.units_back", compact(data)), compact(data)))
    return out


def name_of(data):
    """The first refusal of a name, or none: more than 64 bytes, then the first byte outside 0x20 to 0x7E (this
    project's own choice)."""
    if len(data) > 64:
        return "TooLong"
    for place, byte in enumerate(data):
        if not 0x20 <= byte <= 0x7E:
            return f"NotAscii({place})"
    return None


def name_cases():
    pieces = [text.encode() for text in ASCII_TEXTS]
    pieces += [b"a" * 63, b"a" * 64, b"a" * 65, b"a" * 66, b"\x7f" * 65, b"a" * 64 + b"\x00", b"a" * 63 + b"\x7f", b"\x1f" + b"a" * 63,
               b"a" * 300]
    pieces += [bytes([byte]) for byte in (0, 9, 0x1F, 0x20, 0x7E, 0x7F, 0x80, 0xFF)]
    pieces += [b"ab\x7f\x1f", b"ab\x1f", "é".encode(), b"\x00abc", b"abc\x00", bytes(range(0x20, 0x60)), bytes(range(0x40, 0x7F))]
    out = []
    for data in pieces:
        refused = name_of(data)
        if refused:
            out.append((line("base.name", data), err(refused)))
        else:
            out.append((line("base.name", data), steps([ok(struct("Name", bytes=lent(data))), compact(data),
                                                        struct("Units", units=numbers(data))])))
    return out


def same_cases():
    pairs = [("File1$", "fILE1$"), ("File1$", "File1"), ("[", "{"), ("@", "`"), ("", ""), ("", "a"), ("a", "A"), ("z", "Z"), ("^", "~"),
             ("ann", "anN"),
             ("ann", "bnn"), ("ann", "anm"), ("a" * 64, "A" * 64), ("a" * 64, "A" * 63 + "B"), ("a" * 64, "A" * 63), (" ann", "ann"),
             ("ann ", "ann"),
             ("\\", "|"), ("]", "}"), ("A", "B"), ("0", "P"), ("CORP", "corp")]
    out = []
    for one, other in pairs:
        same = [upper(ord(c)) for c in one] == [upper(ord(c)) for c in other]
        out.append((line("base.same", one.encode(), other.encode()), truth(same)))
        out.append((line("base.same", other.encode(), one.encode()), truth(same)))
        out.append((line("base.same_units", one.encode(), other.encode("utf-16-le")), truth(same)))
        out.append((line("base.same_texts", one.encode("utf-16-le"), other.encode("utf-16-le")), truth(same)))
    for one, other in [("a", "á"), ("K", "\u212a"), ("k", "\u212a"), ("s", "ſ"), ("i", "ı"), ("I", "İ"), ("a", "ａ"), ("A", "\u0141"),
                       ("a", "\u0161"), ("", "\0"),
                       ("ann", "ann\0"), ("A", "\u4100")]:
        out.append((line("base.same_units", one.encode(), other.encode("utf-16-le")), truth(False)))
        out.append((line("base.same_texts", other.encode("utf-16-le"), one.encode("utf-16-le")), truth(False)))
    return out


def sid_of(text):
    """The parts of `S-1-`, an authority below 2^48 and 1 to 15 numbers below 2^32, in decimal without leading zeros
    (this project's own choice of MS-DTYP 2.4.2.1); none where the text has another form."""
    if not text.startswith(b"S-1-"):
        return None
    parts = [decimal_of(part) for part in text[4:].split(b"-")]
    if None in parts or parts[0] >= 2**48 or not 1 <= len(parts) - 1 <= 15 or max(parts[1:]) >= 2**32:
        return None
    return parts[0], parts[1:]


def sid_shown(authority, parts):
    return struct("Sid", authority=authority, numbers=items([str(part) for part in parts]))


def sid_case(text):
    found = sid_of(text)
    if found is None:
        return line("base.sid", text), err("NotSid")
    shown = sid_shown(*found)
    return line("base.sid", text), steps([ok(shown), str(found[0]), numbers(found[1]), shown])


def sid_cases():
    fifteen = "-".join(str(n) for n in range(1, 16))
    texts = ["S-1-5-21-1-2-3", "S-1-05-1", "S-1-5", "S-1-5-", "S-1-5-1", "S-1-5-1-", "S-1--1", "S-1-5--1", "S-1-", "S-1", "S-", "",
             "s-1-5-1", "S-2-5-1", "S-1-5-1 ",
             " S-1-5-1", "S-1-5-+1", "S-1-+5-1", "S-1-5-01", "S-1-5-00", "S-1-0-0", "S-1-00-0", "S-1-281474976710655-4294967295",
             "S-1-281474976710656-1",
             "S-1-18446744073709551615-1", "S-1-18446744073709551616-1", "S-1-5-4294967295", "S-1-5-4294967296",
             "S-1-5-21-4294967295-4294967296",
             "S-1-5-18446744073709551616", f"S-1-0-{fifteen}", f"S-1-0-{fifteen}-16", f"S-1-0-{fifteen}-", "S-1-0-" + "-".join(["0"] * 15),
             "S-1-0-" + "-".join(["0"] * 17), "S-1-5-a", "S-1-a-1", "S-1-0x5-1", "S-1-5-32-544",
             "S-1-5-21-3442127797-2314043094-1691266673", "S-1-5-21-1-2-3\n", "S_1_5_1",
             "S-1-5,1", "S-1-5-1-2-3-4-5-6-7-8-9-10-11-12-13-14"]
    out = [sid_case(text.encode()) for text in texts]
    made = [(2**48 - 1, [2**32 - 1]), (5, [21, 1, 2, 3]), (0, [0]), (5, list(range(15)))]
    for authority, parts in made:
        shown = sid_shown(authority, parts)
        out.append((line("base.sid_of", authority, *parts), steps([shown, str(authority), numbers(parts), shown])))
    for authority, parts in [(2**48, [1]), (5, []), (5, list(range(16)))]:
        out.append((line("base.sid_of", authority, *parts), "out of range"))
    return out


def random_cases():
    """Names and identifiers of random form; the random numbers are Python's for this seed."""
    draw = random.Random(1997)
    out = []
    for _ in range(24):
        data = bytes(draw.choice(b"aZ09$ ~\x7f\x1f") for _ in range(draw.randrange(70)))
        refused = name_of(data)
        if refused:
            out.append((line("base.name", data), err(refused)))
        else:
            out.append((line("base.name", data), steps([ok(struct("Name", bytes=lent(data))), compact(data),
                                                        struct("Units", units=numbers(data))])))
    for _ in range(24):
        authority, parts = draw.randrange(2**48), [draw.randrange(2**32) for _ in range(draw.randrange(1, 16))]
        out.append(sid_case("-".join(str(part) for part in ["S", 1, authority] + parts).encode()))
    return out


def map_case(operation, todo):
    """A scenario: the first entry of a key counts."""
    entries, words, answers = [], [], []
    by_name = operation == "base.names"

    def same(one, other):
        return [upper(unit) for unit in paired(one)] == [upper(unit) for unit in paired(other)] if by_name else one == other

    def shown():
        keys = (struct("Units", units=numbers(paired(key))) if by_name else str(key) for key, _ in entries)
        return items([f"({key}, {value})" for key, (_, value) in zip(keys, entries)])

    for step in todo:
        key = step[1].encode("utf-16-le") if by_name else step[1]
        words.append("/".join([step[0], compact(key) if by_name else str(key)] + [str(value) for value in step[2:]]))
        place = next((at for at, entry in enumerate(entries) if same(key, entry[0])), None)
        if step[0] == "add" or step[0] == "put" and place is None:
            entries.append((key, step[2]))
            answers.append(shown())
        elif step[0] == "put":
            entries[place] = (key, step[2])
            answers.append(shown())
        else:
            value = option(None if place is None else entries[place][1])
            if step[0] == "take":
                if place is not None:
                    del entries[place]
                value += " " + shown()
            answers.append(value)
    return line(operation, *words), steps(answers)


def map_cases():
    out = []
    draw = random.Random(2016)
    numbered, named = "base.numbers", "base.names"
    top = 2**32 - 1
    out.append(map_case(numbered, [("find", 1), ("take", 1), ("put", 1, 10), ("find", 1), ("find", 2), ("put", 2, 20), ("put", 1, 11),
                                   ("find", 1), ("take", 1), ("find", 1), ("take", 1), ("find", 2)]))
    out.append(map_case(numbered, [("put", 0, 0), ("put", top, top), ("find", 0), ("find", top), ("take", 0), ("find", top)]))
    # keys that stand twice: the first counts
    out.append(map_case(numbered, [("add", 7, 1), ("add", 8, 2), ("add", 7, 3), ("find", 7), ("put", 7, 4), ("take", 7), ("find", 7),
                                   ("take", 7), ("find", 7), ("find", 8)]))
    out.append(map_case(named, [("take", "ann"), ("put", "ann", 1), ("put", "ANN", 2), ("put", "bob", 3), ("take", "aNn"), ("take", "ann"),
                                ("put", "", 4), ("put", "", 5), ("take", ""), ("take", "BOB")]))
    out.append(map_case(named, [("add", "ann", 1), ("add", "Ann", 2), ("put", "aNN", 3), ("take", "ANN"), ("take", "ANN"),
                                ("take", "ANN")]))
    # letters past ASCII are different names in another case
    out.append(map_case(named, [("put", "\u00e9", 1), ("put", "\u00c9", 2), ("take", "\u00e9"), ("take", "\u00c9"), ("put", "[", 3),
                                ("put", "{", 4), ("take", "{")]))
    for _ in range(12):
        todo = []
        for _ in range(draw.randrange(4, 16)):
            key = draw.randrange(4)
            todo.append(draw.choice([("put", key, draw.randrange(100)), ("put", key, draw.randrange(100)), ("take", key), ("find", key),
                                     ("add", key, draw.randrange(100))]))
        out.append(map_case(numbered, todo))
        names_drawn = ["ann", "Ann", "bob", "BOB", "eve"]
        out.append(map_case(named, [(step[0], draw.choice(names_drawn), *step[2:]) for step in todo if step[0] != "find"]))
    return out


def cases():
    """Each line and its answer."""
    return (number_cases() + decimal_cases() + blob_cases() + list_cases() + upper_cases() + unit_cases() + name_cases() + same_cases() + sid_cases()
            + map_cases() + random_cases())
