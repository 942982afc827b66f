"""Cases of ndr_codec.

`ndr.read STUB STEP ..`: what a reader gives at each step, and where it then stands: `byte`, `short`, `long`, `pointer`,
`text`, `sid`, `take/COUNT`,
`counted/LENGTH`, `counted_bytes/LENGTH`; a length is the one that the head of a counted string tells, in bytes. Parts
of several items are steps too: `some_pointer`, `unique_text`, `halves`, `reserved/COUNT`, `head/SIZE` of items of so
many bytes, and the targets of a head, `units/LENGTH/THERE` and `bytes/LENGTH/THERE`, where THERE is 1 or 0.
`ndr.write STEP ..`: the stub of these items: `byte/NUMBER`, `short/NUMBER`, `long/NUMBER`, `raw/BYTES`, `pointer/1` or
`pointer/0`, `text/UNITS`,
`counted/UNITS`, `counted_bytes/BYTES`, `sid/TEXT`; units are UTF-16LE in hex. Parts: `unique_text/UNITS` or
`unique_text/null`, `halves/NUMBER`,
`reserved/COUNT`, `units_head/UNITS`, `bytes_head/BYTES`, `units/UNITS`, `bytes/BYTES`.

Walks through foreign stubs are worked out by the layouts of C706 14.2 and 14.3, MS-DTYP 2.3.10 and 2.4.2.3 from the
published fields, and so are refusals, by the rules of docs/FORMATS.md.
"""

import random

from forms import blob, err, items, line, ok, option, struct, units_of
from wire import changed, compact, le, lent, steps, truth


class Refused(Exception):
    """A refusal: its name and the place where the item begins."""

    def __init__(self, name, place):
        super().__init__(f"{name}({place})")
        self.place = place


def sid_shown(sid):
    return struct("Sid", authority=sid[0], numbers=items([str(number) for number in sid[1]]))


def sid_text(sid):
    return "-".join(["S", "1", str(sid[0])] + [str(number) for number in sid[1]])


class Reader:
    """Reads items of a stub one after the other, and keeps the steps and their answers."""

    def __init__(self, stub):
        self.stub, self.place, self.words, self.answers = stub, 0, [], []

    def step(self, word, value, shown):
        """A step: its word, and a function that gives a value and the next place."""
        self.words.append(word)
        try:
            found, place = value()
        except Refused as refused:
            self.answers.append(f"{err(refused)} {self.place}")
            raise
        self.place = place
        self.answers.append(f"{ok(shown(found))} {place}")
        return found

    def start(self, alignment):
        return self.place + -self.place % alignment

    def piece(self, start, at, count):
        if at + count > len(self.stub):
            raise Refused("Ends", start)
        return self.stub[at:at + count]

    def number(self, size):
        start = self.start(size)
        return int.from_bytes(self.piece(start, start, size), "little"), start + size

    def byte(self):
        return self.step("byte", lambda: self.number(1), str)

    def short(self):
        return self.step("short", lambda: self.number(2), str)

    def long(self):
        return self.step("long", lambda: self.number(4), str)

    def pointer(self):
        def value():
            referent, place = self.number(4)
            return referent != 0, place

        return self.step("pointer", value, truth)

    def take(self, count):
        return self.step(f"take/{count}", lambda: (self.piece(self.place, self.place, count), self.place + count), lent)

    def array(self, size):
        start = self.start(4)
        head = self.piece(start, start, 12)
        maximum, offset, actual = (int.from_bytes(head[at:at + 4], "little") for at in (0, 4, 8))
        return start, maximum, offset, actual, self.piece(start, start + 12, size * actual)

    def text(self):
        def value():
            start, maximum, offset, actual, data = self.array(2)
            if offset or not 1 <= actual <= maximum:
                raise Refused("BadCount", start)
            if data[-2:] != b"\0\0":
                raise Refused("NoFinalZero", start)
            return data[:-2], start + 12 + len(data)

        return self.step("text", value, lambda data: units_of(data.hex()))

    def counted(self, length):
        def value():
            start, maximum, offset, actual, data = self.array(2)
            if offset or actual > maximum or 2 * actual != length:
                raise Refused("BadCount", start)
            return data, start + 12 + len(data)

        return self.step(f"counted/{length}", value, lambda data: units_of(data.hex()))

    def counted_bytes(self, length):
        def value():
            start, maximum, offset, actual, data = self.array(1)
            if offset or actual > maximum or actual != length:
                raise Refused("BadCount", start)
            return data, start + 12 + len(data)

        return self.step(f"counted_bytes/{length}", value, lambda data: blob(data.hex()))

    def sid(self):
        def value():
            start = self.start(4)
            count = int.from_bytes(self.piece(start, start, 4), "little")
            data = self.piece(start, start + 4, 8 + 4 * count)
            if data[0] != 1 or data[1] != count or not 1 <= count <= 15:
                raise Refused("BadCount", start)
            parts = [int.from_bytes(data[8 + 4 * at:12 + 4 * at], "little") for at in range(count)]
            return (int.from_bytes(data[2:8], "big"), parts), start + 12 + 4 * count

        return self.step("sid", value, sid_shown)

    # parts of several items, item by item

    def unique_text(self):
        return self.text() if self.pointer() else None

    def some_pointer(self):
        place = self.start(4)
        if not self.pointer():
            raise Refused("BadPart", place)

    def halves(self):
        low = self.long()
        return low + (self.long() << 32)

    def reserved(self, count):
        for _ in range(count):
            self.long()

    def head(self, size):
        """The head of a counted string: its length in bytes, and whether it has a target."""
        place = self.start(2)
        length, maximum, there = self.short(), self.short(), self.pointer()
        if length > maximum or length % size or length and not there:
            raise Refused("BadPart", place)
        return length, there

    def units(self, length, there):
        return self.counted(length) if there else b""

    def bytes(self, length, there):
        return self.counted_bytes(length) if there else b""

    def case(self):
        return line("ndr.read", compact(self.stub), *self.words), steps(self.answers)


class PartReader(Reader):
    """The same, a part a step. Where a part is refused, its items before the refusal are passed over."""

    def part(self, word, read, shown):
        self.words.append(word)
        items_alone = Reader(self.stub)
        items_alone.place = self.place
        try:
            found = read(items_alone)
        except Refused as refused:
            self.place = items_alone.place
            self.answers.append(f"{err(refused)} {self.place}")
            raise
        self.place = items_alone.place
        self.answers.append(f"{ok(shown(found))} {self.place}")
        return found

    def unique_text(self):
        return self.part("unique_text", lambda reader: reader.unique_text(), lambda data: option(data, lambda it: units_of(it.hex())))

    def some_pointer(self):
        return self.part("some_pointer", lambda reader: reader.some_pointer(), lambda _: "()")

    def halves(self):
        return self.part("halves", lambda reader: reader.halves(), str)

    def reserved(self, count):
        return self.part(f"reserved/{count}", lambda reader: reader.reserved(count), lambda _: "()")

    def head(self, size):
        return self.part(f"head/{size}", lambda reader: reader.head(size), lambda it: struct("Head", len=it[0], there=truth(it[1])))

    def units(self, length, there):
        return self.part(f"units/{length}/{int(there)}", lambda reader: reader.units(length, there), lambda data: units_of(data.hex()))

    def bytes(self, length, there):
        return self.part(f"bytes/{length}/{int(there)}", lambda reader: reader.bytes(length, there), lambda data: blob(data.hex()))


class Writer:
    """Writes items of a stub one after the other, and keeps the steps. Padding is zeros, a maximum the actual count,
    and referents are 0x00020000 and 4 more for each next one."""

    def __init__(self):
        self.stub, self.pointers, self.words = b"", 0, []

    def put(self, word, alignment, data):
        self.words.append(word)
        self.stub += bytes(-len(self.stub) % alignment) + data

    def byte(self, value):
        self.put(f"byte/{value}", 1, le(value, 1))

    def short(self, value):
        self.put(f"short/{value}", 2, le(value, 2))

    def long(self, value):
        self.put(f"long/{value}", 4, le(value, 4))

    def raw(self, data):
        self.put(f"raw/{compact(data)}", 1, data)

    def pointer(self, there):
        self.put(f"pointer/{int(there)}", 4, le(0x20000 + 4 * self.pointers if there else 0, 4))
        self.pointers += there

    def array(self, word, actual, data):
        self.put(word, 4, le(actual, 4) + bytes(4) + le(actual, 4) + data)

    def text(self, units):
        self.array(f"text/{compact(units)}", len(units) // 2 + 1, units + bytes(2))

    def counted(self, units):
        self.array(f"counted/{compact(units)}", len(units) // 2, units)

    def counted_bytes(self, data):
        self.array(f"counted_bytes/{compact(data)}", len(data), data)

    def sid(self, sid):
        count = len(sid[1])
        self.put(f"sid/{sid_text(sid)}", 4,
                 le(count, 4) + bytes([1, count]) + sid[0].to_bytes(6, "big") + b"".join(le(number, 4) for number in sid[1]))

    # parts of several items, item by item

    def unique_text(self, units):
        self.pointer(units is not None)
        if units is not None:
            self.text(units)

    def halves(self, value):
        self.long(value & 0xFFFFFFFF)
        self.long(value >> 32)

    def reserved(self, count):
        for _ in range(count):
            self.long(0)

    def head(self, data):
        self.short(len(data))
        self.short(len(data))
        self.pointer(bool(data))

    units_head = bytes_head = head

    def units(self, data):
        if data:
            self.counted(data)

    def bytes(self, data):
        if data:
            self.counted_bytes(data)

    def case(self):
        return line("ndr.write", *self.words), compact(self.stub)


class PartWriter(Writer):
    """The same, a part a step."""

    def part(self, word, write):
        before = len(self.words)
        write()
        self.words[before:] = [word]

    def unique_text(self, units):
        self.part(f"unique_text/{'null' if units is None else compact(units)}", lambda: Writer.unique_text(self, units))

    def halves(self, value):
        self.part(f"halves/{value}", lambda: Writer.halves(self, value))

    def reserved(self, count):
        self.part(f"reserved/{count}", lambda: Writer.reserved(self, count))

    def units_head(self, data):
        self.part(f"units_head/{compact(data)}", lambda: Writer.head(self, data))

    def bytes_head(self, data):
        self.part(f"bytes_head/{compact(data)}", lambda: Writer.head(self, data))

    def units(self, data):
        self.part(f"units/{compact(data)}", lambda: Writer.units(self, data))

    def bytes(self, data):
        self.part(f"bytes/{compact(data)}", lambda: Writer.bytes(self, data))


# Refused items worked out by hand: the bytes in front, the step, the stub, and the refusal with the place where the
# item begins.
REFUSED = [
    (0, ("byte",), "", "Ends(0)"),
    (3, ("byte",), "010203", "Ends(3)"),
    (1, ("take", 2), "0102", "Ends(1)"),
    (1, ("short",), "010203", "Ends(2)"),
    (1, ("short",), "01", "Ends(2)"),
    (1, ("long",), "01000000020000", "Ends(4)"),
    (5, ("pointer",), "0100000002000000000002", "Ends(8)"),
    (2, ("text",), "ffff0000020000000000000002", "Ends(4)"),
    (0, ("text",), "0200000000000000020000004100", "Ends(0)"),
    (0, ("counted", 2), "01000000000000000100000041", "Ends(0)"),
    (0, ("counted_bytes", 1), "010000000000000001000000", "Ends(0)"),
    (0, ("text",), "0200000001000000020000004100", "Ends(0)"),
    (0, ("text",), "02000000010000000200000041000000", "BadCount(0)"),
    (0, ("counted", 2), "0100000001000000010000004100", "BadCount(0)"),
    (0, ("counted_bytes", 1), "01000000010000000100000041", "BadCount(0)"),
    (0, ("text",), "010000000000000000000000", "BadCount(0)"),
    (2, ("text",), "ffff000001000000000000000200000041000000", "BadCount(4)"),
    (0, ("counted", 4), "01000000000000000200000041004200", "BadCount(0)"),
    (0, ("counted_bytes", 2), "0100000000000000020000004142", "BadCount(0)"),
    (0, ("counted", 4), "0200000000000000010000004100", "BadCount(0)"),
    (0, ("counted_bytes", 2), "02000000000000000100000041", "BadCount(0)"),
    (0, ("text",), "01000000000000000200000041004200", "BadCount(0)"),
    (2, ("text",), "ffff000002000000000000000200000041004200", "NoFinalZero(4)"),
    (1, ("sid",), "ff000000010000000101000000000005010000", "Ends(4)"),
    (0, ("sid",), "01000000020100000000000501000000", "BadCount(0)"),
    (0, ("sid",), "01000000010200000000000501000000", "BadCount(0)"),
    (0, ("sid",), "000000000100000000000005", "BadCount(0)"),
    (0, ("sid",),
     "10000000011000000000000500000000000000000000000000000000000000000000000000000000000000000000000000000000000000000000000000000000000000000000000000000000", "BadCount(0)"),
    (0, ("counted", 3), "0100000000000000010000004100", "BadCount(0)"),
]

# The end of a logon reply of Samba from the server's name on, the same from the identifier on, and the end of a reply
# of Samba's controller.
ENDS = [
    ("040000000000000003000000500044004300000005000000000000000400000043004f0052005000040000000104000000000005150000000100000002000000030000000100000000000000", [("counted", 6), ("counted", 8), ("sid",), ("byte",), ("long",)]),
    ("040000000104000000000005150000000100000002000000030000000100000000000000", [("sid",), ("byte",), ("long",)]),
    ("04000000010400000000000515000000b5b32acdd67eed8971aece640100000000000000", [("sid",), ("byte",), ("long",)]),
]


def do(target, step):
    """A step by its name and its value, of a reader or a writer."""
    return getattr(target, step[0])(*step[1:])


def read_case(stub, todo):
    """The steps one after the other. A refusal leaves the reader where it stood, and the next step is tried there."""
    reader = PartReader(stub)
    for step in todo:
        try:
            do(reader, step)
        except Refused:
            pass
    return reader.case()


def write_case(todo):
    writer = PartWriter()
    for step in todo:
        do(writer, step)
    return writer.case()


def utf16(text):
    return text.encode("utf-16-le")


SID = (5, [21, 1, 2, 3])

# Steps of a reader for what a writer's step put.
READ_BACK = {
    "byte": lambda step: ("byte",), "short": lambda step: ("short",), "long": lambda step: ("long",), "pointer": lambda step: ("pointer",),
    "text": lambda step: ("text",),
    "sid": lambda step: ("sid",), "raw": lambda step: ("take", len(step[1])), "counted": lambda step: ("counted", len(step[1])),
    "counted_bytes": lambda step: ("counted_bytes", len(step[1])), "unique_text": lambda step: ("unique_text",),
    "halves": lambda step: ("halves",),
    "reserved": lambda step: ("reserved", step[1]), "units_head": lambda step: ("head", 2), "bytes_head": lambda step: ("head", 1),
    "units": lambda step: ("units", len(step[1]), bool(step[1])), "bytes": lambda step: ("bytes", len(step[1]), bool(step[1])),
}


def written(todo):
    writer = Writer()
    for step in todo:
        do(writer, step)
    return writer.stub


def both_cases(todo):
    """Written, and read back."""
    stub = written(todo)
    return [write_case(todo), read_case(stub, [READ_BACK[step[0]](step) for step in todo])]


def foreign_cases():
    """Foreign stubs item by item, and those of the written form written."""
    import logon_stubs

    return logon_stubs.walks()


def worked_cases():
    """Items worked out by hand."""
    out = []
    for front, step, stub, refused in REFUSED:
        found = read_case(bytes.fromhex(stub), [("take", front), step])
        assert found[1].endswith(f";{err(refused)} {front}"), stub
        out.append(found)
    for stub, todo in ENDS:
        out.append(read_case(bytes.fromhex(stub), todo))
    out += both_cases([("pointer", False), ("text", utf16("FILE1")), ("raw", bytes(range(1, 9)))])
    out += both_cases([("sid", SID), ("byte", 1), ("long", 0)])
    out += both_cases([("sid", (5, [21, 3442127797, 2314043094, 1691266673])), ("byte", 1), ("long", 0)])
    return out


def alignment_cases():
    """Each item behind 0 to 4 bytes, written, read back, read with other padding, and cut before its last byte."""
    out = []
    every = [("byte", 7), ("short", 0x1234), ("long", 0x12345678), ("raw", b"\1\2\3"), ("pointer", True), ("pointer", False),
             ("text", utf16("AB")), ("text", b""), ("counted", utf16("AB")),
             ("counted", b""), ("counted_bytes", b"xyz"), ("counted_bytes", b""), ("sid", SID)]
    for front in range(5):
        for step in every:
            todo = [("raw", b"\x41" * front), step]
            out += both_cases(todo)
            stub = written(todo)
            seek = ("take", front)
            pad = len(written([("raw", b"\x41" * front),
                               ("long", 0)])) - 4 - front if step[0] in ("long", "pointer", "text", "counted", "counted_bytes",
                                                                         "sid") else front % 2 if step[0] == "short" else 0
            if pad:
                out.append(read_case(changed(stub, front, b"\xff" * pad), [seek, READ_BACK[step[0]](step), ("byte",)]))
            out.append(read_case(stub[:-1], [seek, READ_BACK[step[0]](step), ("byte",)]))
            out.append(read_case(stub + b"\x99", [seek, READ_BACK[step[0]](step), ("byte",), ("byte",)]))
    return out


def cut_cases():
    """Each item cut at each of its bytes."""
    out = []
    for step in [("short", 0x1234), ("long", 0x12345678), ("pointer", True), ("raw", b"\1\2\3"), ("text", utf16("AB")),
                 ("counted", utf16("AB")), ("counted_bytes", b"xyz"), ("sid", SID)]:
        for front in (0, 2):
            stub = written([("raw", b"\x41" * front), step])
            for size in range(front, len(stub)):
                out.append(read_case(stub[:size], [("take", front), READ_BACK[step[0]](step)]))
    return out


def array_cases():
    """Maxima, offsets and actual counts."""
    out = []
    data = utf16("ABC") + bytes(2) + utf16("tail") + bytes(12)
    for maximum in (0, 1, 2, 3, 4, 5, 2**31, 2**32 - 1):
        for offset in (0, 1, 2**32 - 1):
            for actual in (0, 1, 2, 3, 4, 5, 12, 13, 2**31, 2**32 - 1):
                if maximum not in (3, 4, 2**32 - 1) and (offset or actual not in (0, 1, 2, 3, 4)):
                    continue
                stub = le(maximum, 4) + le(offset, 4) + le(actual, 4) + data
                for step in (("text",), ("counted", 6), ("counted_bytes", 3)):
                    if offset != 2**32 - 1 or actual in (3, 4):
                        out.append(read_case(stub, [step, ("byte",)]))
    stub = le(9, 4) + le(0, 4) + le(3, 4) + data
    for length in (0, 1, 2, 3, 4, 5, 6, 7, 8, 65535):
        out.append(read_case(stub, [("counted", length)]))
        out.append(read_case(stub, [("counted_bytes", length)]))
    # the last unit of a text
    for last in (b"\x00\x00", b"\x01\x00", b"\x00\x01", b"\xff\xff"):
        out.append(read_case(le(2, 4) + le(0, 4) + le(2, 4) + utf16("A") + last, [("text",)]))
        out.append(read_case(b"\xff\xff" + bytes(2) + le(3, 4) + le(0, 4) + le(3, 4) + utf16("A") + last + b"\0\0",
                             [("take", 2), ("text",)]))
    # a zero in the middle is part of the text
    out.append(read_case(le(4, 4) + le(0, 4) + le(4, 4) + utf16("A\0B\0"), [("text",)]))
    out.append(read_case(le(1, 4) + le(0, 4) + le(1, 4) + utf16("\0"), [("text",)]))
    return out


def sid_cases():
    """Counts, revisions and authorities of identifiers."""
    out = []
    room = bytes(range(1, 81))
    for count in (0, 1, 2, 14, 15, 16, 17, 20, 2**30, 2**32 - 1):
        for inner in sorted({count & 0xFF, 0, 1, 15, 16}):
            out.append(read_case(le(count, 4) + bytes([1, inner]) + bytes(5) + b"\x05" + room, [("sid",), ("byte",)]))
    for revision in (0, 1, 2, 255):
        out.append(read_case(le(1, 4) + bytes([revision, 1]) + bytes(5) + b"\x05" + room, [("sid",)]))
    for sid in ((0, [0]), (2**48 - 1, [2**32 - 1]), (5, [32, 544]), (5, [21, 3442127797, 2314043094, 1691266673]),
                (0x010203040506, list(range(15)))):
        out += both_cases([("sid", sid)])
        out += both_cases([("byte", 1), ("sid", sid), ("sid", sid)])
    return out


def number_cases():
    """Numbers and referents at their ends, and steps behind a refusal."""
    out = []
    for value in (0, 1, 255):
        out += both_cases([("byte", value)])
    for value in (0, 1, 0x00FF, 0xFF00, 65535):
        out += both_cases([("short", value), ("byte", 1), ("short", value)])
    for value in (0, 1, 0xFF, 0xFF000000, 2**31, 2**32 - 1):
        out += both_cases([("long", value), ("byte", 1), ("long", value)])
        out.append(read_case(le(value, 4), [("pointer",), ("pointer",)]))
    out += both_cases([("pointer", True), ("pointer", False), ("pointer", True), ("pointer", True), ("pointer", False), ("byte", 1),
                       ("pointer", True)])
    out.append(write_case([("pointer", True)] * 100))
    out.append(write_case([]))
    out.append(read_case(b"", [("byte",), ("short",), ("long",), ("pointer",), ("text",), ("counted", 0), ("counted_bytes", 0), ("sid",),
                               ("take", 0), ("take", 1)]))
    out.append(read_case(b"\1\2\3", [("long",), ("short",), ("long",), ("short",), ("byte",), ("byte",), ("take", 0)]))
    out.append(read_case(bytes(range(16)), [("take", 17), ("take", 2**32), ("take", 2**63), ("take", 2**64 - 1), ("take", 16), ("byte",)]))
    out.append(read_case(bytes(range(16)), [("byte",), ("short",), ("long",), ("byte",), ("long",), ("byte",)]))
    # the longest counted items
    for step in (("counted", b"\x41" * 65534), ("counted_bytes", b"\x41" * 65535), ("text", b"\x41" * 65534)):
        out.append(write_case([step]))
    out.append((line("ndr.write", "counted/65536*41"), "not to be written"))
    out.append((line("ndr.write", "counted_bytes/65536*41"), "not to be written"))
    out.append((line("ndr.write", "byte/1", "counted/65536*41"), "not to be written"))
    return out


def part_cases():
    """Parts of several items: each written and read back behind 0 to 4 bytes, cut at each byte, and refused."""
    out = []
    every = [("unique_text", None), ("unique_text", b""), ("unique_text", utf16("PDC")), ("halves", 0), ("halves", 0x0123456789ABCDEF),
             ("halves", 2**64 - 1), ("reserved", 0), ("reserved", 1),
             ("reserved", 10), ("units_head", b""), ("units_head", utf16("AB")), ("bytes_head", b""), ("bytes_head", b"xyz"),
             ("units", b""), ("units", utf16("AB")), ("bytes", b""), ("bytes", b"xyz")]
    for step in every:
        for front in range(5):
            out += both_cases([("raw", b"\x41" * front), step])
        stub = written([("raw", b"\x41\x41"), step])
        for size in range(2, len(stub)):
            out.append(read_case(stub[:size], [("take", 2), READ_BACK[step[0]](step), ("byte",)]))
    out += both_cases([("units_head", utf16("AB")), ("bytes_head", b"xyz"), ("halves", 7), ("unique_text", utf16("C")), ("units_head", b""),
                       ("units", utf16("AB")), ("bytes", b"xyz"), ("units", b"")])
    # pointers that may not be null
    for front in (0, 1, 3, 4):
        for referent in (0, 1, 0x20000, 2**31, 2**32 - 1):
            out.append(read_case(b"\x41" * front + bytes(-front % 4) + le(referent, 4), [("take", front), ("some_pointer",), ("byte",)]))
    # heads: whole items, at most the maximum, and nothing where nothing is pointed to
    for size in (1, 2, 4):
        for length in (0, 1, 2, 3, 4, 65534, 65535):
            for maximum in sorted({0, max(length - 1, 0), length, min(length + 1, 65535), 65535}):
                for referent in (0, 1):
                    if size != 2 and maximum not in (length, 65535):
                        continue
                    out.append(read_case(le(length, 2) + le(maximum, 2) + le(referent, 4) + b"\x99", [("head", size), ("byte",)]))
    out.append(read_case(b"\x41" * 2 + le(3, 2) + le(4, 2) + bytes(2) + le(7, 4), [("take", 2), ("head", 2), ("long",)]))
    out.append(read_case(b"\x41" + b"\xff" + le(4, 2) * 2 + b"\xff\xff" + le(7, 4), [("byte",), ("head", 2), ("byte",)]))
    # targets of another length than their head's
    data = le(3, 4) + le(0, 4) + le(2, 4) + utf16("AB") + b"\x99"
    for length in (0, 2, 3, 4, 5, 6):
        for there in (False, True):
            out.append(read_case(data, [("units", length, there), ("byte",)]))
            out.append(read_case(data, [("bytes", length, there), ("byte",)]))
    # texts behind a pointer
    for referent in (0, 1, 0x20000):
        out.append(read_case(le(referent, 4) + le(2, 4) + le(0, 4) + le(2, 4) + utf16("A") + bytes(2) + b"\x99",
                             [("unique_text",), ("byte",)]))
    out.append(read_case(le(1, 4) + le(2, 4) + le(1, 4) + le(2, 4) + utf16("A") + bytes(2), [("unique_text",), ("long",)]))
    out.append(read_case(le(1, 4) + le(2, 4) + le(0, 4) + le(2, 4) + utf16("AB"), [("unique_text",), ("long",)]))
    out.append(read_case(b"\xff" * 44, [("reserved", 10), ("reserved", 1), ("reserved", 1), ("reserved", 0)]))
    return out


def random_cases():
    """Items in random order; the random numbers are Python's for this seed."""
    draw = random.Random(2010)
    out = []
    for _ in range(40):
        todo = []
        for _ in range(draw.randrange(1, 10)):
            todo.append(draw.choice([
                ("byte", draw.randrange(256)), ("short", draw.randrange(2**16)), ("long", draw.randrange(2**32)),
                ("pointer", draw.random() < 0.7),
                ("raw", draw.randbytes(draw.randrange(6))), ("text", utf16("abcdefgh"[:draw.randrange(8)])),
                ("counted", draw.randbytes(2 * draw.randrange(5))),
                ("counted_bytes", draw.randbytes(draw.randrange(9))),
                ("sid", (draw.randrange(2**48), [draw.randrange(2**32) for _ in range(draw.randrange(1, 5))])),
            ]))
        out += both_cases(todo)
        stub = written(todo)
        at = draw.randrange(len(stub)) if stub else 0
        broken = changed(stub, at, bytes([draw.choice([0, 1, 2, 255])])) if stub else stub
        out.append(read_case(broken, [READ_BACK[step[0]](step) for step in todo]))
    return out


def cases():
    """Each line and its answer."""
    return foreign_cases() + worked_cases() + alignment_cases() + cut_cases() + array_cases() + sid_cases() + number_cases() + part_cases() + random_cases()
