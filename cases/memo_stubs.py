"""Cases of memo_stubs.

`memo.who STUB`, `memo.echo_request STUB`, `memo.echo_reply STUB`: what is read of the reply of WhoAmI, of the request
and of the reply of Echo;
`memo.who_of UNITS`, `memo.echo_request_of BYTES`, `memo.echo_reply_of BYTES`: the stub written, where it may be
written; `memo.who_again STUB`,
`memo.echo_request_again STUB`, `memo.echo_reply_again STUB`: the stub written of what is read. Units are UTF-16LE in
hex.

The memo interface is this project's own choice, and so are its layouts: a `string` (C706 14.3.4.2) and a status of 0; a
count of at most 4,096 and so many bytes; the same and a status of 0, aligned to 4. All are worked out here from the
rules of docs/FORMATS.md.
"""

from forms import blob, err, line, ok, units_of
from ndr_codec import Reader, Refused, Writer
from wire import changed, compact, flipped, le

LIMIT = 4096


def status(reader):
    place = reader.start(4)
    if reader.long():
        raise Refused("BadStub", place)


def who(reader):
    name = reader.text()
    status(reader)
    return units_of(name.hex())


def echo(reader):
    place = reader.start(4)
    count = reader.long()
    if count > LIMIT:
        raise Refused("BadStub", place)
    return reader.take(count)


def echo_request(reader):
    return blob(echo(reader).hex())


def echo_reply(reader):
    data = echo(reader)
    status(reader)
    return blob(data.hex())


READ = {"who": who, "echo_request": echo_request, "echo_reply": echo_reply}


def read_case(name, stub):
    try:
        answer = ok(READ[name](Reader(stub)))
    except Refused as refused:
        answer = err(f"BadStub({refused.place})")
    return line(f"memo.{name}", compact(stub)), answer


def write(name, data):
    writer = Writer()
    if name == "who":
        writer.text(data)
    else:
        writer.long(len(data))
        writer.raw(data)
    if name != "echo_request":
        writer.long(0)
    return writer.stub


def write_case(name, data):
    fits = len(data) <= 65534 if name == "who" else len(data) <= LIMIT
    return line(f"memo.{name}_of", compact(data)), compact(write(name, data)) if fits else "not to be written"


def utf16(text):
    return text.encode("utf-16-le")


def cases():
    """Each line and its answer."""
    out = []
    names = [utf16(text) for text in ("", "CORP\\ann", "A\\b", "ABC", "ABCD", "D\u00f6main\\Ren\u00e9", "x\U0001F600",
                                      "a" * 129)] + [b"\x00\xd8", bytes(4)]
    pieces = [b"", b"\x00", b"ab", b"abc", b"abcd", b"abcde", bytes(range(256))]
    for name, values in (("who", names), ("echo_request", pieces), ("echo_reply", pieces)):
        for data in values:
            stub = write(name, data)
            out += [write_case(name, data), read_case(name, stub), read_case(name, stub + b"\xee\xee"),
                    (line(f"memo.{name}_again", stub), compact(stub))]
            # cut at each byte, and each byte changed
            if len(data) < 20:
                out += [read_case(name, stub[:size]) for size in range(len(stub))]
                out += [read_case(name, flipped(stub, at, 1)) for at in range(len(stub))]
    # padding before the status is free, and the status is 0
    for size in range(1, 5):
        data = b"e" * size
        stub = write("echo_reply", data)
        out.append(read_case("echo_reply", stub[:4 + size] + b"\xff" * (-size % 4) + bytes(4)))
        for value in (1, 0x100, 2**31, 2**32 - 1):
            out.append(read_case("echo_reply", stub[:-4] + le(value, 4)))
    for value in (1, 5, 2**32 - 1):
        out.append(read_case("who", write("who", utf16("CORP\\ann"))[:-4] + le(value, 4)))
    # counts: maximum, offset and actual of the name, and the limit of Echo
    stub = write("who", utf16("CORP\\ann"))
    for at, new in ((0, le(8, 4)), (0, le(10, 4)), (0, le(2**32 - 1, 4)), (4, le(1, 4)), (8, le(8, 4)), (8, le(0, 4)),
                    (8, le(2**32 - 1, 4)), (len(stub) - 8, b"x"), (28, b"x")):
        out.append(read_case("who", changed(stub, at, new)))
    for count in (LIMIT - 1, LIMIT, LIMIT + 1, 2**31, 2**32 - 1):
        for name in ("echo_request", "echo_reply"):
            out.append(read_case(name, le(count, 4) + b"abcd"))
    for count in (LIMIT - 1, LIMIT, LIMIT + 1, 65536):
        data = b"\x5a" * count
        for name in ("echo_request", "echo_reply"):
            out.append(write_case(name, data))
            if count <= LIMIT:
                out.append((line(f"memo.{name}_again", compact(write(name, data))), compact(write(name, data))))
            else:
                out.append(read_case(name, le(count, 4) + data + bytes(8)))
    for count in (65534, 65536):
        out.append(write_case("who", b"\x41" * count))
    return out
