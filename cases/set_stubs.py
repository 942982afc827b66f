"""Cases of the stubs of secret_change.

`set.call STUB`, `set.reply STUB`: what is read of a request of NetrServerPasswordSet (MS-NRPC 3.5.4.4.6) and of its
reply. `set.call_again STUB`, `set.reply_again STUB`: the stub written of what is read.

PUBLISHED holds stubs that `netr_ServerPasswordSet` of Samba's Python bindings (version 4.17) packs. In some the
computer's name ends at a place that isn't a multiple of 4. Two bytes of padding then come before the authenticator,
which is a structure with a number of 32 bits in it.
"""

from des import des, spread, undes
from forms import array, err, line, ok, option, struct, units_of
from ndr_codec import Reader, Refused, Writer
from wire import changed, compact, flipped, le

REST = "010203040506070844332211404142434445464748494a4b4c4d4e4f"
PUBLISHED = [
    "00000000070000000000000007000000460049004c00450031002400000002000600000000000000060000"
    "00460049004c00450031000000" + REST,
    "00000000080000000000000008000000460049004c0045003100320024000000020000000700000000000000"
    "07000000460049004c0045003100320000000000" + REST,
    "000002000600000000000000060000005c005c004400430031000000070000000000000007000000460049004c"
    "0045003100240000000200060000000000000006000000460049004c00450031000000" + REST,
    "000002000500000000000000050000005c005c0044004300000000000600000000000000060000004200440043"
    "003100240000000600000005000000000000000500000042004400430031000000" + "0000" + REST,
    "000000000300000000000000030000004100240000000200020000000000000002000000" + "41000000" + REST,
    "000000000400000000000000040000004100420024000000020000000300000000000000030000004100420000000000" + REST,
]
REPLIES = ["01020304050607080000000000000000", "0102030405060708000000008b0100c0"]


def presented(reader):
    """The credential and the timestamp. Padding is refused where the structure begins."""
    start = reader.start(4)
    if start > len(reader.stub):
        raise Refused("Ends", start)
    reader.place = start
    return reader.take(8), reader.long()


def authenticator(reader):
    credential, timestamp = presented(reader)
    return struct("Authenticator", credential=array(credential.hex()), timestamp=timestamp)


def fields_of(reader):
    primary = reader.text() if reader.pointer() else None
    account, channel, computer = reader.text(), reader.short(), reader.text()
    return {"primary": primary, "account": account, "channel": channel, "computer": computer, "authenticator": presented(reader), "hidden": reader.take(16)}


def read_call(stub):
    """The fields of a request."""
    return fields_of(Reader(stub))


def read_reply(stub):
    """The fields of a reply."""
    reader = Reader(stub)
    return {"returned": presented(reader), "status": reader.long()}


def write_call(primary, account, channel, computer, authenticator, hidden):
    """The one written form of a request."""
    writer = Writer()
    writer.unique_text(primary)
    writer.text(account)
    writer.short(channel)
    writer.text(computer)
    return writer.stub + bytes(-len(writer.stub) % 4) + authenticator[0] + le(authenticator[1], 4) + hidden


def write_reply(returned, status):
    """The one written form of a reply."""
    return returned[0] + le(returned[1], 4) + le(status, 4)


def hidden_by(key, secret):
    """The secret as it travels under the channel's key (MS-SAMR 2.2.11.1.1)."""
    return des(spread(key[:7]), secret[:8]) + des(spread(key[7:14]), secret[8:])


def shown_by(key, hidden):
    """The secret that travels so."""
    return undes(spread(key[:7]), hidden[:8]) + undes(spread(key[7:14]), hidden[8:])


def call(reader):
    fields = fields_of(reader)
    credential, timestamp = fields["authenticator"]
    shown = lambda data: units_of(data.hex())
    return struct(
        "SetCall",
        primary=option(fields["primary"], shown),
        account=shown(fields["account"]),
        channel=fields["channel"],
        computer=shown(fields["computer"]),
        authenticator=struct("Authenticator", credential=array(credential.hex()), timestamp=timestamp),
        hidden=array(fields["hidden"].hex()),
    )


def reply(reader):
    returned = authenticator(reader)
    return struct("SetReply", returned=returned, status=reader.long())


READ = {"call": call, "reply": reply}


def read_case(name, stub):
    try:
        answer = ok(READ[name](Reader(stub)))
    except Refused as refused:
        answer = err(f"BadStub({refused.place})")
    return line(f"set.{name}", compact(stub)), answer


def again(name, stub):
    return line(f"set.{name}_again", compact(stub)), compact(stub)


def cases():
    """Each line and its answer."""
    out = []
    for name, stubs in (("call", PUBLISHED), ("reply", REPLIES)):
        for digits in stubs:
            stub = bytes.fromhex(digits)
            out += [read_case(name, stub), again(name, stub), read_case(name, stub + b"\xee\xee\xee")]
            # cut at each byte, and each byte changed
            out += [read_case(name, stub[:size]) for size in range(len(stub))]
            out += [read_case(name, flipped(stub, at, 1)) for at in range(len(stub))]
    # padding before the authenticator is free
    stub = bytes.fromhex(PUBLISHED[1])
    at = len(stub) - 30
    assert stub[at:at + 2] == b"\0\0"
    out.append(read_case("call", changed(stub, at, b"\xfe\xff")))
    # the name without its padding
    out.append(read_case("call", stub[:at] + stub[at + 2:]))
    # every channel's type is read, and so is every status
    for value in (0, 65535):
        out.append(read_case("call", changed(stub, 36, le(value, 2))))
    for value in (1, 2**31, 2**32 - 1):
        out.append(read_case("reply", bytes.fromhex(REPLIES[0])[:-4] + le(value, 4)))
    return out
