"""Cases of interactive_logon.

`interactive.call OPNUM STUB`: the parameters that are read of an interactive logon (opnum 2) or of its logoff (opnum
3);
`interactive.call_again OPNUM STUB OTHER`: the stub written of them as a call of another number. An opnum is a decimal
number.

Fields of foreign stubs are those that they were written of. Of changed stubs and of written forms they are worked out
here by the layouts of MS-NRPC 3.5.4.5.3, 3.5.4.5.4, 2.2.1.4.3 and C706 14.2 and 14.3 and the rules of docs/FORMATS.md.
"""

from forms import agree, err, line, ok, struct, values
from logon_stubs import (LOGOFF, LOGON, BadArm, answer as network_answer, authenticator, authenticator_option, text, text_option, unique, utf16,
                         write_authenticator, write_unique)
from ndr_codec import Reader, Refused, Writer
from wire import changed, compact, flipped, lent

TEXTS = ("domain", "user", "workstation")


def read(opnum, stub):
    """The fields of a stub."""
    reader = Reader(stub)
    fields = {"server": reader.unique_text(), "computer": reader.unique_text(),
              "authenticator": unique(reader, lambda: authenticator(reader)),
              "returned": unique(reader, lambda: authenticator(reader))}
    level, tag = reader.short(), reader.short()
    if tag != level or tag != 1:
        raise BadArm(tag)
    reader.some_pointer()
    domain, control, logon_id = reader.head(2), reader.long(), reader.halves()
    user, workstation, lm, nt = reader.head(2), reader.head(2), reader.take(16), reader.take(16)
    fields["info"] = {"domain": reader.units(*domain), "control": control, "logon_id": logon_id, "user": reader.units(*user),
                      "workstation": reader.units(*workstation), "lm": lm, "nt": nt}
    fields["validation"] = reader.short() if opnum == LOGON else 0
    return fields


def write(opnum, fields):
    """The one written form."""
    writer, info = Writer(), fields["info"]
    writer.unique_text(fields["server"])
    writer.unique_text(fields["computer"])
    write_unique(writer, fields["authenticator"], lambda value: write_authenticator(writer, value))
    write_unique(writer, fields["returned"], lambda value: write_authenticator(writer, value))
    writer.short(1)
    writer.short(1)
    writer.pointer(True)
    writer.units_head(info["domain"])
    writer.long(info["control"])
    writer.halves(info["logon_id"])
    writer.units_head(info["user"])
    writer.units_head(info["workstation"])
    writer.raw(info["lm"])
    writer.raw(info["nt"])
    for name in TEXTS:
        writer.units(info[name])
    if opnum == LOGON:
        writer.short(fields["validation"])
    return writer.stub


def shown(fields):
    """What `{:?}` prints of the parameters."""
    info = fields["info"]
    info = struct("InteractiveInfo", domain=text(info["domain"]), control=info["control"], logon_id=info["logon_id"], user=text(info["user"]),
                  workstation=text(info["workstation"]), lm=lent(info["lm"]), nt=lent(info["nt"]))
    return struct("InteractiveCall", server=text_option(fields["server"]), computer=text_option(fields["computer"]),
                  authenticator=authenticator_option(fields["authenticator"]), returned=authenticator_option(fields["returned"]), info=info,
                  validation=fields["validation"])


def answer(opnum, stub):
    """The parameters or the refusal, worked out here."""
    if opnum not in (LOGON, LOGOFF):
        return err(f"NoSuchCall({opnum})")
    try:
        return ok(shown(read(opnum, stub)))
    except BadArm as refused:
        return err(f"BadArm({refused})")
    except Refused as refused:
        return err(f"BadStub({refused.place})")


def read_case(opnum, stub):
    return line("interactive.call", opnum, compact(stub)), answer(opnum, stub)


def again_case(opnum, stub, other=None):
    other = opnum if other is None else other
    fields = read(opnum, stub)
    fits = other == LOGON or (other == LOGOFF and fields["validation"] == 0)
    return line("interactive.call_again", opnum, compact(stub), other), compact(write(other, fields)) if fits else "not to be written"


def published(case):
    """The published fields in the form that `read` gives."""
    fields = dict(case["fields"], info=dict(case["fields"]["info"]))
    fields.setdefault("validation", 0)
    for name in ("server", "computer"):
        fields[name] = utf16(fields[name])
    for name in ("authenticator", "returned"):
        if fields[name]:
            fields[name] = bytes.fromhex(fields[name]["credential"]), fields[name]["timestamp"]
    for name in TEXTS:
        fields["info"][name] = utf16(fields["info"][name])
    for name in ("lm", "nt"):
        fields["info"][name] = bytes.fromhex(fields["info"][name])
    return fields


def foreign_cases():
    """Stubs of Samba and impacket, with the fields that they were written of; each is refused as a network logon, for
    its level."""
    out = []
    for case in values("interactive")["stubs"]:
        opnum, stub = case["opnum"], bytes.fromhex(case["stub"])
        if case["refused_by_the_form"]:
            assert answer(opnum, stub).startswith("Err(BadStub(")
            out.append(read_case(opnum, stub))
            continue
        fields = published(case)
        out.append((line("interactive.call", opnum, stub), ok(shown(fields))))
        again = write(opnum, fields)
        agree(lambda: again == stub, case["same_when_written"], case["name"])
        out += [again_case(opnum, stub), again_case(opnum, again)]
        assert network_answer("call", opnum, stub) == err("BadArm(1)")
        out.append((line("stubs.call", opnum, compact(stub)), err("BadArm(1)")))
        # What follows the last parameter is passed over; the last byte isn't.
        out += [read_case(opnum, stub + b"\0\1\2"), read_case(opnum, stub[:-1])]
    return out


def plain(**changes):
    """A logon of our own, with some of its fields changed."""
    info = {"domain": utf16("CORP"), "control": 0, "logon_id": 0, "user": utf16("ann"), "workstation": utf16("WS1"), "lm": bytes(16),
            "nt": bytes(range(16, 32))}
    fields = {"server": None, "computer": utf16("WS1"), "authenticator": (bytes(range(1, 9)), 5), "returned": (bytes(8), 0), "info": info,
              "validation": 3}
    for name, value in changes.items():
        (info if name in info else fields)[name] = value
    return fields


def refusals():
    """Numbers, levels, tags, pointers, heads and counts that are refused, and each cut."""
    out = []
    stub = write(LOGON, plain())
    for opnum in (0, 1, 2, 3, 4, 5, 15, 39, 45, 65535):
        out.append(read_case(opnum, stub))
    out += [read_case(opnum, stub[:length]) for opnum in (LOGON, LOGOFF) for length in range(len(stub) + 1)]
    # the level stands at 60, the tag at 62, the pointer at 64; each pair of small ones, and each bit of the pointer
    for level in (0, 1, 2, 3, 257):
        for tag in (0, 1, 2, 3, 257):
            case = changed(stub, 60, level.to_bytes(2, "little") + tag.to_bytes(2, "little"))
            out += [read_case(LOGON, case), (line("stubs.call", LOGON, compact(case)), network_answer("call", LOGON, case))]
    out.append(read_case(LOGON, changed(stub, 64, bytes(4))))
    out += [read_case(LOGON, flipped(stub, place, 1 << place % 8)) for place in range(len(stub))]
    return out


def written():
    """Values at their ends, written and read again, as a logon and as a logoff."""
    out = []
    top = 2**64 - 1
    for number in (0, 1, 2**32 - 1, 2**32, 0x0102030405060708, top):
        out.append(again_case(LOGON, write(LOGON, plain(logon_id=number, control=number % 2**32, validation=number % 2**16))))
    for name in TEXTS:
        for value in ("", "A", "AB", "x" * 40, "\U0001F600"):
            fields = plain(**{name: utf16(value)})
            out += [again_case(LOGON, write(LOGON, fields)), again_case(LOGOFF, write(LOGOFF, fields))]
    for fields in (plain(server=utf16("\\\\PDC")), plain(computer=None), plain(authenticator=None), plain(returned=None), plain(lm=bytes(range(16)))):
        stub = write(LOGON, fields)
        out += [read_case(LOGON, stub), again_case(LOGON, stub)]
    # a logon at level 0 may be written as a logoff, another may not; nor as another call
    out += [again_case(LOGON, write(LOGON, plain(validation=level)), LOGOFF) for level in (0, 1, 3, 65535)]
    out += [again_case(LOGOFF, write(LOGOFF, plain()), other) for other in (LOGON, 0, 4, 15)]
    # texts of 32,767 units are the longest
    long_text = b"\x41" * 65534
    stub = write(LOGON, plain(server=long_text, computer=long_text, domain=long_text, user=long_text, workstation=long_text))
    out += [again_case(LOGON, stub)]
    return out


def cases():
    """Each line and its answer."""
    return foreign_cases() + refusals() + written()
