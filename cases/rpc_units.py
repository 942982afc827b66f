"""Cases of rpc_units.

`units.read BYTES`: the unit that is read; `units.view BYTES`: the same as a view that lends its parts; `units.copy
BYTES`: that view copied; `units.again BYTES`: the bytes written of the unit that is read, where it may be written;
`units.range BYTES`: the range that is sealed; `units.value BYTES VALUE`: the unit with another authentication value.
`units.of UNIT`: the bytes written of a unit, where it may be written.
`units.cut LIMIT UNIT`: the fragments of a whole call: FIRST and LAST, the bytes of the stub, and the unit written.
`units.join UNIT ..`: what a joiner gives of each unit, one after the other; `units.join_read BYTES ..`: the same of
units that are read;
`units.join_view BYTES ..`: the same of views; `units.cut_and_join LIMIT UNIT`: the same of the fragments of a whole
call. A step of a joiner is answered with the bytes of the stub that is open behind it.
`units.stream PIECE ..`: what comes on a stream of these pieces, each unit with its bytes, up to a refusal. `units.whole
PIECE ..`: its units and the refusal of what is behind them.
`units.flow STEP ..`: the calls of a stream one by one: `fill/BYTES` how many bytes are taken, `next` what is in front,
`take` the same and the unit taken out, `value/BYTES` the same with the unit's value replaced where it lies, `held` how
many bytes are held.

A unit is a word of fields, joined by commas: the kind, the flags (1 FIRST, 2 LAST), the call, the trailer (`-`, or
kind, level, context and value, joined by `/`), and then of `request`: hint, context, opnum, stub; `response`: hint,
context, stub; `fault`: hint, context, status; `nak`: reason;
`auth3`: nothing; `bind`: send and receive size, group, contexts; `ack`: the same with results. Contexts and results are
`-` or joined by `:`, each with `COUNT*` in front where it stands more than once: id, abstract syntax and transfer
syntaxes, or result, reason and syntax, joined by `/`. A syntax is its UUID in hex, a point and its version. A whole
call that was joined is answered as such a word.

Fields of foreign units are the published ones. Of changed units and of written forms they are worked out here by the
layouts of C706 12.6.3 and 12.6.4, MS-RPCE 2.2.2 and the table of refusals in docs/FORMATS.md.
"""

import random

from forms import agree, array, blob, err, items, line, ok, option, struct, values
from wire import changed, compact, expanded, flipped, le, lent, long, short, steps, truth

REQUEST, RESPONSE, FAULT, BIND, ACK, NAK, AUTH3 = 0, 2, 3, 11, 12, 13, 16
SHORTEST = {BIND: 12, ACK: 16, NAK: 2, AUTH3: 4, REQUEST: 8, RESPONSE: 8, FAULT: 16}
KIND_NAMES = {BIND: "bind", ACK: "ack", NAK: "nak", AUTH3: "auth3", REQUEST: "request", RESPONSE: "response", FAULT: "fault"}
LIMIT, CALL_LIMIT = 5840, 65536

NETLOGON = (bytes.fromhex("785634123412cdabef0001234567cffb"), 1)
NDR = (bytes.fromhex("045d888aeb1cc9119fe808002b104860"), 2)
NONE = (bytes(16), 0)


class Refused(Exception):
    """A refusal, as it is printed."""


# ---- reading


def syntax_at(data, at):
    return data[at:at + 16], long(data, at + 16)


def contexts_of(data, count):
    out = []
    for _ in range(count):
        if len(data) < 24 or len(data) < 24 + 20 * data[2]:
            raise Refused("BadBody")
        out.append((short(data, 0), syntax_at(data, 4), [syntax_at(data, 24 + 20 * place) for place in range(data[2])]))
        data = data[24 + 20 * data[2]:]
    return out


def results_of(data, count):
    if len(data) < 24 * count:
        raise Refused("BadBody")
    return [(short(data, 24 * place), short(data, 24 * place + 2), syntax_at(data, 24 * place + 4)) for place in range(count)]


def header(data, whole):
    """The kind, or the first refusal of the header."""
    if data[0] != 5 or data[1] > 1:
        raise Refused("BadVersion")
    if data[4] != 0x10:
        raise Refused("BadRepresentation")
    size = short(data, 8)
    if size < 16 or size > LIMIT or (whole and size != len(data)):
        raise Refused("BadLength")
    if data[2] not in SHORTEST:
        raise Refused(f"BadType({data[2]})")
    return data[2]


def read(data):
    """The unit, or `Refused`."""
    if len(data) < 16:
        raise Refused("BadLength")
    kind = header(data, True)
    value_size = short(data, 10)
    end, trailer = len(data), None
    if value_size:
        least = 16 + SHORTEST[kind]
        place = len(data) - value_size - 8
        if place < least or data[place + 2] > place - least:
            raise Refused("BadTrailer")
        end = place - data[place + 2]
        trailer = (data[place], data[place + 1], long(data, place + 4), data[place + 8:])
    first, last = bool(data[3] & 1), bool(data[3] & 2)
    if kind not in (REQUEST, RESPONSE) and not (first and last) or kind == REQUEST and data[3] & 0x80:
        raise Refused("BadBody")
    body = data[16:end]
    if len(body) < SHORTEST[kind] or kind == AUTH3 and len(body) != 4:
        raise Refused("BadBody")
    unit = {"kind": kind, "first": first, "last": last, "call": long(data, 12), "trailer": trailer}
    if kind in (BIND, ACK):
        unit.update(send=short(body, 0), receive=short(body, 2), group=long(body, 4))
        if kind == BIND:
            unit.update(contexts=contexts_of(body[12:], body[8]), list=body[8:])
        else:
            place = (10 + short(body, 8) + 3) // 4 * 4
            if len(body) < place + 4:
                raise Refused("BadBody")
            unit.update(results=results_of(body[place + 4:], body[place]), list=body[place:])
    elif kind == NAK:
        unit.update(reason=short(body, 0))
    elif kind != AUTH3:
        unit.update(hint=long(body, 0), context=short(body, 4))
        if kind == REQUEST:
            unit.update(opnum=short(body, 6), stub=body[8:])
        elif kind == RESPONSE:
            unit.update(stub=body[8:])
        else:
            unit.update(status=long(body, 8))
    return unit


def sealed_range(data):
    """From the stub to the trailer, of a request or response with a trailer."""
    try:
        unit = read(data)
    except Refused:
        return None
    if unit["kind"] not in (REQUEST, RESPONSE) or unit["trailer"] is None:
        return None
    return 24, len(data) - len(unit["trailer"][3]) - 8


# ---- writing


def written_syntax(syntax):
    return syntax[0] + le(syntax[1], 4)


def written_context(context):
    return le(context[0], 2) + bytes([len(context[2]) % 256, 0]) + written_syntax(context[1]) + b"".join(map(written_syntax, context[2]))


def written_body(unit):
    kind = unit["kind"]
    if kind in (BIND, ACK):
        sizes = le(unit["send"], 2) + le(unit["receive"], 2) + le(unit["group"], 4)
        if kind == BIND:
            return sizes + bytes([len(unit["contexts"]) % 256, 0, 0, 0]) + b"".join(map(written_context, unit["contexts"]))
        results = b"".join(le(one, 2) + le(two, 2) + written_syntax(syntax) for one, two, syntax in unit["results"])
        return sizes + le(1, 2) + bytes(2) + bytes([len(unit["results"]) % 256, 0, 0, 0]) + results
    if kind == NAK:
        return le(unit["reason"], 2) + b"\x01\x05\x00"
    if kind == AUTH3:
        return bytes(4)
    front = le(unit["hint"], 4) + le(unit["context"], 2)
    if kind == REQUEST:
        return front + le(unit["opnum"], 2) + unit["stub"]
    if kind == RESPONSE:
        return front + bytes(2) + unit["stub"]
    return front + bytes(2) + le(unit["status"], 4) + bytes(4)


def may_be_written(unit):
    """A unit that comes in one piece has FIRST and LAST, a context at most 255 transfer syntaxes, and a trailer a
    value."""
    if unit["kind"] not in (REQUEST, RESPONSE) and not (unit["first"] and unit["last"]):
        return False
    if unit["trailer"] is not None and not unit["trailer"][3]:
        return False
    return all(len(context[2]) < 256 for context in unit.get("contexts", []))


def write(unit):
    """The bytes: reserved bytes are zero, and a trailer begins at a multiple of 4."""
    rest, value = written_body(unit), b""
    if unit["trailer"] is not None:
        kind, level, context, value = unit["trailer"]
        pad = -len(rest) % 4
        rest += bytes(pad) + bytes([kind, level, pad, 0]) + le(context, 4) + value
    if len(rest) > LIMIT - 16:
        raise Refused("TooLong")
    flags = unit["first"] | unit["last"] << 1
    return bytes([5, 0, unit["kind"], flags, 0x10, 0, 0, 0]) + le(16 + len(rest), 2) + le(len(value), 2) + le(unit["call"], 4) + rest


# ---- what is printed


def syntax_shown(syntax):
    return struct("Syntax", uuid=lent(syntax[0]), version=syntax[1])


def body_shown(unit, view):
    kind = unit["kind"]
    part = lent if view else lambda data: blob(data.hex())
    if kind in (BIND, ACK):
        sizes = {"send": unit["send"], "receive": unit["receive"], "group": unit["group"]}
        if view:
            return struct("Bind" if kind == BIND else "BindAck", **sizes, list=lent(unit["list"]))
        if kind == BIND:
            contexts = [f"({c[0]}, {syntax_shown(c[1])}, {items([syntax_shown(s) for s in c[2]])})" for c in unit["contexts"]]
            return struct("Bind", **sizes, contexts=items(contexts))
        return struct("BindAck", **sizes, results=items([f"({r[0]}, {r[1]}, {syntax_shown(r[2])})" for r in unit["results"]]))
    if kind == NAK:
        return f"BindNak({unit['reason']})"
    if kind == AUTH3:
        return "Auth3"
    if kind == REQUEST:
        return struct("Request", hint=unit["hint"], context=unit["context"], opnum=unit["opnum"], stub=part(unit["stub"]))
    if kind == RESPONSE:
        return struct("Response", hint=unit["hint"], context=unit["context"], stub=part(unit["stub"]))
    return struct("Fault", hint=unit["hint"], context=unit["context"], status=unit["status"])


def shown(unit, view=False):
    """What `{:?}` prints of a unit."""
    part = lent if view else lambda data: blob(data.hex())
    tail = "View" if view else ""
    trailer = None
    if unit["trailer"] is not None:
        kind, level, context, value = unit["trailer"]
        trailer = struct("Trailer" + tail, kind=kind, level=level, context=context, value=part(value))
    return struct("Unit" + tail, first=truth(unit["first"]), last=truth(unit["last"]), call=unit["call"], body=body_shown(unit, view),
                  trailer=option(trailer))


def repeated(parts):
    """Parts joined by `:`, those that stand one behind the other counted."""
    out = []
    for part in parts:
        if out and out[-1][1] == part:
            out[-1][0] += 1
        else:
            out.append([1, part])
    return ":".join(part if count == 1 else f"{count}*{part}" for count, part in out) or "-"


def syntax_word(syntax):
    return f"{syntax[0].hex()}.{syntax[1]}"


def word_of(unit):
    """A unit as a word."""
    kind = unit["kind"]
    trailer = "-"
    if unit["trailer"] is not None:
        trailer = "/".join(str(part) for part in unit["trailer"][:3]) + "/" + compact(unit["trailer"][3])
    words = [KIND_NAMES[kind], unit["first"] | unit["last"] << 1, unit["call"], trailer]
    if kind in (BIND, ACK):
        words += [unit["send"], unit["receive"], unit["group"]]
        if kind == BIND:
            words.append(repeated(["/".join([str(c[0]), syntax_word(c[1])] + [part for part in [transfers_word(c[2])] if part])
                                   for c in unit["contexts"]]))
        else:
            words.append(repeated([f"{r[0]}/{r[1]}/{syntax_word(r[2])}" for r in unit["results"]]))
    elif kind == NAK:
        words.append(unit["reason"])
    elif kind != AUTH3:
        words += [unit["hint"], unit["context"]]
        words += {REQUEST: [unit.get("opnum")], RESPONSE: [], FAULT: [unit.get("status")]}[kind]
        if kind != FAULT:
            words.append(compact(unit["stub"]))
    return ",".join(str(word) for word in words)


def joined_word(unit):
    """A whole call that was joined: a request or response as a word, another unit as `{:?}` prints it."""
    return word_of(unit) if "stub" in unit else shown(unit)


def transfers_word(transfers):
    """Transfer syntaxes joined by `/`; equal ones one behind the other are counted."""
    return repeated([syntax_word(syntax) for syntax in transfers]).replace(":", "/") if transfers else ""


# ---- units to begin with


def request(stub, first=True, last=True, call=2, hint=None, context=0, opnum=4, trailer=None):
    return {"kind": REQUEST, "first": first, "last": last, "call": call, "trailer": trailer, "hint": len(stub) if hint is None else hint,
            "context": context,
            "opnum": opnum, "stub": stub}


def response(stub, first=True, last=True, call=2, hint=None, context=0, trailer=None):
    return {"kind": RESPONSE, "first": first, "last": last, "call": call, "trailer": trailer, "hint": len(stub) if hint is None else hint,
            "context": context,
            "stub": stub}


def whole(kind, call=1, trailer=None, **fields):
    return dict({"kind": kind, "first": True, "last": True, "call": call, "trailer": trailer}, **fields)


def bind(contexts, **fields):
    return whole(BIND, **dict({"send": 5840, "receive": 5840, "group": 0, "contexts": contexts}, **fields))


def ack(results, **fields):
    return whole(ACK, **dict({"send": 5840, "receive": 5840, "group": 1, "results": results}, **fields))


VALUE = (10, 6, 1, bytes(range(0xA0, 0xB0)))


def base_units():
    """A unit of each kind, without a trailer and with one."""
    return [
        bind([(0, NETLOGON, [NDR])]),
        bind([(0, NETLOGON, [NDR]), (1, NETLOGON, [NDR, NONE])], trailer=(10, 5, 1, b"NTLMSSP\0")),
        ack([(0, 0, NDR)]),
        ack([(0, 0, NDR), (2, 2, NONE)], trailer=(10, 6, 7, b"NTLMSSP\0" + bytes(3))),
        whole(NAK, reason=4),
        whole(NAK, reason=8, trailer=VALUE),
        whole(AUTH3, call=2),
        whole(AUTH3, call=2, trailer=(10, 6, 1, b"NTLMSSP\0")),
        request(bytes(range(12))),
        request(bytes(range(13)), first=False, trailer=VALUE),
        response(bytes(range(12)), last=False),
        response(bytes(range(14)), trailer=VALUE),
        whole(FAULT, call=3, hint=0, context=0, status=0x1C010002),
        whole(FAULT, call=3, hint=24, context=1, status=5, trailer=VALUE),
    ]


# Refusals, each where those before it in the table don't hold, and some where those behind it do.
REFUSED = [
    ("another version, and fewer than 16 bytes", "040003031000000020000000030000", "BadLength"),
    ("no bytes", "", "BadLength"),
    ("another version, and another representation", "0400030300000000200000000300000018000000000000000500000000000000", "BadVersion"),
    ("minor version 2", "0502030310000000200000000300000018000000000000000500000000000000", "BadVersion"),
    ("big-endian, and another length", "05000303000000000f0000000300000018000000000000000500000000000000", "BadRepresentation"),
    ("a fragment length of 15", "05000303100000000f0000000300000018000000000000000500000000000000", "BadLength"),
    ("a fragment length of 5,841", "0500030310000000d11600000300000018000000000000000500000000000000", "BadLength"),
    ("a fragment length of one byte less, and another type", "05000103100000001f0000000300000018000000000000000500000000000000",
     "BadLength"),
    ("another type, and a trailer that doesn't fit", "0500010310000000200001000300000018000000000000000500000000000000", "BadType(1)"),
    ("a trailer that doesn't fit, without FIRST", "0500030210000000200001000300000018000000000000000500000000000000", "BadTrailer"),
    ("a padding of 17 bytes where 16 are",
     "050002031000000040001000030000000c00000000000000749bab4c4a905ffc04e18a0ba058d6e10a061100010000000100000048f01ad3b5e0db6100000000",
     "BadTrailer"),
    ("a body cut short", "050002031000000017000000020000000c000000000000", "BadBody"),
    ("a bind without its last byte",
     "05000b03100000004700000001000000d016d016000000000100000000000100785634123412cdabef0001234567cffb01000000045d888aeb1cc9119fe808002b104860020000", "BadBody"),
    ("a bind_ack without its last byte",
     "05000c03100000004f00000001000000d016d016935a0000000000000200000000000000045d888aeb1cc9119fe808002b104860020000000300030000000000000000000000000000000000000000", "BadBody"),
    ("a bind_nak without its reason", "05000d0310000000110000000100000008", "BadBody"),
    ("a fault without its last byte", "05000303100000001f00000003000000180000000000000005000000000000", "BadBody"),
    ("an auth3 of 5 bytes", "050010031000000015000000020000000000000000", "BadBody"),
    ("a request with an object",
     "050000831000000054000000020000003c00000000000400000002000600000000000000060000005c005c005000440043000000060000000000000006000000460049004c004500310000000079c388648359dc", "BadBody"),
    ("a fault without LAST", "0500030110000000200000000300000018000000000000000500000000000000", "BadBody"),
    ("a bind without FIRST",
     "05000b02100000004800000001000000d016d016000000000100000000000100785634123412cdabef0001234567cffb01000000045d888aeb1cc9119fe808002b10486002000000", "BadBody"),
]


# A bind as it stands in the worked example of docs/FORMATS.md.
PLAIN_BIND = bytes.fromhex(
    "05000b031000000048000000" "01000000" "d016d0160000000001000000" "00000100785634123412cdabef0001234567cffb01000000"
    "045d888aeb1cc9119fe808002b10486002000000"
)

# A place of that bind, the byte that stands there instead, and the refusal by the table of docs/FORMATS.md: another
# version, numbers whose high byte comes first, a fragment length of 15, a kind that there is not, an authentication
# value of 255 bytes where 44 follow the shortest body, two contexts where one is, and no LAST.
REFUSED_BINDS = [
    (0, 0x04, "BadVersion"),
    (4, 0x00, "BadRepresentation"),
    (8, 0x0F, "BadLength"),
    (2, 0x01, "BadType(1)"),
    (10, 0xFF, "BadTrailer"),
    (24, 0x02, "BadBody"),
    (3, 0x01, "BadBody"),
]


# ---- cases of one unit


def read_case(data):
    try:
        return line("units.read", compact(data)), ok(shown(read(data)))
    except Refused as refused:
        return line("units.read", compact(data)), err(refused)


def view_case(data):
    try:
        return line("units.view", compact(data)), ok(shown(read(data), True))
    except Refused as refused:
        return line("units.view", compact(data)), err(refused)


def range_case(data):
    found = sealed_range(data)
    return line("units.range", compact(data)), "None" if found is None else f"Some({found})"


def again_case(data):
    unit = read(data)
    assert may_be_written(unit)
    return line("units.again", compact(data)), ok(compact(write(unit)))


def of_case(unit):
    if not may_be_written(unit):
        return line("units.of", word_of(unit)), "not to be written"
    try:
        data = write(unit)
        again = read(data)
        again.pop("list", None)
        assert again == unit, word_of(unit)
        return line("units.of", word_of(unit)), ok(compact(data))
    except Refused as refused:
        return line("units.of", word_of(unit)), err(refused)


def published(fields):
    """The published fields in the form that `read` gives."""
    unit = {"kind": fields["type"], "first": fields["first"], "last": fields["last"], "call": fields["call"], "trailer": None}
    if fields["trailer"]:
        trailer = fields["trailer"]
        unit["trailer"] = (trailer["kind"], trailer["level"], trailer["context"], bytes.fromhex(trailer["value"]))

    def syntax(found):
        return bytes.fromhex(found["uuid"]), found["version"]

    for name in ("send", "receive", "group", "hint", "context", "opnum", "reason"):
        if name in fields:
            unit[name] = fields[name]
    if "status" in fields:
        unit["status"] = int(fields["status"], 16)
    if "stub" in fields:
        unit["stub"] = bytes.fromhex(fields["stub"])
    if "contexts" in fields:
        unit["contexts"] = [(c["id"], syntax(c["abstract"]), [syntax(s) for s in c["transfers"]]) for c in fields["contexts"]]
    if "results" in fields:
        unit["results"] = [(r["result"], r["reason"], syntax(r["transfer"])) for r in fields["results"]]
    return unit


def fields_of(data):
    """The fields of a unit as they are published: without the list that its bytes are read by."""
    found = read(data)
    found.pop("list", None)
    return found


def foreign_cases():
    """Units of Samba and impacket, with the published fields."""
    out = []
    for case in values("units")["units"]:
        assert case["refused_by_the_form"] is None
        data, unit = bytes.fromhex(case["unit"]), published(case["fields"])
        agree(lambda: fields_of(data), unit, case["name"])
        out += [(line("units.read", compact(data)), ok(shown(unit))), view_case(data), range_case(data), again_case(data),
                again_case(write(unit)), of_case(unit), (line("units.copy", compact(data)), shown(unit))]
        if len(data) < 400:
            out.append((line("units.value", compact(data), VALUE[3]), compact(data[:-16] + VALUE[3])))
    for session in values("units")["sessions"]:
        for case in session["units"]:
            data = bytes.fromhex(case["unit"])
            out += [read_case(data), view_case(data), again_case(data)]
            if "sealed_from" in case:
                bounds = case["sealed_from"], case["sealed_to"]
                agree(lambda: sealed_range(data), bounds, session["name"])
                out.append((line("units.range", compact(data)), f"Some({bounds})"))
                # The plain unit with the value of the sealed one behind it has the same range, and its stub is the
                # plain one.
                plain = bytes.fromhex(case["plain_unit_before_value"]) + data[-16:]
                stub = bytes.fromhex(case["plain_stub"])
                agree(lambda: read(plain)["stub"], stub, session["name"])
                out += [read_case(plain), (line("units.range", compact(plain)), f"Some({bounds})")]
                out.append((line("units.value", compact(plain), bytes(16)), compact(plain[:-16] + bytes(16))))
            else:
                out.append((line("units.range", compact(data)), "None"))
    return out


def worked_cases():
    """Units worked out by hand."""
    out = []
    for name, data, refused in REFUSED:
        assert read_case(bytes.fromhex(data))[1] == err(refused), name
        out.append((line("units.read", data), err(refused)))
        out.append((line("units.view", data), err(refused)))
    for place, byte, refused in REFUSED_BINDS:
        data = changed(PLAIN_BIND, place, bytes([byte]))
        assert read_case(data)[1] == err(refused), refused
        out += [(line("units.read", data), err(refused)), (line("units.view", data), err(refused))]
    # a bind for Netlogon and its answer
    for unit in (bind([(0, NETLOGON, [NDR])]), ack([(0, 0, NDR)])):
        data = write(unit)
        out += [read_case(data), view_case(data), again_case(data), of_case(unit)]
    out.append(read_case(changed(write(whole(FAULT, call=3, hint=24, context=0, status=5)), 1, b"\x01")))
    return out


def changed_units():
    """Each change of a unit meets a rule of the table, or just doesn't."""
    out = []
    for number, unit in enumerate(base_units()):
        data = write(unit)
        kind = unit["kind"]
        out.append(data)
        # the version, and both before what follows them
        for version, minor in ((5, 1), (5, 2), (5, 255), (4, 0), (6, 0), (0, 0), (5, 3)):
            out.append(changed(data, 0, bytes([version, minor])))
        out.append(changed(changed(data, 0, b"\x04"), 4, b"\x00"))
        # the representation: the first byte alone counts
        for other in (b"\x00", b"\x11", b"\x20", b"\x90"):
            out.append(changed(data, 4, other))
        out.append(changed(data, 5, b"\xff\xff\xff"))
        out.append(changed(changed(data, 4, b"\x00"), 8, le(15, 2)))
        # the fragment length
        for size in (0, 15, 16, len(data) - 1, len(data) + 1, 5840, 5841, 65535, len(data) << 8 & 0xFFFF):
            out.append(changed(data, 8, le(size, 2)))
        # the length before the type, the type before the trailer
        out.append(changed(changed(data, 2, b"\x01"), 8, le(len(data) - 1, 2)))
        out.append(changed(changed(data, 2, b"\x01"), 10, le(5000, 2)))
        # the type: another kind's body, or none
        for other in (0, 1, 2, 3, 4, 10, 11, 12, 13, 14, 15, 16, 17, 19, 255):
            if other != kind:
                out.append(changed(data, 2, bytes([other])))
        # FIRST, LAST, others, and an object
        for flags in (0, 1, 2, 3, 4, 7, 0x43, 0x7F, 0x80, 0x81, 0x82, 0x83, 0xFF):
            out.append(changed(data, 3, bytes([flags])))
        # the authentication length
        room = len(data) - 16 - SHORTEST[kind] - 8
        for size in (0, 1, 2, room - 1, room, room + 1, len(data), 65535):
            if size >= 0:
                out.append(changed(data, 10, le(size, 2)))
        # a trailer that doesn't fit before a body that is bad
        out.append(changed(changed(data, 10, le(65535, 2)), 3, b"\x80"))
        # cut short and longer, with the length that is told
        for size in sorted({16, 17, 16 + SHORTEST[kind] - 1, 16 + SHORTEST[kind], 16 + SHORTEST[kind] + 1, len(data) - 4, len(data) - 2,
                            len(data) - 1, len(data) + 1, len(data) + 4}):
            if size >= 16:
                piece = (data + b"\xee" * 4)[:size]
                out.append(changed(piece, 8, le(len(piece), 2)))
        # cut short without it
        for size in (0, 1, 15, 16, len(data) - 1):
            out.append(data[:size])
        out.append(data + b"\xee")
        # the trailer: kind, level, padding, the reserved byte and the context
        if unit["trailer"] is not None:
            place = len(data) - len(unit["trailer"][3]) - 8
            room = place - 16 - SHORTEST[kind]
            for pad in sorted({0, 1, 2, 3, 4, data[place + 2], room - 1, room, room + 1, 255}):
                if pad >= 0:
                    out.append(changed(data, place + 2, bytes([pad])))
            for at in range(place, place + 8):
                if at != place + 2:
                    out.append(flipped(data, at, 0x81))
        # the call, and the bytes of the body
        for at in list(range(12, 16)) + list(range(16, min(len(data), 56))):
            out.append(flipped(data, at, 0x81))
    return out


def change_cases():
    out = []
    for number, data in enumerate(dict.fromkeys(changed_units())):
        out.append(read_case(data))
        if number % 6 == 0:
            out.append(view_case(data))
        if number % 5 == 0 or sealed_range(data) is not None and number % 2 == 0:
            out.append(range_case(data))
    for unit in base_units():
        out += [again_case(write(unit)), of_case(unit)]
    return out


def unit_bytes(kind, body, flags=3, call=1, tail=b"", value=0):
    """A unit of any body."""
    return bytes([5, 0, kind, flags, 0x10, 0, 0, 0]) + le(16 + len(body) + len(tail), 2) + le(value, 2) + le(call, 4) + body + tail


def list_cases():
    """Contexts and results: counts that are there or not, free bytes, and what follows the last."""
    out = []

    def add(data):
        out.extend([read_case(data), view_case(data)])

    sizes = le(4280, 2) + le(4096, 2) + le(0x12345678, 4)
    context = written_context((7, NETLOGON, [NDR]))
    for count in (0, 1, 2, 3, 255):
        add(unit_bytes(BIND, sizes + bytes([count, 1, 2, 3]) + context * 2))
    for transfers in (0, 1, 2, 3, 255):
        add(unit_bytes(BIND, sizes + bytes([1, 0, 0, 0]) + changed(context, 2, bytes([transfers, 0x99])) + written_syntax(NONE)))
        add(unit_bytes(BIND, sizes + bytes([2, 0, 0, 0]) + changed(context, 2, bytes([transfers, 0])) + context))
    body = sizes + bytes([2, 0, 0, 0]) + context * 2
    for size in range(0, len(body) + 1, 5):
        add(unit_bytes(BIND, body[:size]))
    for size in (11, 12, 13, 35, 36, 55, 56, 57, 79, 80, 99, 100):
        add(unit_bytes(BIND, body[:size]))
    add(unit_bytes(BIND, body + b"more"))
    result = le(2, 2) + le(1, 2) + written_syntax(NDR)
    for address in range(0, 14):
        text = le(address, 2) + b"\\PIPE\\lsass135"[:address]
        pad = b"\xcc" * (-(10 - 8 + address) % 4)
        for count in (1, 2):
            add(unit_bytes(ACK, sizes + text + pad + bytes([count, 9, 9, 9]) + result))
    for count in (0, 1, 2, 3, 255):
        add(unit_bytes(ACK, sizes + le(1, 2) + bytes(2) + bytes([count, 0, 0, 0]) + result * 2))
    body = sizes + le(1, 2) + bytes(2) + bytes([2, 0, 0, 0]) + result * 2
    for size in list(range(0, len(body) + 1, 5)) + [15, 16, 17, 39, 40, 41, 63, 64]:
        add(unit_bytes(ACK, body[:size]))
    add(unit_bytes(ACK, body + b"more"))
    for address in (6, 7, 48, 54, 55, 56, 255, 65535):
        add(unit_bytes(ACK, changed(body, 8, le(address, 2))))
    for kind, body in ((NAK, le(4, 2) + b"\x01\x05\x00"), (AUTH3, b"\x11\x22\x33\x44"),
                       (FAULT, le(24, 4) + le(1, 2) + b"\xc0\xc1" + le(5, 4) + b"\xd0\xd1\xd2\xd3"),
                       (REQUEST, le(0, 4) + le(1, 2) + le(65535, 2)), (RESPONSE, le(0, 4) + le(1, 2) + b"\xc0\xc1")):
        for size in range(len(body) + 1):
            out.append(read_case(unit_bytes(kind, body[:size])))
        for more in (b"\x00", b"\xee" * 3, b"\xee" * 4, b"\xee" * 20):
            out.append(read_case(unit_bytes(kind, body + more)))
            out.append(view_case(unit_bytes(kind, body + more)))
        # with a trailer, whose padding eats into what follows the shortest body
        for pad in range(6):
            tail = bytes([10, 6, pad, 0xEE]) + le(1, 4) + b"value"
            out.append(read_case(unit_bytes(kind, body + b"\xee" * 4, tail=tail, value=5)))
            out.append(range_case(unit_bytes(kind, body + b"\xee" * 4, tail=tail, value=5)))
    return out


def limit_cases():
    """Units at the limit of 5,840 bytes, and lists at their limits."""
    out = []
    for size in (LIMIT - 1, LIMIT, LIMIT + 1):
        for trailer in (None, VALUE):
            tail = 24 if trailer else 0
            for maker in (request, response):
                unit = maker(b"\x5a" * (size - 24 - tail), trailer=trailer)
                out.append(of_case(unit))
        data = unit_bytes(REQUEST, le(1, 4) + le(2, 2) + le(3, 2) + b"\x5a" * (size - 24))
        if size <= LIMIT:
            out.append(again_case(data))
        else:
            out.append(read_case(data))
        out.append(range_case(data))
        out.append((line("units.value", compact(data), VALUE[3]), compact(data[:-16] + VALUE[3])))
    out.append(read_case(b"\x05" + bytes(65535)))
    for count in (131, 132, 133, 242, 243):
        out.append(of_case(bind([(0, NETLOGON, [NDR])] * count)))
    for count in (0, 1, 241, 242, 243, 255, 256, 257):
        out.append(of_case(bind([(5, NETLOGON, [])] * count)))
        out.append(of_case(ack([(2, 2, NONE)] * count)))
    for count in (0, 1, 2, 254, 255, 256, 257, 289, 290):
        out.append(of_case(bind([(1, NETLOGON, [NDR] * count)])))
    for unit in (bind([(5, NETLOGON, [])] * 242), bind([(1, NETLOGON, [NDR] * 255)]), bind([(0, NETLOGON, [NDR])] * 132),
                 ack([(2, 2, NONE)] * 242)):
        data = write(unit)
        out.append(again_case(data))
        out.append(range_case(data))
    # values of the trailer
    for count in (0, 1, 2, 3, 4, 5, 16, 17, 5792, 5793):
        out.append(of_case(whole(AUTH3, call=2, trailer=(10, 6, 1, b"\x77" * count))))
    for count in (0, 1, 15, 16, 17):
        out.append(of_case(request(b"\x99" * 8, trailer=(255, 255, 2**32 - 1, b"\x66" * count))))
    # the padding before a trailer
    for size in range(0, 9):
        for maker in (request, response):
            out.append(of_case(maker(bytes([0x99] * size), trailer=VALUE)))
    # FIRST and LAST
    for unit in base_units():
        for first in (False, True):
            for last in (False, True):
                out.append(of_case(dict(unit, first=first, last=last)))
    # numbers at their ends
    top16, top32 = 2**16 - 1, 2**32 - 1
    out += [of_case(request(b"x", call=top32, hint=top32, context=top16, opnum=top16)),
            of_case(response(b"x", call=top32, hint=top32, context=top16)),
            of_case(whole(FAULT, call=top32, hint=top32, context=top16, status=top32)), of_case(whole(NAK, call=top32, reason=top16)),
            of_case(bind([(top16, (b"\xff" * 16, top32), [(b"\xfe" * 16, top32)])], send=top16, receive=top16, group=top32)),
            of_case(ack([(top16, top16, (b"\xff" * 16, top32))], send=top16, receive=top16, group=top32)), of_case(request(b"")),
            of_case(response(b""))]
    return out


# ---- fragments


def fragments(unit, limit):
    size = (limit - 48) // 8 * 8
    stub, out = unit["stub"], []
    while True:
        part, stub = stub[:size], stub[size:]
        out.append(dict(unit, first=not out, last=not stub, stub=part))
        if not stub:
            return out


def is_whole_call(unit):
    return unit["kind"] in (REQUEST, RESPONSE) and unit["first"] and unit["last"]


def key_of(unit):
    return unit["call"], unit["kind"], unit.get("context", 0), unit.get("opnum", 0)


class Joiner:
    """Joins the fragments of a call."""

    def __init__(self):
        self.now = None

    def size(self):
        """The bytes of the stub that is open."""
        return len(self.now.get("stub", b"")) if self.now else 0

    def add(self, unit):
        before, self.now = self.now, None
        if before is None:
            if not unit["first"]:
                raise Refused("OutOfPlace")
            joined = dict(unit)
        else:
            if unit["first"] or key_of(before) != key_of(unit):
                raise Refused("OutOfPlace")
            joined = dict(before, last=unit["last"])
            if "stub" in joined:
                joined["stub"] += unit["stub"]
        if len(joined.get("stub", b"")) > CALL_LIMIT:
            raise Refused("CallTooLong")
        if unit["last"]:
            return joined
        self.now = joined
        return None


def join_answers(units):
    joiner, answers = Joiner(), []
    for unit in units:
        try:
            found = joiner.add(unit)
            answers.append("None" if found is None else f"Some({joined_word(found)})")
        except Refused as refused:
            answers.append(err(refused))
        answers[-1] += f" {joiner.size()}"
    return steps(answers)


def join_case(units):
    return line("units.join", *map(word_of, units)), join_answers(units)


def join_bytes_cases(pieces):
    """The same of bytes, by values and by views. A unit that is refused isn't added, and no view without a stub is."""
    out = []
    for operation in ("units.join_read", "units.join_view"):
        joiner, answers = Joiner(), []
        for piece in pieces:
            try:
                unit = read(piece)
            except Refused as refused:
                answers.append(err(refused))
                continue
            unit.pop("list", None)
            if operation == "units.join_view" and "stub" not in unit:
                answers.append("no stub")
                continue
            try:
                found = joiner.add(unit)
                answers.append("None" if found is None else f"Some({joined_word(found)})")
            except Refused as refused:
                answers.append(err(refused))
            answers[-1] += f" {joiner.size()}"
        out.append((line(operation, *map(compact, pieces)), steps(answers)))
    return out


def cut_cases():
    out = []
    units = []
    for size in (0, 1, 1383, 1384, 1385, 2768, 2769, 4104, 5791, 5792, 5793, 11584, 65535, 65536):
        units.append((response(b"\x61" * size), (1432, 1439, 1440, 5840)))
        units.append((request(b"\x62" * size, call=9, hint=size + 1, context=3, opnum=2, trailer=VALUE), (1432, 5840)))
    # the bytes of the stub go on from a fragment to the next
    counted = bytes(place % 251 for place in range(2000))
    units.append((response(counted, hint=4104), (1432, 1433, 1447, 1448)))
    units.append((response(b"\x61" * 4104), (1433, 1447, 1448, 2000, 4151, 4152, 4159, 4160, 5839)))
    for unit, limits in units:
        for limit in limits:
            answers = [f"{truth(part['first'])} {truth(part['last'])} {len(part['stub'])} {compact(write(part))}"
                       for part in fragments(unit, limit)]
            assert all(len(write(part)) <= limit for part in fragments(unit, limit))
            out.append((line("units.cut", limit, word_of(unit)), steps(answers)))
            out.append((line("units.cut_and_join", limit, word_of(unit)), join_answers(fragments(unit, limit))))
    for size in (65537, 66432, 70000):
        unit = response(b"\x61" * size)
        out.append((line("units.cut_and_join", 1432, word_of(unit)), join_answers(fragments(unit, 1432))))
        out.append((line("units.cut_and_join", 5840, word_of(unit)), join_answers(fragments(unit, 5840))))
    for unit in [response(b"x", last=False), response(b"x", first=False),
                 request(b"x", first=False, last=False)] + [u for u in base_units() if not is_whole_call(u)]:
        out.append((line("units.cut", 1432, word_of(unit)), "no whole call"))
    for limit in (0, 1431, 5841, 65535):
        out.append((line("units.cut", limit, word_of(response(b"x"))), "no limit of a link"))
    return out


def join_cases():
    out = []

    def part(first, last, call=2, size=8, fill=0x41):
        return response(bytes([fill]) * size, first=first, last=last, call=call, hint=4104)

    # one after the other on one joiner: after a refusal nothing is open
    out.append(join_case([
        part(False, True), part(True, False), part(True, False), part(False, True), part(True, False, size=65528), part(False, True),
        part(True, False, size=65528),
        part(False, True, size=9), part(False, True), part(True, True, size=65537), part(True, False), part(False, True, call=3),
    ]))
    # each of first, middle, last and whole behind each
    kinds = {"first": (True, False), "middle": (False, False), "last": (False, True), "whole": (True, True)}
    for one in kinds.values():
        out.append(join_case([part(*one)]))
        for two in kinds.values():
            out.append(join_case([part(*one), part(*two, fill=0x42)]))
            for three in kinds.values():
                out.append(join_case([part(*one), part(*two, fill=0x42), part(*three, fill=0x43)]))
    # another call, kind, context or opnum
    start = request(b"start", last=False)
    for other in (request(b"more", first=False, call=3), request(b"more", first=False, context=1), request(b"more", first=False, opnum=5),
                  response(b"more", first=False),
                  request(b"more", first=False, call=2**32 - 2), whole(FAULT, call=2, hint=0, context=0, status=5),
                  whole(NAK, call=2, reason=1),
                  dict(whole(FAULT, call=2, hint=0, context=0, status=5), first=False), dict(whole(AUTH3, call=2), first=False)):
        out.append(join_case([start, other, request(b"more", first=False)]))
        out.append(join_case([start, request(b"mid", first=False, last=False), other]))
    # the hint and the trailer of the first are kept, and those of the others passed over
    out.append(join_case([request(b"one", last=False, hint=7, trailer=VALUE), request(b"two", first=False, hint=9, trailer=None)]))
    out.append(join_case([request(b"one", last=False, hint=7), request(b"two", first=False, last=False, hint=8, trailer=VALUE),
                          request(b"", first=False, trailer=(9, 5, 3, b"x"))]))
    # empty stubs
    out.append(join_case([part(True, False, size=0), part(False, False, size=0), part(False, True, size=0)]))
    out.append(join_case([part(True, True, size=0)]))
    # units without a stub
    for unit in base_units():
        out.append(join_case([unit]))
        out.append(join_case([dict(unit, last=False), dict(unit, first=False)]))
    # 65,536 bytes, in one fragment and in many
    for size in (65535, 65536, 65537, 70000):
        out.append(join_case([part(True, True, size=size)]))
        out.append(join_case([part(True, False, size=size), part(False, True, size=0)]))
    for more in (0, 1, 2):
        out.append(join_case([part(True, False, size=32768, fill=1), part(False, False, size=32767, fill=2),
                              part(False, True, size=more, fill=3), part(True, True)]))
    out.append(join_case([part(True, False, size=4096, fill=place) if place == 1 else part(False, place == 16, size=4096, fill=place)
                          for place in range(1, 17)]))
    out.append(join_case([part(True, False, size=4096, fill=place) if place == 1 else part(False, place == 17, size=4096, fill=place)
                          for place in range(1, 18)]))
    # too long and out of place at once: out of place is named
    out.append(join_case([part(False, True, size=65537)]))
    out.append(join_case([part(True, False), part(False, True, call=3, size=65537)]))
    out.append(join_case([part(True, False), part(True, True, size=65537)]))
    # foreign fragments
    named = {case["name"]: bytes.fromhex(case["unit"]) for case in values("units")["units"]}
    impacket = [named[f"impacket's fragment {place} of 3"] for place in (1, 2, 3)]
    samba = [named["fragment 1 of a request"], named["fragment 2 of a request"]]
    for pieces in (impacket, samba, impacket[::-1], impacket[:1] + impacket[2:], impacket[:2] + samba[1:], samba[1:],
                   [samba[0], impacket[1]]):
        out += join_bytes_cases(pieces)
    # fragments of more than 1,384 stub bytes
    for sizes in ((1385, 5816), (5816, 5816), (5816,) * 11 + (1560,), (5816,) * 11 + (1561,), (5816, 1)):
        pieces = [write(response(bytes([place + 1]) * size, first=place == 0, last=place == len(sizes) - 1))
                  for place, size in enumerate(sizes)]
        out += join_bytes_cases(pieces)
    # sealed fragments, units without a stub and refused units between
    pieces = [write(request(b"front", last=False, trailer=VALUE)), write(base_units()[0]),
              write(request(b"back", first=False, trailer=VALUE))]
    out += join_bytes_cases(pieces)
    out += join_bytes_cases([pieces[0], b"\x04" + pieces[2][1:], pieces[2]])
    draw = random.Random(2004)
    for _ in range(40):
        units = []
        for place in range(draw.randrange(2, 7)):
            one = draw.choice([(True, False), (False, False), (False, False), (False, True), (True, True)])
            maker = draw.choice([request, request, response])
            stub = bytes([0x61 + place]) * draw.randrange(4)
            call, context = draw.choice([2, 2, 2, 3]), draw.choice([0, 0, 0, 1])
            units.append(maker(stub, first=one[0], last=one[1], call=call, context=context))
        out.append(join_case(units))
        out += join_bytes_cases([write(unit) for unit in units])
    return out


# ---- streams


class Flow:
    """A stream that holds at most 5,840 bytes."""

    def __init__(self):
        self.held, self.broken = b"", False

    def fill(self, piece):
        count = min(len(piece), LIMIT - len(self.held))
        self.held += piece[:count]
        return count

    def next(self):
        """The length of the unit in front; None where it isn't whole."""
        if self.broken:
            raise Refused("Broken")
        if len(self.held) < 16:
            return None
        try:
            header(self.held, False)
            size = short(self.held, 8)
            if len(self.held) < size:
                return None
            read(self.held[:size])
        except Refused as refused:
            self.broken = True
            raise Refused(f"Refused({refused})") from None
        return size

    def take(self, size):
        unit, self.held = self.held[:size], self.held[size:]
        return unit


def stream_case(pieces):
    flow, answers = Flow(), []
    for piece in pieces:
        left, ended = piece, False
        while True:
            try:
                size = flow.next()
            except Refused as refused:
                answers.append(str(refused))
                ended = True
                break
            if size is not None:
                answers.append(f"Unit({size}) {compact(flow.take(size))}")
            elif left:
                left = left[flow.fill(left):]
            else:
                answers.append("Waits")
                break
        if ended:
            break
    return line("units.stream", *map(compact, pieces)), steps(answers)


def whole_case(pieces):
    """The units of a stream, and the refusal behind them; the same however it is cut."""
    data, answers = b"".join(pieces), []
    while True:
        flow = Flow()
        flow.held = data
        try:
            size = flow.next()
        except Refused as refused:
            answers.append(f"Some({str(refused)[8:-1]})")
            break
        if size is None:
            answers.append("None")
            break
        answers.append(compact(data[:size]))
        data = data[size:]
    return line("units.whole", *map(compact, pieces)), steps(answers)


def flow_case(todo):
    """Steps: `fill` with bytes, `value` with bytes, `next`, `take`, `held`."""
    flow, words, answers = Flow(), [], []
    for step, piece in todo:
        words.append(step if piece is None else f"{step}/{compact(piece)}")
        if step == "fill":
            answers.append(str(flow.fill(piece)))
        elif step == "held":
            answers.append(str(len(flow.held)))
        else:
            try:
                size = flow.next()
            except Refused as refused:
                answers.append(err(refused))
                continue
            if size is None:
                answers.append(ok("None"))
            elif step == "next":
                answers.append(ok(f"Some({size})"))
            elif step == "take":
                answers.append(f"Ok(Some({size})) {compact(flow.take(size))}")
            else:
                flow.held = flow.held[:size - 16] + piece + flow.held[size:]
                answers.append(f"Ok(Some({size})) {compact(flow.held[:size])}")
    return line("units.flow", *words), steps(answers)


def in_pieces(data, size):
    return [data[at:at + size] for at in range(0, len(data), size)]


def stream_cases():
    out = []
    # two recorded links, each side's units, cut at many places
    for session in values("units")["sessions"]:
        for sender in ("client", "server"):
            units = [bytes.fromhex(case["unit"]) for case in session["units"] if case["sender"] == sender]
            data = b"".join(units)
            edges = [len(units[0]), len(units[0]) + len(units[1])]
            cuts = [[data], units] + [in_pieces(data, size) for size in (1, 7, 15, 16, 17, 100)]
            for edge in edges:
                for at in (edge - 1, edge, edge + 1, edge + 15, edge + 16):
                    cuts.append([data[:at], data[at:]])
            if session["name"] != "level privacy":
                cuts = cuts[:2] + cuts[4:6]
            for pieces in cuts:
                out.append(stream_case(pieces))
            out.append(stream_case([data[:-1]]))
            out.append(stream_case([data[:-1], data[-1:]]))
    binds = write(base_units()[0])
    fault = write(base_units()[12])
    sealed = write(base_units()[11])
    three = binds + sealed + fault
    for pieces in ([three], in_pieces(three, 1), in_pieces(three, 3), [b"", three], [three[:50], b"", three[50:]], [b""], [b"", b""]):
        out.append(stream_case(pieces))
    # a refused unit ends the stream however it is cut; by its header as soon as 16 bytes are there, by what follows
    # once it is whole
    bad = {
        "version": b"\x04" + fault[1:], "minor": changed(fault, 1, b"\x02"), "representation": changed(fault, 4, b"\x00"),
        "length 15": changed(fault, 8, le(15, 2)),
        "length 5841": changed(fault, 8, le(5841, 2)), "type": changed(fault, 2, b"\x01"), "trailer": changed(fault, 10, le(100, 2)),
        "flags": changed(fault, 3, b"\x01"),
        "body": unit_bytes(BIND, bytes(11)), "auth3": unit_bytes(AUTH3, bytes(5)),
    }
    for data in bad.values():
        for front in (b"", sealed, three):
            both = front + data
            out.append(stream_case([both]))
            out.append(stream_case([both + fault]))
            out.append(stream_case(in_pieces(both, 1)))
            out.append(stream_case([both[:len(front) + 15], both[len(front) + 15:]]))
            out.append(stream_case([both[:len(front) + 16], both[len(front) + 16:]]))
            out.append(stream_case([both[:-1], both[-1:]]))
    # units of 5,840 bytes, more than one in a piece, and pieces that are longer than what a stream holds
    big = [write(request(bytes([0x61 + place]) * (LIMIT - 24), call=place)) for place in range(3)]
    data = b"".join(big)
    for pieces in ([data], in_pieces(data, 5840), in_pieces(data, 5839), in_pieces(data, 5841), in_pieces(data, 1000),
                   [data[:5840 + 15], data[5840 + 15:]], [fault + data], [data + fault],
                   [data[:-1], data[-1:]], [data[:16], data[16:]], [data + changed(fault, 8, le(5841, 2))]):
        out.append(stream_case(pieces))
    # the calls one by one
    fill, take, nothing = (lambda piece: ("fill", piece)), ("take", None), ("next", None)
    held = ("held", None)
    short_header = bytes.fromhex("05000b03100000000f00000001000000")
    out.append(flow_case([fill(short_header[:15]), nothing, fill(short_header[15:]), nothing, nothing, take, held]))
    out.append(flow_case([nothing, held, fill(b""), nothing, fill(fault), held, nothing, nothing, take, held, nothing]))
    out.append(flow_case([fill(three), nothing, take, take, nothing, take, nothing, held]))
    out.append(flow_case([fill(three[:100]), take, take, fill(three[100:]), take, take, take, held]))
    out.append(flow_case([fill(data), held, fill(data), nothing, take, held, fill(data[5840:]), take, fill(data[11680:]), take, take,
                          held]))
    out.append(flow_case([fill(fault + data), held, take, held, fill(data[5840 - 32:]), held, take, held, nothing]))
    out.append(flow_case([fill(sealed), ("value", bytes(16)), ("value", VALUE[3]), take, held]))
    out.append(flow_case([fill(sealed + sealed), ("value", bytes(16)), take, nothing, ("value", b"\x77" * 16), take, held]))
    out.append(flow_case([fill(b"\x04" + fault[1:] + fault), take, take, fill(fault), held, nothing]))
    for name, unit in bad.items():
        out.append(flow_case([fill(fault + unit), take, nothing, nothing, fill(fault), take, held]))
        out.append(flow_case([fill(unit[:15]), nothing, fill(unit[15:16]), nothing, fill(unit[16:]), nothing, held]))
    # one unit again and again: what was taken makes room
    todo = []
    for _ in range(20):
        todo += [fill(sealed * 3), take, take, take]
    out.append(flow_case(todo + [held]))
    draw = random.Random(2012)
    for _ in range(30):
        parts = [draw.choice([fault, sealed, binds, write(base_units()[9]), write(whole(NAK, reason=1))])
                 for _ in range(draw.randrange(1, 6))]
        if draw.random() < 0.4:
            parts[draw.randrange(len(parts))] = draw.choice(list(bad.values()))
        data, pieces = b"".join(parts), []
        while data:
            size = draw.choice([1, 5, 15, 16, 17, 31, 32, 64, 200])
            pieces.append(data[:size])
            data = data[size:]
        out.append(stream_case(pieces))
        todo = []
        for piece in pieces:
            todo += [fill(piece), draw.choice([take, take, nothing])]
        out.append(flow_case(todo + [take, take, held]))
    return out


def whole_cases():
    """Some of the same streams, read whole."""
    out = []
    for number, (text, _) in enumerate(stream_cases()):
        operation, *words = text.split(" ")
        if operation == "units.stream" and number % 4 == 0:
            out.append(whole_case([expanded(word) for word in words]))
    return out


def cases():
    """Each line and its answer."""
    return foreign_cases() + worked_cases() + change_cases() + list_cases() + limit_cases() + cut_cases() + join_cases() + stream_cases() + whole_cases()
