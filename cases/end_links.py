"""Cases of end_links.

`links.answer INTERFACE BIND ID ..`: the bytes of the answer to a bind, given by its bytes, to the interface that is
served, the limit of fragments that it agrees on, and whether it accepts each of these contexts. An interface is its
UUID, a point and its version.
`links.limit RECEIVE`: the limit for a peer that receives so many bytes.
`links.nak CALL`, `links.bind INTERFACE CALL`, `links.fault CALL CONTEXT STATUS`: the bytes of the unit.
`links.request LIMIT CALL CONTEXT OPNUM STUB`, `links.response LIMIT CALL CONTEXT STUB`: the frames of a whole call or
reply, and whether they are its bytes when joined.
`links.map STEP ..`: accepted links, by steps: `put/NUMBER/BYTES` (a link on which so many bytes are held),
`fill/FROM/TO` (links of these numbers, on which none are), `take/NUMBER/0` (first whether there was one). Nothing is
put where there are 256. Each step is answered with the number of links, whether there is no room, the bytes held, and
whether there is a link of the number afterwards.
`links.hear PIECE ..`: the units that an end hears on a link of these pieces, the bytes that wait behind them or
`closed`, and the refusal.
`links.cuts STREAM`: the same of a stream in one piece, and at how many of its places it may be cut so that the end
hears the same.

The rules are this project's own choices on top of C706 12.6.3 and 12.6.4 (docs/FORMATS.md); the answers are worked out
here from their text.
"""

import random

from forms import line, values
from rpc_units import ACK, BIND, FAULT, LIMIT, NAK, NDR, NETLOGON, NONE, REQUEST, RESPONSE, Flow, Refused, syntax_word, whole, write
from wire import changed, le, steps, truth

MEMO = (bytes.fromhex("6f4c746e6f674d4e8d656d6f00000001"), 1)
NDR64 = (bytes.fromhex("33057171babe37498319b5dbef9ccc36"), 1)


def text(data):
    """Bytes as a word."""
    return data.hex() or "-"


# ---- bindings


def limit_of(receive):
    """5,840 or the peer's size where that is smaller, and at least 1,432."""
    return max(1432, min(LIMIT, receive))


def answer_of(served, context):
    """Accepted where the abstract syntax is the served one and NDR is offered; else refused, with the reason."""
    _, interface, transfers = context
    if interface != served:
        return 2, 1, NONE
    if NDR not in transfers:
        return 2, 2, NONE
    return 0, 0, NDR


def answer_case(served, receive, contexts, ids, call=1):
    bind = whole(BIND, call=call, send=4280, receive=receive, group=0, contexts=contexts)
    results = [answer_of(served, context) for context in contexts]
    limit = limit_of(receive)
    ack = whole(ACK, call=call, send=limit, receive=LIMIT, group=1, results=results)
    accepted = [context[0] for context, result in zip(contexts, results) if result[0] == 0]
    answers = [text(write(ack)), str(limit)] + [truth(number in accepted) for number in ids]
    return line("links.answer", syntax_word(served), write(bind), *ids), steps(answers)


def syntax_of(fields):
    """A syntax of published fields."""
    return bytes.fromhex(fields["uuid"]), fields["version"]


def foreign_bind_cases():
    """The binds that Samba's client and impacket wrote, by their published fields."""
    out = []
    for case in values("units")["units"]:
        fields = case["fields"]
        if fields["kind"] != "bind":
            continue
        contexts = [
            (context["id"], syntax_of(context["abstract"]), [syntax_of(transfer) for transfer in context["transfers"]])
            for context in fields["contexts"]
        ]
        for served in (NETLOGON, MEMO):
            _, answer = answer_case(served, fields["receive"], contexts, [0, 1], call=fields["call"])
            out.append((line("links.answer", syntax_word(served), case["unit"], 0, 1), answer))
    return out


def binding_cases():
    out = []
    good, other, bare = (0, NETLOGON, [NDR]), (1, MEMO, [NDR]), (2, NETLOGON, [NDR64])
    for receive in (5840, 6000, 65535, 5841, 5839, 4280, 1433, 1432, 1431, 1000, 16, 0):
        out.append((line("links.limit", receive), str(limit_of(receive))))
        out.append(answer_case(NETLOGON, receive, [good], [0, 1]))
    for contexts in (
        [other], [bare], [good, other], [other, good], [good, bare], [bare, other, good], [], [(7, NETLOGON, [])],
        [(7, NETLOGON, [NDR64, NDR])], [(7, NETLOGON, [NDR, NDR64])], [(7, NETLOGON, [(NDR[0], 1)])],
        [(7, (NETLOGON[0], 2), [NDR])], [(7, (NETLOGON[0][:15] + b"\xfa", 1), [NDR])], [(7, MEMO, [])],
        [(3, NETLOGON, [NDR]), (3, MEMO, [NDR])], [(3, MEMO, [NDR]), (3, NETLOGON, [NDR])], [(65535, NETLOGON, [NDR])],
    ):
        out.append(answer_case(NETLOGON, 5840, contexts, [0, 1, 2, 3, 7, 65535], call=0xFFFFFFFF))
        out.append(answer_case(MEMO, 1000, contexts, [0, 1, 2, 3, 7]))
    out += foreign_bind_cases()
    for count in (100, 242):
        out.append(answer_case(NETLOGON, 5840, [(0, NETLOGON, [])] * count, [0]))
    for call in (0, 1, 0xFFFFFFFF):
        nak = whole(NAK, call=call, reason=0)
        out.append((line("links.nak", call), text(write(nak))))
        for interface in (NETLOGON, MEMO):
            bind = whole(BIND, call=call, send=LIMIT, receive=LIMIT, group=0, contexts=[(0, interface, [NDR])])
            out.append((line("links.bind", syntax_word(interface), call), text(write(bind))))
    return out


# ---- what is sent


def frames_of(unit, limit):
    size = (limit - 48) // 8 * 8
    stubs = [unit["stub"][at:at + size] for at in range(0, len(unit["stub"]), size)] or [b""]
    return [
        write({**unit, "first": place == 0, "last": place == len(stubs) - 1, "stub": stub}) for place, stub in enumerate(stubs)
    ]


def call_case(unit, limit):
    fields = [limit, unit["call"], unit["context"]] + ([unit["opnum"]] if unit["kind"] == REQUEST else [])
    name = "links.request" if unit["kind"] == REQUEST else "links.response"
    answer = "no such case"
    if 1432 <= limit <= LIMIT:
        answer = steps([text(frame) for frame in frames_of(unit, limit)] + [truth(True)])
    return line(name, *fields, unit["stub"]), answer


def sending_cases():
    out = []
    for call, context, status in ((1, 0, 0x1C01000B), (2, 1, 0x1C010002), (3, 65535, 0x6F7), (0xFFFFFFFF, 0, 5), (0, 2, 0x6BA)):
        unit = whole(FAULT, call=call, hint=0, context=context, status=status)
        out.append((line("links.fault", call, context, status), text(write(unit))))
    draw = random.Random(25)
    for limit in (1431, 1432, 1439, 1440, 5840, 5841):
        size = (limit - 48) // 8 * 8
        for length in (0, 1) if limit in (1431, 5841) else (0, size, size + 1) if limit == 5840 else (0, 1, size - 1, size, size + 1, 2 * size + 5):
            stub = draw.randbytes(length)
            out.append(call_case(whole(REQUEST, call=2, hint=length, context=1, opnum=15, stub=stub), limit))
            out.append(call_case(whole(RESPONSE, call=7, hint=length, context=3, stub=stub), limit))
    return out


# ---- links by their numbers


def map_case(*todo):
    links, answers = {}, []
    for step in todo:
        name, one, other = step.split("/")
        one, other = int(one), int(other)
        if name == "take":
            answers.append(truth(links.pop(one, None) is not None))
        numbers = {"put": [(one, other)], "fill": [(number, 0) for number in range(one, other)], "take": []}[name]
        for number, size in numbers:
            if len(links) < 256:
                links[number] = size
        answers.append(f"{len(links)} {truth(len(links) >= 256)} {sum(links.values())} {truth(one in links)}")
    return line("links.map", *todo), steps(answers)


def map_cases():
    return [
        map_case("put/1/0", "put/2/100", "put/1/7", "take/2/0", "take/2/0", "take/1/0"),
        map_case("fill/0/255", "put/255/9", "put/256/9", "take/0/0", "put/256/9", "put/0/1"),
        map_case("fill/0/300", "take/299/0", "take/255/0", "put/4294967295/65535", "take/4294967295/0"),
        map_case("fill/0/256", "put/3/5", "take/3/0", "put/3/5"),
        map_case("take/0/0"),
    ]


# ---- the units of a link


def heard(data):
    """The units, what waits behind them, and the refusal of the rest."""
    flow, units = Flow(), []
    flow.held = data
    while True:
        try:
            size = flow.next()
        except Refused as refused:
            return units, None, f"Some{str(refused).removeprefix('Refused')}"
        if size is None:
            return units, len(flow.held), "None"
        units.append(flow.take(size))


def heard_words(data):
    units, waits, refused = heard(data)
    return [text(unit) for unit in units] + [f"{'closed' if waits is None else waits} {refused}"]


def serving_cases():
    out = []
    for session in values("units")["sessions"]:
        for sender in ("client", "server"):
            data = b"".join(bytes.fromhex(case["unit"]) for case in session["units"] if case["sender"] == sender)
            out.append((line("links.cuts", data), steps(heard_words(data) + [str(len(data))])))
            out.append((line("links.hear", data[:-1]), steps(heard_words(data[:-1]))))
    fault = write(whole(FAULT, call=9, hint=0, context=0, status=5))
    for bad in (b"\x04" + fault[1:], changed(fault, 8, le(5841, 2)), changed(fault, 8, le(15, 2)), changed(fault, 3, b"\x01")):
        data = fault + bad + fault
        out.append((line("links.cuts", data), steps(heard_words(data) + [str(len(data))])))
        out.append((line("links.hear", fault, bad, fault), steps(heard_words(data))))
    out.append((line("links.hear", "", fault[:15], "", fault[15:]), steps(heard_words(fault))))
    return out


def cases():
    """Each line and its answer."""
    return binding_cases() + sending_cases() + map_cases() + serving_cases()
