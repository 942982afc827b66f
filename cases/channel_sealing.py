"""Cases of channel_sealing.

`sealing.value DOMAIN COMPUTER`: what the bind of a computer in a domain tells; `sealing.names VALUE`: the domain and
the computer that a bind tells by this value, or `none`.
`sealing.bind INTERFACE CALL VALUE`: the bytes of a bind with this value; `sealing.ack INTERFACE BIND`: the bytes of the
answer to a bind, given by its bytes. An interface is its UUID, a point and its version.
`sealing.limits RECEIVE`: the limit of a sealed link for a peer that receives so many bytes, and that by which a call on
it is cut.
`sealing.part BYTES`: what of a unit is sealed, and the range in front of a trailer with a value of 32 bytes.
`sealing.run KEY SIDE STEP ..`: the steps at one end of a channel of that session key, the `requester` or the
`responder`. `request/RECEIVE/CONTEXT/CONFOUNDER/CALL/BOUND/OPNUM/STUB` and `response/RECEIVE/CONTEXT/CONFOUNDER/CALL/
BOUND/STUB`: the frames of a call or reply on the context BOUND, whose trailers have the context CONTEXT, for a peer
that receives so many bytes, sealed; with `-` for the confounder, with room for signatures. `frames/CONFOUNDER/FRAME,
..`: any frames, sealed, or `none` where one has no room for a signature. `open/UNIT`: `Nothing`, `Missing`, or the
answer as its range is opened, and what the unit then is. `altered/MASK/UNIT`: for each byte of a unit, what the unit
comes to where that byte is altered by these bits: `n` and `m` for `Nothing` and `Missing`, `a`, `s` and `c` for the
refusals by algorithm, sequence and checksum, `o` where it is opened.

What is written and read is worked out here by MS-NRPC 2.2.1.3.1 and 3.3.4.2, MS-RPCE 2.2.2.11 and docs/FORMATS.md.
Each sealed call is opened here too, and is then the plain call.
"""

import hashlib
import itertools

from channel_client import frames_of
from end_links import MEMO, answer_of, limit_of
from forms import line, option
from netlogon_seal import ALGORITHMS, CONFOUNDER, KEY, digest, rc4, sealed, sequence
from rpc_units import ACK, BIND, FAULT, LIMIT, NAK, NDR, NETLOGON, REQUEST, RESPONSE, VALUE, Joiner, Refused, base_units, sealed_range, syntax_word, whole
from rpc_units import read as read_unit
from rpc_units import write as write_unit
from wire import changed, compact, flipped, le, steps

PROVIDER, PRIVACY, OWN = 68, 6, 1
ROOM = bytes(32)
ACK_VALUE = le(1, 4) + bytes(8)


# ---- binds


def bind_value(domain, computer):
    """A request 0, the names 3 that follow, and both names, each ended by a zero."""
    return le(0, 4) + le(3, 4) + domain + b"\0" + computer + b"\0"


def names_of(value):
    """Both names of such a value, whatever stands behind them; else none."""
    texts = value[8:].split(b"\0", 2)
    return texts[:2] if value[:8] == le(0, 4) + le(3, 4) and len(texts) == 3 else None


def trailer_of(value, context=OWN):
    return PROVIDER, PRIVACY, context, value


def sealed_bind(call, value, interface=NETLOGON):
    return whole(BIND, call=call, send=LIMIT, receive=LIMIT, group=0, contexts=[(0, interface, [NDR])], trailer=trailer_of(value))


def link_limit(receive):
    """The limit of a sealed link is at least 1,448."""
    return max(1448, limit_of(receive))


def sealed_ack(bind, served):
    """The answer: the link's limit is the size that it sends, and its trailer has the bind's context."""
    results = [answer_of(served, context) for context in bind["contexts"]]
    trailer = trailer_of(ACK_VALUE, bind["trailer"][2])
    return whole(ACK, call=bind["call"], send=link_limit(bind["receive"]), receive=LIMIT, group=1, results=results, trailer=trailer)


def bind_cases():
    out = []
    named = ((b"CORP", b"FILE1"), (b"corp", b"File1"), (b"", b""), (b"A", b""), (b"", b"B"), (b"D" * 64, b"C" * 64), (b"a b", b"x-1.y"))
    for domain, computer in named:
        value = bind_value(domain, computer)
        assert names_of(value) == [domain, computer] and len(value) == 10 + len(domain) + len(computer)
        out.append((line("sealing.value", domain, computer), value.hex()))
    value = bind_value(b"CORP", b"FILE1")
    for interface in (NETLOGON, MEMO):
        for call in (1, 0, 2**32 - 1):
            out.append((line("sealing.bind", syntax_word(interface), call, value), write_unit(sealed_bind(call, value, interface)).hex()))
    for size in (0, 1, 2, 3, 137, 138, 139):
        answer = write_unit(sealed_bind(7, bytes(size) or b"x")).hex() if 0 < size <= 138 else "no such case"
        out.append((line("sealing.bind", syntax_word(NETLOGON), 7, bytes(size)), answer))
    return out


def name_cases():
    """Names in any case, bytes behind them, and values that tell no names."""
    good = bind_value(b"CORP", b"FILE1")
    tried = [bind_value(*names) for names in ((b"CORP", b"FILE1"), (b"corp", b"fIlE1"), (b"", b""), (b"", b"FILE1"), (b"CORP", b""))]
    tried += [bind_value(b"C" * 300, b"\xff\x80" * 200), good + b"more\0", good + b"\0", good + bytes(200), good + b"x"]
    # a name without its zero
    tried += [good[:end] for end in range(len(good))]
    # each of the first 8 bytes is another
    tried += [flipped(good, at, mask) for at in range(8) for mask in (1, 2, 0x80)]
    # other requests, the answer's value, NTLM's, and none
    tried += [le(0, 4) + le(flags, 4) + good[8:] for flags in (0, 1, 2, 7, 0x13, 0x1F, 2**32 - 1)]
    tried += [ACK_VALUE, ACK_VALUE + good[8:], b"NTLMSSP\0" + good[8:], b"", b"\0", bytes(8), bytes(300)]
    out = []
    for value in tried:
        names = names_of(value)
        out.append((line("sealing.names", value), " ".join(name.hex() or "-" for name in names) if names else "none"))
    assert sum(answer != "none" for _, answer in out) == 10
    return out


def ack_cases():
    out = []
    value = bind_value(b"CORP", b"FILE1")

    def add(receive=LIMIT, contexts=((0, NETLOGON, [NDR]),), context=OWN, served=NETLOGON, call=1, value=value):
        bind = whole(BIND, call=call, send=4280, receive=receive, group=0, contexts=list(contexts), trailer=trailer_of(value, context))
        out.append((line("sealing.ack", syntax_word(served), write_unit(bind)), write_unit(sealed_ack(bind, served)).hex()))

    # the context of the bind's trailer
    for context in (0, 1, 2, 0x01020304, 2**32 - 1):
        add(context=context)
    # the limit of the link
    for receive in (0, 1431, 1432, 1433, 1447, 1448, 1449, 4280, 5839, 5840, 5841, 65535):
        add(receive=receive, call=receive)
    # results, as on any link
    add(served=MEMO)
    add(contexts=[(0, MEMO, [NDR]), (1, NETLOGON, []), (7, NETLOGON, [MEMO, NDR]), (7, NETLOGON, [NDR])])
    # as many contexts as there is room for
    add(contexts=[(at, NETLOGON, []) for at in range(241)], value=b"x")
    bare = whole(BIND, call=1, send=LIMIT, receive=LIMIT, group=0, contexts=[(0, NETLOGON, [NDR])])
    out += [(line("sealing.ack", syntax_word(NETLOGON), write_unit(unit)), "no such case") for unit in (bare, whole(NAK, reason=0, trailer=VALUE))]
    for receive in (0, 1431, 1432, 1447, 1448, 1449, 1463, 1464, 1465, 4280, 5839, 5840, 5841, 65535):
        out.append((line("sealing.limits", receive), f"{link_limit(receive)} {link_limit(receive) - 16}"))
    return out


# ---- what of a unit is sealed


def part_of(data):
    """`Nothing`, `Missing`, or from where to where it is sealed."""
    try:
        unit = read_unit(data)
    except Refused:
        return "Nothing"
    if unit["kind"] not in (REQUEST, RESPONSE):
        return "Nothing"
    trailer = unit["trailer"]
    if trailer is None or trailer[:2] != (PROVIDER, PRIVACY) or len(trailer[3]) != 32:
        return "Missing"
    return 24, len(data) - 40


def range_of(data):
    """The stub and its padding, where a trailer and a value of 32 bytes follow to the end."""
    found = sealed_range(data)
    return found if found and found[1] + 40 == len(data) else None


def part_case(data):
    part = part_of(data)
    return line("sealing.part", data), f"{part if isinstance(part, str) else f'Range{part}'} {option(range_of(data))}"


def part_cases():
    units = base_units()
    ends = [whole(kind, call=3, hint=0, context=0, trailer=trailer_of(ROOM), **fields)
            for kind, fields in ((REQUEST, {"opnum": 2, "stub": b""}), (RESPONSE, {"stub": b""}), (FAULT, {"status": 5}))]
    units += ends + [whole(NAK, reason=0, trailer=trailer_of(ROOM)), sealed_bind(1, ROOM)]
    for size in range(1, 9):
        units.append(whole(RESPONSE, call=3, hint=size, context=0, stub=bytes(range(size)), trailer=trailer_of(ROOM)))
    for kind in (0, 9, 10, 67, 69, 255):
        units.append({**ends[0], "trailer": (kind, PRIVACY, OWN, ROOM)})
    for level in (0, 1, 2, 5, 7, 255):
        units.append({**ends[1], "trailer": (PROVIDER, level, OWN, ROOM)})
    for size in (1, 8, 16, 24, 31, 33, 36, 64):
        units.append({**ends[1], "trailer": trailer_of(bytes(size))})
    for context in (0, 2, 2**32 - 1):
        units.append({**ends[1], "trailer": trailer_of(ROOM, context)})
    out = [part_case(write_unit(unit)) for unit in units]
    # what can't be read
    good = write_unit({**ends[1], "stub": bytes(8)})
    out += [part_case(data) for data in (b"", good[:15], good[:-1], good + b"x", flipped(good, 0, 1), flipped(good, 2, 1), changed(good, 10, le(200, 2)))]
    # padding that a peer chose
    out += [part_case(changed(good, 34, bytes([pad]))) for pad in (1, 8, 9)]
    return out


# ---- one end of a channel


class End:
    """One end of a sealed channel, over all its links."""

    def __init__(self, key=KEY, requester=True):
        self.key, self.requester, self.sent, self.received = key, requester, 0, 0

    def seal(self, frame, confounder=CONFOUNDER):
        """A frame with room for a signature, sealed under the next number."""
        self.sent += 1
        return sealed(self.sent - 1, self.requester, frame[:-32], 24, len(frame) - 40, confounder, self.key)

    def seal_all(self, frames, confounder=CONFOUNDER):
        return [self.seal(frame, confounder) for frame in frames]

    def open(self, data):
        """The answer, and what the unit then is."""
        part = part_of(data)
        if isinstance(part, str):
            return part, data
        start, end = part
        value = data[-32:]
        if value[:8] != ALGORITHMS:
            return "Err(BadAlgorithm)", data
        number = rc4(digest(digest(self.key, bytes(4)), value[16:24]), value[8:16])
        if number != sequence(self.received, not self.requester):
            return f"Err(BadSequence {{ wanted: {self.received} }})", data
        under = digest(digest(bytes(byte ^ 0xF0 for byte in self.key), bytes(4)), number)
        confounder = rc4(under, value[24:])
        plain = data[:start] + rc4(under, data[start:end]) + data[end:-32]
        if digest(self.key, hashlib.md5(bytes(4) + ALGORITHMS + confounder + plain).digest())[:8] != value[16:24]:
            return "Err(BadChecksum)", changed(data, start, bytes(end - start))
        self.received += 1
        return "Ok(())", plain + value


LETTERS = {"Nothing": "n", "Missing": "m", "Err(BadAlgorithm)": "a", "Err(BadChecksum)": "c", "Ok(())": "o"}


def call_frames(unit, receive, context=OWN):
    """The frames of a call with room for signatures."""
    return frames_of({**unit, "trailer": trailer_of(ROOM, context)}, link_limit(receive) - 16)


def joined(frames):
    """The call that opened frames are, without its trailer."""
    joiner = Joiner()
    units = [joiner.add(read_unit(frame)) for frame in frames]
    assert not any(units[:-1])
    return {**units[-1], "trailer": None}


class Scenario:
    """The steps at one end, and the line that is written of them. The other end hears what goes out."""

    def __init__(self, side="requester", key=KEY):
        self.end, self.other = End(key, side == "requester"), End(key, side != "requester")
        self.words, self.answers = [key, side], []

    def case(self):
        return line("sealing.run", *self.words), steps(self.answers)

    def add(self, word, answer):
        self.words.append(word)
        self.answers.append(answer)
        return self

    def call(self, unit, receive=LIMIT, context=OWN, confounder=CONFOUNDER):
        """A call or reply goes out; without a confounder, it gets room for signatures."""
        parts = ["request" if unit["kind"] == REQUEST else "response", receive, context, confounder.hex() or "-", unit["call"], unit["context"]]
        parts += ([unit["opnum"]] if unit["kind"] == REQUEST else []) + [compact(unit["stub"])]
        frames = call_frames(unit, receive, context)
        assert joined(frames) == unit and all(len(frame) <= link_limit(receive) for frame in frames)
        if confounder:
            frames = self.end.seal_all(frames, confounder)
            self.other.received = self.end.sent - len(frames)
            opened = [self.other.open(frame) for frame in frames]
            assert all(answer == "Ok(())" for answer, _ in opened) and joined([left for _, left in opened]) == unit
        return self.add("/".join(map(str, parts)), ",".join(frame.hex() for frame in frames))

    def frames(self, frames):
        """Any frames: they are sealed up to the first without room for a signature."""
        good = list(itertools.takewhile(range_of, frames))
        done = ",".join(frame.hex() for frame in self.end.seal_all(good))
        return self.add(f"frames/{CONFOUNDER.hex()}/" + ",".join(frame.hex() for frame in frames), done if good == frames else "none")

    def open(self, data, wanted=None):
        answer, left = self.end.open(data)
        assert wanted in (None, answer), (wanted, answer)
        return self.add(f"open/{data.hex()}", answer if answer in ("Nothing", "Missing") else f"{answer} {left.hex()}")

    def opens(self, frames):
        for frame in frames:
            self.open(frame, "Ok(())")
        return self

    def altered(self, data, mask):
        outcomes = [self.end.open(flipped(data, at, mask))[0] for at in range(len(data))]
        letters = "".join("s" if "BadSequence" in outcome else LETTERS[outcome] for outcome in outcomes)
        assert "o" not in letters
        return self.add(f"altered/{mask}/{data.hex()}", letters)


def request_of(stub, call=2, context=0, opnum=2):
    return whole(REQUEST, call=call, hint=len(stub), context=context, opnum=opnum, stub=stub)


def response_of(stub, call=2, context=0):
    return whole(RESPONSE, call=call, hint=len(stub), context=context, stub=stub)


def stub_of(size):
    return bytes((7 * at + at // 251) % 256 for at in range(size))


OTHER = {"requester": "responder", "responder": "requester"}
CALLS = {"requester": request_of, "responder": response_of}
SMALL, SECOND = bytes(range(0xA0, 0xA8)), bytes(range(8))


def sent_by(side, unit, receive=LIMIT, context=OWN, end=None):
    """The sealed frames of a call of that side, on a new channel where no end is given."""
    return (end or End(KEY, side == "requester")).seal_all(call_frames(unit, receive, context))


def call_cases():
    """Calls of one fragment and of several, as they are sealed, and as the other end opens them."""
    out = []
    sizes = [(LIMIT, size) for size in (0, 1, 2, 3, 4, 5, 8, 24, 5776, 5777)]
    sizes += [(1432, size) for size in (1383, 1384, 1385, 2768, 2769, 5000)] + [(1464, 1400), (1464, 1401), (4280, 4300)]
    for side, make in CALLS.items():
        for receive, size in sizes:
            out.append(Scenario(side).call(make(stub_of(size)), receive).case())
            out.append(Scenario(OTHER[side]).opens(sent_by(side, make(stub_of(size)), receive)).case())
        # with room, and sealed, by the context of the trailers, the number of the call and the operation
        for context in (0, 1, 0x01020304, 2**32 - 1):
            unit = request_of(stub_of(30), 0, 9, 6) if side == "requester" else response_of(stub_of(30), 2**32 - 1, 65535)
            out.append(Scenario(side).call(unit, context=context, confounder=b"").call(unit, context=context).case())
            out.append(Scenario(OTHER[side]).opens(sent_by(side, unit, context=context)).case())
        unit = make(bytes(20000))
        out.append(Scenario(side).call(unit, 1432, confounder=b"").call(unit, 1432).case())
        # of equal calls, and of equal fragments, each is sealed otherwise
        unit, end = make(bytes(2768)), End(KEY, side == "requester")
        out.append(Scenario(side).call(unit, 1432).call(unit, 1432).call(unit, 1432, confounder=SECOND).case())
        frames = sent_by(side, unit, 1432, end=end) + sent_by(side, unit, 1432, end=end)
        assert len(set(frames)) == 4
        out.append(Scenario(OTHER[side]).opens(frames).case())
        # another key
        out.append(Scenario(side, bytes(range(0xF0, 0x100))).call(make(b"a stub"), confounder=SMALL).case())
        # both directions on one end: each has numbers of its own
        here, there = Scenario(side), End(KEY, side != "requester")
        for size in (40, 1500, 0):
            here.call(make(stub_of(size)), 1432)
            here.opens(sent_by(OTHER[side], CALLS[OTHER[side]](stub_of(size + 3)), 1432, end=there))
        out.append(here.case())
    return out


def frame_cases():
    """Frames that are to be sealed: each has a value of 32 bytes at its end, whatever its trailer's kind and level."""
    good = call_frames(request_of(b"a stub"), LIMIT)
    other = write_unit({**request_of(b"another"), "trailer": (10, 5, 3, ROOM)})
    filled = write_unit({**response_of(b""), "trailer": (0, 0, 0, bytes(range(32)))})
    out = [Scenario().frames(good + good + [other]).case(), Scenario("responder").frames([filled]).case()]
    bad = [write_unit({**request_of(b"a stub"), "trailer": trailer}) for trailer in (None, VALUE, trailer_of(bytes(33)))]
    for frame in [*bad, write_unit(sealed_bind(1, ROOM)), good[0][:-1], b"x"]:
        # the end stands behind the frames that were sealed
        for frames in ([frame], good + [frame], good + good + [frame, other]):
            out.append(Scenario().frames(frames).call(request_of(b"next")).case())
    return out


def wanted(number):
    return f"Err(BadSequence {{ wanted: {number} }})"


def order_cases():
    """Units that come again, early, not at all, or from elsewhere; the right one is opened behind each."""
    out = []
    fault = {"hint": 0, "context": 0, "status": 5}
    for side, make in CALLS.items():
        here = lambda: Scenario(OTHER[side])
        first, second, third = sent_by(side, make(stub_of(4000)), 1432)
        # repeated, and reordered
        again = here().opens([first]).open(first, wanted(1)).opens([second]).open(first, wanted(2)).open(second, wanted(2))
        out.append(again.opens([third]).open(third, wanted(3)).case())
        early = here().open(second, wanted(0)).open(third, wanted(0)).opens([first]).open(third, wanted(1))
        out.append(early.opens([second, third]).case())
        # dropped: what comes behind it isn't opened any more
        out.append(here().opens([first]).open(third, wanted(1)).open(third, wanted(1)).case())
        # sent back to where it came from, of another channel, and far ahead
        out.append(Scenario(side).open(first, wanted(0)).case())
        out.append(here().open(sent_by(side, make(stub_of(9)), end=End(bytes(16), side == "requester"))[0], wanted(0)).opens([first]).case())
        for number in (256, 2**24, 2**31, 2**32 - 2):
            ahead = End(KEY, side == "requester")
            ahead.sent = number
            out.append(here().open(sent_by(side, make(b""), end=ahead)[0], wanted(0)).opens([first]).case())
        # without such a trailer, and what isn't sealed
        scene = here()
        for trailer in (None, (10, PRIVACY, OWN, ROOM), (PROVIDER, 5, OWN, ROOM), VALUE, trailer_of(bytes(16)), trailer_of(bytes(33))):
            scene.open(write_unit({**make(stub_of(8)), "trailer": trailer}), "Missing")
        for unit in (whole(FAULT, **fault), whole(FAULT, trailer=trailer_of(ROOM), **fault), whole(NAK, reason=0), sealed_bind(1, ROOM)):
            scene.open(write_unit(unit), "Nothing")
        out.append(scene.open(first[:40], "Nothing").opens([first, second, third]).case())
        # a signature of zeros, and that of another unit
        out.append(here().open(call_frames(make(b"a stub"), LIMIT)[0], "Err(BadAlgorithm)").case())
        one, other = sent_by(side, make(stub_of(16)))[0], sent_by(side, make(stub_of(24)))[0]
        out.append(here().open(one[:-32] + other[-32:], "Err(BadChecksum)").opens([one]).case())
    return out


def altered_cases():
    """Each byte of a sealed unit altered: none of them is opened, and the unit itself is, behind them."""
    out = []
    for side, make in CALLS.items():
        for size in (0, 13):
            frame = sent_by(side, make(stub_of(size)))[0]
            for mask in (0x01, 0x80, 0xFF):
                out.append(Scenario(OTHER[side]).altered(frame, mask).open(frame, "Ok(())").case())
        # the second fragment of a call
        frames = sent_by(side, make(stub_of(1390)), 1432)
        out.append(Scenario(OTHER[side]).opens(frames[:1]).altered(frames[1], 0x10).opens(frames[1:]).case())
    return out


def cases():
    """Each line and its answer."""
    return bind_cases() + name_cases() + ack_cases() + part_cases() + call_cases() + frame_cases() + order_cases() + altered_cases()
