"""Cases of channel_turns.

`turning.hear UNIT ..`: what each unit, by its bytes, comes to at an end that dialled the link: `waits`, `whole` and the
unit, or `broken` and the cause. Behind that the link is broken.
`turning.run SECRET COMPUTER ACCOUNT KIND CHALLENGES STEP ..`: a channel as in `turns.run` with the link of its turn,
the challenges that may be drawn (16 hex digits each, joined by commas, or `-`), and the steps one after the other.
Events: `next/PEER` (the next turn, for which that peer is dialled), `dialled/LINK`, `failed`, `closed/LINK`,
`bytes/LINK/BYTES`; each is answered with its actions in order, joined by commas, `-` where there are none, and then
how the turn ended, where it did: `half`, `opened`, `set`, `answer PLACE VERDICT` or `dropped PLACE CAUSE`, behind
`closes LINK CAUSE` where its link is still to be closed; or with the refusal, behind which no step is a case. The calls
that those rest on are answered likewise: `bind/LINK`, `serve/BYTES`, `lose`; and `start` with the bytes of the bind, or
`none`. `ask/..`, `secret/..` and `following/..` are as in `turns.run`, `at/MOMENT` sets the moment, which is 0 before,
and `tell/LINK` is answered with the link that is waited for, whether that is the link of the turn, whether a dial
waits, and the bytes that are held. The last answer is the number of challenges that are left.

The actions are those of the member's turn (`member_server.py`), by the rules of docs/FORMATS.md ("The member", "The
shared channel"), MS-NRPC 3.1.4 and C706 12.6.
"""

import channel_client
from end_links import text
from forms import line
from logon_stubs import plain_sam, write
from member_server import Asking, Member, Shut, Spent
from rpc_units import ACK, FAULT, NAK, NDR, REQUEST, RESPONSE, Joiner, Refused, shown, whole
from rpc_units import read as read_unit
from rpc_units import write as write_unit
from set_stubs import write_reply as write_set
from wire import changed, le, steps, truth

NOW = 133_000_000_000_000_000
GONE = "no such case"


class Telling(Asking):
    """The shared channel, and what it said of the unit that came last."""

    said = None

    def hear(self, unit):
        self.said = None
        self.said = super().hear(unit)
        return self.said


class Turning(Member):
    """The turn of a member without the member: how it ended is told in place of what follows."""

    def __init__(self, kind=2, **plan):
        super().__init__(**plan)
        self.channel = Telling(self.channel.secret, self.computer, kind)
        self.words = self.channel.words + [",".join(draw.hex() for draw in self.draws) or "-"]
        self.closes = self.how = None

    def case(self):
        return line("turning.run", *self.words), steps(self.answers + [str(len(self.draws))])

    def give_secrets(self):
        """The secrets are given by steps."""

    def replace(self, ended):
        """No secrets are kept."""

    def end_turn(self, cause):
        self.closes, self.turn_link = f"closes {self.turn_link} {cause}", None
        self.how = self.channel.said

    def tell(self, place, outcome):
        if outcome[0] == "none":
            self.how = f"dropped {place} {outcome[1]}"

    def step(self, word, run):
        self.words.append(word)
        self.actions, self.closes, self.how = [], None, None
        if self.stopped:
            self.answers.append(GONE)
            return self
        try:
            answer = run()
        except Spent:
            self.stopped, answer = True, "Err(Spent)"
        else:
            answer = answer or ",".join(self.shown(action) for action in self.actions) or "-"
        self.answers.append(" ".join(part for part in (answer, self.closes, self.how) if part))
        return self

    def ask(self, *texts, **logon):
        self.channel.ask(*texts, **logon)
        self.words.append(self.channel.words[-1])
        self.answers.append(self.channel.answers[-1])
        return self

    def give(self, word, give):
        self.words.append(word)
        if self.stopped:
            self.answers.append(GONE)
        else:
            give()
            self.answers.append(self.channel.answers[-1])
        return self

    def use_secret(self, secret):
        return self.give(f"secret/{secret.hex()}", lambda: self.channel.use_secret(secret))

    def set_next(self, secret):
        return self.give(f"following/{secret.hex()}", lambda: self.channel.set_next(secret))

    def told(self, link):
        self.words.append(f"tell/{link}")
        if self.stopped:
            self.answers.append(GONE)
            return self
        on = self.turn_link is not None
        wants = f"Some({self.turn_link})" if on else "None"
        held = len(self.turn_rest) + self.turn_joiner.size() if on else 0
        self.answers.append(f"{wants} {truth(self.turn_link == link)} {truth(self.bind is not None)} {held}")
        return self

    # events

    def next(self, peer=b"there"):
        self.controller = peer
        return self.step(f"next/{text(peer)}", self.start_turn)

    def dialled(self, link):
        return self.step(f"dialled/{link}", lambda: self.dial_comes(link))

    def failed(self):
        return self.step("failed", lambda: self.lose("DialFailed") if self.bind is not None else None)

    def closed(self, link):
        return self.step(f"closed/{link}", lambda: self.take_close(link))

    def bytes(self, data, link):
        return self.step(f"bytes/{link}/{text(data)}", lambda: self.comes(link, data))

    # the calls that they rest on

    def begin(self):
        """The bytes of the bind, for which nothing is dialled here."""
        before = self.bind
        self.start_turn()
        self.actions = []
        return "none" if self.bind is before else self.bind.hex()

    def start(self):
        return self.step("start", self.begin)

    def bind_on(self, link):
        return self.step(f"bind/{link}", lambda: self.dial_comes(link))

    def serve(self, data):
        return self.step(f"serve/{text(data)}", lambda: self.comes(self.turn_link, data))

    def give_up(self):
        return self.step("lose", lambda: self.lose("QueueFull"))


class ByCalls(Turning):
    """The same without events."""

    def next(self, peer=b"there"):
        return self.start()

    def dialled(self, link):
        return self.bind_on(link)

    def bytes(self, data, link):
        return self.serve(data)


ENDS = (Turning, ByCalls)


# ---- what a peer sends


def ack(end, receive=4280, **fields):
    return write_unit(channel_client.ack_of(end.channel.turn["number"], receive, ((0, 0, NDR),), **fields))


def reply(end, fields):
    turn = end.channel.turn
    stub = write_set(**fields) if turn["opnum"] == channel_client.SET else write("reply", turn["opnum"], fields).stub
    return write_unit(channel_client.response_of(turn["number"], stub))


def good(end, **verdict):
    """The reply that is due."""
    turn, channel = end.channel.turn, end.channel
    if turn["opnum"] == channel_client.CHALLENGE:
        return reply(end, {"challenge": bytes.fromhex("2021222324252627"), "status": 0})
    if turn["opnum"] == channel_client.AUTHENTICATE:
        return reply(end, channel.right())
    if turn["opnum"] == channel_client.SET:
        return reply(end, channel.confirmed())
    return reply(end, channel.verdict(**verdict))


def fragments(data):
    """A response in two fragments."""
    unit = read_unit(data)
    at = len(unit["stub"]) // 16 * 8
    return [write_unit({**unit, **part}) for part in ({"last": False, "stub": unit["stub"][:at]}, {"first": False, "stub": unit["stub"][at:]})]


# ---- scenarios


def turn(end, link, **verdict):
    """A turn from its dial to its end."""
    end.next().told(link).dialled(link).told(link).bytes(ack(end), link)
    return end.bytes(good(end, **verdict), link).told(link)


def opened(make, **plan):
    """An end whose channel is open; two logons wait."""
    end = make(**plan).at(NOW).ask(user="one").ask(user="two")
    turn(end, 7)
    return turn(end, 8)


def logon_cases():
    """Two logons on one channel, from the first bind to both verdicts."""
    out = []
    for make in ENDS:
        end = opened(make)
        turn(end, 9, status=0, info=plain_sam(key=bytes(range(16))))
        turn(end, 9)
        out.append(end.next().told(9).case())
        # what comes behind the end of a turn isn't read
        end = opened(make).next().dialled(9)
        data = ack(end)
        end.bytes(data, 9)
        out.append(end.bytes(good(end) + data, 9).next().case())
        # each reply in two fragments, and each byte by itself
        end = opened(make).next().dialled(9).bytes(ack(end, 1432), 9)
        data = fragments(good(end, status=0, info=plain_sam()))
        for piece in (data[0], data[1][:30], b"", data[1][30:]):
            end.bytes(piece, 9).told(9)
        out.append(end.case())
        end = make(kind=6).at(NOW).ask().next().dialled(0)
        for byte in ack(end):
            end.bytes(bytes([byte]), 0)
        out.append(end.told(0).told(1).bytes(good(end), 0).case())
        # a request that goes out in fragments
        end = make(computer="A" * 64).at(NOW).ask("d" * 300, "u" * 300, "w" * 300, "ff" * 8, "01" * 4000, "02" * 500)
        turn(end, 3)
        turn(end, 3)
        out.append(end.next().dialled(4).bytes(ack(end, 1432), 4).case())
    return out


def change_cases():
    """A change of the secret: confirmed, denied, and with a reply that is lost."""
    out = []
    for make in ENDS:
        end = opened(make).set_next(channel_client.NEW)
        turn(end, 9)
        turn(end, 9)
        out.append(end.next().told(9).case())
        # each byte of the reply by itself
        end = opened(make).set_next(channel_client.NEW).next().dialled(9)
        end.bytes(ack(end), 9)
        for byte in good(end):
            end.bytes(bytes([byte]), 9)
        out.append(end.told(9).next().case())
        # denied: the next turn opens the channel by another secret, and asks the change again
        end = opened(make).set_next(channel_client.NEW).next().dialled(9)
        end.bytes(ack(end), 9)
        end.bytes(reply(end, end.channel.confirmed(status=channel_client.ACCESS_DENIED)), 9).use_secret(channel_client.NEW)
        for link in (10, 11, 12):
            turn(end, link)
        out.append(end.next().case())
    end = opened(Turning).set_next(channel_client.NEW).next().dialled(9)
    out.append(end.bytes(ack(end), 9).closed(9).next().dialled(10).case())
    return out


def cause_cases():
    """Units that end the turn by a cause of the channel, units that it skips, and units that break the link."""
    out = []
    for make in ENDS:
        for before in (lambda: make().at(NOW).ask().next().dialled(7), lambda: opened(make).next().dialled(7)):
            number = before().channel.turn["number"]
            for unit in (whole(NAK, call=number, reason=0), whole(FAULT, call=number, hint=0, context=0, status=5)):
                out.append(before().bytes(write_unit(unit), 7).told(7).next().case())
            # another number, and then the right one in the same piece
            other = write_unit(whole(FAULT, call=number + 9, hint=0, context=0, status=5))
            end = before()
            out.append(end.bytes(other + ack(end) + other, 7).told(7).case())
            end = before()
            end.bytes(ack(end), 7)
            denied = {"challenge": bytes(8), "status": channel_client.ACCESS_DENIED}
            denied = denied if end.channel.turn["opnum"] == channel_client.CHALLENGE else end.channel.verdict(status=channel_client.ACCESS_DENIED)
            out.append(end.bytes(reply(end, denied), 7).next().case())
            # no unit, and one that has no place
            part = whole(RESPONSE, call=number, hint=0, context=0, stub=bytes(8))
            first = write_unit({**part, "last": False})
            good_unit = ack(before())
            for piece in (b"\x04" + good_unit[1:], changed(good_unit, 8, le(15, 2)), good_unit[:20] + b"\xff" * 60, write_unit({**part, "first": False}), first + first, other + b"\x04" * 16):
                out.append(before().bytes(piece, 7).told(7).next().case())
    # a reply that is too long
    end = Turning().at(NOW).ask().next().dialled(7)
    for place in range(12):
        part = whole(RESPONSE, call=1, hint=0, context=0, stub=bytes(5800))
        end.bytes(write_unit({**part, "last": False, "first": place == 0}), 7).told(7)
    out.append(end.case())
    return out


def event_cases():
    """Links that open, fail and close, the turn's and others."""
    out = []
    waits = lambda: Turning().at(NOW).ask().ask().next(b"here").told(0)
    on = lambda: waits().dialled(5).told(5)
    # where no turn is out nothing comes of them
    out.append(Turning().next().dialled(1).failed().closed(1).bytes(b"x", 1).told(1).ask().told(0).case())
    # a dial that waits
    out.append(waits().next().closed(0).bytes(b"x", 0).failed().told(0).failed().next().told(0).case())
    # the turn's link
    out.append(on().next().failed().dialled(6).closed(6).bytes(b"\x04" * 16, 6).bytes(b"\x05", 5).told(5).closed(5).closed(5).told(5).next().dialled(5).told(5).case())
    out.append(on().bytes(b"\x05\x00", 5).closed(5).next(b"").dialled(2**32 - 1).told(2**32 - 1).closed(2**32 - 1).next().case())
    # of an open channel; a turn that is lost leaves none, and the next one draws
    for end in (opened(Turning).next().failed(), opened(Turning).next().dialled(7).closed(7)):
        out.append(end.told(7).next().dialled(8).bytes(ack(end), 8).case())
    # no challenge is left, where one is needed and where none is
    out.append(Turning(draws=()).next().ask().next().next().told(0).case())
    out.append(Turning(draws=()).at(NOW).ask().start().start().case())
    out.append(opened(Turning, draws=["10" * 8]).next().dialled(9).closed(9).next().case())
    # the timestamp of that moment
    for moment in (0, NOW, 2**64 - 1):
        end = opened(Turning).at(moment).next().dialled(9)
        out.append(end.bytes(ack(end), 9).case())
    return out


def call_cases():
    """The calls that those for events rest on."""
    begun = lambda: ByCalls().at(NOW).ask().ask().start()
    out = [ByCalls().start().ask().start().start().case(), begun().give_up().start().told(0).case()]
    end = begun().bind_on(3)
    out.append(end.serve(ack(end)[:20]).told(3).give_up().told(3).start().case())
    end = opened(ByCalls).start().bind_on(9)
    out.append(end.serve(ack(end)).give_up().start().case())
    return out


def heard(data, joiner):
    """What a unit comes to."""
    try:
        unit = read_unit(data)
    except Refused:
        return "broken BadUnit"
    try:
        joined = joiner.add(unit)
    except Refused as refused:
        return "broken " + ("TooMuchHeld" if str(refused) == "CallTooLong" else "OutOfPlace")
    return "waits" if joined is None else f"whole {shown(joined)}"


def hear_case(*units):
    joiner, answers = Joiner(), []
    for data in units:
        broken = answers and (answers[-1].startswith("broken") or answers[-1] == GONE)
        answers.append(GONE if broken else heard(data, joiner))
    return line("turning.hear", *units), steps(answers)


def hear_cases():
    part = whole(RESPONSE, call=4, hint=16, context=0, stub=b"\x01" * 8)
    first, middle, last = ({"last": False}, {"first": False, "last": False}, {"first": False})
    first, middle, last = (write_unit({**part, **flags}) for flags in (first, middle, last))
    only, other = write_unit(part), write_unit({**part, "call": 5, "first": False})
    request = write_unit(whole(REQUEST, call=4, hint=0, context=1, opnum=2, stub=b"\x02"))
    nak = write_unit(whole(NAK, call=4, reason=2))
    bind_ack = write_unit(whole(ACK, call=1, send=4280, receive=4280, group=1, results=[(0, 0, NDR)]))
    full = {"hint": 0, "stub": bytes(5800)}
    return [
        hear_case(only, nak, bind_ack, request),
        hear_case(first, last, first, middle, last, only),
        hear_case(first, other, only),
        hear_case(first, only, only),
        hear_case(last, only),
        hear_case(first, nak),
        hear_case(only, changed(only, 0, b"\x04"), only),
        hear_case(first, changed(last, 8, le(9, 2))),
        hear_case(only[:20]),
        hear_case(write_unit({**part, **full, "last": False}), *[write_unit({**part, **full, "first": False, "last": False})] * 11, only),
    ]


def cases():
    """Each line and its answer."""
    return hear_cases() + logon_cases() + change_cases() + cause_cases() + event_cases() + call_cases()
