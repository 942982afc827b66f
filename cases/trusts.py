"""Cases of domain_controller with trusts.

`controller.trusts DOCUMENT NAME CHALLENGES STEP ..`: as `controller.run`, of a controller that asks the controllers of
the table's trusted domains; `wants` is answered with the link of the turn.

The actions are worked out here by the rules of docs/FORMATS.md ("The controller", "The shared channel"): the controller
of `domain_controller.py` with an end of `channel_client.py` for each trusted domain. In the other domain's place stands
such a controller too, whose table has this domain's account.
"""

import copy

import domain_controller
from channel_client import Dropped, crypted, frames_of
from documents import ANN, BOB, FILE1, FILE2, NORTH, PDC2
from domain_controller import ACCESS_DENIED, CHANNELS, DRAWS, EXTRA_SIDS, LEVELS, NOW, Controller, Shut, Spent, same, upper, utf16
from forms import line
from logon_stubs import AUTHENTICATE, LOGON, write
from member_server import Asking, answer_of_controller
from rpc_units import LIMIT, RESPONSE, Joiner, Refused, header, short, whole
from rpc_units import read as read_unit
from sam_logon import STATUS
from wire import steps

NO_LOGON_SERVERS = 0xC000005E
# The channels whose logons are handed on: those of workstations and of backup controllers.
HANDS_ON = (2, 6)
# The most bytes of a logon's texts and responses that is handed on.
MOST = 57_000

ROAM = {"domain": "ROAM", "hash": "51" * 16, "address": "10.0.0.2:135"}
THIRD = {"domain": "THIRD", "hash": "52" * 16, "address": "10.0.0.3:135"}
# The other domain: its head, its account for this one, and its user.
ROAM_HEAD = {"domain": "ROAM", "sid": "S-1-5-21-4-5-6"}
CORP = {"name": "CORP$", "kind": "trust", "hash": "51" * 16, "controllers": ["PDC1"]}
SAM = {"name": "sam", "rid": 1001, "hash": "44" * 16}
ROAM_DRAWS = [f"{place:02x}" * 8 for place in range(0xA0, 0xB0)]
OWN_DRAWS = [f"{place:02x}" * 8 for place in range(0x10, 0x20)]


class Trusting(Controller):
    """The controller by its rules, with its trusts."""

    def __init__(self, challenges=OWN_DRAWS, trusts=(ROAM,), machines=(FILE1, FILE2, PDC2, NORTH), **how):
        super().__init__(challenges=challenges, trusts=trusts, machines=machines, **how)
        self.trusts = trusts
        self.requesters = [self.requester(trust) for trust in trusts]
        # the logons that were asked: the trust and the place, where the answer goes, and what it needs
        self.forwarded = []
        # the turn that is out: the bind that waits for its link, or the link
        self.turn_of, self.bind, self.turn_link, self.turn_rest, self.turn_joiner = 0, None, None, b"", None

    def requester(self, trust):
        asking = Asking(bytes.fromhex(trust["hash"]), self.name, 4)
        asking.account = utf16(self.head["domain"] + "$")
        return asking

    def case(self):
        return line("controller.trusts", *self.words), steps(self.answers + [str(len(self.draws))])

    # calls

    def authenticate(self, call):
        reply = super().authenticate(call)
        if reply["status"] == 0:
            self.channels[upper(call["computer"])]["kind"] = call["channel"]
        return reply

    def trust_for(self, call):
        """The trust whose controller is asked for the logon that passed; else None."""
        if "challenge" not in call["info"] or call["validation"] not in LEVELS:
            return None
        domain = call["info"]["domain"]
        if self.channels[upper(call["computer"])]["kind"] not in HANDS_ON or not domain or same(domain, utf16(self.head["domain"])):
            return None
        return next((place for place, trust in enumerate(self.trusts) if same(domain, utf16(trust["domain"]))), None)

    def whole_call(self, link, unit):
        self.line = link, unit["call"], unit["context"], self.links[link]["bound"][1]
        return super().whole_call(link, unit)

    def reply(self, link, number, context, limit, opnum, fields):
        if fields is not None:
            super().reply(link, number, context, limit, opnum, fields)

    def logon(self, call):
        computer, before = call["computer"], len(self.actions)
        channel = None if computer is None else self.channels.get(upper(computer))
        stood = copy.copy(channel)
        passed = self.passes(call)
        trust = None if passed is None else self.trust_for(call)
        if trust is None:
            del self.actions[before:]
            if channel is not None:
                channel.update(stood)
            return super().logon(call)
        key, returned = passed
        info = call["info"]
        answer = None
        if sum(len(info[part]) for part in ("domain", "user", "workstation", "nt", "lm")) <= MOST:
            answer = self.requesters[trust].let_wait(info)
        kept = {"key": key, "returned": returned, "validation": call["validation"]}
        if answer is None or answer == "Err(QueueFull)":
            self.actions.append(f"judged Passed({NO_LOGON_SERVERS})")
            return self.verdict_reply(kept, NO_LOGON_SERVERS, None)
        self.actions.append("judged Forwarded")
        self.forwarded.append((trust, int(answer[3:-1]), self.line, kept))
        return None

    @staticmethod
    def verdict_reply(kept, status, info):
        if info is not None:
            info = info | {"key": crypted(kept["key"], info["key"])}
            if kept["validation"] == 2:
                info |= {"extra": [], "user_flags": info["user_flags"] & ~EXTRA_SIDS}
        return {"returned": (kept["returned"], 0), "level": kept["validation"], "info": info, "authoritative": 1, "status": status}

    def answer_place(self, place, status, info=None):
        """The logon of that place at the turn's trust has this verdict."""
        for entry in self.forwarded:
            trust, at, where, kept = entry
            if (trust, at) == (self.turn_of, place):
                self.forwarded.remove(entry)
                self.actions.append(f"judged Answered({status})")
                if where is not None:
                    self.reply(*where, LOGON, self.verdict_reply(kept, status, info))
                return

    def forget(self, link):
        """Answers to that link go nowhere."""
        self.forwarded = [(trust, place, None if where and where[0] == link else where, kept) for trust, place, where, kept in self.forwarded]

    # the turn

    def start_turn(self):
        if self.bind is not None or self.turn_link is not None:
            return
        for place, asking in enumerate(self.requesters):
            if asking.waiting:
                if asking.client is None and not self.draws:
                    raise Spent
                challenge = self.draws.pop(0) if asking.client is None else bytes(8)
                asking.start((self.now // 10_000_000 - 11_644_473_600) % 2**32, challenge.hex())
                self.turn_of, self.bind = place, bytes.fromhex(asking.answers[-1])
                self.actions.append(f"dial {self.trusts[place]['address'].encode().hex()}")
                return

    def lose(self):
        asking = self.requesters[self.turn_of]
        place = asking.turn["place"]
        asking.drop()
        self.bind = self.turn_link = None
        self.answer_place(place, NO_LOGON_SERVERS)

    def end_turn(self, cause):
        self.actions.append(f"close {self.turn_link} {cause}")
        self.turn_link = None

    def turn_unit(self, data):
        asking = self.requesters[self.turn_of]
        try:
            unit = read_unit(data)
        except Refused:
            raise Shut("BadUnit") from None
        try:
            unit = self.turn_joiner.add(unit)
        except Refused as refused:
            raise Shut("TooMuchHeld" if str(refused) == "CallTooLong" else "OutOfPlace") from None
        if unit is None:
            return
        place = asking.turn["place"]
        try:
            answer = asking.hear(unit)
        except Dropped:
            asking.drop()
            self.end_turn("CallDone")
            self.answer_place(place, NO_LOGON_SERVERS)
            return
        if answer.startswith("next "):
            self.send(self.turn_link, b"".join(bytes.fromhex(frame) for frame in answer[5:].split(",")))
        elif answer != "skip":
            self.end_turn("CallDone")
            if answer.startswith("answer"):
                status = answer.split(" ", 2)[2]
                granted = status.startswith("Granted")
                self.answer_place(place, 0 if granted else int(status[7:-1]), asking.verdict_info if granted else None)

    def turn_piece(self, data):
        self.turn_rest += data
        while self.turn_link is not None and len(self.turn_rest) >= 16:
            try:
                header(self.turn_rest, False)
            except Refused:
                raise Shut("BadUnit") from None
            size = short(self.turn_rest, 8)
            if len(self.turn_rest) < size:
                return
            unit, self.turn_rest = self.turn_rest[:size], self.turn_rest[size:]
            self.turn_unit(unit)

    # events

    def take_close(self, link):
        if self.turn_link == link:
            self.lose()
        else:
            self.links.pop(link, None)
            self.forget(link)

    def open(self, link):
        self.take_close(link)
        super().open(link)

    def dial_comes(self, link):
        if self.bind is None:
            return
        self.take_close(link)
        bind, self.bind = self.bind, None
        self.turn_link, self.turn_rest, self.turn_joiner = link, b"", Joiner()
        self.send(link, bind)

    def event(self, word, run=lambda: None):
        def run_and_start():
            run()
            self.start_turn()

        return super().event(word, run_and_start)

    def closed(self, link=1):
        return self.event(f"closed/{link}", lambda: self.take_close(link))

    def dialled(self, link):
        return self.event(f"dialled/{link}", lambda: self.dial_comes(link))

    def failed(self):
        return self.event("failed", lambda: self.lose() if self.bind is not None else None)

    def bytes(self, data, link=1):
        def run():
            try:
                if link == self.turn_link:
                    self.turn_piece(data)
                elif link in self.links:
                    self.piece(link, data)
            except Shut as cause:
                if link == self.turn_link:
                    self.end_turn(str(cause))
                    self.lose()
                else:
                    self.actions.append(f"close {link} {cause}")
                    self.take_close(link)

        return self.event(f"bytes/{link}/{data.hex() or '-'}", run)

    def wants(self):
        self.words.append("wants")
        self.answers.append("None" if self.turn_link is None else f"Some({self.turn_link})")
        return self

    # what is done beside it

    def dials(self):
        return any(action.startswith("dial ") for action in self.actions)

    def roams(self, user="sam", domain="ROAM", link=1, number=2, **fields):
        """A logon of a user of another domain, with the right response."""
        secret, challenge = bytes.fromhex(SAM["hash"]), bytes.fromhex("0123456789abcdef")
        info = {"domain": utf16(domain), "nt": domain_controller.response_v1(secret, challenge)} | fields.pop("info", {})
        return self.logs_on(user, link, number, info=info, **fields)


def begun(**how):
    """A controller on whose link 1 FILE1 has a channel."""
    return Trusting(**how).at(NOW).bound().channel_open()


def other(users=(SAM,), machines=(CORP,), head=None, challenges=ROAM_DRAWS, name="RDC", **how):
    """The controller of the other domain."""
    return Controller(users=users, machines=machines, head=ROAM_HEAD if head is None else head, challenges=challenges, name=name, **how).at(NOW)


def hop(end, there, link):
    """A turn on a link to the other controller, to its end."""
    end.dialled(link)
    there.opened(link)
    while answer_of_controller(end, link):
        there.bytes(answer_of_controller(end, link), link)
        end.bytes(answer_of_controller(there, link), link)
    there.closed(link)


def hops(end, there, link=100, most=None):
    """Turns, as long as the controller dials; at most so many."""
    while end.dials() and most != 0:
        hop(end, there, link)
        link, most = link + 1, None if most is None else most - 1
    return link


# ---- scenarios


def route_cases():
    out = []
    # R17a: of one who may, by level, from each channel that hands on; and of others who may not
    for users in ((SAM,), (SAM | {"disabled": True},), (SAM | {"extra_sids": ["S-1-5-9"]},), (SAM | {"hash": "45" * 16},), ()):
        for validation in LEVELS:
            end, there = begun(), other(users=users)
            hops(end.roams(validation=validation), there)
            out += [end.case(), there.case()]
            assert "judged Forwarded" in end.answers[5]
    assert "judged Answered(0),send 1" in out[0][1]
    # again on the open channel
    end, there = begun(), other()
    link = hops(end.roams(), there)
    hops(end.roams(timestamp=1_700_000_001), there, link)
    out += [end.case(), there.case()]
    # R17c, and the domain's own
    for domain in ("NOWHERE", "CORP", "", "roam", "Roam"):
        out.append(begun().roams(domain=domain).case())
    # R17d: a trust's channel, and the other two
    for computer, account, channel in (("NDC1", "NORTH$", 4), ("PDC2", "PDC2$", 6), ("FILE1", "FILE1$", 2)):
        end = Trusting().at(NOW).bound().channel_open(computer, account=utf16(account), channel=channel)
        out.append(end.roams(computer=computer).case())
        assert ("judged Forwarded" in end.answers[-1]) == (channel != 4)
    # levels that aren't served, and calls that don't pass
    for validation in (4, 0, 6):
        out.append(begun().roams(validation=validation).case())
    out.append(Trusting().at(NOW).bound().roams().case())
    end = begun()
    call = end.logon_call("sam", info={"domain": utf16("ROAM")})
    out.append(end.call(LOGON, call | {"authenticator": (b"\x33" * 8, 7)}).call(LOGON, call).case())
    # an interactive logon of the other domain is judged here
    out.append(begun().logs_on_at("sam", info={"domain": utf16("ROAM")}).case())
    # what a controller without trusts says of it
    end = Trusting(trusts=()).at(NOW).bound().channel_open().roams()
    out.append(end.case())
    return out


def turn_cases():
    out = []
    # two trusts, one after the other, asked in the other order; and two at one address
    for third in (THIRD, THIRD | {"address": ROAM["address"]}):
        end, roam = begun(trusts=(ROAM, third)), other()
        there = other(head={"domain": "THIRD", "sid": "S-1-5-21-7-8-9"}, machines=(CORP | {"hash": "52" * 16},), name="TDC")
        end.roams(domain="THIRD").roams(number=3, timestamp=1).roams(domain="THIRD", number=4, timestamp=2)
        link, to = 100, there
        while end.dials() or end.bind is not None:
            hop(end, [roam, there][end.turn_of], link)
            link += 1
        out += [end.case(), roam.case(), there.case()]
    # a turn is lost: the dial fails, the link closes at each place, its number is opened anew
    for lost in (lambda end, link: end.failed(), lambda end, link: end.dialled(link).closed(link), lambda end, link: end.dialled(link).opened(link)):
        for before in range(3):
            end, there = begun().roams(), other()
            link = hops(end, there, most=before)
            lost(end.wants(), link)
            hops(end.wants().roams(number=3, timestamp=5), there, link + 1)
            out += [end.wants().case(), there.case()]
    # R17b: the reply is lost, and the link shut
    end, there = begun().roams(), other()
    link = hops(end, there, most=2)
    end.dialled(link).wants()
    there.opened(link).bytes(answer_of_controller(end, link), link)
    end.bytes(answer_of_controller(there, link), link)
    there.bytes(answer_of_controller(end, link), link)
    out += [end.closed(link).wants().case(), there.case()]
    assert end.answers[-2].startswith(f"judged Answered({NO_LOGON_SERVERS}),send 1 ")
    # the other controller says no: no channel, a wrong secret, another domain
    for how in ({"machines": ()}, {"machines": (CORP | {"hash": "99" * 16},)}, {"head": {"domain": "ELSE", "sid": "S-1-5-21-4-5-6"}}):
        end, there = begun().roams(), other(**how)
        hops(end, there)
        out += [end.case(), there.case()]
    # units that are none, in pieces
    for data in (b"\x04" * 16, bytes.fromhex("05000c03100000001000000001000000"), b"\x05"):
        out.append(begun().roams().dialled(100).bytes(data, 100).bytes(data, 100).case())
    # no challenge is left for the turn
    end = begun(challenges=OWN_DRAWS[:1]).roams().wants()
    out.append(end.opened(2).case())
    # a dial that nobody waits for, and a link that is dialled under an accepted one's number
    out.append(begun().dialled(7).failed().roams().dialled(1).roams(number=3, timestamp=1).case())
    return out


def line_cases():
    out = []
    # the link of the call closes while it waits, and its number comes again
    for again in (False, True):
        end, there = begun().roams().closed(1), other()
        if again:
            end.bound()
        link = 100
        while end.bind is not None:
            hop(end, there, link)
            link += 1
        out += [end.case(), there.case()]
    for shut in (lambda end: end.closed(1), lambda end: end.opened(1), lambda end: end.bytes(b"\x04" * 16, 1), lambda end: end.closed(1).bound(1)):
        end, there = begun().roams(), other()
        hop(end, there, 100)
        hop(end, there, 101)
        shut(end)
        hop(end, there, 102)
        out += [end.case(), there.case()]
    # calls of two links, one of which closes
    end, there = begun().bound(2).channel_open("FILE2", 2), other()
    end.roams().roams(computer="FILE2", link=2, number=9).closed(1)
    link = 100
    while end.bind is not None:
        hop(end, there, link)
        link += 1
    out += [end.case(), there.case()]
    # the same bytes twice: the second is barred before the first is answered
    end, there = begun(), other()
    call = end.logon_call("sam", info={"domain": utf16("ROAM"), "nt": domain_controller.response_v1(bytes.fromhex(SAM["hash"]), bytes.fromhex("0123456789abcdef"))})
    end.call(LOGON, call).call(LOGON, call)
    link = 100
    while end.bind is not None:
        hop(end, there, link)
        link += 1
    out += [end.case(), there.case()]
    # in fragments of what the link agreed on
    end, there = Trusting().at(NOW).bound(receive=1432).channel_open(), other(users=(SAM | {"groups": list(range(1, 250))},))
    hops(end.roams(), there)
    out += [end.case(), there.case()]
    return out


def full_cases():
    out = []
    # 64 wait, one more doesn't; logons that are too long to be handed on
    end = begun()
    for place in range(65):
        end.roams(number=2 + place, timestamp=place)
    assert f"judged Passed({NO_LOGON_SERVERS})" in end.answers[-1] and "judged Forwarded" in end.answers[-2]
    out.append(end.case())
    for size in (28_000, 28_400, 28_600, 30_000):
        end = begun().roams(info={"workstation": utf16("w" * size)})
        out.append(end.case())
    for size in (56_900, 57_000, 60_000):
        end = begun().roams(info={"nt": bytes(size)})
        out.append(end.case())
    # texts of any length are handed back
    for level in LEVELS:
        end, there = begun().roams(validation=level), other()
        hop(end, there, 100)
        hop(end, there, 101)
        end.dialled(102)
        asking = end.requesters[0]
        there.opened(102).bytes(answer_of_controller(end, 102), 102)
        end.bytes(answer_of_controller(there, 102), 102)
        info = there.granted(dict(domain_controller.USER_DEFAULTS) | SAM, bytes(range(16)), 0) | {"full_name": utf16("f" * 20_000), "extra": [((5, [9]), 7)] * 256, "user_flags": EXTRA_SIDS}
        stub = write("reply", LOGON, {"returned": (asking.awaited, 0), "level": 3, "info": info, "authoritative": 1, "status": 0}).stub
        unit = whole(RESPONSE, call=asking.turn["number"], hint=len(stub), context=0, stub=stub)
        end.bytes(b"".join(frames_of(unit, LIMIT)), 102)
        out.append(end.case())
        assert "judged Answered(0),send 1" in end.answers[-1]
    return out


def cases():
    yield from route_cases()
    yield from turn_cases()
    yield from line_cases()
    yield from full_cases()
