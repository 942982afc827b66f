"""Cases of logon_client.

`client.run SERVER DOMAIN USER WORKSTATION HASH LEVEL KIND ECHO CHALLENGES STEP ..`: a client of this plan (texts of
16-bit units, KIND `v1`, `v1ess` or
`v2`), the challenges that may be drawn (16 hex digits each, joined by commas, or `-`), and its events one after the
other: `opened/LINK`,
`bytes/LINK/BYTES`, `closed/LINK`, `dialled/LINK`, `failed`, `stop`; `at/MOMENT` sets the moment, which is 0 before. The
first answer is what it begins with. An event is answered with its actions in order, joined by commas, `-` where there
are none, or with the refusal; a moment with `-`. The last answers are its outcome and the number of challenges that are
left.

The actions are worked out here by the rules of docs/FORMATS.md ("The client"), MS-NLMP 3.1.5 and 3.3 and the layouts of
C706 12.6, beside a server that answers by the same rules; each of its answers is also changed in each way that makes it
wrong.
"""

import hashlib

from channel_client import frames_of
from end_links import MEMO, text
from forms import array, line, struct, units_of
from memo_stubs import echo as read_echo
from memo_stubs import status as read_status
from memo_stubs import write as write_memo
from ndr_codec import Reader
from ndr_codec import Refused as NdrRefused
from ntlm_messages import Refused as MessageRefused
from ntlm_messages import read as read_message
from ntlm_messages import read_pairs, write_pairs
from ntlm_messages import write as write_message
from rpc_units import ACK, AUTH3, BIND, FAULT, LIMIT, NAK, NDR, NONE, REQUEST, RESPONSE, Joiner, Refused, header, short, whole
from rpc_units import read as read_unit
from rpc_units import write as write_unit
from sessions import (
    ESS, INTEGRITY, KEY_EXCH, NTLM, NTLMSSP, PRIVACY, UNICODE, Rc4, Session, base_key, check_formulas, desl, exchange_key, protected, respond_v2, taken,
)
from wire import changed, le, steps

OFFERED, OFFERED_V1 = 0xE0088235, 0xE0008235
ANSWERED, TARGET_FLAGS = 0xE0088235, 0x00810000
NO_CONTROLLER = 0x6BA
WHO_AM_I, ECHO = 0, 1
END_PAIR = bytes(4)
DRAWS = ["1011121314151617", "2021222324252627", "3031323334353637", "4041424344454647"]
NOW = 133_000_000_000_000_000


def utf16(value):
    return value.encode("utf-16-le")


def who(stub):
    """The name of WhoAmI's reply, as 16-bit units."""
    reader = Reader(stub)
    name = reader.text()
    read_status(reader)
    return name


def echoed(stub):
    """The bytes of Echo's reply."""
    reader = Reader(stub)
    data = read_echo(reader)
    read_status(reader)
    return data


def message_of(kind, flags, **fields):
    names = {"negotiate": ["Domain", "Workstation"], "challenge": ["Target", "Info"], "authenticate": ["Lm", "Nt", "Domain", "User", "Workstation", "Key"]}
    found = {name: b"" for name in names[kind]} | {"flags": flags, "version": None, "mic": None} | fields
    return write_message(kind, found)


class Ended(Exception):
    """The client has this outcome."""


class Spent(Exception):
    """No challenge is left."""


class Client:
    """The client by its rules, and the line that is written of its steps."""

    def __init__(self, level=PRIVACY, kind="v2", echo=16, user="ann", domain="CORP", workstation="WS", secret="11" * 16, draws=DRAWS, server=b"here"):
        self.level, self.kind, self.echo = level, kind, echo
        self.user, self.domain, self.workstation, self.secret = utf16(user), utf16(domain), utf16(workstation), bytes.fromhex(secret)
        self.draws, self.now, self.stopped = [bytes.fromhex(each) for each in draws], 0, False
        self.state, self.link, self.rest, self.joiner, self.outcome = "dialling", None, b"", Joiner(), None
        self.session = self.exported = self.name = None
        self.actions = []
        self.words = [server, self.domain, self.user, self.workstation, secret, level, kind, echo, ",".join(draws) or "-"]
        self.answers = [f"dial {text(server)}"]

    def case(self):
        return line("client.run", *self.words), steps(self.answers + [self.outcome or "None", str(len(self.draws))])

    def offer(self):
        return OFFERED_V1 if self.kind == "v1" else OFFERED

    def send(self, data):
        self.actions.append(f"send {self.link} {data.hex()}")

    def draw(self):
        if not self.draws:
            raise Spent
        return self.draws.pop(0)

    # the bind and its answer

    def bind(self):
        message = message_of("negotiate", self.offer())
        unit = whole(BIND, call=1, send=LIMIT, receive=LIMIT, group=0, contexts=[(0, MEMO, [NDR])], trailer=(NTLMSSP, self.level, 1, message))
        self.state = "bound"
        self.send(write_unit(unit))

    def judge_ack(self, unit):
        if unit["results"] and unit["results"][0][0]:
            raise Ended(f"Refused(Rejected({unit['results'][0][1]}))")
        if not unit["results"] or unit["trailer"] is None:
            raise Ended("BadPeer(BadMessage)")
        try:
            found = read_message("challenge", unit["trailer"][3])
            pairs = read_pairs(found["Info"]) if found["Info"] else []
        except MessageRefused:
            raise Ended("BadPeer(BadMessage)") from None
        flags = found["flags"]
        if not flags & UNICODE or not flags & NTLM or not flags & ESS and (self.level in (INTEGRITY, PRIVACY) or self.kind == "v1ess"):
            raise Ended("Refused(WeakOffer)")
        self.answer(found, pairs, unit["receive"])

    def answer(self, found, pairs, receive):
        flags, challenge, client = self.offer() & found["flags"], found["challenge"], self.draw()
        if self.kind == "v1":
            nt = lm = desl(self.secret, challenge)
            base = base_key(self.secret, b"", b"", challenge, nt)
        elif self.kind == "v1ess":
            hashed = hashlib.md5(challenge + client).digest()[:8]
            nt, lm = desl(self.secret, hashed), client + bytes(16)
            base = base_key(self.secret, b"", b"", hashed, nt)
        else:
            times = [value for number, value in pairs if number == 7]
            time = int.from_bytes(times[0], "little") if times else self.now
            nt, lm = respond_v2(self.secret, self.user, self.domain, challenge, time, client, found["Info"] or END_PAIR), bytes(24)
            base = base_key(self.secret, self.user, self.domain, challenge, nt)
        key, self.exported = b"", exchange_key(base, flags, challenge, lm, nt)
        if flags & KEY_EXCH:
            exchange, self.exported = self.exported, self.draw() + self.draw()
            key = Rc4(exchange).crypt(self.exported)
        message = message_of("authenticate", flags, Lm=lm, Nt=nt, Domain=self.domain, User=self.user, Workstation=self.workstation, Key=key)
        try:
            auth = write_unit(whole(AUTH3, call=1, trailer=(NTLMSSP, self.level, 1, message)))
        except Refused:
            raise Ended("BadPeer(BadMessage)") from None
        self.session, self.limit, self.state = Session(self.exported, flags, "client"), max(1432, min(LIMIT, receive)), "asked"
        self.send(auth)
        self.request(2, WHO_AM_I, b"")

    # calls

    def request(self, call, opnum, stub):
        unit = whole(REQUEST, call=call, hint=len(stub), context=0, opnum=opnum, stub=stub)
        frames = [read_unit(frame) for frame in frames_of(unit, self.limit)]
        self.send(b"".join(protected(self.session, self.level, 1, frame) for frame in frames))

    def whole_reply(self, unit):
        try:
            if self.state == "asked":
                self.name = who(unit["stub"])
            elif echoed(unit["stub"]) != self.echo_bytes():
                raise Ended("BadPeer(BadReply)")
        except NdrRefused:
            raise Ended("BadPeer(BadReply)") from None
        if self.state == "asked" and self.echo:
            self.state = "echoing"
            return self.request(3, ECHO, write_memo("echo_request", self.echo_bytes()))
        raise Ended(f"In {{ name: {units_of(self.name.hex())}, key: {array(self.exported.hex())}, echoed: {self.echo} }}")

    def echo_bytes(self):
        return bytes(place % 251 for place in range(self.echo))

    # units

    def unit(self, data):
        try:
            unit = read_unit(data)
        except Refused:
            raise Ended("BadPeer(BadUnit)") from None
        awaited = {"bound": 1, "asked": 2, "echoing": 3}[self.state]
        if unit["call"] != awaited:
            raise Ended("BadPeer(OutOfPlace)")
        if unit["kind"] == NAK:
            raise Ended(f"Refused(Nak({unit['reason']}))")
        if unit["kind"] == FAULT:
            raise Ended("NoAnswer(NoController)" if unit["status"] == NO_CONTROLLER else f"Refused(Fault({unit['status']}))")
        if unit["kind"] == ACK and self.state == "bound":
            return self.judge_ack(unit)
        if unit["kind"] != RESPONSE or self.state == "bound":
            raise Ended("BadPeer(OutOfPlace)")
        plain = taken(self.session, self.level, data, unit)
        if plain is None:
            raise Ended("BadPeer(BadSeal)")
        try:
            reply = self.joiner.add(read_unit(plain) | {"trailer": None})
        except Refused:
            raise Ended("BadPeer(OutOfPlace)") from None
        return self.whole_reply(reply) if reply else None

    def piece(self, data):
        self.rest += data
        while len(self.rest) >= 16:
            try:
                header(self.rest, False)
            except Refused:
                raise Ended("BadPeer(BadUnit)") from None
            size = short(self.rest, 8)
            if len(self.rest) < size:
                return
            data, self.rest = self.rest[:size], self.rest[size:]
            self.unit(data)

    # events

    def wants(self):
        """The link that is waited for: the client's own, while it is open."""
        self.words.append("wants")
        self.answers.append("None" if self.stopped or self.link is None else f"Some({self.link})")
        return self

    def event(self, word, run=lambda: None):
        self.words.append(word)
        self.actions = []
        if self.stopped:
            self.answers.append("Err(Stopped)")
            return self
        try:
            if self.outcome is None:
                run()
        except Spent:
            self.stopped = True
            self.answers.append("Err(Spent)")
            return self
        except Ended as ended:
            self.outcome = f"Some({ended})"
            if self.link is not None:
                self.actions.append(f"close {self.link} CallDone")
                self.link = None
        self.answers.append(",".join(self.actions) or "-")
        return self

    def at(self, moment):
        self.now = moment
        self.words.append(f"at/{moment}")
        self.answers.append("-")
        return self

    def dialled(self, link=1):
        def run():
            if self.state == "dialling":
                self.link = link
                self.bind()

        return self.event(f"dialled/{link}", run)

    def failed(self):
        def run():
            if self.state == "dialling":
                raise Ended("NoAnswer(DialFailed)")

        return self.event("failed", run)

    def closed(self, link=1):
        def run():
            if self.link == link:
                self.link = None
                raise Ended("NoAnswer(LinkClosed)")

        return self.event(f"closed/{link}", run)

    def opened(self, link=1):
        """A link of the number of the client's own shows that its own was closed; it accepts none."""

        def run():
            if self.link == link:
                self.link = None
                raise Ended("NoAnswer(LinkClosed)")

        return self.event(f"opened/{link}", run)

    def bytes(self, data, link=1):
        def run():
            if self.link == link:
                self.piece(data)

        return self.event(f"bytes/{link}/{text(data)}", run)

    def sent(self):
        """The bytes that the last event sent, in their order."""
        return b"".join(bytes.fromhex(action.split(" ")[2]) for action in self.actions if action.startswith("send "))


class Server:
    """A server that answers a client by the rules of its side."""

    def __init__(self, client, challenge="0123456789abcdef", flags=None, target="CORP", pairs=((2, "CORP"), (1, "FILE1")), info=None, receive=LIMIT, name="CORP\\ann"):
        self.client, self.challenge, self.receive, self.name = client, bytes.fromhex(challenge), receive, utf16(name)
        self.flags = client.offer() & ANSWERED | TARGET_FLAGS if flags is None else flags
        self.target = utf16(target)
        self.info = write_pairs([(number, utf16(value)) for number, value in pairs]) if info is None else info
        self.session = None

    def message(self):
        return message_of("challenge", self.flags, Target=self.target, Info=self.info, challenge=self.challenge)

    def ack(self, results=((0, 0, NDR),), message=None, trailer=True, call=1, send=None):
        message = self.message() if message is None else message
        fields = (NTLMSSP, self.client.level, 1, message) if trailer is True else trailer
        return write_unit(whole(ACK, call=call, send=self.receive if send is None else send, receive=self.receive, group=1, results=list(results), trailer=fields))

    def reply(self, stub, call, limit=LIMIT, level=None):
        """The frames of a reply."""
        if self.session is None:
            self.session = Session(self.client.exported, self.client.offer() & self.flags, "server")
        unit = whole(RESPONSE, call=call, hint=len(stub), context=0, stub=stub)
        level = self.client.level if level is None else level
        return [protected(self.session, level, 1, read_unit(frame)) for frame in frames_of(unit, limit)]

    def who(self, **how):
        return self.reply(write_memo("who", self.name), 2, **how)

    def echo(self, **how):
        return self.reply(write_memo("echo_reply", self.client.echo_bytes()), 3, **how)


def bound(**plan):
    return Client(**plan).at(NOW).dialled()


def asked(plan=None, **server):
    """A client that waits for its name, and its server."""
    client = bound(**(plan or {}))
    peer = Server(client, **server)
    client.bytes(peer.ack())
    return client, peer


def echoing(plan=None, **server):
    """A client that waits for its bytes, and its server."""
    client, peer = asked(plan, **server)
    for frame in peer.who():
        client.bytes(frame)
    return client, peer


# The kinds of response at the levels that they may have.
PLANS = [{"kind": kind, "level": level} for kind, levels in (("v1", (2,)), ("v1ess", (2, 5, 6)), ("v2", (2, 5, 6))) for level in levels]


def path_cases():
    out = []
    for plan in PLANS:
        for echo in (0, 16, 4096):
            client, peer = echoing(plan | {"echo": echo})
            if echo:
                for frame in peer.echo():
                    client.bytes(frame)
            assert client.outcome.startswith("Some(In "), client.outcome
            out.append(client.bytes(peer.who()[0]).closed().failed().dialled(2).event("stop").case())
    # names, one of none and one that is long, and other plans
    for name in ("CORP\\ann", "\\", "", "n" * 2000):
        client, peer = asked({"echo": 0}, name=name)
        for frame in peer.who(limit=1432):
            client.bytes(frame)
        out.append(client.case())
    for plan in ({"user": "", "domain": "", "workstation": ""}, {"user": "u" * 64, "domain": "d" * 64, "workstation": "w" * 64}, {"user": "\u00e4nn"}):
        for kind in PLANS[1:]:
            client, peer = echoing(kind | plan)
            out.append(client.bytes(b"".join(peer.echo())).case())
    # in pieces
    for size in (1, 16, 17, 100):
        client = bound()
        peer = Server(client)
        for make in (peer.ack, lambda: b"".join(peer.who()), lambda: b"".join(peer.echo())):
            data = make()
            for at in range(0, len(data), size):
                client.bytes(data[at:at + size])
        out.append(client.bytes(b"").case())
    # fragments of a reply, each under its own signature
    for plan in PLANS:
        client, peer = echoing(plan | {"echo": 4096})
        for frame in peer.echo(limit=1432):
            client.bytes(frame)
        out.append(client.case())
    # requests in fragments, by the size that the server receives
    for receive in (0, 1432, 2000, 5840, 65535):
        for plan in ({"level": 2}, {"level": 5}, {"level": 6}):
            client, peer = echoing(plan | {"echo": 4096}, receive=receive)
            out.append(client.bytes(b"".join(peer.echo())).case())
    return out


def flag_cases():
    """Flags that the server leaves out, one by one, and flags that it adds."""
    out = []
    for plan in PLANS:
        offer = OFFERED_V1 if plan["kind"] == "v1" else OFFERED
        for bit in range(32):
            if offer >> bit & 1:
                client, peer = asked(plan, flags=offer & ~(1 << bit) | TARGET_FLAGS)
                if client.outcome is None:
                    client.bytes(b"".join(peer.who())).bytes(b"".join(peer.echo()))
                out.append(client.case())
        for flags in (0xFFFFFFFF, 0x02000000 | offer, UNICODE | NTLM, UNICODE | NTLM | ESS, 0):
            client, peer = asked(plan, flags=flags)
            if client.outcome is None:
                client.bytes(b"".join(peer.who())).bytes(b"".join(peer.echo()))
            out.append(client.case())
    return out


def pair_cases():
    """The server's pairs: none, a time, one that is no list, and one for which the message is too long."""
    out = []
    time = (7, bytes(range(8)))
    lists = [b"", END_PAIR, write_pairs([time]), write_pairs([(2, utf16("CORP")), time, (7, bytes(8))]), write_pairs([(6, le(2, 4)), (99, b"x")])]
    lists += [END_PAIR[:3], b"\2\0\4\0ab", write_pairs([(7, bytes(7))]), write_pairs([time]) + b"behind", write_pairs([(2, bytes(3))])]
    # the AUTHENTICATE of the last three is longer than a unit may be
    lists += [write_pairs([(99, bytes(size))]) for size in (5000, 5300, 5400, 5500, 5600, 5634, 5635, 5636, 5700)]
    for info in lists:
        for kind in PLANS[1:]:
            try:
                client, peer = asked(kind | {"echo": 0}, info=info, target="")
            except Refused:
                continue
            if client.outcome is None:
                client.bytes(b"".join(peer.who()))
            out.append(client.case())
    return out


def ack_cases():
    out = []
    good, refused = (0, 0, NDR), (2, 2, NONE)
    for results in ([refused], [(2, 1, NONE), good], [good, refused], [], [(3, 9, NONE)], [(1, 0, NDR)]):
        for trailer in (True, None):
            client = bound()
            out.append(client.bytes(Server(client).ack(results=results, trailer=trailer)).case())
    client = bound()
    message = Server(client).message()
    broken = [b"x", message[:47], changed(message, 0, b"n"), changed(message, 8, b"\3"), changed(message, 16, le(9999, 4)), changed(message, 44, le(9999, 4))]
    broken += [message_of("negotiate", OFFERED), message_of("challenge", 0, challenge=bytes(8)), message_of("challenge", UNICODE | NTLM, Target=b"odd", challenge=bytes(8))]
    for each in broken:
        client = bound()
        out.append(client.bytes(Server(client).ack(message=each)).case())
    for call in (0, 2, 2**32 - 1):
        client = bound()
        out.append(client.bytes(Server(client).ack(call=call)).case())
    # an answer to the bind again, once it is judged
    client, peer = asked()
    out.append(client.bytes(peer.ack()).case())
    client, peer = asked()
    out.append(client.bytes(peer.ack(call=2)).case())
    # fewer challenges than are drawn: three, or one where no key is exchanged
    for count in range(4):
        for flags in (None, OFFERED & ~KEY_EXCH | TARGET_FLAGS):
            client, peer = asked({"draws": DRAWS[:count]}, flags=flags)
            if not client.stopped:
                client.bytes(b"".join(peer.who())).bytes(b"".join(peer.echo()))
            out.append(client.closed().case())
    return out


def other_units(call):
    """Units that answer nothing that a client asks."""
    yield whole(REQUEST, call=call, hint=0, context=0, opnum=0, stub=b"")
    yield whole(BIND, call=call, send=LIMIT, receive=LIMIT, group=0, contexts=[])
    yield whole(AUTH3, call=call)


STATES = [lambda plan: (bound(**plan), None), asked, echoing]


def cause_cases():
    out = []
    for plan in ({"level": 2}, {"level": 5}, {"level": 6}):
        for place, state in enumerate(STATES):
            call = place + 1
            units = [whole(NAK, call=call, reason=reason) for reason in (0, 1, 65535)]
            units += [whole(FAULT, call=call, hint=0, context=0, status=status) for status in (5, NO_CONTROLLER, 0, 0x1C010002)]
            units += [whole(FAULT, call=other, hint=0, context=0, status=5) for other in (0, call + 1, 2**32 - 1)]
            units += [whole(NAK, call=call + 1, reason=0), whole(RESPONSE, call=call + 1, hint=0, context=0, stub=b"")]
            units += list(other_units(call))
            for unit in units:
                client, _ = state(plan)
                out.append(client.bytes(write_unit(unit)).bytes(write_unit(unit)).closed().case())
            # refused units
            good = write_unit(whole(FAULT, call=call, hint=0, context=0, status=5))
            for at, byte in ((0, 4), (4, 0), (8, 15), (2, 1), (10, 200), (3, 1)):
                client, _ = state(plan)
                out.append(client.bytes(changed(good, at, bytes([byte]))).case())
            # the link goes
            client, _ = state(plan)
            out.append(client.closed(2).closed().closed().bytes(good).case())
            client, _ = state(plan)
            out.append(client.bytes(good, 2).failed().event("stop").bytes(good[:20]).bytes(good[20:]).case())
    out.append(Client().failed().dialled().failed().case())
    # a link opened under the number of its own is the end, whatever comes on it
    for place, state in enumerate(STATES):
        client, _ = state({})
        nak = write_unit(whole(NAK, call=place + 1, reason=0))
        out.append(client.opened(2).wants().opened().wants().bytes(nak).closed().case())
    out.append(Client().opened().dialled().dialled(2).case())
    out.append(Client().closed().bytes(b"abc").event("stop").dialled(7).closed(7).case())
    out.append(bound().bytes(write_unit(whole(RESPONSE, call=1, hint=0, context=0, stub=b""))).case())
    return out


def seal_cases():
    """Replies whose trailer isn't of the level or doesn't check, at both calls."""
    out = []
    for level in (INTEGRITY, PRIVACY):
        for state, make in ((asked, Server.who), (echoing, Server.echo)):
            size = len(make(state({"level": level})[1])[0])
            places = (24, size - 25, size - 24, size - 23, size - 16, size - 15, size - 12, size - 9, size - 4, size - 1, 3, 12, 16, 20)
            for place in places:
                client, peer = state({"level": level})
                frame = make(peer)[0]
                out.append(client.bytes(changed(frame, place, bytes([frame[place] ^ 1]))).case())
            # without a trailer, of the other level, with a value of another length, and twice
            client, peer = state({"level": level})
            out.append(client.bytes(make(peer, level=2)[0]).case())
            client, peer = state({"level": level})
            out.append(client.bytes(make(peer, level=INTEGRITY + PRIVACY - level)[0]).case())
            for value in (b"x", bytes(15), bytes(17)):
                client, peer = state({"level": level})
                unit = read_unit(make(peer, level=2)[0]) | {"trailer": (NTLMSSP, level, 1, value)}
                out.append(client.bytes(write_unit(unit)).case())
            client, peer = state({"level": level, "echo": 4096} if state is echoing else {"level": level})
            first = make(peer, limit=1432)
            out.append(client.bytes(first[0]).bytes(first[0]).case())
            if len(first) > 1:
                client, peer = state({"level": level, "echo": 4096})
                frames = make(peer, limit=1432)
                out.append(client.bytes(frames[1]).case())
    # at level 2 a trailer is passed over
    for state, stub in ((asked, write_memo("who", utf16("CORP\\ann"))), (echoing, write_memo("echo_reply", bytes(range(16))))):
        client, peer = state({"level": 2})
        call = 2 if state is asked else 3
        unit = whole(RESPONSE, call=call, hint=len(stub), context=0, stub=stub, trailer=(NTLMSSP, 6, 1, bytes(16)))
        out.append(client.bytes(write_unit(unit)).case())
    return out


def reply_cases():
    """Replies that are no name and no bytes, or other ones, under the right signature."""
    out = []
    for level in (2, INTEGRITY, PRIVACY):
        plan = {"level": level}
        name = write_memo("who", utf16("CORP\\ann"))
        for stub in (b"", name[:-1], name[:-4] + le(5, 4), changed(name, 0, b"\xff"), changed(name, 4, b"\1"), name + b"behind", changed(name, 8, b"\0")):
            client, peer = asked(plan)
            out.append(client.bytes(b"".join(peer.reply(stub, 2))).case())
        data = write_memo("echo_reply", bytes(place % 251 for place in range(16)))
        more = write_memo("echo_reply", bytes(17))
        stubs = [b"", data[:-1], data[:-4] + le(5, 4), changed(data, 4, b"\1"), changed(data, 19, b"\0"), changed(data, 0, b"\x0f"), more, data + b"behind"]
        for stub in stubs + [write_memo("echo_reply", b"")]:
            client, peer = echoing(plan)
            out.append(client.bytes(b"".join(peer.reply(stub, 3))).case())
        # pieces of a reply that aren't in their places
        client, peer = echoing(plan | {"echo": 4096})
        frames = peer.echo(limit=1432)
        out.append(client.bytes(frames[0]).bytes(b"".join(peer.reply(b"", 3))).case())
        client, peer = echoing(plan | {"echo": 4096})
        unit = whole(RESPONSE, call=3, hint=0, context=0, stub=b"abcd") | {"first": False}
        out.append(client.bytes(protected(Session(client.exported, client.offer() & peer.flags, "server") if peer.session is None else peer.session, level, 1, unit)).case())
        # more than a call may have
        client, peer = asked(plan)
        for frame in peer.reply(bytes(65544), 2):
            client.bytes(frame)
        out.append(client.case())
    return out


def finished(client, peer):
    """The line of a client whose CHALLENGE was judged, with the replies to what it asked."""
    if client.outcome is None:
        client.bytes(b"".join(peer.who())).bytes(b"".join(peer.echo()))
    return client.wants().case()


def free_cases():
    """What isn't judged of an answer: the size that the member sends; of a bind_ack's trailer the type, the level and
    the context, and which transfer syntax a context was accepted with; of a response its context, and of its trailer
    the type and the context; whether a fault or a bind_nak has a trailer."""
    out = []
    for send, receive in ((1432, LIMIT), (LIMIT, 1432), (0, 2000)):
        for plan in ({"level": 2}, {"level": 5}, {"level": 6}):
            client = bound(**plan, echo=4096)
            peer = Server(client, receive=receive)
            out.append(finished(client.bytes(peer.ack(send=send)), peer))
    for fields in ((9, PRIVACY, 1), (NTLMSSP, 2, 1), (NTLMSSP, 0, 1), (NTLMSSP, PRIVACY, 7)):
        client = bound()
        peer = Server(client)
        out.append(finished(client.bytes(peer.ack(trailer=(*fields, peer.message()))), peer))
    client = bound()
    peer = Server(client)
    out.append(finished(client.bytes(peer.ack(results=[(0, 3, NONE)])), peer))
    for level in (2, INTEGRITY, PRIVACY):
        for kind, context, call_context in ((NTLMSSP, 7, 0), (9, 1, 0), (NTLMSSP, 1, 3)):
            client, peer = asked({"level": level, "echo": 0})
            stub = write_memo("who", peer.name)
            unit = whole(RESPONSE, call=2, hint=0, context=call_context, stub=stub)
            session = Session(client.exported, client.offer() & peer.flags, "server")
            out.append(client.bytes(protected(session, level, context, unit, kind)).case())
        for place, state in enumerate(STATES):
            for kind, fields in ((FAULT, {"hint": 0, "context": 3, "status": 5}), (NAK, {"reason": 4})):
                client, _ = state({"level": level})
                unit = whole(kind, call=place + 1, trailer=(NTLMSSP, level, 1, bytes(16)), **fields)
                out.append(client.bytes(write_unit(unit)).case())
    return out


def order_cases():
    """Where several causes hold of a bind_ack: a refused list of pairs comes before flags that aren't enough, and a
    refused result before both."""
    out = []
    for results in (((0, 0, NDR),), ((2, 1, NONE),), ()):
        for info in (END_PAIR[:3], END_PAIR):
            for flags in (0, None):
                client = bound()
                peer = Server(client, flags=flags, info=info, target="")
                out.append(finished(client.bytes(peer.ack(results=results)), peer))
    return out


def cases():
    """Each line and its answer."""
    check_formulas()
    return (
        path_cases() + flag_cases() + pair_cases() + ack_cases() + cause_cases() + seal_cases() + reply_cases() + free_cases() + order_cases()
    )
