"""Cases of interactive_station.

`station.run CONTROLLER COMPUTER SECRET DOMAIN USER HASH CHALLENGES STEP ..`: a station of this plan (COMPUTER is an
ASCII text in hex, DOMAIN and USER texts of 16-bit units), the challenges that may be drawn (16 hex digits each, joined
by commas, or `-`), and its events one after the other: `opened/LINK`, `bytes/LINK/BYTES`, `closed/LINK`,
`dialled/LINK`, `failed`, `stop`; `at/MOMENT` sets the moment, which is 0 before. The first answer is what it begins
with. An event is answered with its actions in order, joined by commas, `-` where there are none, or with the refusal; a
moment with `-`. The last answers are its outcome and the number of challenges that are left.

The actions are worked out here by the rules of docs/FORMATS.md ("The station"), MS-NRPC 3.1.4 and 3.5.4.5 and the
layouts of C706 12.6, beside the controller of `domain_controller.py`, which answers by its own rules; each of its
answers is also changed in each way that makes it wrong.
"""

from channel_client import ACCESS_DENIED, OFFERED, RC4_FLAG, ZEROS, ack_of, credential, crypted, fault_of, frames_of, plus, rc4, response_of, strong_key
from domain_controller import ANN, FILE1, FILE2, Controller, limit_of
from end_links import text
from forms import array, line, struct, units_of
from interactive_logon import write as write_interactive
from logon_stubs import AUTHENTICATE, CHALLENGE, LOGOFF, LOGON, BadArm, plain_sam, read, write
from ndr_codec import Refused as NdrRefused
from rpc_units import ACK, AUTH3, BIND, FAULT, LIMIT, NAK, NDR, NETLOGON, NONE, REQUEST, RESPONSE, Joiner, Refused, header, short, whole
from rpc_units import read as read_unit
from rpc_units import write as write_unit
from trusts import Trusting
from wire import changed, le, steps

NOW = 133_000_000_000_000_000
SECONDS_TO_1970 = 11_644_473_600
DRAWS = ["1011121314151617", "2021222324252627"]
SERVERS = ["3031323334353637", "4041424344454647"]
WS1 = FILE1 | {"name": "WS1$", "hash": "43" * 16}
ORDER = [CHALLENGE, AUTHENTICATE, LOGON, LOGOFF]


def utf16(value):
    return value.encode("utf-16-le")


class Ended(Exception):
    """The station has this outcome, and its link is closed for this cause."""

    def __init__(self, outcome, cause="CallDone"):
        super().__init__(outcome)
        self.cause = cause


class Spent(Exception):
    """No challenge is left."""


def bad(cause):
    return f"BadPeer({cause})"


class Station:
    """The station by its rules, and the line that is written of its steps."""

    def __init__(self, user="ann", domain="CORP", secret="11" * 16, account="43" * 16, computer="WS1", draws=DRAWS, controller=b"there"):
        self.user, self.domain, self.hash, self.secret = utf16(user), utf16(domain), bytes.fromhex(secret), bytes.fromhex(account)
        self.computer = computer
        self.draws, self.now, self.stopped = [bytes.fromhex(each) for each in draws], 0, False
        self.controller, self.outcome, self.actions = controller, None, []
        self.dialling, self.link, self.call, self.asked = True, None, None, False
        self.rest, self.joiner = b"", Joiner()
        self.client = self.server = self.seed = self.awaited = self.made = self.names = None
        self.words = [controller, computer.encode(), account, self.domain, self.user, secret, ",".join(draws) or "-"]
        self.answers = [f"dial {text(controller)}"]

    def case(self):
        return line("station.run", *self.words), steps(self.answers + [self.outcome or "None", str(len(self.draws))])

    def key(self):
        return strong_key(self.secret, self.client, self.server)

    # calls

    def number(self):
        """The number of the unit that is waited for: binds and requests are counted from 1."""
        return 2 * ORDER.index(self.call) + 1 + self.asked

    def make(self):
        """The next authenticator, at the moment's timestamp."""
        timestamp = (self.now // 10**7 - SECONDS_TO_1970) % 2**32
        self.made = credential(self.key(), plus(self.seed, timestamp)), timestamp
        self.seed = plus(self.seed, timestamp + 1)
        self.awaited = credential(self.key(), self.seed)

    def stub(self):
        computer = utf16(self.computer)
        if self.call == CHALLENGE:
            return write("call", CHALLENGE, {"primary": None, "computer": computer, "challenge": self.client}).stub
        if self.call == AUTHENTICATE:
            return write("call", AUTHENTICATE, {"primary": None, "account": computer + utf16("$"), "channel": 2, "computer": computer,
                                                "credential": credential(self.key(), self.client), "flags": OFFERED}).stub
        info = {"domain": self.domain, "control": 0, "logon_id": 0, "user": self.user, "workstation": computer, "lm": bytes(16),
                "nt": rc4(self.key(), self.hash)}
        return bytes(write_interactive(self.call, {"server": None, "computer": computer, "authenticator": self.made, "returned": (ZEROS, 0), "info": info,
                                                   "validation": 3 if self.call == LOGON else 0}))

    # what is done

    def send(self, data):
        self.actions.append(f"send {self.link} {data.hex()}")

    def dial(self, call):
        if call in (LOGON, LOGOFF):
            self.make()
        self.actions.append(f"dial {text(self.controller)}")
        self.dialling, self.link, self.call, self.asked = True, None, call, False

    def open(self, link):
        if self.call is None:
            if not self.draws:
                raise Spent
            self.client, self.call = self.draws.pop(0), CHALLENGE
        self.dialling, self.link, self.rest, self.joiner = False, link, b"", Joiner()
        self.send(write_unit(whole(BIND, call=self.number(), send=LIMIT, receive=LIMIT, group=0, contexts=[(0, NETLOGON, [NDR])])))

    def request(self, receive):
        self.asked = True
        stub = self.stub()
        unit = whole(REQUEST, call=self.number(), hint=len(stub), context=0, opnum=self.call, stub=stub)
        self.send(b"".join(frames_of(unit, limit_of(receive))))

    def next(self, call, told=None):
        self.actions.append(f"close {self.link} CallDone")
        if told:
            self.actions.append(f"told {self.link} {told}")
        self.dial(call)

    # replies

    def judge(self, reply):
        if reply["status"] == ACCESS_DENIED or self.call in (CHALLENGE, AUTHENTICATE) and reply["status"]:
            raise Ended(bad("Denied"))
        if self.call == CHALLENGE:
            self.server = reply["challenge"]
            return self.next(AUTHENTICATE)
        if self.call == AUTHENTICATE:
            if reply["credential"] != credential(self.key(), self.server):
                raise Ended(bad("NotNext"))
            if reply["flags"] & ~OFFERED or not reply["flags"] & RC4_FLAG:
                raise Ended(bad("BadReply"))
            self.seed = credential(self.key(), self.client)
            return self.next(LOGON)
        if reply["returned"] is None or reply["returned"][0] != self.awaited:
            raise Ended(bad("NotNext"))
        if reply["status"]:
            raise Ended(f"Refused({reply['status']})")
        if self.call == LOGOFF:
            raise Ended(struct("Off", domain=units_of(self.names[0].hex()), user=units_of(self.names[1].hex())))
        if reply["level"] != 3 or reply["info"] is None:
            raise Ended(bad("BadReply"))
        info = reply["info"]
        self.names = info["domain"], info["effective_name"]
        key = crypted(self.key(), info["key"])
        return self.next(LOGOFF, struct("In", domain=units_of(self.names[0].hex()), user=units_of(self.names[1].hex()), key=array(key.hex())))

    def hear(self, unit):
        if unit["call"] != self.number():
            return None
        if unit["kind"] == NAK or unit["kind"] == ACK and (not unit["results"] or unit["results"][0][0]):
            raise Ended(bad("Bind"))
        if unit["kind"] == FAULT:
            raise Ended(bad(f"Fault({unit['status']})"))
        if unit["kind"] != (RESPONSE if self.asked else ACK):
            raise Ended(bad("BadReply"))
        if unit["kind"] == ACK:
            return self.request(unit["receive"])
        try:
            reply = read("reply", self.call, unit["stub"])[0]
        except (NdrRefused, BadArm):
            raise Ended(bad("BadReply")) from None
        return self.judge(reply)

    def unit(self, data):
        try:
            unit = read_unit(data)
        except Refused:
            raise Ended(bad("BadReply"), "BadUnit") from None
        try:
            unit = self.joiner.add(unit)
        except Refused as refused:
            raise Ended(bad("BadReply"), "TooMuchHeld" if str(refused) == "CallTooLong" else "OutOfPlace") from None
        return self.hear(unit) if unit else None

    def piece(self, data):
        self.rest += data
        while len(self.rest) >= 16 and self.link is not None:
            try:
                header(self.rest, False)
            except Refused:
                raise Ended(bad("BadReply"), "BadUnit") from None
            size = short(self.rest, 8)
            if len(self.rest) < size:
                return
            unit, self.rest = self.rest[:size], self.rest[size:]
            self.unit(unit)

    # events

    def event(self, word, run=lambda: None):
        self.words.append(word)
        if self.stopped:
            self.answers.append("Err(Stopped)")
            return self
        self.actions = []
        try:
            if self.outcome is None:
                run()
        except Spent:
            self.stopped = True
            self.answers.append("Err(Spent)")
            return self
        except Ended as ended:
            self.end(str(ended), ended.cause)
        self.answers.append(",".join(self.actions) or "-")
        return self

    def end(self, outcome, cause=None):
        if cause:
            self.actions.append(f"close {self.link} {cause}")
        self.outcome, self.dialling, self.link = f"Some({outcome})", False, None

    def at(self, moment):
        self.now = moment
        self.words.append(f"at/{moment}")
        self.answers.append("-")
        return self

    def dialled(self, link):
        return self.event(f"dialled/{link}", lambda: self.open(link) if self.dialling else None)

    def failed(self):
        return self.event("failed", lambda: self.end("NoAnswer(DialFailed)") if self.dialling else None)

    def gone(self, name, link):
        return self.event(f"{name}/{link}", lambda: self.end("NoAnswer(LinkClosed)") if link == self.link else None)

    def closed(self, link):
        return self.gone("closed", link)

    def opened(self, link):
        return self.gone("opened", link)

    def bytes(self, data, link=None):
        link = self.link if link is None else link
        return self.event(f"bytes/{link}/{data.hex() or '-'}", lambda: self.piece(data) if link == self.link else None)

    def stop(self):
        return self.event("stop")


# ---- beside a controller


def sent(end, link):
    """The bytes that the last event sent on the link."""
    return b"".join(bytes.fromhex(action.split(" ")[2]) for action in end.actions if action.startswith(f"send {link} "))


class Pair:
    """A station and the controller that it dials, at which each of its links has the same number."""

    def __init__(self, station=None, machines=(FILE1, FILE2, WS1), **how):
        self.station = (station or Station()).at(NOW)
        self.controller = Controller(machines=machines, challenges=SERVERS, **how).at(NOW)
        self.links = 0

    def dial(self):
        """The dial that waits is answered by the next link, and the controller answers the bind."""
        self.links += 1
        self.controller.opened(self.links)
        self.station.dialled(self.links)
        return self.cross()

    def cross(self):
        """What the station sent goes to the controller, which answers."""
        self.controller.bytes(sent(self.station, self.links), self.links)
        return self

    def answer(self, how=lambda data: data):
        """The controller's answer goes to the station."""
        self.station.bytes(how(sent(self.controller, self.links)))
        return self

    def call(self, how=lambda data: data):
        """The next link, with its bind and its call; the reply is changed so."""
        self.dial().answer().cross().answer(how)
        return self

    def upto(self, calls):
        for _ in range(calls):
            self.call()
        return self


def reply_with(opnum, number, **fields):
    """How a reply is changed: these fields are others."""

    def change(data):
        joiner, unit, rest = Joiner(), None, data
        while rest:
            size = short(rest, 8)
            unit, rest = joiner.add(read_unit(rest[:size])), rest[size:]
        stub = write("reply", opnum, read("reply", opnum, unit["stub"])[0] | fields).stub
        return b"".join(frames_of(response_of(number, stub), LIMIT))

    return change


def whole_run():
    """ann logs on at WS1 and off again, and no session stands then."""
    pair = Pair().upto(4)
    assert pair.station.outcome == "Some(" + struct("Off", domain=units_of(utf16("CORP").hex()), user=units_of(utf16("ann").hex())) + ")"
    assert not pair.controller.sessions and len(pair.station.draws) == len(DRAWS) - 1
    return [pair.station.case(), pair.controller.case()]


def wrong_hash():
    """A wrong hash is refused with WRONG_PASSWORD, the count of bad passwords is 1, and no link is dialled any more."""
    pair = Pair(Station(secret="12" * 16)).upto(3)
    assert pair.station.outcome == f"Some(Refused({0xC000006A}))" and pair.controller.counts[0] == 1
    assert not any(action.startswith("dial") for action in pair.station.actions)
    return [pair.station.stop().dialled(9).case(), pair.controller.case()]


def other_runs():
    out = []
    # of a name in other letters, the table's is told
    out += [Pair(Station(user="ANN")).upto(4).station.case(), Pair(Station(domain="")).upto(4).station.case()]
    # a domain that isn't the controller's
    out.append(Pair(Station(domain="OTHER")).upto(3).station.case())
    # an account that the controller doesn't know, or of another secret
    out.append(Pair(machines=(FILE1, FILE2)).upto(2).station.case())
    out.append(Pair(Station(account="44" * 16)).upto(2).station.case())
    # pieces of every size, and units of other numbers before each answer
    for size in (1, 15, 17, 100):
        pair = Pair()
        for _ in range(4):
            pair.dial()
            for _ in range(2):
                data = sent(pair.controller, pair.links)
                for at in range(0, len(data), size):
                    pair.station.bytes(data[at:at + size], pair.links)
                    if pair.station.actions:
                        break
                if pair.station.link is not None:
                    pair.cross()
        out.append(pair.station.case())
    pair = Pair()
    for place in range(4):
        pair.dial()
        pair.station.bytes(write_unit(fault_of(place, 5))).bytes(write_unit(response_of(9, b"")))
        pair.answer()
        out_of = pair.cross()
        pair.station.bytes(write_unit(fault_of(2 * place + 1, 5)))
        out_of.answer()
    out.append(pair.station.case())
    # the authenticators are of the moments at which their links are dialled for
    pair = Pair().upto(1)
    pair.station.at(NOW + 50_000_000_000)
    pair.call().dial()
    pair.station.at(NOW + 90_000_000_000)
    pair.answer().cross().answer()
    pair.station.at(5)
    out.append(pair.call().station.case())
    # no challenge is left
    out.append(Station(draws=[]).dialled(1).dialled(1).stop().case())
    return out


def lost_runs():
    """The link is lost, or the dial fails, at each call."""
    out = []
    for calls in range(4):
        out.append(Pair().upto(calls).station.failed().failed().dialled(7).case())
        for how in ("closed", "opened"):
            bound, asked = Pair().upto(calls).dial(), Pair().upto(calls).dial().answer()
            for pair in (bound, asked):
                gone = getattr(pair.station, how)
                gone(pair.links + 1)
                gone(pair.links)
                out.append(pair.station.bytes(b"\x05", pair.links).stop().case())
        out.append(Pair().upto(calls).station.closed(calls).opened(calls).bytes(b"\x05\x00", calls).stop().case())
        out.append(Pair().upto(calls).dial().station.failed().dialled(8).stop().case())
    return out


def cause_runs():
    """Each cause at each call, while the answer to the bind and while the reply is waited for."""
    out = []
    good = (0, 0, NDR)
    for calls in range(4):
        for bound in (False, True):
            def pair():
                made = Pair().upto(calls).dial()
                return made.answer() if bound else made
            number = 2 * calls + 1 + bound
            units = [whole(NAK, call=number, reason=0), fault_of(number, 0x6F7), whole(AUTH3, call=number),
                     whole(REQUEST, call=number, hint=0, context=0, opnum=2, stub=b""), whole(BIND, call=number, send=LIMIT, receive=LIMIT, group=0, contexts=[]),
                     response_of(number, b"")]
            units += [ack_of(number, 4280, results) for results in ([], [(2, 1, NONE)], [good, (2, 1, NONE)])]
            out += [pair().station.bytes(write_unit(unit)).case() for unit in units]
            data = write_unit(fault_of(number, 5))
            out.append(pair().station.bytes(changed(data, 0, b"\x04")).case())
            out.append(pair().station.bytes(changed(data, 2, b"\x06")).case())
            frames = frames_of(response_of(number, bytes(3000)), 1432)
            out.append(pair().station.bytes(frames[1]).case())
            out.append(pair().station.bytes(frames[0] + frames[0]).case())
    return out


def reply_runs():
    """Replies that are changed."""
    out = []
    for status in (ACCESS_DENIED, 0xC0000001, 1):
        for calls, opnum in enumerate(ORDER):
            out.append(Pair().upto(calls).call(reply_with(opnum, 2 * calls + 2, status=status)).station.case())
    for fields in ({"credential": ZEROS}, {"flags": 0}, {"flags": OFFERED | 0x20000}, {"flags": RC4_FLAG}, {"status": 5, "credential": ZEROS}):
        out.append(Pair().upto(1).call(reply_with(AUTHENTICATE, 4, **fields)).station.case())
    for calls, opnum in ((2, LOGON), (3, LOGOFF)):
        for fields in ({"returned": None}, {"returned": (ZEROS, 0)}, {"returned": None, "status": ACCESS_DENIED}, {"returned": None, "status": 7}):
            out.append(Pair().upto(calls).call(reply_with(opnum, 2 * calls + 2, **fields)).station.case())
    for fields in ({"level": 2}, {"info": None}, {"info": None, "status": 0xC0000234}, {"level": 2, "status": 0xC0000234}):
        out.append(Pair().upto(2).call(reply_with(LOGON, 6, **fields)).station.case())
    # a key of zeros stays as it is, and the names are those of the reply
    out.append(Pair().upto(2).call(reply_with(LOGON, 6, info=plain_sam(key=bytes(16), domain=utf16("D"), effective_name=utf16("e")))).upto(1).station.case())
    # a reply that lacks its last byte, and one with bytes behind it
    for calls, opnum in enumerate(ORDER):
        pair = Pair().upto(calls).dial().answer().cross()
        unit = read_unit(sent(pair.controller, pair.links))
        out.append(pair.station.bytes(write_unit(response_of(2 * calls + 2, unit["stub"][:-1]))).case())
        pair = Pair().upto(calls).dial().answer().cross()
        out.append(pair.station.bytes(write_unit(response_of(2 * calls + 2, unit["stub"] + b"\x00"))).case())
    # the reply to another call
    pair = Pair().upto(2).dial().answer()
    out.append(pair.station.bytes(write_unit(response_of(6, ZEROS + le(0, 4)))).case())
    # the bind_ack, the reply and more in one piece
    pair = Pair().dial()
    ack = sent(pair.controller, 1)
    pair.station.bytes(ack + write_unit(response_of(2, bytes.fromhex(SERVERS[0]) + le(0, 4))) + b"\x05\x00\x05")
    out.append(pair.call().station.case())
    return out


def sized_runs():
    """Requests in fragments, by the size that the peer receives, of names of the most units."""
    out = []
    for receive in (0, 1432, 5840, 65535):
        pair = Pair(Station(user="u" * 64, domain="d" * 64, computer="C" * 64)).upto(0)
        pair.station.dialled(1)
        out.append(pair.station.bytes(write_unit(ack_of(1, receive, [(0, 0, NDR)]))).case())
    return out


def restarted():
    """A controller that is started again between Logon and Logoff has no channel, and denies the Logoff."""
    pair = Pair().upto(3)
    pair.controller = Controller(machines=(FILE1, FILE2, WS1), challenges=SERVERS).at(NOW)
    pair.call()
    assert pair.station.outcome == "Some(BadPeer(Denied))"
    return [pair.station.case(), pair.controller.case()]


def started_again():
    """A station that is started again behind its logon opens a channel of its own: its logoff takes one of two sessions
    out, and the logoff of the first start is denied."""
    first = Pair().upto(3)
    second = Pair(Station(draws=DRAWS[1:]))
    second.controller, second.links = first.controller, first.links
    second.upto(4)
    assert second.station.outcome.startswith("Some(Off ") and len(first.controller.sessions) == 1
    first.links = second.links
    first.call()
    assert first.station.outcome == "Some(BadPeer(Denied))" and len(first.controller.sessions) == 1
    return [first.station.case(), second.station.case(), first.controller.case()]


def trusted_domain():
    """A logon for a trusted domain is judged where it came, and there is no such domain there."""
    pair = Pair(Station(user="sam", domain="ROAM", secret="44" * 16))
    pair.controller = Trusting(machines=(FILE1, FILE2, WS1)).at(NOW)
    pair.upto(3)
    assert pair.station.outcome == f"Some(Refused({0xC00000DF}))" and not pair.controller.forwarded
    return [pair.station.case(), pair.controller.case()]


def cases():
    """Each line and its answer."""
    assert ANN["hash"] == "11" * 16
    return (whole_run() + wrong_hash() + other_runs() + lost_runs() + cause_runs() + reply_runs() + sized_runs() + restarted() + started_again() + trusted_domain())
