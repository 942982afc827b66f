"""Cases of member_server.

`member.run COMPUTER DOMAIN SECRETS CONTROLLER CHALLENGES STEP ..`: a member of this plan (names in ASCII; one secret or
two, joined by a comma, the current one first), the challenges that may be drawn (16 hex digits each, joined by commas,
or `-`), and its events one after the other: `opened/LINK`, `bytes/LINK/BYTES`, `closed/LINK`, `dialled/LINK`, `failed`,
`stop`; `change/SECRET` begins a change to that secret; `at/MOMENT` sets the moment, which is 0 before; `wants` is
answered with the link of the turn. An event and a change are answered with the actions in order, joined by commas, `-`
where there are none, or with the refusal; a moment with `-`. The last answer is the number of challenges that are left.

The actions are worked out here by the rules of docs/FORMATS.md ("The member", "The shared channel"), MS-NLMP 3.2.5, 3.3
and 3.4, MS-NRPC 3.1.4 and the layouts of C706 12.6, beside a controller and clients that answer by the same rules, and
with messages that other implementations wrote.
"""

import channel_client
import domain_controller
import logon_client
from channel_client import Dropped, frames_of
from documents import ANN, BOB, EVE, FILE1, FILE2
from end_links import MEMO, answer_of, limit_of, text
from forms import agree, array, line, struct, units_of, values
from memo_stubs import echo as read_echo
from memo_stubs import write as write_memo
from ndr_codec import Reader
from ndr_codec import Refused as NdrRefused
from logon_client import OFFERED, OFFERED_V1, TARGET_FLAGS, message_of, utf16
from logon_stubs import plain_sam
from ntlm_messages import Refused as MessageRefused
from ntlm_messages import read as read_message
from ntlm_messages import write_pairs
from rpc_units import ACK, AUTH3, BIND, FAULT, LIMIT, NAK, NDR, NETLOGON, REQUEST, RESPONSE, Joiner, Refused, header, short, whole
from rpc_units import read as read_unit
from rpc_units import write as write_unit
from sessions import (
    ESS, INTEGRITY, KEY_EXCH, NTLM, NTLMSSP, PRIVACY, UNICODE, Session, challenge_for, exchange_key, exported_key, protected, taken,
)
from wire import changed, le, steps

ANSWERED = 0xE0088235
LINKS, HELD = 256, 65536
PROTOCOL_ERROR, OUT_OF_RANGE, BAD_STUB, DENIED, NO_CONTROLLER = 0x1C01000B, 0x1C010002, 0x6F7, 5, 0x6BA
NOW = 133_000_000_000_000_000
DRAWS = [f"{place:02x}" * 8 for place in range(0x10, 0x20)]


class Spent(Exception):
    """No challenge is left."""


class Shut(Exception):
    """The link is closed for this cause."""


class Asking(channel_client.Requester):
    """The shared channel, with the verdict that came last."""

    verdict_info = None

    def judge(self, reply):
        answer = super().judge(reply)
        if answer.startswith("answer") and reply["status"] == 0:
            key = channel_client.crypted(self.key(), reply["info"]["key"])
            self.verdict_info = reply["info"] | {"key": key}
        return answer


class Member:
    """The member by its rules, and the line that is written of its steps."""

    operation = "member.run"

    def __init__(self, computer="FILE1", domain="CORP", secret="41" * 16, draws=DRAWS, controller=b"there", following=None):
        self.computer, self.domain, self.controller = computer, domain, controller
        self.channel = Asking(bytes.fromhex(secret), computer)
        # the current secret and the one that is to follow it, and which of the two is tried
        self.current, self.following, self.tries_following = bytes.fromhex(secret), bytes.fromhex(following) if following else None, False
        self.draws, self.now, self.stopped = [bytes.fromhex(each) for each in draws], 0, False
        self.links, self.gone = {}, []
        # the turn that is out: the bind that waits for its link, or the link
        self.bind, self.turn_link, self.turn_rest, self.turn_joiner = None, None, b"", None
        self.actions = []
        self.words = [computer.encode(), domain.encode(), ",".join(filter(None, (secret, following))), controller, ",".join(draws) or "-"]
        self.answers = []

    def case(self):
        return line(self.operation, *self.words), steps(self.answers + [str(len(self.draws))])

    def draw(self):
        if not self.draws:
            raise Spent
        return self.draws.pop(0)

    def send(self, link, data):
        self.actions.append(("send", link, data))

    def fault(self, link, unit, status):
        self.send(link, write_unit(whole(FAULT, call=unit["call"], hint=0, context=unit["context"], status=status)))

    # the secrets

    def kept(self):
        """The text that is kept: a line for each secret."""
        return "".join(secret.hex() + "\n" for secret in (self.current, self.following) if secret is not None).encode()

    def replace(self, ended):
        """What the end of a turn makes of the secrets: their text is kept where it is another."""
        before = self.kept()
        if ended == "Denied" and self.following is not None:
            self.tries_following = not self.tries_following
        if ended == "set" or ended == "opened" and self.tries_following:
            self.current, self.following, self.tries_following = self.following, None, False
        if self.kept() != before:
            self.actions.append(("keep", self.kept()))

    def change(self, secret):
        self.words.append(f"change/{secret}")
        self.actions = []
        if self.stopped:
            self.answers.append("Err(Stopped)")
        elif self.following is not None:
            self.answers.append(f"Err({struct('Busy', next=array(self.following.hex()))})")
        else:
            self.following = bytes.fromhex(secret)
            self.actions.append(("keep", self.kept()))
            self.answers.append(self.shown(self.actions[0]))
        return self

    def give_secrets(self):
        if self.channel.client is None:
            self.channel.secret = self.following if self.tries_following else self.current
        self.channel.next = self.following

    # the turn

    def start_turn(self):
        if not self.channel.waiting or self.channel.turn is not None:
            return
        self.give_secrets()
        challenge = self.draw() if self.channel.draws() else bytes(8)
        timestamp = (self.now // 10_000_000 - 11_644_473_600) % 2**32
        self.channel.start(timestamp, challenge.hex())
        self.bind = bytes.fromhex(self.channel.answers[-1])
        self.actions.append(("dial", self.controller))

    def end_turn(self, cause):
        """The turn's link is closed."""
        self.actions.append(("close", self.turn_link, cause))
        self.turn_link = None

    def lose(self, cause):
        place = self.channel.turn["place"]
        self.channel.drop()
        self.bind = self.turn_link = None
        self.tell(place, ("none", cause))

    def turn_unit(self, data):
        try:
            unit = read_unit(data)
        except Refused:
            raise Shut("BadUnit") from None
        try:
            unit = self.turn_joiner.add(unit)
        except Refused as refused:
            raise Shut("TooMuchHeld" if str(refused) == "CallTooLong" else "OutOfPlace") from None
        if unit is None:
            return
        place = self.channel.turn["place"]
        try:
            answer = self.channel.hear(unit)
        except Dropped as cause:
            self.channel.drop()
            self.replace(str(cause))
            self.end_turn("CallDone")
            return self.tell(place, ("none", str(cause)))
        if answer.startswith("next "):
            return self.send(self.turn_link, b"".join(bytes.fromhex(frame) for frame in answer[5:].split(",")))
        if answer == "skip":
            return
        self.replace(answer)
        self.end_turn("CallDone")
        if answer.startswith("answer"):
            status = answer.split(" ", 2)[2]
            self.tell(place, ("in", self.channel.verdict_info) if status.startswith("Granted") else ("out", int(status[7:-1])))

    def turn_piece(self, data):
        self.turn_rest += data
        while self.turn_link is not None and len(self.turn_rest) >= 16:
            try:
                header(self.turn_rest, False)
            except Refused:
                raise Shut("BadUnit") from None
            size = short(self.turn_rest, 8)
            if len(self.turn_rest) < size:
                return
            unit, self.turn_rest = self.turn_rest[:size], self.turn_rest[size:]
            self.turn_unit(unit)

    # outcomes

    def tell(self, place, outcome):
        """The outcome of a place: to the link that waits for it, or to the one that closed while it waited."""
        for number, talk in self.links.items():
            if talk["phase"] == "asked" and talk["place"] == place:
                self.told(number, talk, outcome)
                return self.settle(number, talk, outcome)
        for number, talk in self.gone:
            if talk["place"] == place:
                self.told(number, talk, outcome)
                self.gone.remove((number, talk))
                return

    def told(self, number, talk, outcome):
        kind, value = outcome
        if kind == "in":
            shown = f"In {{ domain: {units_of(value['domain'].hex())}, user: {units_of(value['effective_name'].hex())}, key: {array(self.exported(talk, value).hex())} }}"
        else:
            shown = f"Out({value})" if kind == "out" else f"NoController({value})"
        self.actions.append(("told", number, shown))

    def exported(self, talk, info):
        message, flags = talk["message"], talk["agreed"]
        exchange = exchange_key(info["key"], flags, talk["challenge"], message["Lm"], message["Nt"])
        return exported_key(exchange, flags, message["Key"])

    def settle(self, number, talk, outcome):
        held = talk.pop("held")
        if outcome[0] == "in":
            talk.update(phase="in", joiner=Joiner(), session=Session(self.exported(talk, outcome[1]), talk["agreed"], "server"),
                        name=outcome[1]["domain"] + utf16("\\") + outcome[1]["effective_name"])
        else:
            talk.update(phase="out", status=DENIED if outcome[0] == "out" else NO_CONTROLLER)
        try:
            for data in held:
                self.unit(number, data)
        except Shut as cause:
            self.actions.append(("close", number, str(cause)))
            del self.links[number]

    # accepted links

    def fresh(self, link, unit):
        if unit["kind"] != BIND:
            raise Shut("OutOfPlace")
        talk, trailer = self.links[link], unit["trailer"]
        answer = self.bind_answer(unit, trailer)
        if answer is None:
            return self.send(link, write_unit(whole(NAK, call=unit["call"], reason=0)))
        offered, ack = answer
        challenge, flags = self.draw(), offered & ANSWERED | TARGET_FLAGS
        results = [answer_of(MEMO, context) for context in unit["contexts"]]
        accepted = [context[0] for context, result in zip(unit["contexts"], results) if result[0] == 0]
        talk.update(phase="challenged", level=trailer[1], context=trailer[2], accepted=accepted, limit=limit_of(unit["receive"]), challenge=challenge, flags=flags)
        return self.send(link, ack(challenge))

    def bind_answer(self, unit, trailer):
        """The flags that are offered, and the answer that takes a challenge; None where the bind is refused."""
        if trailer is None or trailer[0] != NTLMSSP or trailer[1] not in (2, INTEGRITY, PRIVACY):
            return None
        try:
            offered = read_message("negotiate", trailer[3])["flags"]
        except MessageRefused:
            return None
        if not offered & UNICODE or not offered & NTLM or trailer[1] != 2 and not offered & ESS:
            return None
        results = [answer_of(MEMO, context) for context in unit["contexts"]]
        limit = limit_of(unit["receive"])
        info = write_pairs([(2, utf16(self.domain)), (1, utf16(self.computer))])

        def ack(challenge):
            message = message_of("challenge", offered & ANSWERED | TARGET_FLAGS, Target=utf16(self.domain), Info=info, challenge=challenge)
            return write_unit(whole(ACK, call=unit["call"], send=limit, receive=LIMIT, group=1, results=results, trailer=(NTLMSSP, trailer[1], trailer[2], message)))

        try:
            ack(bytes(8))
        except Refused:
            return None
        return offered, ack

    def authenticate(self, link, unit):
        talk = self.links[link]
        try:
            message = read_message("authenticate", unit["trailer"][3])
        except MessageRefused:
            raise Shut("BadAuthentication") from None
        agreed = talk["flags"] & message["flags"]
        if not agreed & UNICODE or talk["level"] != 2 and not agreed & ESS or agreed & KEY_EXCH and len(message["Key"]) != 16:
            raise Shut("BadAuthentication")
        info = {"domain": message["Domain"], "control": 0, "user": message["User"], "workstation": message["Workstation"],
                "challenge": challenge_for(agreed, talk["challenge"], message["Lm"], message["Nt"]), "nt": message["Nt"], "lm": message["Lm"]}
        answer = self.channel.let_wait(info)
        if answer == "Err(QueueFull)":
            talk.update(phase="out", status=NO_CONTROLLER)
            self.actions.append(("told", link, "NoController(QueueFull)"))
            return
        talk.update(phase="asked", message=message, agreed=agreed, place=int(answer[3:-1]), held=[])

    def hold(self, link, data):
        talk = self.links[link]
        talk["held"].append(data)
        if sum(map(len, talk["held"])) > HELD:
            raise Shut("TooMuchHeld")

    def serve(self, link, data, unit):
        talk = self.links[link]
        plain = taken(talk["session"], talk["level"], data, unit)
        if plain is None:
            raise Shut("BadAuthentication")
        try:
            call = talk["joiner"].add(read_unit(plain) | {"trailer": None})
        except Refused as refused:
            raise Shut("TooMuchHeld" if str(refused) == "CallTooLong" else "OutOfPlace") from None
        return self.whole_call(link, talk, call) if call else None

    def whole_call(self, link, talk, call):
        if call["context"] not in talk["accepted"]:
            return self.fault(link, call, PROTOCOL_ERROR)
        if call["opnum"] == logon_client.WHO_AM_I:
            stub = write_memo("who", talk["name"])
        elif call["opnum"] == logon_client.ECHO:
            try:
                stub = write_memo("echo_reply", read_echo(Reader(call["stub"])))
            except NdrRefused:
                return self.fault(link, call, BAD_STUB)
        else:
            return self.fault(link, call, OUT_OF_RANGE)
        unit = whole(RESPONSE, call=call["call"], hint=len(stub), context=call["context"], stub=stub)
        frames = [read_unit(frame) for frame in frames_of(unit, talk["limit"])]
        return self.send(link, b"".join(protected(talk["session"], talk["level"], talk["context"], frame) for frame in frames))

    def unit(self, link, data):
        try:
            unit = read_unit(data)
        except Refused:
            raise Shut("BadUnit") from None
        talk = self.links[link]
        phase, kind = talk["phase"], unit["kind"]
        if phase == "fresh":
            return self.fresh(link, unit)
        if phase == "challenged" and kind == AUTH3 and unit["trailer"] and unit["trailer"][0] == NTLMSSP:
            return self.authenticate(link, unit)
        if kind != REQUEST or phase == "challenged":
            raise Shut("OutOfPlace")
        if phase == "asked":
            return self.hold(link, data)
        if phase == "out":
            return self.fault(link, unit, talk["status"])
        return self.serve(link, data, unit)

    def piece(self, link, data):
        talk = self.links[link]
        talk["rest"] += data
        while len(talk["rest"]) >= 16:
            try:
                header(talk["rest"], False)
            except Refused:
                raise Shut("BadUnit") from None
            size = short(talk["rest"], 8)
            if len(talk["rest"]) < size:
                return
            unit, talk["rest"] = talk["rest"][:size], talk["rest"][size:]
            self.unit(link, unit)

    # events

    def take_close(self, link):
        """The link is closed: by its peer, or since its number is given anew."""
        if link in self.links:
            talk = self.links.pop(link)
            if talk["phase"] == "asked":
                self.gone.append((link, talk))
        elif self.turn_link == link:
            self.turn_link = None
            self.lose("LinkClosed")

    def open(self, link):
        self.take_close(link)
        if len(self.links) >= LINKS:
            self.actions.append(("close", link, "TooManyLinks"))
        else:
            self.links[link] = {"phase": "fresh", "rest": b""}

    def dial_comes(self, link):
        if self.bind is None:
            return
        self.take_close(link)
        bind, self.bind = self.bind, None
        self.turn_link, self.turn_rest, self.turn_joiner = link, b"", Joiner()
        self.send(link, bind)

    def comes(self, link, data):
        try:
            if link in self.links:
                self.piece(link, data)
            elif self.turn_link == link:
                self.turn_piece(data)
        except Shut as cause:
            if link in self.links:
                self.actions.append(("close", link, str(cause)))
                self.take_close(link)
            else:
                self.end_turn(str(cause))
                self.lose("BadReply")

    def event(self, word, run=lambda: None):
        self.words.append(word)
        self.actions = []
        if self.stopped:
            self.answers.append("Err(Stopped)")
            return self
        try:
            run()
            self.start_turn()
        except Spent:
            self.stopped = True
            self.answers.append("Err(Spent)")
            return self
        self.answers.append(",".join(self.shown(action) for action in self.actions) or "-")
        return self

    @staticmethod
    def shown(action):
        name, *rest = action
        return " ".join([name] + [text(each) if isinstance(each, bytes) else str(each) for each in rest])

    def at(self, moment):
        self.now = moment
        self.words.append(f"at/{moment}")
        self.answers.append("-")
        return self

    def wants(self):
        self.words.append("wants")
        self.answers.append("None" if self.turn_link is None else f"Some({self.turn_link})")
        return self

    def opened(self, link=1):
        return self.event(f"opened/{link}", lambda: self.open(link))

    def closed(self, link=1):
        return self.event(f"closed/{link}", lambda: self.take_close(link))

    def dialled(self, link):
        return self.event(f"dialled/{link}", lambda: self.dial_comes(link))

    def failed(self):
        return self.event("failed", lambda: self.lose("DialFailed") if self.bind is not None else None)

    def bytes(self, data, link=1):
        return self.event(f"bytes/{link}/{text(data)}", lambda: self.comes(link, data))

    def stop(self):
        return self.event("stop")

    # what was done

    def dials(self):
        return any(action[0] == "dial" for action in self.actions)

    def sent(self, link):
        return b"".join(action[2] for action in self.actions if action[:2] == ("send", link))


# ---- others


def units_in(data):
    """The units in a byte string."""
    units = []
    while data:
        units.append(data[:short(data, 8)])
        data = data[len(units[-1]):]
    return units


def controller_of(users=(ANN, BOB), machines=(FILE1,), challenges=domain_controller.DRAWS, **how):
    return domain_controller.Controller(users=users, machines=machines, challenges=challenges, **how)


def answer_of_controller(controller, link):
    """What the controller sent on the link at its last event."""
    sends = [action.split(" ") for action in controller.actions if action.startswith(f"send {link} ")]
    return b"".join(bytes.fromhex(each[2]) for each in sends)


def turn(member, controller, link):
    """A turn of the member on a link to the controller, to its end."""
    member.dialled(link)
    controller.opened(link)
    while member.sent(link):
        controller.bytes(member.sent(link), link)
        member.bytes(answer_of_controller(controller, link), link)
    controller.closed(link)


def turns(member, controller, link=1000):
    """Turns, as long as the member dials."""
    while member.dials():
        turn(member, controller, link)
        link += 1
    return link


def client_of(link, **plan):
    """A client that has dialled, and what it sends."""
    client = logon_client.Client(**plan).at(NOW)
    return client.dialled(link)


def authenticate(member, link=1, client=None, receive=LIMIT, **plan):
    """A client's bind and its AUTHENTICATE message, without what follows it; and the rest that it sends. The client
    receives fragments of that size."""
    client = client_of(link, **plan) if client is None else client
    member.opened(link).bytes(changed(client.sent(), 18, le(receive, 2)), link)
    client.bytes(member.sent(link), link)
    data = client.sent()
    size = short(data, 8)
    member.bytes(data[:size], link)
    return client, data[size:]


def let_in(member, controller, link=1, **plan):
    client, rest = authenticate(member, link, **plan)
    turns(member, controller, 1000 * link)
    return client, rest


def begun(**plan):
    return Member(**plan).at(NOW)


PLANS = logon_client.PLANS


# ---- scenarios


def carried(users, machines=(FILE1,), **plan):
    """The lines of a member, a client and a controller, between which each send is carried until the client has its
    outcome."""
    member, controller = begun(), controller_of(users, machines).at(NOW)
    client, rest = let_in(member, controller, **plan)
    while rest:
        member.bytes(rest)
        client.bytes(member.sent(1))
        rest = client.sent()
    assert client.outcome is not None
    return [member.closed().case(), client.case(), controller.case()]


def logon_cases():
    out = []
    for plan in PLANS:
        for echo in (0, 16, 4096):
            # a user who may, one who may not, a wrong password, and an unknown user
            for users, secret in (((ANN, BOB), ANN["hash"]), ((ANN | {"disabled": True},), ANN["hash"]), ((ANN, BOB), BOB["hash"]), ((), ANN["hash"])):
                out += carried(users, secret=secret, echo=echo, **plan)
    # of three users and two machines, one who may and one who may not
    for ann in (ANN, ANN | {"disabled": True}):
        out += carried((ann, BOB, EVE), (FILE1, FILE2), secret=ANN["hash"], echo=4096, level=PRIVACY, kind="v2")
    return out


def turn_cases():
    """Three links that ask before the first reply comes: one Challenge, one Authenticate, three Logons."""
    out = []
    member, controller = begun(), controller_of().at(NOW)
    clients = [authenticate(member, link) for link in (1, 2)]
    clients.append(authenticate(member, 3, kind="v1", level=2, user="bob", secret=BOB["hash"]))
    # the first that asked dialled
    assert sum("dial " in answer for answer in member.answers) == 1
    link, dials = 1000, 1
    member.wants()
    turn(member, controller, link)
    while member.dials():
        link, dials = link + 1, dials + 1
        member.wants()
        turn(member, controller, link)
    assert dials == 5
    member.wants()
    for number, (client, rest) in enumerate(clients, 1):
        member.bytes(rest, number)
        client.bytes(member.sent(number), number)
    out += [member.case(), controller.case()]
    # held requests: two whole ones, one in two fragments, answered in their order after In, and by as many faults as
    # units after Out
    for users in ((ANN,), ()):
        for plan in ({"level": 2}, {"level": 5}, {"level": 6}):
            member, controller = begun(), controller_of(users).at(NOW)
            client, rest = authenticate(member, **plan)
            echo = whole(REQUEST, call=3, hint=4, context=0, opnum=1, stub=write_memo("echo_request", b""))
            parts = [echo | {"stub": echo["stub"][:2] + b"\0" * 6, "last": False}, echo | {"stub": b"", "first": False}]
            member.bytes(rest)
            member.bytes(b"".join(protected(client.session, client.level, 1, part) for part in parts))
            member.bytes(protected(client.session, client.level, 1, echo | {"call": 4, "opnum": 7}))
            turns(member, controller)
            out.append(member.bytes(protected(client.session, client.level, 1, echo | {"call": 5})).case())
    # a link that closes while it is asked is told its outcome, and one opened later under its number is another
    for again in (False, True):
        member, controller = begun(), controller_of().at(NOW)
        authenticate(member)
        member.closed()
        client = None
        if again:
            client, _ = authenticate(member)
        turns(member, controller)
        member.opened(5)
        out.append(member.closed().closed(5).case())
    # a link opened anew under the number of one that is asked, or of the turn's
    member, controller = begun(), controller_of().at(NOW)
    authenticate(member)
    member.opened().wants()
    turns(member, controller)
    out.append(member.case())
    member, controller = begun(), controller_of().at(NOW)
    authenticate(member)
    out.append(member.dialled(7).wants().opened(7).wants().failed().case())
    member = begun()
    authenticate(member)
    out.append(member.dialled(1).wants().closed(1).case())
    # the queue: 64 wait, the next is told so
    member, controller = begun(draws=[f"{place:016x}" for place in range(80)]), controller_of().at(NOW)
    for link in range(1, 67):
        authenticate(member, link, kind="v1", level=2)
    request = write_unit(whole(REQUEST, call=2, hint=0, context=0, opnum=0, stub=b""))
    out.append(member.bytes(request, 65).bytes(request, 66).failed().bytes(request, 1).bytes(request, 2).case())
    return out


def order_cases():
    """A Logon request that is delivered twice before its reply; a reply that is lost, and a member that begins anew."""
    out = []
    member, controller = begun(), controller_of().at(NOW)
    clients = [authenticate(member, link, level=level) for link, level in ((1, 6), (2, 5), (3, 2))]
    for link in range(1000, 1005):
        member.dialled(link)
        controller.opened(link)
        while member.sent(link):
            request = member.sent(link)
            again = member.channel.turn["opnum"] == channel_client.LOGON and member.channel.turn["bound"]
            controller.bytes(request, link)
            replies = [answer_of_controller(controller, link)]
            if again:
                controller.bytes(request, link)
                replies.append(answer_of_controller(controller, link))
            for reply in replies:
                member.bytes(reply, link)
        controller.closed(link)
    for number, (client, rest) in enumerate(clients, 1):
        member.bytes(rest, number)
    assert sum(answer.count("judged Passed(0)") for answer in controller.answers) == 3
    assert sum(answer.count("judged Barred") for answer in controller.answers) == 3
    assert all(any(f"told {number} In " in answer for answer in member.answers) for number in (1, 2, 3))
    out += [member.case(), controller.case()]
    # the reply to a Logon is lost with its link; then the member begins anew, and the client with it
    member, controller = begun(), controller_of().at(NOW)
    authenticate(member)
    for link in (1000, 1001):
        turn(member, controller, link)
    member.dialled(1002)
    controller.opened(1002).bytes(member.sent(1002), 1002)
    member.bytes(answer_of_controller(controller, 1002), 1002)
    controller.bytes(member.sent(1002), 1002)
    member.closed(1002)
    controller.closed(1002)
    assert "told 1 NoController(LinkClosed)" in member.answers[-1]
    out.append(member.case())
    member = begun(draws=DRAWS[4:])
    client, rest = authenticate(member)
    turns(member, controller, 2000)
    assert sum(answer.count("judged Passed(0)") for answer in controller.answers) == 2
    assert any("told 1 In " in answer for answer in member.answers)
    out += [member.bytes(rest).case(), controller.case()]
    return out


# ---- a change of the secret

OLD, NEW, NEWER = "41" * 16, "61" * 16, "62" * 16


def kept_by(*secrets):
    """How these secrets are kept."""
    return "keep " + "".join(secret + "\n" for secret in secrets).encode().hex()


def told_of(member, link=1):
    """The outcomes that were told of a link, without what they carry."""
    told = [action for answer in member.answers for action in answer.split(",") if action.startswith(f"told {link} ")]
    return [action.split(" ")[2] for action in told]


def change_begins_cases():
    """A change that begins, and none: while one is under way, and after `Spent`."""
    out = []
    member = begun().change(NEW)
    assert member.answers[-1] == kept_by(OLD, NEW)
    # one is under way: also to the secret that is kept, also to the current one, and also of a member made of two
    for other in (NEWER, NEW, OLD):
        member.change(other)
        assert member.answers[-1].startswith("Err(Busy { next: [97, ")
    out.append(member.case())
    out.append(begun(following=NEWER).change(NEW).change(NEWER).case())
    # to the secret that is there: it is kept twice
    member = begun().change(OLD)
    assert member.answers[-1] == kept_by(OLD, OLD)
    out.append(member.change(NEW).case())
    # one that found no challenge is stopped
    member = begun(draws=())
    client = client_of(1).sent()
    out.append(member.opened().bytes(client).change(NEW).change(NEW).wants().case())
    member = begun(draws=(), following=NEW)
    out.append(member.opened().bytes(client).change(NEWER).case())
    return out


def change_cases():
    """A change beside a controller, at each place where a call of it, or its reply, is lost."""
    out = []
    # at rest: it rides in front of the next logon; then there is one secret, and another change may begin
    for secret in (NEW, OLD):
        member, controller = begun().change(secret), controller_of().at(NOW)
        let_in(member, controller)
        assert told_of(member) == ["In"] and any(answer.startswith(kept_by(secret) + ",close ") for answer in member.answers)
        let_in(member.change(NEWER), controller, 2)
        assert any(answer.startswith(kept_by(NEWER) + ",close ") for answer in member.answers)
        out += [member.case(), controller.case()]
    # while a turn is out, of each kind: the turn behind it sets the secret, or the one behind the next opening
    for before in range(4):
        member, controller = begun(), controller_of().at(NOW)
        for link in (1, 2):
            authenticate(member, link)
        for link in range(1000, 1000 + before):
            turn(member, controller, link)
        member.change(NEW)
        turn(member, controller, 2000)
        turns(member, controller, 2001)
        # the turn of the last logon was out: the change waits for the next one
        assert (member.following is None) == (before < 3)
        let_in(member, controller, 3)
        assert [told_of(member, link) for link in (1, 2, 3)] == [["In"]] * 3 and any(kept_by(NEW) + ",close " in answer for answer in member.answers)
        out.append(member.case())
    return out


def lost_at(member, controller, link, goes, comes):
    """The turn that is dialled, whose link is lost: behind what it sent, or behind what came back."""
    member.dialled(link)
    controller.opened(link).bytes(member.sent(link), link)
    member.bytes(answer_of_controller(controller, link), link)
    if goes:
        controller.bytes(member.sent(link), link)
    if comes:
        member.bytes(answer_of_controller(controller, link), link)
    member.closed(link)
    controller.closed(link)


def loss_of_change_cases():
    """The call of a change, or its reply, is lost; the member is made anew at each place behind that, or not. In the
    end both have the new secret, and one alone."""
    out = []
    for passes in (False, True):
        # how many logons come before the member is made anew of the text that it kept
        for logons in range(4):
            member, controller = begun(draws=DRAWS[:4]).change(NEW), controller_of(challenges=[f"{at:02x}" * 8 for at in range(0x80, 0xa0)]).at(NOW)
            authenticate(member)
            for link in (1000, 1001):
                turn(member, controller, link)
            lost_at(member, controller, 1002, passes, False)
            assert told_of(member) == ["NoController(LinkClosed)"]
            outcomes, lines = [], []
            for link in range(2, 5):
                if link == logons + 2:
                    lines.append(member.case())
                    member = begun(secret=member.current.hex(), following=member.following.hex() if member.following else None, draws=DRAWS[4:])
                else:
                    member.draws += [bytes([0x30 + link, at] * 4) for at in range(4)]
                    member.words[4] = ",".join([member.words[4]] + [draw.hex() for draw in member.draws[-4:]])
                let_in(member, controller, link)
                outcomes += told_of(member, link)
            # where the call passed the current one is denied, and then the new one opens the channel; a member that is
            # made anew in between tries the current one again
            first = ["NoController(Denied)"] if passes else ["In"]
            assert outcomes == first + (first if logons == 1 else ["In"]) + ["In"]
            assert member.kept() == (NEW + "\n").encode() and controller.secrets() == f"FILE1$ {NEW}\n".encode().hex()
            out += lines + [member.case(), controller.case()]
    return out


def denied_change_cases():
    """A controller that was begun anew knows no channel: the change is denied, then the new secret, and then the
    current one opens."""
    member, controller = begun(draws=DRAWS + [f"{at:02x}" * 8 for at in range(0x30, 0x40)]), controller_of().at(NOW)
    let_in(member, controller)
    controller = controller_of().at(NOW)
    member.change(NEW)
    for link in range(2, 6):
        let_in(member, controller, link)
    assert sum((told_of(member, link) for link in range(2, 6)), []) == ["NoController(Denied)"] * 2 + ["In"] * 2
    assert member.kept() == (NEW + "\n").encode()
    # an account whose secret is another: each of the two is denied in turn
    strange, other = begun(following=NEW), controller_of(machines=(FILE1 | {"hash": NEWER},)).at(NOW)
    for link in range(1, 4):
        let_in(strange, other, link)
    assert strange.following and sum((told_of(strange, link) for link in range(1, 4)), []) == ["NoController(Denied)"] * 3
    return [member.case(), controller.case(), strange.case(), other.case()]


def still_cases():
    """Events that change nothing: `Stop`, an empty piece, and events on links that aren't open; in front of a logon,
    within it and behind it."""
    member, controller = begun(), controller_of().at(NOW)
    member.stop().bytes(b"").bytes(b"x").closed().dialled(1).failed().wants().opened().bytes(b"").stop().wants()
    assert set(member.answers[1:]) == {"-", "None"}
    client, rest = authenticate(member)
    member.stop().bytes(b"").closed(7).bytes(b"abc", 7).bytes(b"", 1000).wants()
    bind = member.dialled(1000).sent(1000)
    member.bytes(b"", 1000).stop().dialled(1001).failed().closed(1001).wants()
    member.bytes(answer_of_controller(controller.opened(1000).bytes(bind, 1000), 1000), 1000)
    request = member.sent(1000)
    member.stop().bytes(b"", 1000)
    member.bytes(answer_of_controller(controller.bytes(request, 1000), 1000), 1000)
    turns(member, controller, 1001)
    return [member.stop().bytes(b"").bytes(rest).bytes(b"").stop().bytes(b"", 1002).wants().case()]


def front_cases():
    """Each proper front of a bind, on a link of its own that is closed then."""
    out = []
    plain = write_unit(whole(BIND, call=1, send=LIMIT, receive=LIMIT, group=0, contexts=[(0, NETLOGON, [NDR])]))
    assert len(plain) == 72
    for bind in (plain, client_of(1).sent()):
        member = begun()
        for size in range(len(bind)):
            member.opened().bytes(bind[:size]).closed()
        assert set(member.answers) == {"-"}
        out.append(member.case())
    return out


def moment_cases():
    """The seconds of the authenticator, at moments before and after 1970."""
    out = []
    for moment in (0, 1, 116_444_735_999_999_999, 116_444_736_000_000_000, NOW, 2**63, 2**64 - 1):
        member, controller = Member().at(moment), controller_of()
        let_in(member, controller, kind="v1", level=2)
        out.append(member.case())
    return out


def loss_cases():
    """How a turn is lost, at each of its steps; and the next turn begins."""
    out = []
    bad = changed(write_unit(whole(FAULT, call=1, hint=0, context=0, status=5)), 0, b"\x04")
    for steps_before in range(3):
        for plan in ({"level": 2, "kind": "v1"}, {"level": 6}):
            for way in ("failed", "closed", "unit", "fragment", "fault", "denied", "nak", "other", "skip"):
                member, controller = begun(), controller_of().at(NOW)
                client, rest = authenticate(member, 1, **plan)
                authenticate(member, 2, **plan)
                link = 1000
                for _ in range(steps_before):
                    turn(member, controller, link)
                    link += 1
                if way != "failed":
                    member.dialled(link)
                call = member.channel.turn["number"]
                if way == "failed":
                    member.failed()
                elif way == "closed":
                    member.closed(link)
                elif way == "unit":
                    member.bytes(bad, link)
                elif way == "fragment":
                    member.bytes(write_unit(whole(RESPONSE, call=call, hint=0, context=0, stub=b"") | {"first": False}), link)
                elif way == "fault":
                    member.bytes(write_unit(whole(FAULT, call=call, hint=0, context=0, status=5)), link)
                elif way == "nak":
                    member.bytes(write_unit(whole(NAK, call=call, reason=0)), link)
                elif way == "other":
                    member.bytes(write_unit(whole(AUTH3, call=call)), link)
                elif way == "skip":
                    member.bytes(write_unit(whole(FAULT, call=call + 9, hint=0, context=0, status=5)), link).closed(link)
                else:
                    controller.opened(link).bytes(member.sent(link), link)
                    member.bytes(answer_of_controller(controller, link), link)
                    stub = bytes(8) + le(0xC0000022, 4)
                    member.bytes(write_unit(whole(RESPONSE, call=member.channel.turn["number"], hint=12, context=0, stub=stub)), link)
                member.wants().bytes(rest, 1)
                out.append(member.dialled(2000).wants().bytes(bad, 2000).case())
    # too many bytes in the reply
    member = begun()
    authenticate(member)
    member.dialled(9)
    for frame in frames_of(whole(RESPONSE, call=1, hint=0, context=0, stub=bytes(65544)), LIMIT):
        member.bytes(frame, 9)
    out.append(member.case())
    return out


def bind_cases():
    out = []
    good = logon_client.message_of("negotiate", OFFERED)
    request = write_unit(whole(REQUEST, call=2, hint=0, context=0, opnum=0, stub=b""))
    binds = [None, (9, 6, 1, good), (10, 6, 7, good), (10, 5, 2**32 - 1, good), (10, 2, 0, good)]
    binds += [(10, level, 1, good) for level in (0, 1, 3, 4, 7)]
    for level in (2, 5, 6):
        for flags in (OFFERED_V1, OFFERED & ~UNICODE, OFFERED & ~NTLM, UNICODE | NTLM, UNICODE | NTLM | ESS, UNICODE | ESS, 0, 0xFFFFFFFF):
            binds.append((10, level, 1, message_of("negotiate", flags)))
    broken = [b"x", good[:15], changed(good, 0, b"n"), changed(good, 8, b"\2"), good + b"behind", message_of("negotiate", OFFERED | 0x1000, Domain=b"CORP")]
    binds += [(10, 6, 1, each) for each in broken]
    for trailer in binds:
        bind = whole(BIND, call=1, send=LIMIT, receive=LIMIT, group=0, contexts=[(0, MEMO, [NDR])], trailer=trailer)
        out.append(begun().opened().bytes(write_unit(bind)).bytes(request).case())
    for case in values("messages")["negotiate"]:
        for level in (2, 5, 6):
            trailer = (10, level, 1, bytes.fromhex(case["message"]))
            bind = whole(BIND, call=7, send=LIMIT, receive=1000, group=0, contexts=[(0, MEMO, [NDR]), (1, NETLOGON, [NDR])], trailer=trailer)
            out.append(begun().opened().bytes(write_unit(bind)).bytes(request).case())
    # contexts, and an answer that is too long
    for contexts in ([(5, MEMO, [])], [(5, NETLOGON, [NDR])], [], [(0, MEMO, [])] * 228, [(0, MEMO, [])] * 232):
        bind = whole(BIND, call=1, send=LIMIT, receive=LIMIT, group=0, contexts=contexts, trailer=(10, 2, 1, good))
        out.append(begun().opened().bytes(write_unit(bind)).bytes(request).case())
    # what has no place: on a fresh link, on one that has its challenge, and on one that is asked
    for unit in (
        whole(REQUEST, call=1, hint=0, context=0, opnum=0, stub=b""), whole(RESPONSE, call=1, hint=0, context=0, stub=b""), whole(AUTH3, call=1),
        whole(AUTH3, call=1, trailer=(9, 6, 1, good)), whole(NAK, call=1, reason=0), whole(ACK, call=1, send=0, receive=0, group=0, results=[]),
        whole(FAULT, call=1, hint=0, context=0, status=5), whole(BIND, call=1, send=0, receive=0, group=0, contexts=[], trailer=(10, 6, 1, good)),
    ):
        out.append(begun().opened().bytes(write_unit(unit)).case())
        member = begun().opened()
        member.bytes(client_of(1).sent())
        out.append(member.bytes(write_unit(unit)).case())
        member = begun()
        authenticate(member)
        out.append(member.bytes(write_unit(unit)).failed().case())
    # 256 links
    full = Member(draws=[])
    for link in range(LINKS + 1):
        full.opened(link)
    out.append(full.opened(3).closed(4).opened(LINKS).opened(LINKS + 1).case())
    # fewer challenges than are drawn
    member = begun(draws=DRAWS[:1])
    member.opened(1).bytes(client_of(1).sent(), 1).opened(2)
    out.append(member.bytes(client_of(2).sent(), 2).opened(3).failed().case())
    member = begun(draws=DRAWS[:1])
    authenticate(member)
    out.append(member.closed().case())
    return out


def message_cases():
    """AUTHENTICATE messages: refused ones, flags that are left out, and a key of another length."""
    out = []
    for level in (2, 5, 6):
        client = client_of(1, level=level)
        start = begun().opened().bytes(client.sent())
        client.bytes(start.sent(1))
        unit = read_unit(client.sent()[:short(client.sent(), 8)])
        message = unit["trailer"][3]
        flags = int.from_bytes(message[60:64], "little")
        wrong = [b"x", message[:63], changed(message, 0, b"n"), changed(message, 8, b"\1"), changed(message, 24, le(9999, 4)), changed(message, 36, le(3, 2))]
        wrong += [changed(message, 60, le(flags & ~bit, 4)) for bit in (UNICODE, ESS, KEY_EXCH, NTLM, 0x20000000, 0x80000000)]
        wrong += [changed(message, 60, le(0xFFFFFFFF, 4)), changed(message, 60, le(0, 4))]
        wrong += [changed(message, 52, le(size, 2)) for size in (0, 15)]
        for each in wrong + [message]:
            for trailer in ((10, level, 1, each), (10, 7, 9, each)):
                member = begun().opened().bytes(client_of(1, level=level).sent())
                out.append(member.bytes(write_unit(unit | {"trailer": trailer})).failed().case())
    return out


def foreign_cases():
    """Clients of other implementations, beside a controller with their accounts: their NEGOTIATE and AUTHENTICATE
    messages, at each level."""
    out = []
    found = values("messages")
    offers = {case["name"].removeprefix("NEGOTIATE of "): bytes.fromhex(case["message"]) for case in found["negotiate"]}
    for case in found["authenticate"]:
        who = case["name"].removeprefix("AUTHENTICATE of ").split(",")[0]
        right = next(each["challenge"] for each in case["checks"] if each["accepted"])
        head = {"domain": case["domain"], "sid": "S-1-5-21-1-2-3"}
        for level in (2, 5, 6):
            member = begun(domain=case["domain"], draws=[right] + DRAWS)
            controller = controller_of([{"name": case["user"], "rid": 1001, "hash": case["nt_hash"]}], head=head).at(NOW)
            bind = whole(BIND, call=1, send=LIMIT, receive=LIMIT, group=0, contexts=[(0, MEMO, [NDR])], trailer=(10, level, 1, offers[who]))
            member.opened().bytes(write_unit(bind)).bytes(write_unit(whole(AUTH3, call=1, trailer=(10, level, 1, bytes.fromhex(case["message"])))))
            turns(member, controller)
            told = [answer for answer in member.answers if "told 1 In" in answer]
            agree(lambda: not told or array(case["exported_key"]) in told[0], True, case["name"])
            out.append(member.case())
    return out


def request_cases():
    """Requests on a link that is in."""
    out = []
    for level in (2, 5, 6):

        def ready(**plan):
            member = begun()
            client, rest = let_in(member, controller_of().at(NOW), level=level, **plan)
            return member.bytes(rest), client

        def request(client, opnum, stub, call=3, context=0):
            return protected(client.session, level, 1, whole(REQUEST, call=call, hint=len(stub), context=context, opnum=opnum, stub=stub))

        for opnum in (0, 1, 2, 65535):
            for stub in (b"", b"abc", bytes(4), le(4097, 4) + bytes(4097), le(4096, 4) + bytes(4096), le(5, 4) + b"hello", le(5, 4) + b"hell"):
                for context in (0, 1):
                    if opnum < 2 or len(stub) < 9:
                        member, client = ready()
                        out.append(member.bytes(request(client, opnum, stub, context=context)).bytes(request(client, 0, b"", 4)).case())
        # trailers that aren't of the level, and bytes that were changed
        if level != 2:
            member, client = ready()
            size = len(request(client, 1, le(5, 4) + b"hello"))
            for place in (3, 12, 16, 22, 24, size - 25, size - 24, size - 23, size - 16, size - 12, size - 1):
                member, client = ready()
                data = request(client, 1, le(5, 4) + b"hello")
                out.append(member.bytes(changed(data, place, bytes([data[place] ^ 1]))).case())
            member, client = ready()
            data = request(client, 0, b"")
            out.append(member.bytes(data).bytes(data).case())
            for trailer in (None, (10, 11 - level, 1, bytes(16)), (9, level, 1, bytes(16)), (10, level, 1, bytes(15)), (10, level, 1, bytes(17)), (10, level, 1, bytes(16))):
                member, client = ready()
                unit = whole(REQUEST, call=3, hint=0, context=0, opnum=0, stub=b"", trailer=trailer)
                out.append(member.bytes(write_unit(unit)).case())
        else:
            for trailer in ((10, 2, 1, bytes(16)), (9, 6, 1, b"x")):
                member, client = ready()
                unit = whole(REQUEST, call=3, hint=0, context=0, opnum=0, stub=b"", trailer=trailer)
                out.append(member.bytes(write_unit(unit)).case())
        # a request in fragments, and its reply in as many as the client's size makes it; and fragments out of their
        # places
        stub = le(4000, 4) + bytes(place % 251 for place in range(4000))
        for receive in (0, 1432, 2000, 5840):
            member, client = ready(receive=receive)
            parts = [read_unit(frame) for frame in frames_of(whole(REQUEST, call=3, hint=0, context=0, opnum=1, stub=stub), 1432)]
            for part in parts:
                member.bytes(protected(client.session, level, 1, part))
            assert len(units_in(member.sent(1))) == (1 if receive == 5840 else 3)
            out.append(member.case())
        member, client = ready()
        first = protected(client.session, level, 1, parts[0])
        second = protected(client.session, level, 1, parts[0])
        out.append(member.bytes(first).bytes(second).case())
        member, client = ready()
        out.append(member.bytes(protected(client.session, level, 1, parts[1])).case())
        member, client = ready()
        for part in [read_unit(frame) for frame in frames_of(whole(REQUEST, call=3, hint=0, context=0, opnum=1, stub=bytes(65544)), LIMIT)]:
            member.bytes(protected(client.session, level, 1, part))
        out.append(member.case())
        # other units on it
        for unit in (whole(AUTH3, call=1, trailer=(10, level, 1, b"x")), whole(RESPONSE, call=1, hint=0, context=0, stub=b""), whole(BIND, call=1, send=0, receive=0, group=0, contexts=[])):
            member, client = ready()
            out.append(member.bytes(write_unit(unit)).case())
    return out


def held_cases():
    """Requests of 65,536 bytes are held on a link that waits for its verdict, one more closes it."""
    out = []
    unit = lambda size: write_unit(whole(REQUEST, call=2, hint=0, context=0, opnum=0, stub=bytes(size - 24)))
    for last in (1296, 1297):
        member = begun()
        authenticate(member, level=2)
        for _ in range(11):
            member.bytes(unit(5840))
        out.append(member.bytes(unit(last)).bytes(unit(24)).failed().case())
    return out


def out_cases():
    """Requests on a link that is out."""
    out = []
    for users, way in (((), "out"), ((ANN,), "none")):
        member = begun()
        client, rest = authenticate(member, level=6)
        if way == "none":
            member.failed()
        else:
            turns(member, controller_of(users).at(NOW))
        member.bytes(rest).bytes(write_unit(whole(REQUEST, call=9, hint=0, context=5, opnum=77, stub=b"abc") | {"first": False}))
        out.append(member.bytes(write_unit(whole(AUTH3, call=1, trailer=(10, 6, 1, b"x")))).case())
    return out


def cases():
    """Each line and its answer."""
    return (
        logon_cases() + turn_cases() + order_cases() + change_begins_cases() + change_cases() + loss_of_change_cases() + denied_change_cases() + still_cases() + front_cases() + moment_cases() + loss_cases() + bind_cases() + message_cases()
        + foreign_cases() + request_cases() + held_cases() + out_cases()
    )
