"""Cases of the commands that serve, as `nt_top` runs them over the outside in memory.

`serves.run EVENTS FAILING FAILING_READS FAILING_PUTS DRAWS FILES ROLE WORD..`: the exit, its status and its line; what
was put as text; what was sent,
`LINK:BYTES`; and that all that the outside in memory kept is still told. `serves.keep` with the same words: that, and
what the file `c` of changed secrets holds then, `none` where there is none. Calls of the port are counted from 0,
`listen` among them, and those of files, reads and writes, and sink each from 0.

The bind is one of C706 12.6.4.3 for Netlogon's interface (MS-NRPC 3.5), and its answer and the fault are units of C706
12.6.4.4 and 12.6.4.7, written here byte by byte. What is sent and put for calls is worked out by the controller of
`domain_controller.py`, from the rules of docs/FORMATS.md, MS-NRPC 3.1.4 and 3.5.4 and the layouts of C706 12.6. With
trusts it is that of `trusts.py`, beside a controller of the other domain. What a member sends and puts is worked out by
the member of `member_server.py`, beside that controller and clients of `logon_client.py`: bytes are carried between
them, and the member's events are given to the program.
"""

import re

from documents import ANN, FILE1, document
import member_server
from channel_client import credential
from domain_controller import ACCESS_DENIED, DRAWS, SET, SUPPORTED, Controller, key_of, replies, upper, utf16
from forms import line
from logon_client import Client
from logon_stubs import AUTHENTICATE, LOGON as LOGON_CALL
from member_server import Member, answer_of_controller, authenticate, controller_of, turns
from sealed_controller import ALL as SECURE_FLAGS
from sealed_controller import Sealing as SealedController
from trusts import CORP, OWN_DRAWS, ROAM, SAM, THIRD, Trusting, hop, hops, other
from wire import flipped

from nt_top import MEMBER, ending, text
from nt_words import CONTROLLER, SEED, SERVE, SERVE_MEMBER, ascii_hex, files_of, words_of

TABLE = document([ANN], [FILE1]).hex()
BIND = (
    "05000b031000000048000000" "01000000" "d016d0160000000001000000"
    "00000100785634123412cdabef0001234567cffb01000000"
    "045d888aeb1cc9119fe808002b10486002000000"
)
BIND_ACK = (
    "05000c031000000038000000" "01000000" "d016d01601000000"
    "0100000001000000" "00000000045d888aeb1cc9119fe808002b10486002000000"
)
# A request on a link without a bind, of call 9 and context 7, and the fault 1c01000b that answers it.
REQUEST = "050000031000000018000000" "09000000" "0000000007000200"
FAULT = "050003031000000020000000" "09000000" "0000000007000000" "0b00011c00000000"
BOUND = f"opened:1,bytes:1:{BIND},stop"


def serve(answer, events=BOUND, failing="", reads="", puts="", draws="", files=None, **options):
    """A case of a controller that serves: its answer is the exit, and what was sent."""
    exit_text, sent = answer
    held = {"t": TABLE, "s": SEED} if files is None else files
    words = words_of("serve", {**SERVE, **options})
    return (
        line("serves.run", events, failing, reads, puts, draws, files_of(**held), CONTROLLER, *words),
        ";".join([exit_text, text(""), sent, "told"]),
    )


DONE = ending("Done")
SENT = f"1:{BIND_ACK}"


def of_the_port():
    """A bind is answered, and each call of the port that fails has its exit."""
    fault = ending("PortFault")
    failures = [("0", fault, "-"), ("1", fault, "-"), ("2", fault, "-"), ("3", DONE, "-"), ("4", fault, SENT), ("5", DONE, SENT)]
    out = [serve((DONE, SENT))]
    out += [serve((exit_text, sent), failing=call) for call, exit_text, sent in failures]
    # The longest name.
    out.append(serve((DONE, SENT), name="N" * 64))
    # A request before the bind has a fault, and the link stays as it is.
    out.append(serve((DONE, f"1:{FAULT}"), events=f"opened:1,bytes:1:{REQUEST},stop"))
    out.append(serve((DONE, f"1:{FAULT},1:{BIND_ACK}"), events=f"opened:1,bytes:1:{REQUEST},bytes:1:{BIND},stop"))
    # The bind comes in pieces.
    out.append(serve((DONE, SENT), events=f"opened:1,bytes:1:{BIND[:20]},bytes:1:{BIND[20:]},stop"))
    # One link more than may be open is closed, and the others are served.
    out.append(serve((DONE, "-"), events="opens:257,stop"))
    out.append(serve((DONE, f"256:{BIND_ACK}"), events=f"opens:257,bytes:257:{BIND},bytes:256:{BIND},stop"))
    return out


def of_counts():
    """As many events are asked for as the words say: what comes later isn't stepped."""
    out = []
    for most, sent in [("0", "-"), ("1", "-"), ("2", SENT), ("3", SENT), ("4294967295", SENT)]:
        words = words_of("serve", {**SERVE, "events": most})
        held = files_of(t=TABLE, s=SEED)
        out.append((line("serves.run", BOUND, "", "", "", "", held, CONTROLLER, *words), ";".join([DONE, text(""), sent, "told"])))
    # The third `next`, call 4 of the port, would fail and is never made.
    words = words_of("serve", {**SERVE, "events": "2"})
    out.append((line("serves.run", BOUND, "4", "", "", "", files_of(t=TABLE, s=SEED), CONTROLLER, *words), ";".join([DONE, text(""), SENT, "told"])))
    return out


def of_the_files():
    """Each file is judged before the next one is read, and before the port listens."""
    nothing = "-"
    bad_seed, fault = ending("BadInput", 4), ending("FileFault")
    refused = 'BadTable({0});4;"bad table"'
    out = [
        serve((fault, nothing), files={}),
        serve((fault, nothing), files={"t": TABLE}),
        serve((fault, nothing), reads="0"),
        serve((fault, nothing), reads="1"),
        serve((DONE, SENT), reads="2"),
        serve((refused.format("BadToml"), nothing), files={"t": "ff", "s": SEED}),
        # The table is refused before the seed is read.
        serve((refused.format("BadToml"), nothing), files={"t": "ff", "s": SEED}, reads="1"),
        serve((refused.format("Missing(Key { list: Top, entry: 0, word: Domain })"), nothing), files={"t": "", "s": SEED}),
    ]
    # A seed of another length; the port's first call would fail, and isn't made.
    for seed in ["", "00" * 31, "00" * 33]:
        out.append(serve((bad_seed, nothing), files={"t": TABLE, "s": seed}))
        out.append(serve((bad_seed, nothing), files={"t": TABLE, "s": seed}, failing="0"))
    return out


JUDGED = {"judged NoChannel": "no channel\n", "judged Barred": "barred\n", "judged Forwarded": "forwarded\n"}
WITH_STATUS = {"judged Passed(": "passed", "judged Answered(": "answered"}


def line_put(action):
    """The line that is put for an action."""
    for told, word in WITH_STATUS.items():
        if action.startswith(told):
            return f"{word} {int(action[len(told):-1]):08x}\n"
    return JUDGED.get(action, "")


def played(end, exit_text=DONE, done=None, puts=""):
    """A case of a served controller, by what `domain_controller.py` says of its events: of its actions that many are
    done, or all."""
    events = ",".join([word.replace("/", ":") for word in end.words[3:]] + ["stop"])
    actions = [action for answer in end.answers for action in answer.split(",")][:done]
    sent = ",".join(action[5:].replace(" ", ":") for action in actions if action.startswith("send ")) or "-"
    put = "".join(line_put(action) for action in actions)
    words = words_of("serve", {**SERVE, "name": end.words[1].decode()})
    files = files_of(t=end.words[0].hex() if isinstance(end.words[0], bytes) else end.words[0], s=SEED)
    return (
        line("serves.run", events, "", "", puts, end.words[2], files, CONTROLLER, *words),
        ";".join([exit_text, text(put), sent, "told"]),
    )


def stopped(end, put):
    """The same where the put of that number fails, counted from 0: what stands before it is done."""
    actions = [action for answer in end.answers for action in answer.split(",")]
    lines = [place for place, action in enumerate(actions) if line_put(action)]
    return played(end, ending("SinkFault"), lines[put], str(put))


def keeps(end, held="", exit_text=DONE, done=None, failing="", puts="", named=True):
    """A case of a served controller with a file of changed secrets, of which the calls FAILING fail: table, seed and
    secrets are read first. What the file holds then is the text of the last `keep` of the actions done, else HELD."""
    events = ",".join([word.replace("/", ":") for word in end.words[3:]] + ["stop"])
    actions = [action for answer in end.answers for action in answer.split(",")][:done]
    sent = ",".join(action[5:].replace(" ", ":") for action in actions if action.startswith("send ")) or "-"
    put = "".join(line_put(action) for action in actions)
    kept = ([held.encode().hex()] + ([action[5:] for action in actions if action.startswith("keep ")] if named else []))[-1]
    words = words_of("serve", {**SERVE, "name": end.words[1].decode(), **({"secrets": "c"} if named else {})})
    table = end.words[0].hex() if isinstance(end.words[0], bytes) else end.words[0]
    files = files_of(t=table, s=SEED, c=held.encode().hex())
    return (
        line("serves.keep", events, "", failing, puts, end.words[2], files, CONTROLLER, *words),
        ";".join([exit_text, text(put), sent, "told", kept or "-"]),
    )


def of_kept_secrets():
    """The text of a Set is in the file before its reply goes out; a write that fails ends the service before the reply,
    and the file stands as it was. Without the option no file is written."""
    fault = ending("FileFault")
    twice = lambda: Controller(challenges=DRAWS).bound().channel_open().sets().sets("62" * 16, timestamp=1)
    actions = [action for answer in twice().answers for action in answer.split(",")]
    writes = [place for place, action in enumerate(actions) if action.startswith("keep ")]
    assert len(writes) == 2, actions
    sinks = [place for place, action in enumerate(actions) if line_put(action)]
    denied = Controller(challenges=DRAWS).bound().sets().channel_open().sets(timestamp=1, account=b"")
    out = [
        keeps(twice()),
        keeps(twice(), named=False),
        keeps(Controller(challenges=DRAWS).bound().channel_open().logs_on()),
        keeps(denied),
        # calls 0 to 2 are the reads
        keeps(twice(), exit_text=fault, done=writes[0], failing="3"),
        keeps(twice(), exit_text=fault, done=writes[1], failing="4"),
    ]
    # the sink fails behind the write, which stands
    out += [keeps(twice(), exit_text=ending("SinkFault"), done=place, puts=str(number)) for number, place in enumerate(sinks)]
    # the file beats the table's hash: a channel opens by the secret of the file, and a text that is kept later has both
    later = Controller(challenges=DRAWS).bound()
    later.hashes["FILE1$"] = bytes.fromhex("61" * 16)
    later.channel_open()
    assert later.answers[-1].endswith("00000000"), later.answers[-1]
    out.append(keeps(later.sets("62" * 16, timestamp=1), f"FILE1$ {'61' * 16}\n"))
    both = Controller(challenges=DRAWS).bound()
    both.hashes["FILE2$"] = bytes.fromhex("63" * 16)
    out.append(keeps(both.channel_open().sets(), f"file2$ {'63' * 16}"))
    # by the table's hash none opens any more
    old = Controller(challenges=DRAWS).bound()
    old.hashes["FILE1$"] = bytes.fromhex("61" * 16)
    pair = old.asks().pending[upper(utf16("FILE1"))]
    stale = {"client": pair[0], "server": pair[1], "secret": bytes.fromhex(FILE1["hash"]), "flags": SUPPORTED}
    old.authenticates(credential=credential(key_of(stale), pair[0]))
    assert replies(old, AUTHENTICATE, 1)[0]["status"] == ACCESS_DENIED
    out.append(keeps(old, f"FILE1$ {'61' * 16}\n"))
    # a file that can't be read, or isn't of its form: the port doesn't listen
    unopened = Controller(challenges=DRAWS)
    out.append(keeps(unopened, exit_text=fault, failing="2"))
    out.append(keeps(unopened, "x", exit_text=ending("BadInput", 7)))
    out.append(keeps(unopened, "ann " + "61" * 16 + "\n", exit_text=ending("BadInput", 7)))
    return out


def of_challenges():
    """A challenge is drawn for each first call of a channel and for nothing else, and the step that finds none left
    ends the service."""
    spent = ending("Spent")
    one = DRAWS[:1]
    return [
        # What was answered before stands: no body that draws before it serves, or draws without being asked, gives
        # these.
        played(Controller(challenges=one).bound().asks().asks(), spent),
        played(Controller(challenges=one).bound().asks()),
        played(Controller(challenges=[]).bound().asks(), spent),
        played(Controller(challenges=[]).bound()),
        played(Controller(challenges=one).bound().channel_open().asks().closed(), spent),
    ]


def of_lines():
    """A line is put for each call on a channel that is judged, before its reply is sent; where the sink fails nothing
    later is done. Without a file of changed secrets one that is set is written nowhere."""
    none = lambda: Controller(challenges=DRAWS).bound().logs_on()
    logons = lambda: Controller(challenges=DRAWS).bound().channel_open().logs_on().logs_on("nobody", timestamp=1).logs_on(timestamp=5, info={"nt": b"\x11" * 24})
    barred = Controller(challenges=DRAWS).bound().channel_open()
    call = barred.logon_call()
    barred.call(LOGON_CALL, call).call(LOGON_CALL, call)
    kinds = Controller(challenges=DRAWS).bound().sets().channel_open().sets().sets(timestamp=1, account=b"").logs_on_at(timestamp=2).logs_off(timestamp=3)
    kinds.logs_off(timestamp=4).logs_off(named={"authenticator": (bytes(8), 1)})
    assert [line_put(action) for answer in kinds.answers for action in answer.split(",") if line_put(action)] == [
        "no channel\n", "passed 00000000\n", "passed c000018b\n", "passed 00000000\n", "passed 00000000\n", "passed c000005f\n", "barred\n"]
    return [
        played(kinds),
        stopped(kinds, 1),
        stopped(kinds, 4),
        played(none()),
        stopped(none(), 0),
        played(logons()),
        stopped(logons(), 0),
        stopped(logons(), 1),
        stopped(logons(), 2),
        played(barred),
        stopped(barred, 1),
    ]


def of_sealed_channels():
    """A controller seals where that is asked for: the lines are those of any channel, a request that was altered has
    none, and a call that isn't on its own channel finds none. The text of a sealed Set is kept."""
    opened = lambda draws=DRAWS: SealedController(challenges=draws).bound().channel_open(flags=SECURE_FLAGS).binds()
    logons = opened().logs_on_sealed().logs_on(link=1).logs_on_sealed("nobody", timestamp=1)
    altered = opened()
    altered.bytes(flipped(b"".join(altered.sealed(LOGON_CALL, altered.logon_call())), 30, 1), 2).binds(3)
    changes = opened()
    changes.asks_sealed(SET, changes.set_call()).logs_on_sealed(timestamp=2)
    return [
        played(logons),
        stopped(logons, 1),
        played(altered),
        played(opened(DRAWS[:1]).logs_on_sealed(), ending("Spent")),
        keeps(changes),
        keeps(changes, named=False),
    ]


# ---- ends that dial


class OverPort:
    """An end over a scripted port: the events of its dials, and of its sends that fail, are made and not given. What is
    done has the number of its call of the port, of which `listen` is 0 and the `next` of each event given the one
    before its actions. An action is a tuple of its kind and what it has."""

    def __init__(self, **plan):
        super().__init__(**plan)
        self.given, self.done, self.last, self.calls, self.failing = [], [], [], 1, []

    def parts(self, action):
        return action

    def event(self, word, run=lambda: None, made=False):
        # What a dial makes is stepped before the port is asked for an event.
        assert word.startswith(("dialled/", "failed")) or not any(action[0] == "dial" for _, action in self.last), word
        super().event(word, run)
        if not made and not word.startswith(("dialled/", "failed")):
            self.given.append(word.replace("/", ":"))
            self.calls += 1
        self.last = []
        for action in [] if self.stopped else map(self.parts, self.actions):
            self.last.append((self.calls, action))
            self.calls += action[0] in ("dial", "send")
        self.done += self.last
        return self

    def failed(self):
        """The dial of the last step fails."""
        self.failing += [call for call, action in self.last if action[0] == "dial"]
        return super().failed()

    def cut(self, link):
        """The one send of the last step on that link fails, and the link is closed."""
        [one] = [each for each in self.last if each[1][:2] == ("send", link)]
        self.failing.append(one[0])
        self.done.remove(one)
        return self.event(f"closed/{link}", lambda: self.take_close(link), made=True)

    def sends(self, done=None):
        return ",".join(f"{action[1]}:{action[2].hex()}" for _, action in self.done[:done] if action[0] == "send") or "-"


# ---- a controller with trusts that serves


class ServedTrusting(OverPort, Trusting):
    """A controller with trusts over a scripted port, on whose link 1 FILE1 has a channel."""

    def __init__(self, **how):
        super().__init__(**how)
        self.bound().channel_open()

    def parts(self, action):
        kind, *rest = action.split(" ")
        return (kind, int(rest[0]), bytes.fromhex(rest[1])) if kind == "send" else (kind, *rest)

    def puts(self, done=None):
        return "".join(line_put(" ".join(action)) for _, action in self.done[:done] if action[0] == "judged")

    def put(self, *lines):
        """It has put these lines."""
        assert self.puts() == "".join(each + "\n" for each in lines), self.puts()
        return self


def asked(end, exit_text=DONE, done=None, puts="", failing=None, **options):
    """A case of a served controller with trusts: of its actions that many are done, or all."""
    words = words_of("serve", {**SERVE, "name": end.words[1].decode(), **options})
    failing = ",".join(map(str, end.failing)) if failing is None else failing
    files = files_of(t=end.words[0].hex(), s=SEED)
    return (
        line("serves.run", ",".join(end.given + ["stop"]), failing, "", puts, end.words[2], files, CONTROLLER, *words),
        ";".join([exit_text, text(end.puts(done)), end.sends(done), "told"]),
    )


def roamed(there=None, **how):
    """Sam's logon is handed on, and the other domain's controller judges it."""
    end = ServedTrusting().roams(**how)
    hops(end, other() if there is None else there, 1000)
    return end


FORWARDED, GRANTED, LOST = "forwarded", "answered 00000000", "answered c000005e"


def of_trusts():
    """A logon of a trusted domain's user is asked of its controller: by three links where no channel is open, and by
    one where one is."""
    out = [asked(roamed(validation=level).put(FORWARDED, GRANTED)) for level in (2, 3)]
    # those who may not log on there, and a domain that isn't that controller's
    elsewhere = {"domain": "ELSE", "sid": "S-1-5-21-4-5-6"}
    for how, status in [
        ({"users": (SAM | {"disabled": True},)}, "c0000072"),
        ({"users": (SAM | {"hash": "45" * 16},)}, "c000006a"),
        ({"users": ()}, "c0000064"),
        ({"head": elsewhere}, "c00000df"),
    ]:
        out.append(asked(roamed(other(**how)).put(FORWARDED, f"answered {status}")))
    # no such account there, another secret, another controller's account, and a disabled one
    for machines in [(), (CORP | {"hash": "99" * 16},), (CORP | {"controllers": ["PDC9"]},), (CORP | {"disabled": True},)]:
        out.append(asked(roamed(other(machines=machines)).put(FORWARDED, LOST)))
    # again on the open channel, and then a user of this domain
    end, there = ServedTrusting().roams(), other()
    link = hops(end, there, 1000)
    assert hops(end.roams(timestamp=1_700_000_001), there, link) == link + 1
    out.append(asked(end.logs_on(timestamp=1_700_000_002).put(FORWARDED, GRANTED, FORWARDED, GRANTED, "passed 00000000")))
    # a domain that nobody knows, and a logon that comes by a trust
    out.append(asked(ServedTrusting().roams(domain="NOWHERE").put("passed c00000df")))
    trust = ServedTrusting().channel_open("NDC1", account=utf16("NORTH$"), channel=4).roams(computer="NDC1")
    return out + [asked(trust.put("passed c00000df"))]


def hop_around(end, there, link, what):
    """A turn on a link to the other controller, with something done once the link was dialled."""
    request = answer_of_controller(end.dialled(link), link)
    what(end)
    there.opened(link)
    while request:
        end.bytes(answer_of_controller(there.bytes(request, link), link), link)
        request = answer_of_controller(end, link)
    there.closed(link)


def of_two_trusts():
    """One turn is out over all trusts, and the first trust's logon goes first, whichever came first."""
    end = ServedTrusting(trusts=(ROAM, THIRD)).roams(domain="THIRD")
    third = other(head={"domain": "THIRD", "sid": "S-1-5-21-7-8-9"}, machines=(CORP | {"hash": "52" * 16},), name="TDC")
    there, asks, link = [other(), third], [], 1001
    # a logon for the first trust comes while the turn of the second is out
    hop_around(end, third, 1000, lambda end: end.roams(number=3, timestamp=1))
    while end.dials():
        asks.append(end.turn_of)
        hop(end, there[end.turn_of], link)
        link += 1
    assert asks == [0, 0, 0, 1, 1], asks
    return [asked(end.put(FORWARDED, FORWARDED, GRANTED, GRANTED))]


def of_lost_turns():
    """A turn is lost at its dial, at the close of its link, or at a send on it that fails; the next logon has turns of
    its own."""
    out = []
    for lose, dialled in [
        (lambda end, link: end.failed(), 0),
        (lambda end, link: end.dialled(link).closed(link), 1),
        (lambda end, link: end.dialled(link).cut(link), 1),
    ]:
        for before in range(3):
            end, there = ServedTrusting().roams(), other()
            link = hops(end, there, 1000, before)
            lose(end, link)
            hops(end.roams(number=3, timestamp=5), there, link + dialled)
            out.append(asked(end.put(FORWARDED, LOST, FORWARDED, GRANTED)))
    # the reply to the Logon is lost, and the link shut
    end, there = ServedTrusting().roams(), other()
    hops(end, there, 1000, 2)
    request = answer_of_controller(end.dialled(1002), 1002)
    end.bytes(answer_of_controller(there.opened(1002).bytes(request, 1002), 1002), 1002)
    there.bytes(answer_of_controller(end, 1002), 1002)
    assert there.actions[0] == "judged Passed(0)", there.actions
    out.append(asked(end.closed(1002).put(FORWARDED, LOST)))
    # the other controller was started anew: it knows no channel
    end, there = ServedTrusting().roams(), other()
    link = hops(end, there, 1000)
    there = other()
    link = hops(end.roams(number=3, timestamp=5), there, link)
    assert there.answers[-2].startswith("judged NoChannel"), there.answers[-2]
    hops(end.roams(number=4, timestamp=6), there, link)
    out.append(asked(end.put(FORWARDED, GRANTED, FORWARDED, LOST, FORWARDED, GRANTED)))
    return out


def of_lost_lines():
    """The link of the call closes while its logon waits, or the reply doesn't go out: the outcome is told, and sent to
    nobody, also where the link's number comes again."""
    out = []
    for what in (lambda end: end.closed(1), lambda end: end.closed(1).bound(1)):
        end, there = ServedTrusting().roams(), other()
        hops(end, there, 1000, 2)
        hop_around(end, there, 1002, what)
        out.append(asked(end.put(FORWARDED, GRANTED)))
    out.append(asked(roamed().cut(1).put(FORWARDED, GRANTED)))
    return out


def of_stopped_trusts():
    """Where the sink fails, the challenges are spent, or the port fails or has no more events, nothing later is
    done."""
    end = roamed()
    told = [place for place, (_, action) in enumerate(end.done) if action[0] == "judged"]
    out = [asked(end, ending("SinkFault"), place, str(number)) for number, place in enumerate(told)]
    # its own channel takes a challenge, and so does each that it opens
    out.append(asked(ServedTrusting(challenges=OWN_DRAWS[:1]).roams().put(), ending("Spent")))
    out.append(asked(ServedTrusting(challenges=OWN_DRAWS[:2]).roams().failed().roams(number=3, timestamp=5).put(FORWARDED, LOST), ending("Spent")))
    dialled = ServedTrusting().roams().dialled(1000).put(FORWARDED)
    out.append(asked(dialled, ending("PortFault"), failing=str(dialled.calls)))
    out.append(asked(end, done=len(dialled.done), events=str(len(dialled.given))))
    return out


def of_controllers_with_trusts():
    """A controller that asks the controllers of trusted domains."""
    return of_trusts() + of_two_trusts() + of_lost_turns() + of_lost_lines() + of_stopped_trusts()


# ---- a member server that serves

MEMBER_SECRET = "41" * 16
MEMBER_DRAWS = member_server.DRAWS
MEMBER_FILES = {"k": ascii_hex(MEMBER_SECRET), "s": SEED}


def member_line(given, failing="", reads="", puts="", draws="", files=None, **options):
    """A line that runs a member server."""
    held = MEMBER_FILES if files is None else files
    words = words_of("serve", {**SERVE_MEMBER, "controller": "there", **options})
    return line("serves.run", given, failing, reads, puts, draws, files_of(**held), MEMBER, *words)


class Served(OverPort, Member):
    """A member over a scripted port."""

    def __init__(self, **plan):
        super().__init__(**{"draws": MEMBER_DRAWS, **plan})

    def begins(self, secret):
        """It begins with a change to that secret, once the port listens; nothing is done where one is under way."""
        self.change(secret)
        self.done += [(0, action) for action in self.actions]
        return self

    def puts(self, done=None):
        return "".join(line_told(*action[1:]) for _, action in self.done[:done] if action[0] == "told")


def ascii_of(units):
    """Units in the form of a list, as printable ASCII."""
    numbers = [int(each) for each in units.split(", ") if each]
    return "".join(chr(each) if 0x20 <= each <= 0x7E else "?" for each in numbers)


def line_told(link, outcome):
    """The line of the outcome of a logon."""
    if outcome.startswith("In "):
        domain, user = [ascii_of(each) for each in re.findall(r"\[([0-9, ]*)\]", outcome)[:2]]
        return f"link {link} in {domain}\\{user}\n"
    if outcome.startswith("Out("):
        return f"link {link} out {int(outcome[4:-1]):08x}\n"
    return f"link {link} no controller\n"


def served(member, exit_text=DONE, done=None, puts="", **how):
    """A case of a served member, by what `member_server.py` says of its events: of its actions that many are done, or
    all."""
    failing = ",".join(map(str, member.failing))
    put = text(member.puts(done).replace("\\", "\\\\"))
    draws = member.words[4]
    return (
        member_line(",".join(member.given + ["stop"]), failing=failing, puts=puts, draws="" if draws == "-" else draws, **how),
        ";".join([exit_text, put, member.sends(done), "told"]),
    )


def sink_fails(member, put):
    """The same where the put of that number fails, counted from 0: what stands before it is done."""
    told = [place for place, (_, action) in enumerate(member.done) if action[0] == "told"]
    return served(member, ending("SinkFault"), told[put], str(put))


def logs_on(member, controller, link=1, dialled=1000, **plan):
    """A client logs on, and asks for what it asks."""
    client, rest = authenticate(member, link, Client(**plan).dialled(link))
    turns(member, controller, dialled)
    while rest:
        member.bytes(rest, link)
        client.bytes(member.sent(link), link)
        rest = client.sent()
    return client


def of_member_logons():
    """Whole logons at each level: with the right password, with a wrong one, of a user who may not, and where nobody is
    known."""
    out = []
    for level, kind in [(6, "v2"), (5, "v1ess"), (2, "v1")]:
        for users, secret in [((ANN,), ANN["hash"]), ((ANN,), "22" * 16), ((ANN | {"disabled": True},), ANN["hash"]), ((), ANN["hash"])]:
            member = Served()
            client = logs_on(member, controller_of(users), level=level, kind=kind, secret=secret, echo=4096)
            member.closed()
            # The client's own model came to its outcome over the same bytes.
            assert client.outcome.startswith("Some(In ") == (users == (ANN,) and secret == ANN["hash"]), client.outcome
            out.append(served(member))
    # A unit outside 0x20 to 0x7E is a question mark.
    for name, shown_as in [("ann\u00e9", "ann?"), (" ~\u007f\u001f\u00e9\U0001f600\n", " ~??????"), ("a?b\\", "a?b\\")]:
        member = Served()
        logs_on(member, controller_of(({"name": name, "rid": 1001, "hash": ANN["hash"]},)), user=name, secret=ANN["hash"])
        assert member.puts() == f"link 1 in CORP\\{shown_as}\n", member.puts()
        out.append(served(member))
    return out


def finished(member, controller, request):
    """The turn whose bind went out on link 1000, to its end, and then the other turns."""
    controller.opened(1000)
    while request:
        controller.bytes(request, 1000)
        member.bytes(answer_of_controller(controller, 1000), 1000)
        request = member.sent(1000)
    controller.closed(1000)
    turns(member, controller, 1001)
    return member


def three_at_once():
    """Three links that ask before the first reply comes: one Challenge, one Authenticate, three Logons, in five
    dials."""
    member = Served()
    authenticate(member, 1, Client(secret=ANN["hash"]).dialled(1))
    bind = member.dialled(1000).sent(1000)
    authenticate(member, 2, Client(secret=ANN["hash"]).dialled(2))
    authenticate(member, 3, Client(kind="v1", level=2, user="bob", secret="22" * 16).dialled(3))
    finished(member, controller_of(), bind)
    assert sum(action[0] == "dial" for _, action in member.done) == 5
    return member


def of_member_turns():
    """Logons that wait for others, and turns that are lost: at the dial, and at a send that fails; and a send to a
    client that fails."""
    out = [served(three_at_once())]
    lost = Served()
    authenticate(lost)
    out.append(served(lost.failed()))
    # The first turn is lost, and the next logon, which waits, has one of its own.
    lost = Served()
    authenticate(lost, 1, Client(secret=ANN["hash"]).dialled(1))
    lost.dialled(1000)
    authenticate(lost, 2, Client(secret=ANN["hash"]).dialled(2))
    turns(lost.closed(1000), controller_of(), 1001)
    out.append(served(lost))
    lost = Served()
    authenticate(lost)
    out.append(served(lost.dialled(1000).cut(1000)))
    # The bind's answer doesn't go out: the link is closed, and what comes later on it is of no link.
    lost = Served()
    bind = Client().dialled(1).sent()
    out.append(served(lost.opened(1).bytes(bind, 1).cut(1).bytes(bind, 1)))
    # The port closes the dialled link, and the link of the client while it waits: its outcome is told all the same.
    lost = Served()
    authenticate(lost)
    out.append(served(lost.dialled(1000).closed(1000)))
    lost = Served()
    authenticate(lost, 1, Client(secret=ANN["hash"]).dialled(1))
    bind = lost.dialled(1000).sent(1000)
    out.append(served(finished(lost.closed(1), controller_of(), bind)))
    return out


def of_member_challenges():
    """A challenge is drawn for each bind that is answered with one, and for each first call of a channel; the step that
    finds none left ends the service."""
    spent = ending("Spent")
    bind = Client().dialled(1).sent()
    out = []
    # One challenge: of two links that bind the first is answered.
    out.append(served(Served(draws=MEMBER_DRAWS[:1]).opened(1).bytes(bind, 1).opened(2).bytes(bind, 2), spent))
    out.append(served(Served(draws=MEMBER_DRAWS[:1]).opened(1).bytes(bind, 1).opened(2)))
    out.append(served(Served(draws=[]).opened(1).bytes(bind, 1), spent))
    out.append(served(Served(draws=[]).opened(1)))
    member = Served(draws=MEMBER_DRAWS[:1])
    authenticate(member)
    out.append(served(member, spent))
    return out


def of_member_sinks():
    """A line is put for each outcome, in front of what its step does later; where the sink fails nothing later is
    done."""
    out = [sink_fails(three_at_once(), put) for put in range(3)]
    lost = Served()
    authenticate(lost)
    out.append(sink_fails(lost.failed(), 0))
    return out


def of_member_ports():
    """`listen` and `next` fail, and as many events are asked for as the words say."""
    fault = ending("PortFault")
    bind = Client().dialled(1).sent()
    member = Served().opened(1).bytes(bind, 1)
    events, draws = ",".join(member.given + ["stop"]), member.words[4]

    def comes(exit_text, sent, **how):
        return member_line(events, draws=draws, **how), ";".join([exit_text, text(""), sent, "told"])

    sent = member.sends()
    out = [comes(fault, "-", failing=str(call)) for call in range(3)]
    # Call 3 is the send, call 4 the last `next`.
    out += [comes(DONE, "-", failing="3"), comes(fault, sent, failing="4"), comes(DONE, sent, failing="5")]
    out += [comes(DONE, "-" if int(most) < 2 else sent, events=most) for most in ["0", "1", "2", "3", "4294967295"]]
    # The third `next` would fail and is never made.
    out.append(comes(DONE, sent, events="2", failing="4"))
    return out


def of_member_files():
    """The secret is judged before the seed is read, and both before the port listens."""
    fault = ending("FileFault")
    secret = MEMBER_FILES["k"]

    def comes(exit_text, **how):
        return member_line("stop", **how), ";".join([exit_text, text(""), "-", "told"])

    out = [comes(DONE), comes(fault, files={}), comes(fault, files={"k": secret}), comes(fault, files={"s": SEED}), comes(fault, reads="0"), comes(fault, reads="1"), comes(DONE, reads="2")]
    for wrong in ["", secret[:-2], secret + "30", secret + "0a0a", ascii_hex("g" * 32)]:
        out.append(comes(ending("BadInput", 4), files={"k": wrong, "s": SEED}, reads="1", failing="0"))
    out.append(comes(DONE, files={"k": secret + "0a", "s": SEED}))
    # The longest names.
    out.append(comes(DONE, computer="C" * 64, domain="D" * 64, controller="h" * 255))
    for seed in ["", "00" * 31, "00" * 33]:
        out.append(comes(ending("BadInput", 6), files={"k": secret, "s": seed}, failing="0"))
    return out


NEW_SECRET = "61" * 16


def member_keeps(member, held, new=None, exit_text=DONE, done=None, failing=None, reads="", puts="", **options):
    """A case of a served member whose file of secrets holds HELD, and that is to change to NEW, where there is one. The
    calls READS of the files fail: secrets, seed and new secret are read first, and what is held at the end last. It is
    the text of the last `keep` of the actions done, else HELD."""
    kept = [ascii_hex(held)] + [action[1].hex() for _, action in member.done[:done] if action[0] == "keep"]
    files = {"c": ascii_hex(held), "s": SEED, **({} if new is None else {"n": ascii_hex(new)})}
    words = words_of("serve", {**SERVE_MEMBER, "controller": "there", "secret": "c", **({} if new is None else {"change": "n"}), **options})
    put = text(member.puts(done).replace("\\", "\\\\"))
    failing = ",".join(map(str, member.failing)) if failing is None else failing
    draws = "" if member.words[4] == "-" else member.words[4]
    return (
        line("serves.keep", ",".join(member.given + ["stop"]), failing, reads, puts, draws, files_of(**files), MEMBER, *words),
        ";".join([exit_text, put, member.sends(done), "told", kept[-1] or "-"]),
    )


def changed_member(**plan):
    """A member that begins with a change; a client logs on, and the secret is set in front of its logon."""
    member, controller = Served(**plan).begins(NEW_SECRET), controller_of()
    logs_on(member, controller, secret=ANN["hash"])
    assert member.kept() == (NEW_SECRET + "\n").encode() and controller.secrets() == f"FILE1$ {NEW_SECRET}\n".encode().hex()
    return member


def of_member_changes():
    """The text of both secrets is in the file once the port listens and before an event is asked for, and that of the
    new one alone once the controller has it. A write that fails ends the service before what comes behind it."""
    fault, old = ending("FileFault"), MEMBER_SECRET
    out = [member_keeps(changed_member(), old + end, new) for end, new in [("", NEW_SECRET), ("\n", NEW_SECRET + "\n")]]
    writes = [place for place, (_, action) in enumerate(changed_member().done) if action[0] == "keep"]
    assert len(writes) == 2 and writes[0] == 0, writes
    # calls 0 to 2 of the files are the reads; the first write that fails leaves the file, the second one the first
    out += [member_keeps(changed_member(), old, NEW_SECRET, fault, done=place, reads=str(3 + number)) for number, place in enumerate(writes)]
    # the sink fails behind the writes, which stand
    told = [place for place, (_, action) in enumerate(changed_member().done) if action[0] == "told"]
    out += [member_keeps(changed_member(), old, NEW_SECRET, ending("SinkFault"), done=place, puts=str(number)) for number, place in enumerate(told)]
    # a port that is taken leaves the file; where it listens the text is there, though no event comes
    still, port = Served(), ending("PortFault")
    out.append(member_keeps(still, old, NEW_SECRET, port, failing="0"))
    begun = lambda: Served().begins(NEW_SECRET)
    out += [member_keeps(begun(), old, NEW_SECRET, port, failing="1"), member_keeps(begun(), old, NEW_SECRET), member_keeps(begun(), old, NEW_SECRET, events="0")]
    out.append(member_keeps(Served(), old, NEW_SECRET, fault, failing="1", reads="3"))
    # to the secret that is there: it is kept twice
    out.append(member_keeps(Served().begins(old), old, old))
    # the challenges are spent after the first write
    bind = Client().dialled(1).sent()
    out.append(member_keeps(Served(draws=[]).begins(NEW_SECRET).opened(1).bytes(bind, 1), old, NEW_SECRET, ending("Spent")))
    return out + of_kept_members()


def first_write(member):
    """The place of the first action of a member that keeps a text."""
    return next(place for place, (_, action) in enumerate(member.done) if action[0] == "keep")


def of_kept_members():
    """Where two secrets are kept a change that is asked for is passed over, and the one under way goes on. Without a
    change, and where none ends, the file stays as it is, byte by byte."""
    old, both = MEMBER_SECRET.upper(), MEMBER_SECRET.upper() + "\n" + NEW_SECRET
    out = [member_keeps(Served(), old), member_keeps(Served(), both)]
    for new in (None, "62" * 16):
        # nothing is written first
        for end in ("", "\n"):
            member = Served(following=NEW_SECRET).begins("62" * 16)
            assert member.done == []
            out.append(member_keeps(member, both + end, new))
        member = Served(following=NEW_SECRET)
        logs_on(member, controller_of(), secret=ANN["hash"])
        assert member.kept() == (NEW_SECRET + "\n").encode()
        out.append(member_keeps(member, both, new))
    # the write behind a Set fails: both stay
    out.append(member_keeps(member, both, None, ending("FileFault"), done=first_write(member), reads="2"))
    # a logon changes nothing of one secret
    member = Served()
    logs_on(member, controller_of(), secret=ANN["hash"])
    out.append(member_keeps(member, old))
    # the controller has the next one already: the current one is denied, and then the next one opens the channel
    member, machine = Served(following=NEW_SECRET, draws=MEMBER_DRAWS + ["7071727374757677"]), {**FILE1, "hash": NEW_SECRET}
    for link in (1, 2):
        logs_on(member, controller_of(machines=(machine,)), link, 998 + 2 * link, secret=ANN["hash"])
    assert member.kept() == (NEW_SECRET + "\n").encode()
    out.append(member_keeps(member, both))
    # and the write behind that opening fails
    out.append(member_keeps(member, both, None, ending("FileFault"), done=first_write(member), reads="2"))
    # files that are refused: the port doesn't listen, and nothing is written
    still = Served()
    for held, new, exit_text in [
        (old + "\n\n", NEW_SECRET, ending("BadInput", 4)),
        (both + "\n" + old, NEW_SECRET, ending("BadInput", 4)),
        (old, NEW_SECRET[:-1], ending("BadInput", 9)),
        (both, "x", ending("BadInput", 9)),
        (old, both, ending("BadInput", 9)),
    ]:
        out.append(member_keeps(still, held, new, exit_text, failing="0"))
    out.append(member_keeps(still, old, NEW_SECRET, ending("FileFault"), failing="0", reads="2"))
    return out


def of_members():
    """A member server that serves."""
    return of_member_logons() + of_member_turns() + of_member_challenges() + of_member_sinks() + of_member_ports() + of_member_files() + of_member_changes()


def cases():
    """The cases of commands that serve."""
    return of_the_port() + of_counts() + of_the_files() + of_challenges() + of_lines() + of_sealed_channels() + of_kept_secrets() + of_controllers_with_trusts() + of_members()
