"""Cases of domain_world.

`world.run WORD ..`: a world of the plan of the words `controller/DOCUMENT/NAME`,
`member/COMPUTER/DOMAIN/SECRET/CONTROLLER`, with `/sealed` where its channel seals,
`client/SERVER/DOMAIN/USER/WORKSTATION/HASH/LEVEL/KIND/ECHO` (as in `controller.run`, `member.run` and `client.run`) and
`now/MOMENT`, whose seed is 32 zeros, with `trusting` where its controllers hand logons on (`world_trusts.py`), with
`sealing` where they can seal, and then hand logons on too (`world_seals.py`), and its moves: `start/NUMBER`,
`stranger/NUMBER`, `connect`, `fail`, `onward`, `lose`, `deliver/UNIT/LINK`, `hand/LINK/WAY/BYTES` (WAY `back` or
`forward`), `shut/NUMBER`, `restart/NUMBER`, `change/NUMBER/SECRET`, `tick/NUMBER`. The answer is the report, and the
outcomes of the clients at the first four places.

`world.kept WORD ..`: the same, and the secrets that the members at the first two places keep.

`world.drill NUMBER COUNT WORD ..`: what `world.run` gives, of so many moves that the number makes.

`world.moves NUMBER COUNT`: so many moves that the number makes.

The rules are those of docs/FORMATS.md ("The world"), over the ends of `domain_controller`, `member_server` and
`logon_client`, which stand here by their own rules, in Python. Of the first scenarios the counts are worked out by
hand, and held against the run (`WANTED`).

Beside the rules the world writes down what each unit was made for, and whether the run is clear (`world_marks`). The
first scenarios are, and so is the drill of 100,000 moves that number 7 makes, which `make.py --check` runs. Runs in
which a credential clashes, or a seed comes round, are made too, and are told as such.
"""

import copy

import forms
import logon_client
import world_marks
from channel_client import credential
from documents import ANN, BOB, EVE, FILE1, FILE2
from forms import array, line, struct, units, word_of
from rpc_units import PLAIN_BIND
from wire import le, steps

PIECE = 65536
LAST_MOMENT = 2**63
NOW = 125911584000000000
# The key of the challenge maker whose seed is 32 zeros (values/netlogon.json, `challenge_maker`).
ZERO_SEED_KEY = bytes.fromhex("76b8e0ada0f13d90405d6ae55386bd28")


class Challenges:
    """The challenges of boot 0, from one maker for all ends."""

    def __init__(self, key=ZERO_SEED_KEY):
        self.key, self.count = key, 0

    def __bool__(self):
        return True

    def __len__(self):
        return 2**32 - 1 - self.count

    def pop(self, _place):
        challenge = credential(self.key, le(self.count, 8))
        self.count += 1
        return challenge


# ---- ends: each is made from its plan, hears events, and gives actions as tuples


class ControllerEnd:
    def __init__(self, users, machines, name):
        self.made = {"users": users, "machines": machines, "name": name}
        self.renew()

    def renew(self):
        """It begins anew, with its accounts as they stand: their counts, and the secrets that were set."""
        old = getattr(self, "end", None)
        self.end = world_marks.Controller(**self.made)
        if old:
            self.end.counts, self.end.hashes = old.counts, old.hashes

    def actions(self):
        found = []
        for action in self.end.actions:
            name, *rest = action.split(" ", 1)[0], *action.split(" ", 1)[1].split(" ")
            if name == "send":
                found.append(("send", int(rest[0]), bytes.fromhex(rest[1])))
            elif name == "close":
                found.append(("close", int(rest[0])))
            elif name == "judged":
                found.append(("judged", rest[0].partition("(")[0]))
            else:
                # what is kept stands in its accounts
                assert name == "keep"
        return found


class MemberEnd:
    def __init__(self, **plan):
        self.plan = plan
        self.renew()

    def renew(self):
        """It begins anew, with the secrets that it kept last."""
        old = getattr(self, "end", None)
        self.end = world_marks.Member(draws=[], **self.plan)
        if old:
            self.end.current, self.end.following = old.current, old.following

    def actions(self):
        found = []
        for action in self.end.actions:
            if action[0] == "told":
                found.append(("told", action[2].partition("(")[0].partition(" ")[0]))
            elif action[0] == "close":
                found.append(("close", action[1]))
            else:
                found.append(action)
        return found


class ClientEnd:
    def __init__(self, **plan):
        self.plan = plan
        self.renew()

    def renew(self):
        self.end = logon_client.Client(draws=[], **self.plan)
        self.end.state = "idle"

    def begin(self):
        self.renew()
        self.end.state = "dialling"
        return [("dial", self.plan["server"])]

    def actions(self):
        found = []
        for action in self.end.actions:
            name, link, *rest = action.split(" ")
            found.append(("send", int(link), bytes.fromhex(rest[0])) if name == "send" else ("close", int(link)))
        return found


# ---- the world


class World:
    def __init__(self, controllers, members, clients, now=NOW, challenges=None, stations=()):
        self.controllers, self.members, self.clients, self.stations = list(controllers), list(members), list(clients), list(stations)
        self.challenges = challenges or Challenges()
        self.links, self.bag, self.dials, self.now = [], [], [], now
        # where in the bag the oldest unit that is undelivered stands, or an older one
        self.next = 0
        self.marks = world_marks.Marks()
        self.counts = {"moves": 0, "accepted": 0, "refused": 0, "no_controller": 0, "passed": 0, "barred": 0}

    def ends(self):
        return self.controllers + self.members + self.clients + self.stations

    @staticmethod
    def chosen(number, things):
        return things[number % len(things)] if things else None

    # an end hears something, and its actions are done

    def hear(self, end, what, *rest):
        inner = end.end
        inner.now, inner.draws = self.now, self.challenges
        inner.words, inner.answers = [], []
        getattr(inner, what)(*rest)
        return end.actions()

    def perform(self, end, actions):
        for action in actions:
            kind, *rest = action
            if kind == "send":
                self.send(end, *rest)
            elif kind == "dial":
                self.dials.append((end, rest[0]))
            elif kind == "close":
                self.close(end, rest[0])
            elif kind == "keep":
                # a member's secrets stand in it
                assert end in self.members and rest[0] == end.end.kept()
            elif kind == "told" and end in self.stations:
                # what comes of a logon at a station isn't counted
                assert rest[0] == "In"
            elif kind == "told":
                self.counts[{"In": "accepted", "Out": "refused", "NoController": "no_controller"}[rest[0]]] += 1
            elif rest[0] in ("Passed", "Forwarded"):
                self.counts["passed"] += 1
            elif rest[0] == "Barred":
                self.counts["barred"] += 1

    def hears(self, end, what, *rest):
        self.perform(end, self.hear(end, what, *rest))

    def send(self, end, number, data):
        link = self.links[number]
        if link["kind"] != "stranger":
            self.bag.append({"bytes": data, "link": number, "kind": link["kind"], "back": link["to"] is end, "waits": True})
            self.marks.send(number, link["to"] is end, getattr(end.end, "reply_to", None))

    def close(self, end, number):
        link = self.links[number]
        there = [side for side in ("to", "from") if link["open"][side] and link[side] is not end]
        link["open"] = {"to": False, "from": False}
        for side in there:
            self.hears(link[side], "closed", number)

    def open(self, kind, start, to):
        number = len(self.links)
        self.links.append({"kind": kind, "from": start, "to": to, "open": {"to": True, "from": False}})
        self.hears(to, "opened", number)
        return number

    def pieces(self, number, back, data, unit=None):
        side = "from" if back else "to"
        for start in range(0, len(data), PIECE):
            if self.links[number]["open"][side]:
                end = self.links[number][side]
                actions = self.hear(end, "bytes", data[start:start + PIECE], number)
                notes = self.notes_of(end, unit)
                beside = end.end.beside() if hasattr(end.end, "beside") else None
                self.marks.hear(notes, unit, number, end is self.links[number]["to"], beside)
                self.perform(end, actions)
                self.marks.done()

    def notes_of(self, end, unit):
        """What the units of an end's last event came to. A member's channels are with the controller of its plan."""
        if end in self.controllers:
            return end.end.notes_of(unit, self.controllers.index(end), len(self.controllers))
        if end in self.members:
            return end.end.notes_of(unit, self.controller_of(end))
        return []

    def controller_of(self, member):
        address = member.plan["controller"]
        return address[0] if len(address) == 1 and address[0] < len(self.controllers) else len(self.controllers)

    def forget(self, end):
        for link in self.links:
            for side in ("from", "to"):
                if link[side] is end:
                    link["open"][side] = False
        self.dials = [dial for dial in self.dials if dial[0] is not end]

    # moves

    def start(self, number):
        """A client begins, or a station: the number chooses among the clients and then the stations."""
        end = self.chosen(number, self.clients + self.stations)
        if end:
            self.forget(end)
            self.perform(end, end.begin())

    def stranger(self, number):
        end = self.chosen(number, self.controllers + self.members)
        if end:
            self.open("stranger", None, end)

    def kind_of_dial(self, end, to):
        """The kind of the link of a dial to that end; None where it isn't answered. A controller dials others alone."""
        if end in self.clients:
            return "to member" if to in self.members else None
        if to is end or to not in self.controllers:
            return None
        if end in self.stations:
            return "from station"
        return "to controller" if end in self.members else "between"

    def connect(self):
        if not self.dials:
            return
        end, address = self.dials.pop(0)
        to = self.ends()[address[0]] if len(address) == 1 and address[0] < len(self.ends()) else None
        kind = self.kind_of_dial(end, to)
        if kind:
            number = self.open(kind, end, to)
            if self.links[number]["open"]["to"]:
                self.links[number]["open"]["from"] = True
                self.hears(end, "dialled", number)
            else:
                self.hears(end, "dialled", number)
                self.hears(end, "closed", number)
        else:
            self.hears(end, "failed")

    def fail_dial(self):
        if self.dials:
            self.hears(self.dials.pop(0)[0], "failed")

    def oldest(self):
        # Units are in the order in which they were sent, and none waits again.
        while self.next < len(self.bag) and not self.bag[self.next]["waits"]:
            self.next += 1
        return self.bag[self.next] if self.next < len(self.bag) else None

    def onward(self):
        unit = self.oldest()
        if unit:
            unit["waits"] = False
            self.pieces(unit["link"], unit["back"], unit["bytes"], self.next)

    def lose(self):
        unit = self.oldest()
        if unit:
            unit["waits"] = False

    def deliver(self, number, link):
        unit = self.chosen(number, self.bag)
        if unit:
            unit["waits"] = False
            same = [place for place, each in enumerate(self.links) if each["kind"] == unit["kind"]]
            self.pieces(self.chosen(link, same), unit["back"], unit["bytes"], number % len(self.bag))

    def hand(self, link, back, data):
        number = self.chosen(link, [place for place, each in enumerate(self.links) if each["kind"] in ("to member", "stranger")])
        if number is not None and not (back and self.links[number]["from"] is None):
            self.pieces(number, back, data)

    def shut(self, number):
        number = self.chosen(number, [place for place, link in enumerate(self.links) if any(link["open"].values())])
        if number is None:
            return
        link = self.links[number]
        there = [side for side in ("to", "from") if link["open"][side]]
        link["open"] = {"to": False, "from": False}
        for side in there:
            self.hears(link[side], "closed", number)

    def restart(self, number):
        end = self.chosen(number, self.ends())
        if end:
            self.forget(end)
            end.renew()

    def change(self, number, secret):
        """A member is told to take a secret, which it keeps beside its own. It stays as it is where it has two."""
        member = self.chosen(number, self.members)
        if member and member.end.following is None:
            self.hears(member, "change", secret.hex())

    def kept(self, number):
        """The secrets that a member keeps."""
        return self.members[number].end.kept().decode().split()

    def tick(self, more):
        if self.now <= LAST_MOMENT:
            self.now = min(self.now + more, LAST_MOMENT)

    def move(self, name, *rest):
        self.counts["moves"] += 1
        getattr(self, name)(*rest)

    def drive(self, moves):
        for move in moves:
            self.move(*move)
        return dict(self.counts)

    def outcome(self, number):
        return self.clients[number].end.outcome or "None"


# ---- moves from a number


def moves_from(number, count):
    seed = number
    made = []

    def draw():
        nonlocal seed
        seed = (seed * 6364136223846793005 + 1442695040888963407) % 2**64
        return seed >> 33

    for _ in range(count):
        kind = draw() % 16
        if kind < 2:
            made.append(("start", draw()))
        elif kind < 5:
            made.append(("connect",))
        elif kind < 13:
            made.append(("onward",))
        elif kind == 13:
            made.append(("deliver", draw(), draw()))
        elif kind == 14:
            made.append(("tick", draw()))
        else:
            kind = draw() % 16
            if kind == 0:
                made.append(("restart", draw()))
            elif kind < 6:
                made.append(("shut", draw()))
            elif kind < 11:
                made.append(("fail_dial",))
            else:
                made.append(("lose",))
    return made


# ---- the plan of the drill


def drill(eve="34"):
    controllers = [ControllerEnd((ANN, BOB, EVE), (FILE1, FILE2), "PDC")]
    members = [MemberEnd(computer=name, domain="CORP", secret=secret * 16, controller=b"\0") for name, secret in (("FILE1", "41"), ("FILE2", "42"))]
    clients = [
        ClientEnd(user=user, server=bytes([server]), level=level, kind=kind, secret=secret * 16, echo=16)
        for user, server, level, kind, secret in (("ann", 1, 6, "v2", "11"), ("bob", 1, 5, "v1ess", "22"), ("eve", 2, 2, "v1", eve))
    ]
    return World(controllers, members, clients)


# ---- scenarios: each gives its moves and its world; the counts that are wanted are worked out by hand


def is_logon(unit):
    """Whether a unit is a member's NetrLogonSamLogon: a request of opnum 2 (MS-NRPC 3.5.4.5.3)."""
    return unit["kind"] == "to controller" and not unit["back"] and unit["bytes"][2] == 0 and unit["bytes"][22:24] == b"\x02\0"


def is_set(unit):
    """Whether a unit is a member's NetrServerPasswordSet: a request of opnum 6 (MS-NRPC 3.5.4.4.6)."""
    return unit["kind"] == "to controller" and not unit["back"] and unit["bytes"][2] == 0 and unit["bytes"][22:24] == b"\6\0"


class Script:
    """A world, the words of its plan, and the moves that were made on it."""

    def __init__(self, world):
        self.world, self.words, self.moves = world, plan_words(world), []

    def make(self, *move):
        self.moves.append(move)
        self.world.move(*move)

    def is_quiet(self):
        return not self.world.dials and not self.world.oldest()

    def run(self, step):
        """Connect and the step by turns, until no dial waits and no unit is undelivered."""
        while not self.is_quiet():
            self.make("connect")
            step(self)
        return self


def onward(script):
    script.make("onward")


def onward_with_logons_twice(script):
    """Onward, but a Logon request is delivered twice on its link before its reply is."""
    world = script.world
    unit = world.oldest()
    if unit is None or not is_logon(unit):
        return script.make("onward")
    same = [place for place, each in enumerate(world.links) if each["kind"] == unit["kind"]]
    for _ in range(2):
        script.make("deliver", world.bag.index(unit), same.index(unit["link"]))


def at_the_same_time():
    """Three clients with the right hashes start at once."""
    script = Script(drill("33"))
    for number in range(3):
        script.make("start", number)
    return script.run(onward)


def each_logon_twice():
    """One controller, the member FILE1 and three clients with the right hashes."""
    controllers = [ControllerEnd((ANN, BOB, EVE), (FILE1, FILE2), "PDC")]
    members = [MemberEnd(computer="FILE1", domain="CORP", secret="41" * 16, controller=b"\0")]
    users = ("ann", 6, "v2", "11"), ("bob", 5, "v1ess", "22"), ("eve", 2, "v1", "33")
    clients = [ClientEnd(user=user, server=b"\1", level=level, kind=kind, secret=secret * 16, echo=16) for user, level, kind, secret in users]
    script = Script(World(controllers, members, clients))
    for number in range(3):
        script.make("start", number)
    return script.run(onward_with_logons_twice)


def reply_lost():
    """The reply to a Logon is lost and that link shut; the member is made anew, and the client starts again."""
    script = Script(drill("33"))
    script.make("start", 0)
    logon = None
    while logon is None:
        script.make("connect")
        unit = script.world.oldest()
        script.make("onward")
        if unit and is_logon(unit):
            logon = unit
    while script.world.oldest()["link"] != logon["link"]:
        script.make("onward")
    script.make("lose")
    still = [place for place, link in enumerate(script.world.links) if any(link["open"].values())]
    script.make("shut", still.index(logon["link"]))
    script.run(onward)
    script.make("restart", 1)
    script.make("start", 0)
    return script.run(onward)


WANTED = (
    (at_the_same_time, {"accepted": 3, "refused": 0, "no_controller": 0, "passed": 3, "barred": 0}),
    (each_logon_twice, {"accepted": 3, "refused": 0, "no_controller": 0, "passed": 3, "barred": 3}),
    (reply_lost, {"accepted": 1, "refused": 0, "no_controller": 1, "passed": 2, "barred": 0}),
)


# ---- which runs are clear

# What the drill of 100,000 moves counts that number 7 makes; `.ci/run` has the same.
DRILLED = {"moves": 100_000, "accepted": 257, "refused": 236, "no_controller": 1640, "passed": 514, "barred": 0}
# A moment whose timestamp is 2^32 - 1: an authenticator with it brings its own seed again.
ROUND = (2**32 - 1 + 11_644_473_600) * 10_000_000


def seeds_come_round():
    """Each Logon request is delivered twice, at a moment whose timestamp leaves the seed as it was."""
    world = one_logon()
    world.now = ROUND
    script = Script(world)
    script.make("start", 0)
    return script.run(onward_with_logons_twice)


def crossed():
    """Two controllers have FILE1's secret, and a member of that name each. What goes between one member and its
    controller is delivered between it and the other one."""
    controllers = [ControllerEnd((ANN, BOB, EVE), (FILE1, FILE2), name) for name in ("PDC", "BDC")]
    members = [MemberEnd(computer="FILE1", domain="CORP", secret="41" * 16, controller=address) for address in (b"\0", b"\1")]
    clients = [ClientEnd(user="ann", server=server, level=6, kind="v2", secret="11" * 16, echo=16) for server in (b"\2", b"\3")]
    script = Script(World(controllers, members, clients))
    for number in range(2):
        script.make("start", number)

    def step(script):
        """The oldest unit of a client or a member's link to it; where there is none, the oldest of the others, on the
        other link."""
        world = script.world
        waiting = [place for place, unit in enumerate(world.bag) if unit["waits"]]
        if waiting:
            place = min(waiting, key=lambda place: (world.bag[place]["kind"] == "to controller", place))
            kind, link = world.bag[place]["kind"], world.bag[place]["link"]
            same = [place for place, each in enumerate(world.links) if each["kind"] == kind]
            script.make("deliver", place, same.index(link) ^ (kind == "to controller"))

    return script.run(step)


def change_comes_through():
    """FILE1 takes a new secret. The controller sets it, but the reply is lost, and the link is shut; then the member is
    made anew from both secrets. Ann gets no answer, and none while the member tries the old secret. Then the member
    tries the new one, which the controller has: ann is in, and the member keeps that secret alone."""
    script = Script(one_logon())
    script.make("change", 0, b"\x61" * 16)
    script.make("start", 0)
    while not script.world.oldest() or not is_set(script.world.oldest()):
        script.make("connect" if script.world.dials else "onward")
    link = script.world.oldest()["link"]
    script.make("onward")
    script.make("lose")
    script.make("shut", [place for place, each in enumerate(script.world.links) if any(each["open"].values())].index(link))
    script.run(onward)
    script.make("restart", 1)
    for is_in in (False, True):
        assert script.world.kept(0) == ["41" * 16, "61" * 16]
        script.make("start", 0)
        with_outcomes(script.run(onward), is_in)
    assert script.world.kept(0) == ["61" * 16]
    return script


def change_over_a_restart():
    """FILE1 takes a new secret, and is made anew before a turn sets it, from both secrets. It opens its channel by the
    old one, sets the new one on it, and ann is in."""
    script = Script(one_logon())
    script.make("change", 0, b"\x61" * 16)
    script.make("restart", 1)
    assert script.world.kept(0) == ["41" * 16, "61" * 16]
    script.make("start", 0)
    with_outcomes(script.run(onward), True)
    assert script.world.kept(0) == ["61" * 16]
    return script


def second_change():
    """FILE1 is told to take a second secret while it has a next one, and stays with that. Afterwards it takes
    another."""
    script = Script(one_logon())
    script.make("change", 0, b"\x61" * 16)
    script.make("change", 1, b"\x62" * 16)
    assert script.world.kept(0) == ["41" * 16, "61" * 16]
    script.make("start", 0)
    with_outcomes(script.run(onward), True)
    script.make("change", 0, b"\x63" * 16)
    assert script.world.kept(0) == ["61" * 16, "63" * 16]
    return script


def change_with_a_restart(count):
    """FILE1 takes a new secret, and is made anew behind so many moves of ann's logon. She starts twice more: in the end
    she is in, and the member keeps the new secret alone."""
    script = Script(one_logon())
    script.make("change", 0, b"\x61" * 16)
    script.make("start", 0)
    for _ in range(count):
        script.make("connect" if script.world.dials else "onward")
    script.make("restart", 1)
    script.run(onward)
    for _ in range(2):
        script.make("start", 0)
        script.run(onward)
    assert script.world.kept(0) == ["61" * 16], count
    return with_outcomes(script, True)


def changes_with_restarts():
    """Such changes, with a restart behind each number of moves up to the one that lets ann in at the first logon."""
    script = Script(one_logon())
    script.make("change", 0, b"\x61" * 16)
    script.make("start", 0)
    while not script.world.counts["accepted"]:
        script.make("connect" if script.world.dials else "onward")
    return [change_with_a_restart(count) for count in range(len(script.moves) - 1)]


def change_scripts():
    """Changes of a secret, as they are worked out by hand."""
    scripts = [
        counted(change_comes_through, {"accepted": 1, "no_controller": 2, "passed": 2, "barred": 0}),
        counted(change_over_a_restart, {"accepted": 1, "no_controller": 0, "passed": 2, "barred": 0}),
        counted(second_change, {"accepted": 1, "no_controller": 0, "passed": 2, "barred": 0}),
    ]
    return scripts + changes_with_restarts() + [with_moves(World([], [], []), ("change", 3, b"\x61" * 16))]


def check_clearness():
    """Runs that aren't clear are told by what isn't, and the long drill is."""
    for scenario, clashes, wraps in ((crossed, True, False), (seeds_come_round, False, True)):
        marks = scenario().world.marks
        assert (marks.clash, marks.wraps()) == (clashes, wraps), scenario.__name__
    if forms.is_checking:
        world = drill()
        assert world.drive(moves_from(7, DRILLED["moves"])) == DRILLED
        assert world.marks.is_clear() and world.marks.are_answered(), "the drill isn't clear"


# ---- lines


def plan_words(world):
    """The words of a world's plan, as it was before its first move."""
    words = []
    for kind, ends, count in (("controller", world.controllers, 2), ("member", world.members, 4), ("client", world.clients, 8), ("station", world.stations, 6)):
        words += ["/".join([kind] + [word_of(word) for word in end.end.words[:count]]) for end in ends]
    return words + [f"now/{world.now}"]


def move_word(name, *rest):
    """A move as a word."""
    if name == "hand":
        link, back, data = rest
        rest = link, "back" if back else "forward", word_of(data)
    if name == "change":
        number, secret = rest
        rest = number, word_of(secret)
    return "/".join([{"fail_dial": "fail"}.get(name, name)] + [str(each) for each in rest])


def move_text(name, *rest):
    """What `{:?}` prints of a move that a number makes."""
    if name == "deliver":
        return struct("Deliver", unit=rest[0], link=rest[1])
    plain = {"fail_dial": "FailDial"}.get(name, name.capitalize())
    return f"{plain}({rest[0]})" if rest else plain


def kept_text(world, place):
    """What `{:?}` prints of the secrets that a member keeps."""
    if place >= len(world.members):
        return "None"
    current, *following = world.kept(place)
    tried = [struct("Next", secret=array(secret), is_tried="false") for secret in following]
    return f"Some({struct('Secrets', current=array(current), next=f'Some({tried[0]})' if tried else 'None')})"


def answer_of(world, tells_kept=False):
    """The report of a world, and the outcomes of the clients at the first four places; also what the members at the
    first two places keep, where that is told."""
    outcomes = [world.outcome(place) if place < len(world.clients) else "None" for place in range(4)]
    return steps([struct("Report", **world.counts)] + outcomes + ([kept_text(world, place) for place in range(2)] if tells_kept else []))


def case_of(script):
    """The line of a script, and its answer. What members keep is told where one changes its secret."""
    tells_kept = any(move[0] == "change" for move in script.moves)
    words = *script.words, *(move_word(*move) for move in script.moves)
    return line("world.kept" if tells_kept else "world.run", *words), answer_of(script.world, tells_kept)


def counted(scenario, wanted):
    """A clear scenario whose counts are known."""
    script = scenario()
    assert {name: script.world.counts[name] for name in wanted} == wanted, scenario.__name__
    assert script.world.marks.is_clear() and script.world.marks.are_answered(), scenario.__name__
    return script


# ---- scenarios of one logon


def one_logon(echo=16, disabled=False):
    """Ann logs on at FILE1, at privacy by NTLMv2."""
    ann = ANN | {"disabled": True} if disabled else ANN
    controllers = [ControllerEnd((ann, BOB, EVE), (FILE1, FILE2), "PDC")]
    members = [MemberEnd(computer="FILE1", domain="CORP", secret="41" * 16, controller=b"\0")]
    return World(controllers, members, [ClientEnd(user="ann", server=b"\1", level=6, kind="v2", secret="11" * 16, echo=echo)])


def ann_logs_on(**how):
    script = Script(one_logon(**how))
    script.make("start", 0)
    return script.run(onward)


def with_moves(world, *moves):
    """A world on which these moves were made, one after the other."""
    script = Script(world)
    for move in moves:
        script.make(*move)
    return script


def broken_scripts():
    """Ann's logon, cut short by each kind of move."""
    cuts = [
        [("fail_dial",)],
        [("connect",), ("lose",)],
        [("connect",), ("shut", 0)],
        [("connect",), ("restart", 2)],
        [("connect",), ("restart", 1), ("onward",)],
        [("connect",), ("onward",), ("hand", 0, True, bytes(16))],
        [("connect",), ("onward",), ("hand", 0, False, bytes(16)), ("onward",)],
        [("connect",), ("onward",), ("hand", 0, True, b"")],
        [("start", 0), ("connect",), ("connect",)],
        [("restart", 2), ("connect",)],
    ]
    return [with_moves(one_logon(), ("start", 0), *cut) for cut in cuts]


def address_scripts():
    """Dials of a controller by a client, of a member by a member, of no end, and of addresses that have not one
    byte."""
    scripts = []
    for server in (b"\0", b"\2", b"\3", b"", b"\1\0"):
        world = one_logon()
        world.clients[0].plan["server"] = server
        world.clients[0].renew()
        scripts.append(with_moves(world, ("start", 0), ("connect",)))
    for controller in (b"\1", b"\2", b"\7"):
        world = one_logon()
        world.members[0].plan["controller"] = controller
        world.members[0].renew()
        scripts.append(with_moves(world, ("start", 0)).run(onward))
    return scripts


def idle_moves():
    """Each kind of move, where there is nothing to choose from."""
    return [
        ("start", 3), ("stranger", 3), ("connect",), ("fail_dial",), ("onward",), ("lose",), ("deliver", 3, 4), ("hand", 3, False, b"\5"), ("hand", 3, True, b"\5"),
        ("shut", 3), ("restart", 3), ("tick", 3),
    ]


def idle_scripts():
    """Worlds with no ends, and worlds in which nothing was said yet."""
    return [with_moves(World([], [], []), move) for move in idle_moves()] + [with_moves(one_logon(), move) for move in idle_moves()[2:10]]


def twice_delivered():
    """Each unit is delivered a second time, right after the first."""
    script = Script(one_logon())
    script.make("start", 0)

    def twice(script):
        unit = script.world.oldest()
        script.make("onward")
        if unit:
            same = [place for place, each in enumerate(script.world.links) if each["kind"] == unit["kind"]]
            script.make("deliver", script.world.bag.index(unit), same.index(unit["link"]))

    return script.run(twice)


def misdelivered():
    """Of two clients' units each is delivered on the other's link."""
    world = drill("33")
    script = with_moves(world, ("start", 0), ("start", 1), ("connect",), ("connect",))
    for number in range(6):
        script.make("deliver", number, 1 - number % 2)
    return script.run(onward)


def controller_restarts():
    """The controller is made anew between two logons, with its accounts, and knows no channel."""
    script = ann_logs_on()
    script.make("restart", 0)
    script.make("start", 0)
    return script.run(onward)


def strangers():
    """A stranger hands a controller and a member a bind each, and then bytes that are none; and 256 strangers keep a
    member busy."""
    unit = with_moves(one_logon(), ("start", 0), ("connect",)).world.bag[0]["bytes"]
    first = with_moves(one_logon(), ("stranger", 0), ("stranger", 1), ("hand", 0, False, unit), ("hand", 1, False, unit), ("hand", 0, True, unit), ("hand", 1, False, bytes(16)), ("shut", 0))
    busy = with_moves(one_logon(), *[("stranger", 1)] * 256, ("start", 0), ("connect",))
    late = with_moves(one_logon(), *[("stranger", 1)] * 256, ("shut", 7), ("start", 0))
    return [first, busy, late.run(onward)]


def handed(script, step):
    """What the controller's peer sends by that step, as its model has it, is handed in on the stranger's link, which is
    the last one."""
    world = script.world
    told = copy.deepcopy(world.controllers[0].end)
    told.draws = copy.deepcopy(world.challenges)
    before = len(told.words)
    step(told)
    data = [bytes.fromhex(word.split("/")[2]) for word in told.words[before:] if word.startswith("bytes/")]
    link = [place for place, each in enumerate(world.links) if each["kind"] != "to controller"].index(len(world.links) - 1)
    for piece in data:
        script.make("hand", link, False, piece)


def stranger_as_file1(script, *steps):
    """A stranger binds, opens FILE1's channel by the secret that the controller has, and makes these calls on it."""
    script.make("stranger", 0)
    handed(script, lambda end: end.bytes(PLAIN_BIND, len(script.world.links) - 1))
    for step in (lambda end, link: end.asks(link=link), lambda end, link: end.authenticates(link), *steps):
        handed(script, lambda end, step=step: step(end, len(script.world.links) - 1))
    return script


def counts_are(script, **wanted):
    """A scenario whose counts are worked out by hand."""
    assert {name: script.world.counts[name] for name in wanted} == wanted, script.world.counts
    return script


SET_ONE = lambda end, link: end.sets("61" * 16, link=link, timestamp=1)
SET_OLD = lambda end, link: end.sets("41" * 16, link=link, timestamp=2)
ON = lambda end, link: end.logs_on_at(link=link, timestamp=3)
OFF = lambda end, link: end.logs_off(link=link, timestamp=4)
BARRED = lambda end, link: end.logs_off(link=link, named={"authenticator": (bytes(8), 4)})


def strangers_set():
    """A stranger that knows FILE1's secret changes it: the member, which keeps the old one, opens no channel more, also
    once either is made anew; it does where the stranger sets the old one again. And a stranger's logons and logoffs at
    level 1, which count as passed or barred."""
    def again(script):
        script.make("start", 0)
        return script.run(onward)

    denied = again(stranger_as_file1(Script(one_logon()), SET_ONE))
    counts_are(denied, accepted=0, no_controller=1, passed=1, barred=0)
    for end in (1, 0):
        denied.make("restart", end)
        again(denied)
    counts_are(denied, accepted=0, no_controller=3, passed=1, barred=0)
    # the controller that was made anew has the new secret: a stranger opens by it, and sets the old one
    granted = again(stranger_as_file1(denied, SET_OLD))
    counts_are(granted, accepted=1, no_controller=3, passed=3, barred=0)
    # at level 1, and then ann at the member, which opens a channel of its own
    between = stranger_as_file1(Script(one_logon()), ON, OFF, OFF, BARRED, ON)
    counts_are(between, passed=4, barred=1, accepted=0)
    again(between)
    counts_are(between, passed=5, barred=1, accepted=1)
    # on that channel a stranger is barred with another authenticator; it passes with the next one, and then the member
    # is barred
    late = again(Script(one_logon()))
    late.make("stranger", 0)
    handed(late, lambda end: end.bytes(PLAIN_BIND, len(late.world.links) - 1))
    for step in (BARRED, ON, SET_ONE):
        handed(late, lambda end, step=step: step(end, len(late.world.links) - 1))
    counts_are(late, passed=3, barred=1, accepted=1)
    again(late)
    counts_are(late, passed=3, barred=2, accepted=1, no_controller=1)
    return [denied, between, late]


def ticks():
    """Moments at which ann may log on, and past 2^63."""
    expiring = ANN | {"expires": NOW + 10}
    scripts = []
    for more in (0, 9, 10, 2**63 - NOW, 2**64 - 1):
        world = one_logon()
        world.controllers[0] = ControllerEnd((expiring,), (FILE1,), "PDC")
        scripts.append(with_moves(world, ("tick", more), ("start", 0)).run(onward))
    return scripts


def drilled(number, count):
    """The drill's plan, driven by moves that a number makes."""
    world = drill()
    words = plan_words(world)
    world.drive(moves_from(number, count))
    return line("world.drill", number, count, *words), answer_of(world)


def made(number, count):
    """Moves that a number makes."""
    moves = ", ".join(move_text(*move) for move in moves_from(number, count))
    return line("world.moves", number, count), struct("List", items=f"[{moves}]")


GRANTED = {"accepted": 1, "refused": 0, "no_controller": 0, "passed": 1, "barred": 0}
DISABLED = {"accepted": 0, "refused": 1, "no_controller": 0, "passed": 1, "barred": 0}


def logon_scripts():
    """Ann's logon with the longest echo, and where she is disabled."""
    granted = counted(lambda: ann_logs_on(echo=4096), GRANTED)
    assert "echoed: 4096" in granted.world.outcome(0)
    refused = counted(lambda: ann_logs_on(disabled=True), DISABLED)
    assert refused.world.outcome(0) == "Some(Refused(Fault(5)))"
    return [granted, refused]


# ---- logons that come one at a time: each client that can succeed does (`EachSucceeds` of docs/CLAIMS.md), and
# near misses of its premises

# Of each client its user, the number of its member's end, the level, the kind of response, its hash and how many bytes
# come back.
ONE_AT_A_TIME = (
    (("ann", 1, 6, "v2", "11", 4096), ("bob", 2, 5, "v1ess", "22", 16), ("eve", 1, 2, "v1", "33", 0)),
    (("ann", 2, 5, "v2", "11", 0), ("bob", 1, 6, "v1ess", "22", 4096), ("eve", 2, 2, "v2", "33", 16)),
    (("eve", 2, 2, "v1ess", "33", 4096), ("bob", 2, 2, "v1", "22", 16), ("ann", 1, 6, "v2", "11", 0)),
)


def two_members(clients=ONE_AT_A_TIME[0], users=(ANN, BOB, EVE), machines=(FILE1, FILE2), members=(("FILE1", "41"), ("FILE2", "42"))):
    """One controller, two members and three clients."""
    controllers = [ControllerEnd(users, machines, "PDC")]
    ends = [MemberEnd(computer=name, domain="CORP", secret=secret * 16, controller=b"\0") for name, secret in members]
    plans = [
        ClientEnd(user=user, server=bytes([server]), level=level, kind=kind, secret=secret * 16, echo=echo)
        for user, server, level, kind, secret, echo in clients
    ]
    return World(controllers, ends, plans)


def in_turn(world, more=0):
    """Each client starts once, where no dial waits and all was delivered; so many units of time pass before each."""
    script = Script(world)
    for number in range(len(world.clients)):
        if more:
            script.make("tick", more)
        script.make("start", number)
        script.run(onward)
    assert all(move[0] in ("start", "connect", "onward", "tick") for move in script.moves)
    return script


def succeeds(script, number):
    """Whether the client is in, under its user's name in the domain and with its whole echo."""
    plan = script.world.clients[number].plan
    outcome = script.world.outcome(number)
    return outcome.startswith(f"Some(In {{ name: {units('CORP' + chr(92) + plan['user'])}, key: [") and outcome.endswith(f"], echoed: {plan['echo']} }})")


def has_own_members(script):
    """The premises of `one_by_one` (docs/CLAIMS.md): all moves are plain, no two members of the controller have one
    name, and each has the secret of its account, where it has an enabled workstation's."""
    members = [(member.plan["computer"].upper() + "$", member.plan["secret"]) for member in script.world.members]
    hashes = {machine["name"].upper(): machine["hash"] for machine in script.world.controllers[0].made["machines"] if machine["kind"] == "workstation" and not machine.get("disabled")}
    plain = all(move[0] in ("start", "connect", "onward", "tick") for move in script.moves)
    return plain and len({name for name, _ in members}) == len(members) and all(hashes.get(name, secret) == secret for name, secret in members)


def with_outcomes(script, *wanted):
    """A scenario of which it is known which clients succeed. With the premises of `one_by_one` it is clear."""
    assert [succeeds(script, number) for number in range(len(script.world.clients))] == list(wanted), answer_of(script.world)
    assert not has_own_members(script) or script.world.marks.is_clear(), answer_of(script.world)
    return script


def near_misses():
    """Where one premise fails: the hash, the user's account, the computer's account, the member's secret, or the
    computers' names."""
    ann, bob, eve = ONE_AT_A_TIME[0]
    return [
        with_outcomes(in_turn(two_members(clients=(ann[:4] + ("12",) + ann[5:], bob, eve))), False, True, True),
        with_outcomes(in_turn(two_members(users=(ANN | {"disabled": True}, BOB, EVE))), False, True, True),
        with_outcomes(in_turn(two_members(machines=(FILE1 | {"disabled": True}, FILE2))), False, True, False),
        with_outcomes(in_turn(two_members(members=(("FILE1", "44"), ("FILE2", "42")))), False, True, False),
        with_outcomes(in_turn(two_members(members=(("FILE1", "41"), ("file1", "41")))), True, True, False),
    ]


def lost_units():
    """Each unit of a logon is lost in its turn."""
    scripts = []
    for lost in range(len(ann_logs_on().world.bag)):
        script = Script(one_logon())
        script.make("start", 0)

        def step(script, lost=lost):
            bag = script.world.bag
            is_lost = len(bag) > lost and script.world.oldest() is bag[lost]
            script.make("lose" if is_lost else "onward")

        scripts.append(with_outcomes(script.run(step), False))
    return scripts


def restarted_ends():
    """An end is made anew while the Logon call is under way: the controller, the member or the client."""
    scripts = []
    for end in range(3):
        script = Script(one_logon())
        script.make("start", 0)
        while not script.world.oldest() or not is_logon(script.world.oldest()):
            script.make("connect" if script.world.dials else "onward")
        script.make("restart", end)
        scripts.append(with_outcomes(script.run(onward), False))
    return scripts


def one_at_a_time():
    """Runs in which each client succeeds, without and with time that passes, and near misses."""
    scripts = [with_outcomes(in_turn(two_members(clients=clients), more), True, True, True) for clients in ONE_AT_A_TIME for more in (0, 10_000_000)]
    return scripts + near_misses() + lost_units() + restarted_ends()


def cases():
    """Each line and its answer."""
    check_clearness()
    scripts = [counted(scenario, wanted) for scenario, wanted in WANTED] + logon_scripts()
    scripts += [twice_delivered(), misdelivered(), controller_restarts()]
    scripts += one_at_a_time() + broken_scripts() + address_scripts() + strangers() + strangers_set() + ticks() + idle_scripts() + change_scripts()
    drills = [drilled(number, count) for number, count in ((7, 2000), (1, 1), (1, 500), (2, 500), (3, 500), (2**64 - 1, 300))]
    return [case_of(script) for script in scripts] + drills + [made(number, count) for number, count in ((1, 1), (7, 200), (0, 50), (2**64 - 1, 50), (5, 0))]
