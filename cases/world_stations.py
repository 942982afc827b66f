"""Cases of domain_world with stations.

`world.stations WORD ..`: as `world.run` (`domain_world.py`), of plans with the words
`station/CONTROLLER/COMPUTER/SECRET/DOMAIN/USER/HASH` (as in `station.run`), which stand behind the clients. The answer
is the report, and the outcomes of the stations at the first four places.

The ends are those of `domain_controller.py`, `member_server.py` and `interactive_station.py`. What comes of each
scenario is worked out by hand (`ended`), and the rest by the same rules in Python.
"""

import domain_controller
import domain_world
import interactive_station
import member_server
from documents import ANN, BOB, EVE, FILE1, FILE2
from domain_world import ClientEnd, Script, World, move_word, onward
from end_links import text
from forms import line, struct, units_of
from wire import steps
from world_trusts import TrustingEnd

WS1 = interactive_station.WS1
WRONG_PASSWORD, LOCKED_OUT, NO_SUCH_DOMAIN = 0xC000006A, 0xC0000234, 0xC00000DF


class ControllerHere(domain_controller.Controller):
    """A controller, as an end of a world."""

    def notes_of(self, _unit, _controller, _controllers):
        return []


class ControllerEnd(TrustingEnd):
    """That end. It begins anew with its accounts as they stand, and without a session."""

    def renew(self):
        old = getattr(self, "end", None)
        self.end = ControllerHere(challenges=(), **self.made)
        if old:
            self.end.counts, self.end.hashes = old.counts, old.hashes


class MemberHere(member_server.Member):
    """A member, as an end of a world."""

    def notes_of(self, _unit, _controller):
        return []


class MemberEnd(domain_world.MemberEnd):
    def renew(self):
        self.end = MemberHere(draws=[], **self.plan)


class StationEnd:
    """A station of a plan."""

    def __init__(self, **plan):
        self.plan = plan
        self.renew()

    def renew(self):
        """It hasn't begun."""
        self.end = interactive_station.Station(draws=[], **self.plan)
        self.end.dialling = False

    def begin(self):
        self.renew()
        self.end.dialling = True
        return [("dial", self.plan["controller"])]

    def actions(self):
        found = []
        for action in self.end.actions:
            name, *rest = action.split(" ")
            if name == "send":
                found.append(("send", int(rest[0]), bytes.fromhex(rest[1])))
            elif name == "close":
                found.append(("close", int(rest[0])))
            elif name == "told":
                found.append(("told", rest[1]))
            else:
                assert name == "dial" and rest == [text(self.plan["controller"])]
                found.append(("dial", self.plan["controller"]))
        return found


def pdc(users=(ANN, BOB, EVE), machines=(FILE1, FILE2, WS1), head=None):
    return ControllerEnd(users=users, machines=machines, name="PDC", head=head)


def station(user="ann", secret="11", controller=b"\0", computer="WS1", account="43", domain="CORP"):
    """By default ann at WS1, with her hash."""
    return StationEnd(user=user, domain=domain, secret=secret * 16, account=account * 16, computer=computer, controller=controller)


def world_of(*stations, controllers=None, members=(), clients=()):
    """By default PDC, and ann at WS1."""
    return World(controllers or [pdc()], members, clients, stations=stations or [station()])


def with_member(*stations):
    """PDC, FILE1, ann there as a client, and these stations."""
    member = MemberEnd(computer="FILE1", domain="CORP", secret="41" * 16, controller=b"\0")
    return world_of(*stations, members=[member], clients=[ClientEnd(user="ann", server=b"\1", level=6, kind="v2", secret="11" * 16, echo=16)])


def outcomes(world):
    return [world.stations[place].end.outcome or "None" if place < len(world.stations) else "None" for place in range(4)]


def case_of(script):
    """The line of a script, and its answer."""
    words = script.words + [move_word(*move) for move in script.moves]
    return line("world.stations", *words), steps([struct("Report", **script.world.counts)] + outcomes(script.world))


def ended(script, *wanted, sessions=0, **counts):
    """A scenario of which the first stations' outcomes are worked out by hand, how many sessions its first controller
    has, and the counts that aren't 0."""
    counts = {"accepted": 0, "refused": 0, "no_controller": 0, "passed": 0, "barred": 0} | counts
    assert {name: script.world.counts[name] for name in counts} == counts, script.world.counts
    assert outcomes(script.world)[:len(wanted)] == list(wanted), outcomes(script.world)
    assert len(script.world.controllers[0].end.sessions) == sessions, script.world.controllers[0].end.sessions
    return script


def starts(world, *numbers, step=onward):
    """These numbers start, one behind the other."""
    script = Script(world)
    for number in numbers:
        script.make("start", number)
        script.run(step)
    return script


OFF = "Some(" + struct("Off", domain=units_of("CORP".encode("utf-16-le").hex()), user=units_of("ann".encode("utf-16-le").hex())) + ")"
DENIED, LOST, UNREACHED = "Some(BadPeer(Denied))", "Some(NoAnswer(LinkClosed))", "Some(NoAnswer(DialFailed))"


def refused(status):
    return f"Some(Refused({status}))"


def until_logged_on(world, number=0):
    """The station of that number starts among no clients, up to the answer to its Logon: its link of the Logoff is
    dialled, and the session stands."""
    script = Script(world)
    script.make("start", number)
    before = len(world.controllers[0].end.sessions)
    while len(world.controllers[0].end.sessions) == before or not world.dials:
        script.make("connect" if world.dials else "onward")
    return script


# ---- logons


def logons():
    """Ann is logged on and off, and no session stands; with a wrong hash she is refused, and the count of her bad
    passwords is 1: where one locks her out, her right hash is refused too."""
    wrong = ended(starts(world_of(station(secret="12")), 0), refused(WRONG_PASSWORD), passed=1)
    assert wrong.world.controllers[0].end.counts == [1, 0, 0]
    locked = world_of(station(secret="12"), station(), controllers=[pdc(head=domain_controller.HEAD | {"lockout": 1})])
    return [
        ended(starts(world_of(), 0), OFF, passed=2),
        wrong,
        ended(starts(locked, 0, 1), refused(WRONG_PASSWORD), refused(LOCKED_OUT), passed=2),
        ended(starts(world_of(station(domain="ROAM")), 0), refused(NO_SUCH_DOMAIN), passed=1),
        ended(starts(world_of(station(account="44")), 0), DENIED),
        ended(starts(world_of(station(computer="WS9")), 0), DENIED),
        ended(starts(world_of(station(), station("bob", "22"), station("eve", "33")), 0, 1, 2, 3), OFF, passed=8),
    ]


def sessions():
    """The controller is made anew between logon and logoff: it has neither channel nor session, and denies the Logoff.
    A station that starts again behind its logon leaves a session, of which its next logoff takes one. Of two stations
    of one computer that start at once neither opens its channel: the second one's challenges replace the first one's,
    and the first one's credential takes them."""
    anew = until_logged_on(world_of())
    anew.make("restart", 0)
    again = until_logged_on(world_of())
    again.make("start", 0)
    ended(again.run(onward), OFF, sessions=1, passed=3)
    again.make("start", 0)
    fresh = until_logged_on(world_of())
    fresh.make("restart", 1)
    later = until_logged_on(world_of(station(), station()))
    later.make("start", 1)
    both = made_of(("start", 0), ("start", 1), world=world_of(station(), station()))
    return [
        ended(anew.run(onward), DENIED, passed=1),
        ended(again.run(onward), OFF, sessions=1, passed=5),
        ended(fresh.run(onward), "None", sessions=1, passed=1),
        ended(later.run(onward), OFF, OFF, passed=4),
        ended(both.run(onward), DENIED, DENIED),
    ]


# ---- beside other ends


def chosen():
    """The number of a start chooses among the clients and then the stations: ann at FILE1, and ann and bob at WS1. What
    a station is told isn't counted. Restarts number the stations behind the clients."""
    script = starts(with_member(station(), station("bob", "22")), 0, 1, 2, 3, 7)
    ended(script, OFF, accepted=2, passed=8)
    both = Script(with_member(station()))
    both.make("start", 0)
    both.make("start", 1)
    ended(both.run(onward), OFF, accepted=1, passed=3)
    anew = Script(with_member(station()))
    anew.make("start", 1)
    anew.make("restart", 3)
    ended(anew.run(onward), "None")
    anew.make("restart", 2)
    anew.make("start", 3)
    return [script, both, ended(anew.run(onward), OFF, passed=2)]


def addresses():
    """Dials of a station to a member, a client, itself, no end, and addresses that haven't one byte."""
    return [ended(starts(with_member(station(controller=address)), 1), UNREACHED) for address in (b"\1", b"\2", b"\3", b"\4", b"", b"\0\0")]


def is_station_logon(unit):
    """Whether a unit is a station's NetrLogonSamLogon: a request of opnum 2 (MS-NRPC 3.5.4.5.3)."""
    return unit["kind"] == "from station" and not unit["back"] and unit["bytes"][2] == 0 and unit["bytes"][22:24] == b"\x02\0"


def kinds():
    """A station's units are delivered on links of stations alone, and bytes are handed in on none: a Logon request
    comes twice, and is barred; and a bind on another station's link."""
    def twice(script):
        world = script.world
        unit = world.oldest()
        if unit is None or not is_station_logon(unit):
            return script.make("onward")
        same = [place for place, each in enumerate(world.links) if each["kind"] == unit["kind"]]
        for _ in range(2):
            script.make("deliver", world.bag.index(unit), same.index(unit["link"]))

    barred = starts(world_of(), 0, step=twice)
    script = Script(with_member(station(), station("bob", "22")))
    for move in (("stranger", 0), ("start", 1), ("start", 2), ("connect",), ("connect",), ("hand", 1, False, bytes(16)), ("deliver", 0, 1), ("deliver", 1, 3)):
        script.make(*move)
    return [barred, script.run(onward)]


def losses():
    """A dial fails, or waits no more; a link is shut at each move of a run; each unit is lost in its turn."""
    scripts = [ended(made_of(("start", 0), ("fail_dial",)), UNREACHED), ended(made_of(("start", 0), ("restart", 1), ("connect",)), "None")]
    whole = starts(world_of(), 0)
    for count in range(1, len(whole.moves)):
        script = made_of(*whole.moves[:count])
        script.make("shut", 0)
        scripts.append(script.run(onward))
    for lost in range(len(whole.world.bag)):
        script = Script(world_of())
        script.make("start", 0)

        def step(script, lost=lost):
            bag = script.world.bag
            is_lost = len(bag) > lost and script.world.oldest() is bag[lost]
            script.make("lose" if is_lost else "onward")

        scripts.append(script.run(step))
        assert outcomes(script.world)[0] == "None"
    return scripts


def made_of(*moves, world=None):
    """A world, by default ann's, on which these moves were made."""
    script = Script(world or world_of())
    for move in moves:
        script.make(*move)
    return script


def cases():
    """Each line and its answer."""
    scripts = logons() + sessions() + chosen() + addresses() + kinds() + losses()
    return [case_of(script) for script in scripts]
