"""Cases of domain_world whose controllers can seal, and of members whose channels do.

`world.run`, `world.kept` and `world.drill`, as in `domain_world.py`, of plans with the word `sealing`, where the
controllers can, and with members whose word ends in `/sealed`. The ends are those of `sealed_controller.py` and
`sealed_member.py`. What comes of a logon is worked out by hand (`counted`), and the rest by the same rules in Python.
"""

import domain_controller
import member_server
import sealed_controller
import sealed_member
from documents import ANN, BOB, EVE, FILE1, FILE2
from domain_world import ClientEnd, MemberEnd, Script, World, answer_of, case_of, is_logon, is_set, moves_from, onward, onward_with_logons_twice, plan_words
from forms import line, units
from world_trusts import CORP, ROAM_HEAD, SAM, TrustingEnd, open_links, place_on, trust, until


class SealingHere(sealed_controller.Sealing):
    """A controller that can seal, as an end of a world."""

    def notes_of(self, _unit, _controller, _controllers):
        return []


class SealingEnd(TrustingEnd):
    """That end, and why it closed links of others."""

    here = SealingHere

    def renew(self):
        old = getattr(self, "end", None)
        self.end = self.here(challenges=(), **self.made)
        if old:
            self.end.counts, self.end.hashes = old.counts, old.hashes

    def __init__(self, **made):
        self.causes = []
        super().__init__(**made)

    def actions(self):
        causes = [action.split(" ")[2] for action in self.end.actions if action.startswith("close ")]
        self.causes += [cause for cause in causes if cause != "CallDone"]
        return super().actions()


class PlainHere(domain_controller.Controller):
    """A controller that can't seal, as such an end."""

    def notes_of(self, _unit, _controller, _controllers):
        return []


class PlainEnd(SealingEnd):
    here = PlainHere


class SealedMemberHere(sealed_member.SealedMember):
    """A member whose channel seals, as an end of a world."""

    def notes_of(self, _unit, _controller):
        return []


class PlainMemberHere(member_server.Member):
    """A member whose channel doesn't."""

    def notes_of(self, _unit, _controller):
        return []


class SomeMemberEnd(MemberEnd):
    """A member of a plan that says whether its channel seals."""

    def __init__(self, is_sealed=True, **plan):
        self.is_sealed = is_sealed
        super().__init__(**plan)

    def renew(self):
        """It begins anew, with the secrets that it kept last."""
        old = getattr(self, "end", None)
        self.end = (SealedMemberHere if self.is_sealed else PlainMemberHere)(draws=[], **self.plan)
        if old:
            self.end.current, self.end.following = old.current, old.following


class SealingWorld(World):
    """A world of a plan in which an end can seal."""

    def words(self):
        words, first = plan_words(self), len(self.controllers)
        for place, member in enumerate(self.members):
            words[first + place] += "/sealed" if member.is_sealed else ""
        return words + (["sealing"] if any(isinstance(end.end, SealingHere) for end in self.controllers) else [])


def pdc(end=SealingEnd, trusts=()):
    return end(users=(ANN, BOB, EVE), machines=(FILE1, FILE2), name="PDC", trusts=trusts)


def member(computer="FILE1", secret="41", is_sealed=True):
    return SomeMemberEnd(is_sealed, computer=computer, domain="CORP", secret=secret * 16, controller=b"\0")


def client(user="ann", secret="11", server=1, level=6, kind="v2", echo=16, domain=""):
    more = {"domain": domain} if domain else {}
    return ClientEnd(user=user, server=bytes([server]), level=level, kind=kind, secret=secret * 16, echo=echo, **more)


def script_of(controllers=None, members=None, clients=None):
    """By default PDC, which can seal; FILE1, whose channel does; and ann at FILE1."""
    world = SealingWorld(controllers or [pdc()], members or [member()], clients or [client()])
    script = Script(world)
    script.words = world.words()
    return script


def starts(script, *clients, step=onward):
    """These clients start at once."""
    for number in clients:
        script.make("start", number)
    return script.run(step)


def counted(script, causes=(), outcome=None, **wanted):
    """A scenario whose counts are worked out by hand, why its first controller closed links, and the first client's
    outcome."""
    counts = {"accepted": 0, "refused": 0, "no_controller": 0, "passed": 0, "barred": 0} | wanted
    assert {name: script.world.counts[name] for name in counts} == counts, script.world.counts
    assert script.world.controllers[0].causes == list(causes), script.world.controllers[0].causes
    assert outcome is None or outcome in script.world.outcome(0), script.world.outcome(0)
    return script


# ---- scenarios

IN = "In { name: " + units("CORP\\ann")
NONE = "Some(NoAnswer(NoController))"
UNSEALED = "BadAuthentication"
THREE = (("ann", "11", 1, 6, "v2"), ("bob", "22", 1, 5, "v1ess"), ("eve", "33", 2, 2, "v1"))


def clients_of(*places):
    """Clients with the right hashes, at these members' ends."""
    return [client(user, secret, place, level, kind) for (user, secret, _, level, kind), place in zip(THREE, places)]


def request_comes_later(again):
    """Ann is in. Bob's turn is out on a link of its own, and ann's Logon request comes on that link once more. Then the
    clients that are given start, one after the other."""
    script = starts(script_of(clients=clients_of(1, 1)), 0)
    late = next(unit for unit in script.world.bag if is_logon(unit))
    script.make("start", 1)
    unit = until(script, lambda unit: is_logon(unit) and unit is not late).world.oldest()
    script.make("deliver", script.world.bag.index(late), place_on(script.world, unit))
    script.run(onward)
    for number in again:
        starts(script, number)
    return script


def reply_comes_again():
    """Ann is in. Bob's turn waits for the reply to his logon, and hers comes on that link once more."""
    script = starts(script_of(clients=clients_of(1, 1)), 0)
    asked = next(place for place, unit in enumerate(script.world.bag) if is_logon(unit))
    late = next(unit for unit in script.world.bag[asked:] if unit["back"] and unit["link"] == script.world.bag[asked]["link"])
    script.make("start", 1)
    unit = until(script, lambda unit: unit["back"] and unit["kind"] == "to controller" and is_behind_logon(script.world, unit)).world.oldest()
    script.make("deliver", script.world.bag.index(late), place_on(script.world, unit))
    script.run(onward)
    return starts(script, 1)


def is_behind_logon(world, unit):
    return any(is_logon(each) and each["link"] == unit["link"] for each in world.bag)


def reply_is_lost():
    """The reply to ann's Logon is lost and that link shut. She starts again, on a channel that is opened anew."""
    script = script_of()
    script.make("start", 0)
    link = until(script, is_logon).world.oldest()["link"]
    script.make("onward")
    script.make("lose")
    script.make("shut", open_links(script.world).index(link))
    script.run(onward)
    return starts(script, 0)


def restarted(end, *again):
    """An end is made anew between two logons, and then the client starts so many times."""
    script = starts(script_of(), 0)
    script.make("restart", end)
    for number in again:
        starts(script, number)
    return script


def restarted_under_way(end, is_it):
    """An end is made anew while such a unit is under way on a link, which is shut. The client starts again, twice."""
    script = script_of()
    script.make("change", 0, b"\x61" * 16)
    script.make("start", 0)
    link = until(script, is_it).world.oldest()["link"]
    script.make("restart", end)
    script.make("shut", open_links(script.world).index(link))
    script.run(onward)
    return starts(starts(script, 0), 0)


def secret_is_changed():
    """FILE1 takes a new secret, which goes over the sealed channel, before ann's logon and behind it."""
    before = script_of()
    before.make("change", 0, b"\x61" * 16)
    starts(before, 0)
    behind = starts(script_of(), 0)
    behind.make("change", 0, b"\x61" * 16)
    starts(behind, 0)
    for script in (before, behind):
        assert script.world.kept(0) == ["61" * 16]
    return [counted(before, outcome=IN, accepted=1, passed=2), counted(behind, outcome=IN, accepted=2, passed=3)]


def two_kinds():
    """FILE1's channel seals and FILE2's doesn't, at one controller, and three clients start at once."""
    members = [member(), member("FILE2", "42", is_sealed=False)]
    return starts(script_of(members=members, clients=clients_of(1, 1, 2)), 0, 1, 2)


def handed_on(user="sam", secret="44"):
    """A controller that can seal hands logons on, though the plan has no word `trusting`. What it asks isn't sealed."""
    rdc = SealingEnd(users=(SAM,), machines=(CORP,), name="RDC", head=ROAM_HEAD)
    return starts(script_of([pdc(trusts=(trust("ROAM", "\1"),)), rdc], clients=[client(user, secret, 2, domain="ROAM")]), 0)


def reply_waits_elsewhere():
    """A logon is handed on. While RDC's reply is under way, FILE1's link is shut."""
    rdc = SealingEnd(users=(SAM,), machines=(CORP,), name="RDC", head=ROAM_HEAD)
    script = script_of([pdc(trusts=(trust("ROAM", "\1"),)), rdc], clients=[client("sam", "44", 2, domain="ROAM")])
    script.make("start", 0)
    link = until(script, is_logon).world.oldest()["link"]
    until(script, lambda unit: unit["kind"] == "between" and unit["back"])
    script.make("shut", open_links(script.world).index(link))
    script.run(onward)
    return starts(script, 0)


def strangers():
    """A stranger hands FILE1's sealed units in at the controller."""
    script = starts(script_of(), 0)
    sealed = next(unit["bytes"] for unit in script.world.bag if is_logon(unit))
    bind = next(unit["bytes"] for unit in reversed(script.world.bag) if unit["kind"] == "to controller" and unit["bytes"][2] == 11)
    script.make("stranger", 0)
    link = [place for place, each in enumerate(script.world.links) if each["kind"] != "to controller"].index(len(script.world.links) - 1)
    script.make("hand", link, False, bind)
    script.make("hand", link, False, sealed)
    return starts(script, 0)


def scripts():
    return [
        counted(starts(script_of(), 0), outcome=IN, accepted=1, passed=1),
        counted(starts(script_of(), 0, step=onward_with_logons_twice), [UNSEALED], NONE, no_controller=1, passed=1),
        counted(starts(script_of(members=[member(is_sealed=False)]), 0), outcome=IN, accepted=1, passed=1),
        counted(starts(script_of(members=[member(is_sealed=False)]), 0, step=onward_with_logons_twice), outcome=IN, accepted=1, passed=1, barred=1),
        counted(starts(script_of([pdc(PlainEnd)]), 0), outcome=NONE, no_controller=1),
        counted(starts(script_of(clients=[client(secret="12")]), 0), outcome="Some(Refused(Fault(5)))", refused=1, passed=1),
        counted(starts(script_of(clients=clients_of(1, 1)), 0, 1), outcome=IN, accepted=2, passed=2),
        counted(two_kinds(), outcome=IN, accepted=3, passed=3),
        counted(request_comes_later(()), [UNSEALED], IN, accepted=1, no_controller=1, passed=1),
        counted(request_comes_later((1, 0)), [UNSEALED], IN, accepted=3, no_controller=1, passed=3),
        counted(reply_comes_again(), outcome=IN, accepted=2, no_controller=1, passed=3),
        counted(reply_is_lost(), outcome=IN, accepted=1, no_controller=1, passed=2),
        counted(restarted(0, 0, 0), outcome=IN, accepted=2, no_controller=1, passed=2),
        counted(restarted(1, 0), outcome=IN, accepted=2, passed=2),
        counted(strangers(), [UNSEALED], IN, accepted=2, passed=2),
        counted(handed_on(), outcome="In { name: " + units("ROAM\\sam"), accepted=1, passed=2),
        counted(handed_on(secret="45"), outcome="Some(Refused(Fault(5)))", refused=1, passed=2),
        reply_waits_elsewhere(),
        *secret_is_changed(),
        *(restarted_under_way(end, is_it) for end in (0, 1) for is_it in (is_set, is_logon)),
    ]


def drilled(number, count):
    """Moves that a number makes, over a plan with a member of each kind."""
    rdc = SealingEnd(users=(SAM,), machines=(CORP,), name="RDC", head=ROAM_HEAD)
    members = [member(), member("FILE2", "42", is_sealed=False)]
    clients = [*clients_of(2, 2, 3), client("sam", "44", 2, domain="ROAM")]
    world = SealingWorld([pdc(trusts=(trust("ROAM", "\1"),)), rdc], members, clients)
    words = world.words()
    world.drive(moves_from(number, count))
    return line("world.drill", number, count, *words), answer_of(world)


def cases():
    """Each line and its answer."""
    return [case_of(script) for script in scripts()] + [drilled(number, count) for number, count in ((7, 2000), (1, 500), (3, 500))]
