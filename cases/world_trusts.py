"""Cases of domain_world whose controllers hand logons on to the controllers of trusted domains.

`world.run` and `world.drill`, as in `domain_world.py`, of plans with the word `trusting`. The controllers are those of
`trusts.py`; the addresses of a table's trusted domains are the numbers of ends, one byte each. What comes of a logon
is worked out by hand (`counted`), and the rest by the same rules in Python.
"""

import world_marks
from documents import ANN, BOB, EVE, FILE1, FILE2
from domain_world import ClientEnd, ControllerEnd, MemberEnd, Script, World, answer_of, case_of, is_logon, moves_from, onward, plan_words
from forms import line, units

# The domains of both controllers, and the secret of the trust between them.
ROAM_HEAD = {"domain": "ROAM", "sid": "S-1-5-21-4-5-6"}
SAM = {"name": "sam", "rid": 1001, "hash": "44" * 16}
SECRET = "51" * 16
CORP = {"name": "CORP$", "kind": "trust", "hash": SECRET, "controllers": ["PDC"]}


def trust(domain, address, secret=SECRET):
    return {"domain": domain, "hash": secret, "address": address}


class TrustingEnd(ControllerEnd):
    """A controller that asks others."""

    def renew(self):
        old = getattr(self, "end", None)
        self.end = world_marks.TrustingController(challenges=(), **self.made)
        if old:
            self.end.counts, self.end.hashes = old.counts, old.hashes

    def __init__(self, users=(), machines=(), name="PDC", trusts=(), head=None):
        self.made = {"users": users, "machines": machines, "name": name, "trusts": trusts, "head": head}
        self.renew()

    def actions(self):
        found = []
        for action in self.end.actions:
            name, rest = action.split(" ", 1)
            if name == "dial":
                found.append(("dial", bytes.fromhex(rest)))
            elif name == "send":
                link, data = rest.split(" ")
                found.append(("send", int(link), bytes.fromhex(data)))
            elif name == "close":
                found.append(("close", int(rest.split(" ")[0])))
            elif name == "judged":
                found.append(("judged", rest.partition("(")[0]))
            else:
                assert name == "keep"
        return found


class TrustingWorld(World):
    """A world of a plan whose controllers hand on."""

    def words(self):
        return plan_words(self) + ["trusting"]


def pdc(trusts=(trust("ROAM", "\1"),), name="PDC"):
    return TrustingEnd(users=(ANN, BOB, EVE), machines=(FILE1, FILE2), name=name, trusts=trusts)


def rdc(users=(SAM,), machines=(CORP,), **how):
    return TrustingEnd(users=users, machines=machines, name="RDC", head=ROAM_HEAD, **how)


def client(domain="ROAM", user="sam", secret="44", server=2, level=6, kind="v2", echo=16):
    """By default sam of ROAM, with his hash, at FILE1."""
    return ClientEnd(user=user, domain=domain, server=bytes([server]), level=level, kind=kind, secret=secret * 16, echo=echo)


def world_of(controllers=None, clients=None):
    """PDC, which trusts ROAM, and RDC of that domain; FILE1 and FILE2 at PDC; and one client."""
    members = [MemberEnd(computer=name, domain="CORP", secret=secret * 16, controller=b"\0") for name, secret in (("FILE1", "41"), ("FILE2", "42"))]
    return TrustingWorld(controllers or [pdc(), rdc()], members, clients or [client()])


def script_of(world):
    script = Script(world)
    script.words = world.words()
    return script


def logged_on(world):
    script = script_of(world)
    script.make("start", 0)
    return script.run(onward)


def counted(script, outcome=None, **wanted):
    """A scenario whose counts are worked out by hand, and the first client's outcome."""
    counts = {"accepted": 0, "refused": 0, "no_controller": 0, "passed": 0, "barred": 0} | wanted
    assert {name: script.world.counts[name] for name in counts} == counts, script.world.counts
    assert outcome is None or outcome in script.world.outcome(0), script.world.outcome(0)
    return script


def until(script, is_it):
    """Moves up to the one that would deliver such a unit."""
    while not script.world.oldest() or not is_it(script.world.oldest()):
        script.make("connect" if script.world.dials else "onward")
    return script


def is_handed_on(unit):
    """Whether a unit is the Logon call of one controller to another."""
    return unit["kind"] == "between" and not unit["back"] and is_logon(unit | {"kind": "to controller"})


def open_links(world):
    return [place for place, link in enumerate(world.links) if any(link["open"].values())]


def place_on(world, unit):
    """The place of a unit's link among those of its kind."""
    return [place for place, each in enumerate(world.links) if each["kind"] == unit["kind"]].index(unit["link"])


# ---- scenarios

IN = "In { name: " + units("ROAM\\sam")


def sam_is_in():
    """Each unit once, in order: PDC hands the logon on, and RDC grants it."""
    return counted(logged_on(world_of()), IN, accepted=1, passed=2)


def reply_is_lost(behind=lambda script: None):
    """RDC's reply to the Logon call is lost, and that link shut: PDC answers C000005E. Then what is given follows."""
    script = script_of(world_of())
    script.make("start", 0)
    unit = until(script, is_handed_on).world.oldest()
    script.make("onward")
    assert script.world.oldest()["back"] and script.world.oldest()["link"] == unit["link"]
    script.make("lose")
    script.make("shut", open_links(script.world).index(unit["link"]))
    behind(script)
    return script.run(onward)


def request_comes_twice():
    """FILE1's Logon call is delivered twice before RDC answers: the second one is barred, and FILE1 hears that first,
    so that it gives the logon up, though RDC grants it."""
    script = script_of(world_of())
    script.make("start", 0)
    unit = until(script, is_logon).world.oldest()
    place = place_on(script.world, unit)
    script.make("onward")
    script.make("deliver", script.world.bag.index(unit), place)
    return script.run(onward)


def hop_comes_twice():
    """PDC's Logon call is delivered twice at RDC: the second one is barred, and PDC takes the first reply."""
    script = script_of(world_of())
    script.make("start", 0)
    unit = until(script, is_handed_on).world.oldest()
    place = place_on(script.world, unit)
    script.make("onward")
    script.make("deliver", script.world.bag.index(unit), place)
    return script.run(onward)


def restarted(end):
    """A controller is made anew while RDC's reply is under way."""
    script = script_of(world_of())
    script.make("start", 0)
    until(script, is_handed_on)
    script.make("onward")
    script.make("restart", end)
    script.run(onward)
    script.make("start", 0)
    return script.run(onward)


def dialled_not(address):
    """No controller but the own one is at the trust's address."""
    return logged_on(world_of([pdc(trusts=(trust("ROAM", address),)), rdc()]))


def strangers():
    """Bytes from outside come on no link between controllers: the only links there are."""
    script = script_of(world_of())
    script.make("start", 0)
    until(script, is_handed_on)
    for back in (False, True):
        script.make("hand", 1, back, bytes(16))
    return script.run(onward)


def both_ways():
    """Each domain trusts the other one, and users of both log on at a member of each."""
    corp = TrustingEnd(
        users=(ANN, BOB, EVE), machines=(FILE1, {"name": "ROAM$", "kind": "trust", "hash": "61" * 16, "controllers": ["RDC"]}), name="PDC", trusts=(trust("ROAM", "\1"),)
    )
    roam = TrustingEnd(users=(SAM,), machines=(FILE2, CORP), name="RDC", head=ROAM_HEAD, trusts=(trust("CORP", "\0", "61" * 16),))
    members = [
        MemberEnd(computer="FILE1", domain="CORP", secret="41" * 16, controller=b"\0"),
        MemberEnd(computer="FILE2", domain="ROAM", secret="42" * 16, controller=b"\1"),
    ]
    clients = [
        client(), client(server=3), client(domain="CORP", user="ann", secret="11"),
        client(domain="CORP", user="ann", secret="11", server=3, level=5, kind="v1ess"),
    ]
    script = script_of(TrustingWorld([corp, roam], members, clients))
    for number in range(4):
        script.make("start", number)
    return script.run(onward)


def two_domains():
    """Two trusted domains, whose turns come one after the other."""
    third = TrustingEnd(users=(SAM | {"name": "tom"},), machines=(CORP | {"hash": "52" * 16},), name="TDC", head={"domain": "THIRD", "sid": "S-1-5-21-7-8-9"})
    controllers = [pdc(trusts=(trust("ROAM", "\1"), trust("THIRD", "\2", "52" * 16))), rdc(), third]
    members = [MemberEnd(computer=name, domain="CORP", secret=secret * 16, controller=b"\0") for name, secret in (("FILE1", "41"), ("FILE2", "42"))]
    clients = [client(domain="THIRD", user="tom", server=3), client(server=3), client(server=4), client(domain="THIRD", user="tom", server=4, secret="45")]
    script = script_of(TrustingWorld(controllers, members, clients))
    for number in range(4):
        script.make("start", number)
    return script.run(onward)


def third_domain():
    """PDC trusts THIRD at RDC's address. RDC trusts it too, but hands nothing on that a trusted domain asks of it."""
    other = (trust("THIRD", "\1"),)
    return logged_on(world_of([pdc(trusts=other), rdc(trusts=other)], [client(domain="THIRD")]))


def nobody_asks():
    """The same plan without `trusting`: its controllers hand nothing on."""
    world = world_of([ControllerEnd((ANN, BOB, EVE), (FILE1, FILE2), "PDC")])
    script = Script(world)
    script.words = [word if not word.startswith("controller/") else plan_words(world_of([pdc()]))[0] for word in plan_words(world)]
    script.make("start", 0)
    return script.run(onward)


FAULT = "Some(Refused(Fault(5)))"


def scripts():
    return [
        sam_is_in(),
        counted(reply_is_lost(), FAULT, refused=1, passed=2),
        counted(logged_on(world_of(clients=[client(domain="NOWHERE")])), FAULT, refused=1, passed=1),
        counted(third_domain(), FAULT, refused=1, passed=2),
        counted(nobody_asks(), FAULT, refused=1, passed=1),
        counted(logged_on(world_of(clients=[client(secret="45")])), FAULT, refused=1, passed=2),
        counted(request_comes_twice(), no_controller=1, passed=2, barred=1),
        counted(hop_comes_twice(), IN, accepted=1, passed=2, barred=1),
        counted(dialled_not("\0"), FAULT, refused=1, passed=1),
        counted(dialled_not("\2"), FAULT, refused=1, passed=1),
        counted(dialled_not("\1\1"), FAULT, refused=1, passed=1),
        counted(strangers(), accepted=1, passed=2),
        counted(both_ways(), accepted=4, passed=6),
        counted(two_domains(), accepted=3, refused=1, passed=8),
        restarted(0),
        restarted(1),
    ]


def clear(world):
    """No credential was found right on a unit that was made for another channel, between controllers neither."""
    assert world.marks.is_clear() and world.marks.are_answered(), world.counts
    return world


def drilled(number, count):
    """Moves that a number makes, over a plan with two domains."""
    world = world_of(clients=[client(), client(domain="CORP", user="ann", secret="11"), client(server=3, level=5, kind="v1ess"), client(domain="NOWHERE", server=3)])
    words = world.words()
    world.drive(moves_from(number, count))
    return line("world.drill", number, count, *words), answer_of(clear(world))


def cases():
    """Each line and its answer."""
    return [case_of(script) for script in scripts() if clear(script.world)] + [drilled(number, count) for number, count in ((7, 2000), (1, 500), (3, 500))]
