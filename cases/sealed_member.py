"""Cases of member_server, of a member whose channel seals.

`member.sealing COMPUTER DOMAIN SECRETS CONTROLLER CHALLENGES STEP ..`: as `member.run` (`member_server.py`), of one
whose plan says that its channel is sealed. A challenge is drawn for each turn on the open channel too, the confounder
of its call.

The actions are worked out here by the rules of docs/FORMATS.md ("The member server", "The shared channel", "A sealed
link"): the member of `member_server.py` with the end of `sealed_turns.py`, beside the controller of
`sealed_controller.py`, which opens what the member seals, and the other way round.
"""

import member_server
import sealed_turns
from channel_sealing import ACK_VALUE, ROOM, trailer_of
from documents import ANN, BOB, FILE1
from domain_controller import NOW, Controller, fault_of
from member_server import Asking, Member, answer_of_controller, let_in, told_of, turns, units_in
from rpc_units import NAK, whole
from rpc_units import read as read_unit
from rpc_units import write as write_unit
from sealed_controller import Sealing
from wire import flipped

NEW = "61" * 16
# challenges of many turns and logons
MEMBER_DRAWS = [f"{place:02x}" * 8 for place in range(0x01, 0x60)]
DRAWS = [f"{place:02x}" * 8 for place in range(0x80, 0xF0)]


class SealingAsking(Asking, sealed_turns.Sealing):
    """The shared channel that seals, with the verdict that came last."""


class SealedMember(Member):
    """The member whose channel seals, by its rules."""

    operation = "member.sealing"

    def __init__(self, draws=MEMBER_DRAWS, **plan):
        super().__init__(draws=draws, **plan)
        self.channel = SealingAsking(domain=self.domain, secret=self.current, computer=self.computer)

    def turn_unit(self, data):
        channel = self.channel
        if channel.turn and channel.is_link_sealed:
            outcome, data = channel.here.open(data)
            if outcome not in ("Nothing", "Ok(())"):
                place = channel.turn["place"]
                channel.drop()
                self.end_turn("BadAuthentication")
                return self.tell(place, ("none", "BadSeal"))
        return super().turn_unit(data)


def begun(**plan):
    return SealedMember(**plan).at(NOW)


def controller_of(users=(ANN, BOB), machines=(FILE1,), **how):
    return Sealing(users=users, machines=machines, challenges=DRAWS, **how).at(NOW)


def last_told(member, link=1):
    """What was told of the link last."""
    return told_of(member, link)[-1]


def opened(**plan):
    """A member that let ann in on link 1, and its controller, at which its channel stands."""
    member, controller = begun(**plan), controller_of()
    let_in(member, controller)
    assert last_told(member) == "In"
    return member, controller


def asking(member, controller, link=2, **plan):
    """A logon that comes on the link, up to the reply of its turn on link 5000: the reply."""
    client, rest = member_server.authenticate(member, link, **plan)
    member.dialled(5000)
    controller.opened(5000)
    controller.bytes(member.sent(5000), 5000)
    member.bytes(answer_of_controller(controller, 5000), 5000)
    controller.bytes(member.sent(5000), 5000)
    return answer_of_controller(controller, 5000)


def let_in_again(member, controller, link=40):
    """The next logon is let in, on a channel that is opened anew."""
    let_in(member, controller, link)
    assert last_told(member, link) == "In"
    return member.case()


def path_cases():
    """Logons over a sealed channel, granted and refused, one after the other and several at once."""
    out = []
    for users in ((ANN,), (ANN | {"disabled": True},), (ANN | {"extra_sids": ["S-1-5-32-544"], "groups": list(range(513, 769))},), (BOB,)):
        member, controller = begun(), controller_of(users)
        let_in(member, controller)
        out += [member.closed().case(), controller.case()]
        assert sum("judged Passed" in answer for answer in controller.answers) == 1
    member, controller = opened()
    for link in (2, 3, 4):
        let_in(member, controller, link)
        assert last_told(member, link) == "In"
    out += [member.case(), controller.case()]
    member, controller = begun(), controller_of()
    for link in (1, 2, 3):
        member_server.authenticate(member, link)
    member.actions = [("dial", b"there")]
    turns(member, controller)
    out += [member.wants().case(), controller.case()]
    assert [answer.count("told") for answer in member.answers].count(1) == 3
    return out


def change_cases():
    """A secret that is changed on the sealed channel."""
    out = []
    for before in (True, False):
        member, controller = (begun(), controller_of()) if before else opened()
        member.change(NEW)
        let_in(member, controller, 2)
        assert member.current.hex() == NEW and controller.hashes["FILE1$"].hex() == NEW
        let_in(member, controller, 3)
        out += [member.case(), controller.case()]
        # a controller that is started anew has no channel: the next logon opens by the new secret
        again = controller_of(machines=(FILE1 | {"hash": NEW},))
        let_in(member, again, 4)
        out.append(let_in_again(member, again))
    return out


def reply_cases():
    """Bytes of a sealed reply altered, replies that are unsealed, of before, or another's."""
    out = []
    # a bit of each byte of the heads, of the trailer and of the signature, and of each fourth byte of the stub
    member, controller = opened()
    size = len(asking(member, controller))
    places = [at for at in range(size) if at < 24 or at >= size - 40 or at % 4 == 0]
    for start in range(0, len(places), 8):
        member, controller = opened()
        for link, at in zip(range(2, 18, 2), places[start:start + 8]):
            reply = asking(member, controller, link)
            member.bytes(flipped(reply, at, 1 << at % 8), 5000)
            if not member.actions:
                # one that says that it is longer waits for more
                member.closed(5000)
            assert last_told(member, link) in ("NoController(BadSeal)", "NoController(BadReply)", "NoController(LinkClosed)")
            controller.closed(5000)
            # the next logon opens the channel anew
            let_in(member, controller, link + 1)
            assert last_told(member, link + 1) == "In"
        out.append(member.case())
    # in the clear, without the right trailer, twice, of another number, a fault, nothing else
    member, controller = opened()
    reply = asking(member, controller)
    unit = read_unit(units_in(reply)[0])
    changed = [{**unit, "trailer": trailer} for trailer in (None, (10, 6, 1, ROOM), (68, 5, 1, ROOM), trailer_of(ROOM[:16]), trailer_of(ACK_VALUE), trailer_of(ROOM))]
    for other in changed:
        member, controller = opened()
        asking(member, controller)
        member.bytes(write_unit(other), 5000)
        assert "BadSeal" in last_told(member, 2) and ("close", 5000, "BadAuthentication") in member.actions
        controller.closed(5000)
        out.append(let_in_again(member, controller))
    # the reply to another logon, and the same reply behind its own
    member, controller = opened()
    first = asking(member, controller)
    member.bytes(first, 5000)
    controller.closed(5000)
    assert last_told(member, 2) == "In"
    asking(member, controller, 3)
    member.bytes(first, 5000)
    assert "BadSeal" in last_told(member, 3)
    controller.closed(5000)
    out.append(let_in_again(member, controller))
    # a fault isn't sealed
    member, controller = opened()
    asking(member, controller)
    member.bytes(write_unit(fault_of(member.channel.turn["number"], 0, 0x1C010002)), 5000)
    controller.closed(5000)
    out.append(let_in_again(member, controller))
    return out


def peer_cases():
    """Controllers that can't seal, that were started anew, and links that close."""
    out = []
    # it grants less: no channel is opened
    member = begun()
    plain = Controller(users=(ANN,), machines=(FILE1,), challenges=DRAWS[:8]).at(NOW)
    let_in(member, plain)
    assert "BadReply" in last_told(member)
    let_in(member, plain, 2)
    out += [member.case(), plain.case()]
    # one that was started anew refuses the bind; the next logon opens the channel
    member, controller = opened()
    again = controller_of()
    let_in(member, again, 2)
    assert "NoController" in last_told(member, 2)
    let_in(member, again, 3)
    assert last_told(member, 3) == "In"
    out += [member.case(), again.case()]
    # the acknowledgement's trailer isn't looked at
    for trailer in (None, trailer_of(b"x"), trailer_of(ACK_VALUE, 0x01020304)):
        member, controller = opened()
        member_server.authenticate(member, 2)
        member.dialled(5000)
        controller.opened(5000)
        controller.bytes(member.sent(5000), 5000)
        ack = read_unit(answer_of_controller(controller, 5000))
        member.bytes(write_unit({**ack, "trailer": trailer}), 5000)
        controller.bytes(member.sent(5000), 5000)
        member.bytes(answer_of_controller(controller, 5000), 5000)
        assert last_told(member, 2) == "In"
        out.append(member.case())
    # a refused bind, a dial that fails, a link that closes before the reply
    member, controller = opened()
    member_server.authenticate(member, 2)
    member.dialled(5000).bytes(write_unit(whole(NAK, call=read_unit(member.sent(5000))["call"], reason=0)), 5000)
    out.append(let_in_again(member, controller))
    member, controller = opened()
    member_server.authenticate(member, 2)
    member.failed()
    out.append(let_in_again(member, controller))
    member, controller = opened()
    asking(member, controller)
    member.closed(5000)
    controller.closed(5000)
    out.append(let_in_again(member, controller))
    # no challenge is left for a confounder
    member, controller = begun(draws=MEMBER_DRAWS[:2]), controller_of()
    let_in(member, controller)
    assert member.stopped
    out.append(member.wants().opened(9).case())
    return out


def cases():
    """Each line and its answer."""
    return path_cases() + change_cases() + reply_cases() + peer_cases()
