"""What each unit of a world was made for, and whether a run is clear, by the definitions of `step_notes`
(`specs/Records`, `Marking`, `MemberNotes`, `ControllerNotes`) and of `domain_world` (`specs/Past`, `Claims`).

A mark is `PLAIN`, or a kind, the channel and the number of the call. Behind these `Calling` has the timestamp of its
authenticator, and `Opened` and `ReplyTo` have the unit in which the call came. A channel is told by its controller, its
computer, the secret, both challenges and the flags. The ends here are those of `domain_controller` and `member_server`,
and keep of each event what each unit came to.
"""

import domain_controller
import member_server
from channel_client import AUTHENTICATE, LOGON, OFFERED, SET
from domain_controller import utf16
from trusts import Trusting

PLAIN = ("Plain",)
# What a unit comes to that sends an answer or a request, without any credential that passed.
SENDS = {"mark": PLAIN, "checked": None}


class Controller(domain_controller.Controller):
    """A controller that keeps what each unit came to of those that it answered: the kind of the reply's mark, the
    channel on which a credential passed, the number of the call, and the timestamp of its authenticator."""

    def event(self, word, run=lambda: None):
        self.notes, self.checked = [], None
        return super().event(word, run)

    def check(self, kind, call, timestamp=None):
        channel = self.channels[domain_controller.upper(call["computer"])]
        computer = domain_controller.upper(call["computer"]).decode("utf-16-le")
        self.checked = kind, (computer, *(channel[part] for part in ("secret", "client", "server", "flags"))), timestamp

    def authenticate(self, call):
        reply = super().authenticate(call)
        if reply["status"] == 0:
            self.check("Opened", call)
        return reply

    def passes(self, call):
        passed = super().passes(call)
        if passed is not None:
            self.check("ReplyTo", call, call["authenticator"][1])
        return passed

    def send(self, link, data):
        super().send(link, data)
        self.notes.append(SENDS)

    def reply(self, link, number, context, limit, opnum, fields):
        super().reply(link, number, context, limit, opnum, fields)
        if self.checked:
            kind, channel, timestamp = self.checked
            self.notes[-1] = {"mark": (kind, channel, number), "checked": channel, "timestamp": timestamp}
        self.checked = None

    def notes_of(self, unit, controller, _controllers):
        """What the units of the last event came to, which came in that unit of the bag, if in one."""
        return self.answered(self.notes, unit, controller)

    @staticmethod
    def answered(notes, unit, controller):
        noted = []
        for note in notes:
            if note["checked"]:
                kind, channel, number = note["mark"]
                channel = controller, *channel
                note = note | {"mark": PLAIN if unit is None else (kind, channel, number, unit), "checked": channel}
            noted.append(note)
        return noted


def of_channels(notes, controller):
    """What units came to that a turn took, of channels with that controller."""

    def at(mark):
        return (mark[0], (controller, *mark[1]), *mark[2:]) if mark and mark != PLAIN else mark

    return [note | {"mark": at(note["mark"]), "checked": note["checked"] and (controller, *note["checked"])} for note in notes]


class TrustingController(Controller, Trusting):
    """A controller that asks others: it keeps besides which calls it handed on, and what its turn took."""

    def __init__(self, **how):
        # the calls that were handed on, the newest first: the trust and the place, the link, and the reply's mark
        self.handed, self.on_turn = [], False
        super().__init__(**how)

    def requester(self, trust):
        asking = Asking(bytes.fromhex(trust["hash"]), self.name, 4)
        asking.account = utf16(self.head["domain"] + "$")
        return asking

    def event(self, word, run=lambda: None):
        for asking in self.requesters:
            asking.notes = []
        turn = self.requesters[self.turn_of].turn if self.requesters else None
        out = turn and (self.turn_of, turn["place"])
        # which trust the turn is of, and the reply to the call for which it is out, once it ends: its link and its mark
        self.asked, self.reply_to = self.turn_of, next(((link, mark) for place, link, mark in self.handed if place == out), None)
        return super().event(word, run)

    def bytes(self, data, link=1):
        self.on_turn = link == self.turn_link
        return super().bytes(data, link)

    def reply(self, link, number, context, limit, opnum, fields):
        if fields is not None:
            return super().reply(link, number, context, limit, opnum, fields)
        _, channel, timestamp = self.checked
        self.notes.append({"mark": None, "checked": channel, "timestamp": timestamp, "handed": (self.forwarded[-1][:2], link, number)})
        self.checked = None

    def beside(self):
        """What it sends beside the link on which bytes came, if that was the link of its turn."""
        return self.reply_to if self.on_turn else None

    def asks_of(self, controllers):
        """The number of the controller that its turn asks, of so many."""
        address = self.trusts[self.asked]["address"].encode()
        return address[0] if len(address) == 1 and address[0] < controllers else controllers

    def notes_of(self, unit, controller, controllers):
        if self.on_turn:
            return of_channels(self.requesters[self.asked].notes, self.asks_of(controllers))
        noted = []
        for note in self.notes:
            if "handed" in note:
                place, link, number = note["handed"]
                channel = controller, *note["checked"]
                self.handed.insert(0, (place, link, PLAIN if unit is None else ("ReplyTo", channel, number, unit)))
                noted.append({"mark": None, "checked": channel, "timestamp": note["timestamp"]})
            else:
                noted += self.answered([note], unit, controller)
        return noted


class Asking(member_server.Asking):
    """The shared channel, and what the units of the last event came to that its turn took."""

    notes = ()

    def channel(self):
        return self.computer.decode().upper(), self.secret, self.client, self.server, OFFERED

    def hear(self, unit):
        turn = self.turn
        answer = super().hear(unit)
        if answer.startswith("next ") and turn["opnum"] == AUTHENTICATE:
            self.notes.append({"mark": ("Opening", self.channel(), turn["number"]), "checked": None})
        elif answer.startswith("next ") and turn["opnum"] in (LOGON, SET):
            timestamp = turn["fields"]["authenticator"][1]
            self.notes.append({"mark": ("Calling", self.channel(), turn["number"], timestamp), "checked": None})
        elif answer.startswith("next "):
            self.notes.append(SENDS)
        elif answer in ("opened", "set") or answer.startswith("answer "):
            self.notes.append({"mark": None, "checked": self.channel()})
        return answer


class Member(member_server.Member):
    """A member with that channel."""

    def __init__(self, **plan):
        super().__init__(**plan)
        self.channel = Asking(self.channel.secret, self.computer)

    def event(self, word, run=lambda: None):
        self.channel.notes = []
        return super().event(word, run)

    def notes_of(self, _unit, controller):
        """What the units of the last event came to, of channels with that controller."""
        return of_channels(self.channel.notes, controller)


class Marks:
    """The mark of each unit of the bag, in its order, and what tells whether the run is clear."""

    def __init__(self):
        self.sent, self.passed, self.clash = [], {}, False
        self.ready = None, None, [], None

    def hear(self, notes, unit, link, back, beside=None):
        """Units came to this at an end, in that unit of the bag if in one. Its sends on the link get these marks, in
        order. What it sends back on the link beside it, if there is one, is the reply to a call that it handed on."""
        for note in notes:
            if note["checked"]:
                # A credential passed in a unit that wasn't made for the channel. Bytes from outside are no unit.
                self.clash |= unit is not None and self.sent[unit][1:2] != (note["checked"],)
            if note.get("timestamp") is not None:
                self.passed.setdefault(note["checked"], []).append(note["timestamp"])
        self.ready = link, back, [note["mark"] for note in notes if note["mark"]], beside

    def done(self):
        """All that an end did at bytes is done."""
        self.ready = None, None, [], None

    def send(self, link, back, lost=None):
        """A unit goes into the bag. Where no bytes come it may be the reply to a call whose turn was lost."""
        on, way, marks, beside = self.ready
        if marks and (on, way) == (link, back):
            self.sent.append(marks.pop(0))
        else:
            beside = lost if on is None else beside
            self.sent.append(beside[1] if beside and back and beside[0] == link else PLAIN)

    def wraps(self):
        """Two authenticators passed on one channel, and from the first up to but without the second the timestamps,
        each plus one, sum to a multiple of 2^32."""
        for timestamps in self.passed.values():
            for first in range(len(timestamps)):
                moved = 0
                for timestamp in timestamps[first:-1]:
                    moved = (moved + timestamp + 1) % 2**32
                    if moved == 0:
                        return True
        return False

    def is_clear(self):
        return not self.clash and not self.wraps()

    def are_answered(self):
        """Each reply to an opening or a call is marked as that of a unit which was made as it, on its channel and with
        its number; and no two units were made so on one channel with one number."""
        asked = [mark[1:3] for mark in self.sent if mark[0] in ("Opening", "Calling")]
        kinds = {"Opened": "Opening", "ReplyTo": "Calling"}
        right = all(self.sent[mark[3]][:3] == (kinds[mark[0]], *mark[1:3]) for mark in self.sent if mark[0] in kinds)
        return right and len(set(asked)) == len(asked)
