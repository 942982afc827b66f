"""Cases of channel_client, of a channel that may seal.

`turns.sealing SECRET COMPUTER ACCOUNT KIND DOMAIN SEALS STEP ..`: a channel as in `turns.run` (`channel_client.py`),
of a computer in this domain, which seals where SEALS is `on`, and its steps one after the other. They are those of
`turns.run`, and `stands`: whether the channel is none, and whether the call of its turn is sealed. `take/BYTES` is what
an end does that serves the link of its turn. From the bind_ack on behind which a sealed request goes out, what is
sealed of a unit is opened. A unit that isn't opened ends the turn by `BadSeal`, and behind that stands the refusal, or
`None` where it has no signature. Then the unit is joined to those before it (`waits`, or `broken` and the cause), and
what is whole comes to what it does in `turns.run`.

The sealed requests are opened by a controller here, which seals the replies, by MS-NRPC 3.3.4.2 and the text of
docs/FORMATS.md. A channel that doesn't seal answers the steps of `turns.run` as the channels there do.
"""

import channel_client
from channel_client import OFFERED, RC4_FLAG, ZEROS, ack_of, fault_of, response_of
from channel_sealing import ACK_VALUE, OWN, PRIVACY, PROVIDER, ROOM, SECOND, End, bind_value, call_frames, joined, sealed_bind, trailer_of
from logon_stubs import plain_sam
from rpc_units import BIND, LIMIT, NAK, NDR, REQUEST, VALUE, Joiner, Refused, whole
from rpc_units import read as read_unit
from rpc_units import write as write_unit
from wire import flipped, truth

SECURE = 0x40000000
ACK_TRAILER = trailer_of(ACK_VALUE)
LONG = ("d" * 300, "u" * 300, "w" * 300, "ff" * 8, "01" * 4000, "02" * 3000)


class Sealing(channel_client.Requester):
    """The end that asks on a channel that may seal, and the controller's end of it."""

    operation = "turns.sealing"

    def __init__(self, seals=True, domain="CORP", **plan):
        super().__init__(**plan)
        self.domain, self.seals = domain.encode(), seals
        if seals:
            self.offered, self.needed = OFFERED | SECURE, RC4_FLAG | SECURE
        self.words += [self.domain, "on" if seals else "off"]
        # both ends of the sealed channel, the confounder of a request, and what is known of the link of the turn
        self.here = self.there = self.confounder = self.joiner = None
        self.is_link_sealed = False

    def is_sealed(self):
        """Only the calls on the open channel are sealed."""
        return self.seals and self.seed is not None

    def stands(self):
        self.add("stands", f"{truth(self.client is None)} {truth(self.turn is not None and self.is_sealed())}")
        return self

    def draws(self):
        return super().draws() or self.is_sealed()

    def bind(self, number):
        return sealed_bind(number, bind_value(self.domain, self.computer)) if self.is_sealed() else super().bind(number)

    def start(self, timestamp=1_700_000_000, challenge="1011121314151617"):
        if self.waiting and self.turn is None:
            self.is_link_sealed, self.joiner = False, Joiner()
            if self.is_sealed():
                self.confounder = bytes.fromhex(challenge)
        return super().start(timestamp, challenge)

    def frames(self, unit, receive):
        if not self.is_sealed():
            return super().frames(unit, receive)
        self.is_link_sealed = True
        frames = self.here.seal_all(call_frames(unit, receive), self.confounder)
        # the controller hears the plain call
        opened = [self.there.open(frame) for frame in frames]
        assert all(answer == "Ok(())" for answer, _ in opened) and joined([left for _, left in opened]) == unit
        return frames

    def judge(self, reply):
        answer = super().judge(reply)
        if answer == "opened" and self.seals:
            self.here, self.there = End(self.key(), True), End(self.key(), False)
        return answer

    def take(self, unit):
        data = write_unit(unit) if isinstance(unit, dict) else unit
        self.add(f"take/{data.hex()}", self.come(data))
        return self

    def come(self, data):
        if self.turn and self.is_link_sealed:
            outcome, data = self.here.open(data)
            if outcome not in ("Nothing", "Ok(())"):
                place = self.turn["place"]
                self.drop()
                return f"dropped {place} BadSeal " + ("None" if outcome == "Missing" else f"Some({outcome[4:-1]})")
        joiner, self.joiner = self.joiner, None
        if joiner is None:
            return "no turn"
        try:
            unit = read_unit(data)
        except Refused:
            return "broken BadUnit"
        try:
            unit = joiner.add(unit)
        except Refused as refused:
            return "broken " + ("TooMuchHeld" if str(refused) == "CallTooLong" else "OutOfPlace")
        self.joiner = joiner
        if unit is None:
            return "waits"
        return self.taken(unit) if self.turn else "no turn"

    # what the controller sends

    def answered(self, stub, receive=LIMIT, context=OWN, number=None):
        """The sealed frames of a reply, for a peer that receives so many bytes."""
        unit = response_of(self.turn["number"] if number is None else number, self.stub_of(stub))
        return self.there.seal_all(call_frames(unit, receive, context), SECOND)

    def reply(self, stub, receive=LIMIT, context=OWN, **fields):
        if not self.is_link_sealed:
            return super().reply(stub, **fields)
        for frame in self.answered(stub, receive, context):
            self.take(frame)
        return self


# ---- scenarios


def opened(**plan):
    """An open channel; three logons wait."""
    return Sealing(**plan).ask(user="one").ask(user="two").ask(user="three").opened()


def logging(end=None):
    """A channel on which a sealed logon is asked."""
    return (end or opened()).start().ack(trailer=ACK_TRAILER)


def changing(secret=channel_client.NEW):
    """A channel on which a sealed change of the secret is asked."""
    return logging(opened().set_next(secret))


TURNS = (logging, changing)


def right(end, **fields):
    """The reply that is due."""
    return end.confirmed(**fields) if end.turn["opnum"] == channel_client.SET else end.verdict(**fields)


def again(end):
    """The channel is none, and opened anew. What it asks then is answered."""
    end.can().stands().opened().start().ack()
    return end.reply(right(end)).stands()


def path_cases():
    out = []
    # from the opening calls, which aren't sealed, to the third logon, each on a link of its own
    for plan in ({}, {"kind": 6, "domain": "d" * 64, "computer": "c" * 64}, {"domain": "", "computer": ""}, {"domain": "corp", "computer": "File1"}):
        end = Sealing(**plan).ask(user="one").ask(user="two").ask(user="three").can().stands().half().can().stands().start().stands().ack()
        end.reply(end.right()).can().stands().start().can().stands().ack(trailer=ACK_TRAILER).stands()
        info = plain_sam(user_flags=0x20, extra=[((5, [32, 544]), 7), ((18, [1]), 7)])
        end.reply(end.verdict(status=0, info=info)).can().stands().start(0, "ff" * 8).ack()
        end.reply(end.verdict(status=0, info=plain_sam(key=bytes(16)))).start(2**32 - 1, ZEROS.hex()).ack()
        out.append(end.reply(end.verdict(status=0xC0000064)).can().stands().start().case())
    # a change of the secret, and the logons behind it; another one behind that
    end = opened().set_next(channel_client.NEW).can().start().stands().ack(trailer=ACK_TRAILER)
    end.reply(end.confirmed()).stands().start().ack()
    end.reply(end.verdict()).set_next(channel_client.NEWER).start().ack()
    end.reply(end.confirmed()).start().ack()
    out.append(end.reply(end.verdict()).case())
    end = Sealing(computer="A" * 64).ask().ask().set_next(channel_client.NEW).opened().start()
    end.ack(0).reply(end.confirmed()).start().ack()
    out.append(end.reply(end.verdict()).case())
    # a secret is given while the channel is none, and no turn is out
    end = Sealing().ask().ask().use_secret(channel_client.NEWER).half().use_secret(channel_client.NEW).start().use_secret(channel_client.NEW).ack()
    end.reply(end.right()).use_secret(channel_client.NEW).start().set_next(channel_client.NEW).ack().lose().stands().use_secret(channel_client.NEW)
    out.append(again(end).case())
    # requests in fragments, by the size that the peer receives; replies in fragments
    for receive in (0, 1432, 1448, 1449, 1464, 2000, 4280, 5840, 65535):
        end = Sealing().ask(*LONG).opened().start()
        end.ack(receive)
        out.append(end.reply(end.verdict(status=0, info=plain_sam(groups=[(513 + at, 7) for at in range(256)])), receive).can().case())
    # in each fragment by itself
    end = Sealing().ask(*LONG).ask(*LONG).opened()
    for receive in (1432, 1464):
        end.start().ack(receive).reply(end.verdict(status=0, info=plain_sam(groups=[(at, at) for at in range(256)])), receive)
    out.append(end.stands().case())
    # the context of a trailer doesn't matter, nor what the bind_ack has for a trailer
    for trailer in (None, ACK_TRAILER, trailer_of(ACK_VALUE, 0x01020304), trailer_of(ROOM), trailer_of(b"x"), (10, PRIVACY, OWN, ACK_VALUE), (PROVIDER, 5, OWN, ACK_VALUE), VALUE):
        end = opened().start().ack(trailer=trailer).stands()
        out.append(end.reply(end.verdict(), context=trailer[2] if trailer else 0).case())
    # the confounder is the challenge that is given as the turn starts
    for challenge in (ZEROS.hex(), "ff" * 8, "0123456789abcdef"):
        out.append(opened().start(7, challenge).ack().case())
    # nothing is sealed before the channel is open, whatever trailers the units have
    end = Sealing().ask().ask().start().ack(trailer=ACK_TRAILER)
    end.reply({"challenge": ZEROS, "status": 0}, trailer=trailer_of(ROOM)).start().ack(trailer=ACK_TRAILER)
    out.append(end.reply(end.right(), trailer=trailer_of(ROOM)).start().stands().case())
    return out


def flag_cases():
    """Flags that are granted: those offered or fewer, with RC4 and secure RPC; the credential comes before them."""
    out = []
    for seals in (True, False):
        granted = (OFFERED | SECURE, RC4_FLAG | SECURE, 0x1FF | SECURE, OFFERED, RC4_FLAG, OFFERED & ~RC4_FLAG | SECURE, SECURE, 0,
                   OFFERED | SECURE | 0x20000, OFFERED | SECURE | 0x8000, OFFERED | SECURE | 0x01000000, OFFERED | SECURE | 0x80000000, 2**32 - 1)
        for flags in granted:
            end = Sealing(seals).ask().ask().half().start().ack()
            out.append(end.reply(end.right(flags=flags)).can().stands().case())
        for flags in (OFFERED, OFFERED | SECURE, 0):
            end = Sealing(seals).ask().half().start().ack()
            out.append(end.reply(end.right(flags=flags, credential=ZEROS)).can().case())
            end = Sealing(seals).ask().half().start().ack()
            out.append(end.reply(end.right(flags=flags, status=1)).can().case())
    return out


def seal_cases():
    """Responses on a sealed link that aren't opened; the channel is opened anew behind each."""
    out = []
    for turn in TURNS:
        # the right reply, in plain form, and with another trailer
        for trailer in (None, (10, PRIVACY, OWN, ROOM), (PROVIDER, 5, OWN, ROOM), VALUE, trailer_of(bytes(16)), trailer_of(bytes(33))):
            end = turn()
            out.append(again(end.take(response_of(end.turn["number"], end.stub_of(right(end)), trailer=trailer))).case())
        # with room for a signature, but none
        end = turn()
        out.append(end.take(call_frames(response_of(end.turn["number"], end.stub_of(right(end))), LIMIT)[0]).stands().case())
        # one byte is another: flags, length, call, hint, context, stub, trailer, and each part of the signature
        end = turn()
        size = len(end.answered(right(end))[0])
        for at in (3, 5, 12, 16, 20, 22, 24, size - 41, size - 39, size - 38, size - 37, size - 36, size - 33, size - 32, size - 25, size - 24, size - 17, size - 16, size - 9, size - 8, size - 1):
            end = turn()
            out.append(end.take(flipped(end.answered(right(end))[0], at, 0x40)).stands().case())
        # of another kind or size, or no unit
        for at, mask in ((0, 1), (2, 1), (2, 2), (2, 3), (2, 0x80), (8, 1), (10, 1)):
            end = turn()
            out.append(end.take(flipped(end.answered(right(end))[0], at, mask)).lose().case())
        # another number: one was left out, or is from the controller's other channel
        end = turn()
        end.answered(right(end))
        out.append(again(end.reply(right(end))).case())
        end = turn()
        end.there = End(bytes(16), False)
        out.append(end.reply(right(end)).stands().case())
        # what this end sent comes back
        end = turn()
        sent = bytes.fromhex(end.answers[-1].removeprefix("next ").split(",")[0])
        out.append(end.take(sent).stands().case())
    # a reply to an earlier logon comes again, also behind an opening, and also where it is of the right call
    end = logging()
    first = end.answered(end.verdict())
    end.take(first[0]).start().ack()
    out.append(end.take(first[0]).stands().case())
    end = logging()
    first = end.answered(end.verdict())
    end.take(first[0]).start().lose().opened().start().ack()
    out.append(end.take(first[0]).stands().case())
    end = logging()
    first = end.answered(end.verdict(status=1), number=end.turn["number"] + 2)
    end.take(first[0]).reply(end.verdict()).start().ack()
    out.append(end.take(first[0]).stands().case())
    # fragments of a reply: the second before the first, the first twice, and one that is left out
    groups = lambda end: end.verdict(status=0, info=plain_sam(groups=[(at, 7) for at in range(256)]))
    for order in ((1,), (0, 0), (0, 2), (0, 1, 1)):
        end = Sealing().ask(*LONG).ask().ask().opened().start().ack()
        frames = end.answered(end.stub_of(groups(end)) + bytes(1000), 1432)
        assert len(frames) == 3
        for at in order:
            end.take(frames[at])
        out.append(again(end).case())
    return out


def other_cases():
    """What else comes on a sealed link: it does what it does on any link."""
    out = []
    for turn in TURNS:
        number = turn().turn["number"]
        # faults and answers to binds aren't sealed
        for status in (5, 0):
            out.append(again(turn().take(fault_of(number, status))).case())
        out.append(turn().take(whole(NAK, call=number, reason=0)).can().stands().case())
        out.append(turn().ack().can().stands().case())
        for results in ([(2, 1, NDR)], []):
            out.append(turn().ack(results=results).can().case())
        out.append(turn().take(whole(BIND, call=number, send=LIMIT, receive=LIMIT, group=0, contexts=[])).stands().case())
        out.append(turn().take(sealed_bind(number, ROOM)).stands().case())
        # a request that the controller sealed
        end = turn()
        for frame in end.there.seal_all(call_frames(whole(REQUEST, call=number, hint=0, context=0, opnum=2, stub=b""), LIMIT)):
            end.take(frame)
        out.append(end.stands().case())
        # of another call, a sealed reply is passed over; the one behind it has the next number
        end = turn()
        end.take(end.answered(right(end), number=number + 5)[0]).stands().take(fault_of(99, 5)).take(ack_of(number - 1, 4280, [(0, 0, NDR)]))
        out.append(end.reply(right(end)).can().stands().case())
        # a sealed reply that is judged: no stub, another credential, and denied
        for stub in (b"", bytes(4), b"\xff" * 40):
            out.append(turn().reply(stub).stands().case())
        for fields in ({"returned": (ZEROS, 0)}, {"status": channel_client.ACCESS_DENIED}, {"status": channel_client.ACCESS_DENIED, "returned": (ZEROS, 0)}):
            end = turn()
            out.append(end.reply(right(end, **fields)).can().stands().case())
        # before the bind_ack the link isn't sealed, whatever comes
        end = opened() if turn is logging else opened().set_next(channel_client.NEW)
        end.start()
        out.append(end.take(end.there.seal_all(call_frames(response_of(end.turn["number"], b"a reply"), LIMIT))[0]).stands().case())
        end = opened().start()
        out.append(end.take(fault_of(end.turn["number"] + 1, 5)).take(whole(NAK, call=end.turn["number"], reason=0)).can().stands().case())
        # nothing comes behind the end of a turn
        end = turn()
        frames = end.answered(right(end))
        out.append(end.take(frames[0]).take(frames[0]).take(fault_of(number, 5)).lose().case())
        # a fragment that has no place
        end = turn()
        part = {**response_of(number, bytes(40), trailer=trailer_of(ROOM)), "last": False}
        first, twice = (end.there.seal(write_unit(part), SECOND) for _ in range(2))
        out.append(end.take(first).take(twice).take(first).lose().case())
    return out


def unsealed_cases():
    """A channel that doesn't seal: the lines of `turns.run`, with the same answers."""
    out = []
    for text, answer in channel_client.cases():
        words = text.split(" ")
        if words[0] == "turns.run" and len(text) < 12000 and not any(is_part(word) for word in words[5:]):
            out.append((" ".join(["turns.sealing", *words[1:5], b"CORP".hex(), "off", *words[5:]]), answer))
    end = Sealing(False).ask().can().stands().half().stands().start().stands().ack()
    end.reply(end.right()).can().stands().start().stands().ack(trailer=ACK_TRAILER).stands()
    out.append(end.reply(end.verdict()).can().stands().case())
    return out


def is_part(word):
    """Whether a step takes a fragment of a call: it is joined here."""
    if not word.startswith("take/"):
        return False
    unit = read_unit(bytes.fromhex(word[5:]))
    return not (unit["first"] and unit["last"])


def cases():
    """Each line and its answer."""
    return path_cases() + flag_cases() + seal_cases() + other_cases() + unsealed_cases()
