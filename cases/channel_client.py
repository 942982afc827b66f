"""Cases of channel_client.

`turns.run SECRET COMPUTER ACCOUNT KIND STEP ..`: a channel of the account with this secret, and its steps one after the
other. COMPUTER is an ASCII text in hex, ACCOUNT one of 16-bit units, KIND a number. The steps:
`ask/DOMAIN/USER/WORKSTATION/CHALLENGE/NT/LM` (texts of 16-bit units): the place of the logon, or the refusal;
`fill/COUNT`: so many logons without names and responses, and the answer to the last; `can`: whether a turn can start,
and whether it draws a challenge; `start/TIMESTAMP/CHALLENGE`: the bytes of each frame, or `none`; `take/BYTES`: what
the unit of these bytes comes to; `lose`: the place; `secret/SECRET`: another secret of a channel that is none;
`following/SECRET`: the next secret, `none` for none. A step that wants a right that isn't out is answered with `no
turn`. A secret is given only where a turn can start, else the step is no case.

The frames and the answers are worked out here by the text of docs/FORMATS.md ("The shared channel") and MS-NRPC 3.1.4,
with replies written by Samba and impacket among those that are taken.
"""

import hashlib
import hmac

from des import des, spread
from forms import LIVE_SECRET, agree, line, values
from logon_stubs import AUTHENTICATE, CHALLENGE, LOGOFF, LOGON, BadArm, plain_sam, read, sam_shown, write
from ndr_codec import Refused
from rpc_units import ACK, AUTH3, BIND, FAULT, LIMIT, NAK, NDR, NETLOGON, NONE, REQUEST, RESPONSE, whole
from rpc_units import read as read_unit
from rpc_units import write as write_unit
from set_stubs import hidden_by
from set_stubs import read_reply as read_set_reply
from set_stubs import write_call as write_set
from set_stubs import write_reply as write_set_reply
from wire import changed, le, steps, truth

OFFERED, RC4_FLAG, ACCESS_DENIED, ZEROS, SET = 0x41FF, 4, 0xC0000022, bytes(8), 6


# ---- keys


def strong_key(secret, client, server):
    return hmac.new(secret, hashlib.md5(bytes(4) + client + server).digest(), "md5").digest()


def credential(key, data):
    return des(spread(key[7:14]), des(spread(key[:7]), data))


def plus(seed, number):
    return le((int.from_bytes(seed[:4], "little") + number) % 2**32, 4) + seed[4:]


def rc4(key, data):
    """The data under RC4 of the key."""
    table, j, out = list(range(256)), 0, []
    for i in range(256):
        j = (j + table[i] + key[i % len(key)]) % 256
        table[i], table[j] = table[j], table[i]
    i = j = 0
    for byte in data:
        i = (i + 1) % 256
        j = (j + table[i]) % 256
        table[i], table[j] = table[j], table[i]
        out.append(byte ^ table[(table[i] + table[j]) % 256])
    return bytes(out)


def crypted(key, data):
    """The data under RC4 of the key, unless it is all zeros."""
    return rc4(key, data) if any(data) else data


def check_formulas():
    """The formulas above give what impacket, Samba and OpenSSL gave."""
    netlogon = values("netlogon")
    for channel in netlogon["channels"]:
        client, server = (bytes.fromhex(channel[f"{side}_challenge"]) for side in ("client", "server"))
        key = strong_key(bytes.fromhex(channel["secret"]), client, server)
        agree(key.hex, channel["strong_key"], "strong key")
        agree(credential(key, client).hex, channel["client_credential_strong_key"], "client's credential")
        agree(credential(key, server).hex, channel["server_credential_strong_key"], "server's credential")
    for sequence in netlogon["sequences"]:
        key = bytes.fromhex(sequence["key"])
        for step in sequence["steps"]:
            before, after = (bytes.fromhex(step[f"seed_{when}"]) for when in ("before", "after"))
            agree(credential(key, plus(before, step["timestamp"])).hex, step["credential"], "credential")
            agree(plus(before, step["timestamp"] + 1).hex, step["seed_after"], "seed")
            agree(credential(key, after).hex, step["awaited_return"], "awaited return")
    for cipher in values("digests")["rc4"]:
        if not cipher["offset"]:
            key, plain = bytes.fromhex(cipher["key"]), bytes.fromhex(cipher["plaintext"])
            agree(rc4(key, plain).hex, cipher["ciphertext"], "RC4")


# ---- the end that asks


def frames_of(unit, limit):
    size = (limit - 48) // 8 * 8
    stubs = [unit["stub"][at:at + size] for at in range(0, len(unit["stub"]), size)] or [b""]
    return [write_unit({**unit, "first": not at, "last": at == len(stubs) - 1, "stub": stub}) for at, stub in enumerate(stubs)]


class Dropped(Exception):
    """The turn ends by this cause."""


class Requester:
    """The end that asks, by the rules of the shared channel, and the line that is written of its steps."""

    # the flags that it offers, and those that it needs granted
    offered, needed = OFFERED, RC4_FLAG
    operation = "turns.run"

    def __init__(self, secret=b"\x41" * 16, computer="FILE1", kind=2, place=0, call=1):
        self.secret, self.computer, self.account, self.kind = secret, computer.encode(), (computer + "$").encode("utf-16-le"), kind
        self.waiting, self.place, self.call, self.turn = [], place, call, None
        self.client = self.server = self.seed = self.awaited = None
        # the secret that the account is to have
        self.next = None
        self.words, self.answers = [secret, self.computer, self.account, kind], []

    def add(self, word, answer):
        self.words.append(word)
        self.answers.append(answer)

    def case(self):
        return line(self.operation, *self.words), steps(self.answers)

    def key(self):
        return strong_key(self.secret, self.client, self.server)

    # asking

    def let_wait(self, info):
        if len(self.waiting) >= 64:
            return "Err(QueueFull)"
        self.waiting.append((self.place, {**info, "logon_id": self.place}))
        self.place = (self.place + 1) % 2**32
        return f"Ok({self.waiting[-1][0]})"

    def ask(self, domain="CORP", user="ann", workstation="WS", challenge="0123456789abcdef", nt="aa" * 24, lm="bb" * 24):
        texts = [text.encode("utf-16-le") for text in (domain, user, workstation)]
        info = {"domain": texts[0], "control": 0, "user": texts[1], "workstation": texts[2], "challenge": bytes.fromhex(challenge),
                "nt": bytes.fromhex(nt), "lm": bytes.fromhex(lm)}
        word = "/".join(["ask"] + [text.hex() or "-" for text in texts] + [challenge, nt or "-", lm or "-"])
        self.add(word, self.let_wait(info))
        return self

    def fill(self, count):
        info = {"domain": b"", "control": 0, "user": b"", "workstation": b"", "challenge": ZEROS, "nt": b"", "lm": b""}
        self.add(f"fill/{count}", [self.let_wait(info) for _ in range(count)][-1])
        return self

    def draws(self):
        """Whether a turn that starts draws a challenge."""
        return self.client is None

    def can(self):
        self.add("can", f"{truth(self.waiting and self.turn is None)} {truth(self.draws())}")
        return self

    # secrets

    def give(self, word, may, run):
        may = may and self.waiting and self.turn is None
        if may:
            run()
        self.add(word, "-" if may else "no such case")
        return self

    def use_secret(self, secret):
        return self.give(f"secret/{secret.hex()}", self.client is None, lambda: setattr(self, "secret", secret))

    def set_next(self, secret):
        return self.give(f"following/{secret.hex() if secret else 'none'}", True, lambda: setattr(self, "next", secret))

    # turns

    def number(self):
        self.call = (self.call + 1) % 2**32
        return (self.call - 1) % 2**32

    def begin(self, timestamp, challenge, info):
        computer = self.computer.decode().encode("utf-16-le")
        if self.client is None:
            return CHALLENGE, {"primary": None, "computer": computer, "challenge": challenge}
        if self.seed is None:
            return AUTHENTICATE, {"primary": None, "account": self.account, "channel": self.kind, "computer": computer,
                                  "credential": credential(self.key(), self.client), "flags": self.offered}
        made = credential(self.key(), plus(self.seed, timestamp)), timestamp
        self.seed = plus(self.seed, timestamp + 1)
        self.awaited = credential(self.key(), self.seed)
        if self.next is not None:
            return SET, {"primary": None, "account": self.account, "channel": self.kind, "computer": computer, "authenticator": made,
                         "hidden": hidden_by(self.key(), self.next)}
        return LOGON, {"server": None, "computer": computer, "authenticator": made, "returned": (ZEROS, 0), "info": info, "validation": 3}

    def bind(self, number):
        return whole(BIND, call=number, send=LIMIT, receive=LIMIT, group=0, contexts=[(0, NETLOGON, [NDR])])

    def start(self, timestamp=1_700_000_000, challenge="1011121314151617"):
        answer = "none"
        if self.waiting and self.turn is None:
            place, info = self.waiting[0]
            number = self.number()
            opnum, fields = self.begin(timestamp, bytes.fromhex(challenge), info)
            self.turn = {"number": number, "place": place, "opnum": opnum, "fields": fields, "bound": False}
            answer = write_unit(self.bind(number)).hex()
        self.add(f"start/{timestamp}/{challenge}", answer)
        return self

    def drop(self):
        self.waiting, self.turn, self.client, self.server, self.seed, self.awaited = self.waiting[1:], None, None, None, None, None

    def lose(self):
        answer = "no turn"
        if self.turn:
            answer = str(self.turn["place"])
            self.drop()
        self.add("lose", answer)
        return self

    # units

    def request(self, receive):
        turn = self.turn
        stub = write_set(**turn["fields"]) if turn["opnum"] == SET else write("call", turn["opnum"], turn["fields"]).stub
        turn.update(bound=True, number=self.number())
        unit = whole(REQUEST, call=turn["number"], hint=len(stub), context=0, opnum=turn["opnum"], stub=stub)
        return "next " + ",".join(frame.hex() for frame in self.frames(unit, receive))

    def frames(self, unit, receive):
        """The frames of a request, for a peer that receives so many bytes."""
        return frames_of(unit, max(1432, min(LIMIT, receive)))

    def judge(self, reply):
        turn = self.turn
        opening = turn["opnum"] != LOGON
        if reply["status"] == ACCESS_DENIED or opening and reply["status"]:
            raise Dropped("Denied")
        if turn["opnum"] == CHALLENGE:
            self.client, self.server, self.turn = turn["fields"]["challenge"], reply["challenge"], None
            return "half"
        if turn["opnum"] == AUTHENTICATE:
            if reply["credential"] != credential(self.key(), self.server):
                raise Dropped("NotNext")
            if reply["flags"] & ~self.offered or self.needed & ~reply["flags"]:
                raise Dropped("BadReply")
            self.seed, self.turn = credential(self.key(), self.client), None
            return "opened"
        if reply["returned"] is None or reply["returned"][0] != self.awaited:
            raise Dropped("NotNext")
        if turn["opnum"] == SET:
            self.awaited, self.turn, self.next = None, None, None
            return "set"
        if reply["status"] == 0 and (reply["level"] != 3 or reply["info"] is None):
            raise Dropped("BadReply")
        self.awaited, self.turn, self.waiting = None, None, self.waiting[1:]
        if reply["status"]:
            return f"answer {turn['place']} Status({reply['status']})"
        info = {**reply["info"], "key": crypted(self.key(), reply["info"]["key"])}
        return f"answer {turn['place']} Granted({sam_shown(info)})"

    def hear(self, unit):
        if unit["call"] != self.turn["number"]:
            return "skip"
        if unit["kind"] == NAK or unit["kind"] == ACK and (not unit["results"] or unit["results"][0][0]):
            raise Dropped("Bind")
        if unit["kind"] == FAULT:
            raise Dropped(f"Fault({unit['status']})")
        if unit["kind"] != (RESPONSE if self.turn["bound"] else ACK):
            raise Dropped("BadReply")
        if unit["kind"] == ACK:
            return self.request(unit["receive"])
        try:
            reply = read_set_reply(unit["stub"]) if self.turn["opnum"] == SET else read("reply", self.turn["opnum"], unit["stub"])[0]
        except (Refused, BadArm):
            raise Dropped("BadReply") from None
        return self.judge(reply)

    def taken(self, unit):
        """What a unit comes to for the turn that is out."""
        place = self.turn["place"]
        try:
            return self.hear(unit)
        except Dropped as cause:
            self.drop()
            return f"dropped {place} {cause}"

    def take(self, unit):
        data = write_unit(unit) if isinstance(unit, dict) else unit
        self.add(f"take/{data.hex()}", self.taken(read_unit(data)) if self.turn else "no turn")
        return self

    # units that answer the step that waits

    def ack(self, receive=4280, results=((0, 0, NDR),), **fields):
        return self.take(ack_of(self.turn["number"], receive, results, **fields))

    def stub_of(self, stub):
        """The stub of a reply that is given by its fields."""
        if isinstance(stub, dict):
            return write_set_reply(**stub) if self.turn["opnum"] == SET else write("reply", self.turn["opnum"], stub).stub
        return stub

    def reply(self, stub, **fields):
        return self.take(response_of(self.turn["number"], self.stub_of(stub), **fields))

    def half(self, server="2021222324252627"):
        return self.start().ack().reply({"challenge": bytes.fromhex(server), "status": 0})

    def right(self, **fields):
        """The reply to Authenticate with the right credential."""
        return {"credential": credential(self.key(), self.server), "flags": self.offered, "status": 0} | fields

    def opened(self):
        self.half().start().ack()
        return self.reply(self.right())

    def confirmed(self, **fields):
        """The reply to a change, with the return credential that is awaited."""
        return {"returned": (self.awaited, 0), "status": 0} | fields

    def verdict(self, **fields):
        """The reply to Logon with the return credential that is awaited, which refuses it."""
        return {"returned": (self.awaited, 0), "level": 3, "info": None, "authoritative": 1, "status": 0xC000006A} | fields


def ack_of(call, receive, results, trailer=None):
    return whole(ACK, call=call, send=LIMIT, receive=receive, group=1, results=list(results), trailer=trailer)


def response_of(call, stub, trailer=None):
    return whole(RESPONSE, call=call, hint=len(stub), context=0, stub=stub, trailer=trailer)


def fault_of(call, status):
    return whole(FAULT, call=call, hint=0, context=0, status=status)


# ---- scenarios

# How far a channel gets before the turn that is tried.
BEFORE = [lambda: Requester().ask(), lambda: Requester().ask().ask().half(), lambda: Requester().ask().ask().opened()]


def bound(before):
    """A turn that waits for the answer to its bind."""
    return before().start()


def asked(before):
    """A turn that waits for the reply to its request."""
    return bound(before).ack()


def queue_cases():
    full = Requester().fill(63).ask().ask().can().start().ask().can()
    return [
        full.case(),
        Requester().fill(64).fill(1).start().lose().ask().ask().case(),
        Requester().ask().ask("", "", "", ZEROS.hex(), "", "").ask("d" * 300, "u" * 300, "w" * 300, "ff" * 8, "01" * 4000, "02" * 500).case(),
        Requester().can().start().lose().take(fault_of(1, 5)).can().case(),
    ]


def path_cases():
    out = []
    for kind, computer in ((2, "FILE1"), (4, "A" * 64), (6, "")):
        end = Requester(computer=computer, kind=kind).ask().can().half().can().start().ack()
        end.reply(end.right()).can().start().can().ack()
        out.append(end.reply(end.verdict()).can().start().case())
    # several logons in their order, on one channel
    end = Requester().ask(user="one").ask(user="two").ask(user="three").opened()
    for status, timestamp in ((0xC000006A, 0), (0xC0000064, 2**32 - 1), (1, 2147483647)):
        end.start(timestamp).ack()
        end.reply(end.verdict(status=status))
    out.append(end.ask(user="four").start(5).ack().case())
    # a verdict that grants, with a key and with one of zeros; the status wins over what comes with it
    for key in (bytes(range(16)), bytes(16)):
        end = Requester().ask().opened().start().ack()
        out.append(end.reply(end.verdict(status=0, info=plain_sam(key=key))).case())
        end = Requester().ask().opened().start().ack()
        out.append(end.reply(end.verdict(status=0xC0000234, info=plain_sam(key=key))).case())
    # what is granted has the identifiers beside the groups
    for extra in ([((5, [32, 544]), 7)], [((5, [32, 544]), 7), ((18, [1]), 7)]):
        end = Requester().ask().opened().start().ack()
        out.append(end.reply(end.verdict(status=0, info=plain_sam(user_flags=0x20, extra=extra))).case())
    # requests in fragments, by the size that the peer receives
    for receive in (0, 1432, 2000, 5840, 65535):
        end = Requester().ask("d" * 300, "u" * 300, "w" * 300, "ff" * 8, "01" * 4000, "02" * 3000).opened().start()
        out.append(end.ack(receive).case())
    # a challenge is looked at only where the channel is none, and a timestamp only where it is open
    out.append(Requester().ask().half().start(77, "ff" * 8).ack().case())
    out.append(Requester().ask().opened().start(77, "ff" * 8).ack().case())
    out.append(Requester().ask().start(0, "ff" * 8).ack().case())
    # flags: those offered or fewer, with RC4
    for flags in (OFFERED, RC4_FLAG, 0x1FF, OFFERED | 0x20000, OFFERED | 0x8000, OFFERED & ~RC4_FLAG, 0, 0xFFFFFFFF):
        end = Requester().ask().half().start().ack()
        out.append(end.reply(end.right(flags=flags)).can().case())
    return out


def published_cases():
    """Channels of published secrets and challenges: the client's credential goes out, and the server's opens the
    channel."""
    check_formulas()
    out = []
    for channel in values("netlogon")["channels"]:
        end = Requester(bytes.fromhex(channel["secret"])).ask().start(0, channel["client_challenge"]).ack()
        end.reply({"challenge": bytes.fromhex(channel["server_challenge"]), "status": 0}).start().ack()
        agree(end.turn["fields"]["credential"].hex, channel["client_credential_strong_key"], "client's credential")
        right = bytes.fromhex(channel["server_credential_strong_key"])
        out.append(end.reply({"credential": right, "flags": OFFERED, "status": 0}).can().case())
    return out


def other_units(call):
    """Units that answer no request, of that call."""
    yield whole(REQUEST, call=call, hint=0, context=0, opnum=2, stub=b"")
    yield whole(BIND, call=call, send=LIMIT, receive=LIMIT, group=0, contexts=[])
    yield whole(AUTH3, call=call)


def cause_cases():
    out = []
    good = (0, 0, NDR)
    for before in BEFORE:
        for step in (bound, asked):
            # another number
            for number in (0, 1, 7, 2**32 - 1):
                end = step(before)
                if number != end.turn["number"]:
                    end.take(fault_of(number, 5)).take(response_of(number, b"")).take(whole(NAK, call=number, reason=0))
                    end.take(ack_of(number, 4280, [good])).take(ack_of(number, 4280, [])).take(whole(AUTH3, call=number))
                    out.append(end.can().start().case())
            # 1, the bind, also where the turn waits for a reply
            end = step(before)
            out.append(end.take(whole(NAK, call=end.turn["number"], reason=0)).can().ask().start().case())
            for results in ([(2, 1, NONE)], [(2, 2, NONE), good], [], [good, (2, 1, NONE)], [(3, 0, NONE)], [(1, 0, NDR)]):
                out.append(step(before).ack(results=results).can().case())
            # 2, a fault
            for status in (5, 0x1C01000B, 0):
                end = step(before)
                out.append(end.take(fault_of(end.turn["number"], status)).can().ask().start().case())
            # 3, another kind
            number = step(before).turn["number"]
            for unit in other_units(number):
                out.append(step(before).take(unit).case())
            # a stub that isn't of its layout, or none
            for stub in (b"", bytes(4), bytes(11), b"\xff" * 40):
                out.append(step(before).reply(stub).case())
            out.append(step(before).lose().can().ask().start().lose().case())
        # a reply before the bind is answered, also one that denies, of a wrong credential, or right
        for status in (0, ACCESS_DENIED):
            for fields in ({"challenge": ZEROS}, {"credential": ZEROS, "flags": 0}):
                opnum = CHALLENGE if "challenge" in fields else AUTHENTICATE
                out.append(bound(before).reply(write("reply", opnum, fields | {"status": status}).stub).can().case())
        # an acceptance again, where the turn waits for a reply
        out.append(asked(before).ack().can().case())
    # 4, the status; 5, the credential; 6, the flags and the validation: each alone, and each with those behind it
    for status in (1, ACCESS_DENIED, 0xC000018B):
        out.append(asked(BEFORE[0]).reply({"challenge": ZEROS, "status": status}).can().case())
    wrong = {"credential": ZEROS, "flags": 0}
    for fields in ({}, {"credential": ZEROS}, {"flags": 0}, wrong):
        for status in (0, 1, ACCESS_DENIED, 0xC0000388):
            end = asked(BEFORE[1])
            out.append(end.reply(end.right(status=status, **fields)).can().case())
    bits = [1 << place for place in (0, 7, 63)]
    for bit in bits:
        end = asked(BEFORE[1])
        given = (int.from_bytes(end.right()["credential"], "little") ^ bit).to_bytes(8, "little")
        out.append(end.reply(end.right(credential=given)).case())
        end = asked(BEFORE[2])
        given = (int.from_bytes(end.awaited, "little") ^ bit).to_bytes(8, "little")
        out.append(end.reply(end.verdict(returned=(given, 0))).case())
    for returned in ("awaited", None, (ZEROS, 0), (ZEROS, 5)):
        for status in (0, 1, ACCESS_DENIED, 0xC000006A):
            for level, info in ((3, None), (3, plain_sam()), (2, None), (2, plain_sam()), (0, None)):
                end = asked(BEFORE[2])
                fields = {} if returned == "awaited" else {"returned": returned}
                out.append(end.reply(end.verdict(status=status, level=level, info=info, **fields)).can().case())
    # the timestamp that is returned isn't looked at, nor what follows the last parameter
    end = asked(BEFORE[2])
    out.append(end.reply(end.verdict(returned=(end.awaited, 77))).case())
    end = asked(BEFORE[2])
    out.append(end.reply(write("reply", LOGON, end.verdict()).stub + b"more").case())
    # a reply to another call
    out.append(asked(BEFORE[0]).reply(write("reply", AUTHENTICATE, {"credential": ZEROS, "flags": 0, "status": 0}).stub).case())
    # trailers are passed over
    trailer = (10, 2, 0, b"\x01" * 16)
    end = bound(BEFORE[0]).ack(trailer=trailer)
    out.append(end.reply({"challenge": ZEROS, "status": 0}, trailer=trailer).case())
    # nothing comes after the end of a turn
    end = asked(BEFORE[2])
    number = end.turn["number"]
    out.append(end.reply(end.verdict()).take(response_of(number, b"")).lose().case())
    return out


NEW, NEWER = b"\x61" * 16, bytes(range(0x70, 0x80))


def changing(secret=NEW):
    """An open channel whose next turn sets the secret, and two logons that wait."""
    return Requester().ask().ask().opened().set_next(secret).start()


def logged(end):
    """The first logon that waits is asked, and refused."""
    end.start().ack()
    return end.reply(end.verdict())


def change_cases():
    out = []
    # before the next logon, on the key that the channel has; then both logons
    end = changing().ack()
    end.reply(end.confirmed()).can()
    out.append(logged(logged(end)).can().case())
    # one that is known before the channel is open is set behind its opening
    end = Requester().ask().set_next(NEWER).opened().start(7).ack()
    out.append(logged(end.reply(end.confirmed(returned=(end.awaited, 9)))).case())
    # another before the first is set, none any more, and the one that the account has
    out.append(changing(NEW).lose().can().set_next(NEWER).opened().start().ack().case())
    out.append(Requester().ask().opened().set_next(NEW).set_next(None).start().ack().case())
    end = changing(b"\x41" * 16).ack()
    out.append(logged(end.reply(end.confirmed())).case())
    # two, one behind the other
    end = changing(NEW).ack()
    end.reply(end.confirmed()).set_next(NEWER).start().ack()
    out.append(logged(end.reply(end.confirmed())).case())
    # a secret is given while no turn is out, and another to open the channel by while it is none
    end = Requester().ask().ask().use_secret(NEWER).half().use_secret(NEW).start().use_secret(NEW).set_next(NEW).ack()
    out.append(end.reply(end.right()).use_secret(NEW).set_next(NEW).start().ack().lose().use_secret(NEW).opened().start().ack().case())
    # the reply is lost: the channel is none, and opened by the new secret the change is asked again
    end = changing().ack().lose().can().use_secret(NEW).opened().start().ack()
    out.append(end.reply(end.confirmed()).can().start().case())
    # each cause: the status whatever it comes with, the credential, and the layout
    for status in (1, ACCESS_DENIED, 0xC000018B):
        for returned in ("awaited", (ZEROS, 0)):
            end = changing().ack()
            fields = {} if returned == "awaited" else {"returned": returned}
            out.append(end.reply(end.confirmed(status=status, **fields)).can().ask().case())
    for bit in (1, 1 << 7, 1 << 63):
        end = changing().ack()
        given = (int.from_bytes(end.awaited, "little") ^ bit).to_bytes(8, "little")
        out.append(end.reply(end.confirmed(returned=(given, 0))).can().case())
    for stub in (b"", bytes(4), bytes(15)):
        out.append(changing().ack().reply(stub).case())
    end = changing().ack()
    out.append(end.reply(write_set_reply(**end.confirmed()) + b"more").case())
    for step in (changing, lambda: changing().ack()):
        end = step()
        out.append(end.take(whole(NAK, call=end.turn["number"], reason=0)).can().case())
        end = step()
        out.append(end.take(fault_of(end.turn["number"], 5)).can().case())
        end = step()
        out.append(end.take(fault_of(99, 5)).take(ack_of(99, 4280, [])).take(response_of(0, bytes(16))).can().case())
        for unit in other_units(step().turn["number"]):
            out.append(step().take(unit).case())
    end = changing()
    out.append(end.reply(end.confirmed()).case())
    out.append(changing().ack().ack().case())
    end = changing().ack()
    out.append(end.reply(write("reply", LOGON, end.verdict()).stub).case())
    # in fragments, of a name that is as long as may be
    end = Requester(computer="A" * 64).ask().opened().set_next(NEW).start()
    end.ack(0)
    out.append(end.reply(end.confirmed()).case())
    return out


def foreign_cases():
    """Replies as Samba and impacket wrote them, as they stand and with the credential that is awaited put in."""
    out = []
    for case in values("stubs")["stubs"]:
        if case["direction"] != "reply" or case["opnum"] == LOGOFF:
            continue
        stub = bytes.fromhex(case["stub"])
        end = asked(BEFORE[{CHALLENGE: 0, AUTHENTICATE: 1, LOGON: 2}[case["opnum"]]])
        out.append(end.reply(stub).can().case())
        end = asked(BEFORE[{CHALLENGE: 0, AUTHENTICATE: 1, LOGON: 2}[case["opnum"]]])
        if case["opnum"] == AUTHENTICATE:
            out.append(end.reply(changed(stub, 0, end.right()["credential"])).can().case())
        if case["opnum"] == LOGON and any(stub[:4]):
            out.append(end.reply(changed(stub, 4, end.awaited)).can().case())
    for case in values("units")["units"]:
        kind = case["fields"]["kind"]
        if kind in ("bind_ack", "bind_nak", "fault", "response"):
            unit = bytes.fromhex(case["unit"])
            for step in (bound, asked):
                end = step(BEFORE[0])
                out.append(end.take(changed(unit, 12, le(end.turn["number"], 4))).can().case())
                end = step(BEFORE[0])
                out.append(end.take(changed(unit, 12, le(99, 4))).can().case())
    # the recorded link: Samba's server challenge, and what the channel asks then
    asked_of, answered = [bytes.fromhex(case["stub"]) for case in values("stubs")["stubs"] if case["name"].startswith("live call")][:2]
    client = read("call", CHALLENGE, asked_of)[0]["challenge"].hex()
    out.append(Requester(bytes.fromhex(LIVE_SECRET)).ask().start(0, client).ack().reply(answered).start().ack().case())
    return out


def cases():
    """Each line and its answer."""
    return queue_cases() + published_cases() + path_cases() + cause_cases() + change_cases() + foreign_cases()
