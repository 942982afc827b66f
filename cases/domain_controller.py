"""Cases of domain_controller.

`controller.run DOCUMENT NAME CHALLENGES STEP ..`: a controller of this table and name, the challenges that may be drawn
(16 hex digits each, joined by commas, or `-`), and its events one after the other: `opened/LINK`, `bytes/LINK/BYTES`,
`closed/LINK`, `dialled/LINK`, `failed`, `stop`; `at/MOMENT` sets the moment, which is 0 before. An event is answered
with its actions in order, joined by commas, `-` where there are none, or with the refusal; a moment with `-`. The last
answer is the number of challenges that are left. `controller.counts` with the same words: the counts of bad passwords
of the accounts as they stand after the steps, users first; and `controller.secrets` the text of the secrets that were
set, as bytes. `controller.line DOCUMENT NAME ACTION`: the line that the
controller puts for an action, as text: a call that passed with this status (8 hex digits), `forwarded`,
`answered/STATUS`, `barred`, `none`, `keep`,
`send`, `dial`, `close` or `told`.

The actions are worked out here by the rules of docs/FORMATS.md ("The controller"), MS-NRPC 3.1.4 and 3.5.4 and the
layouts of C706 12.6; calls of the recorded link between Samba's client and its controller are among those that are
answered.
"""

import copy

from channel_client import credential, crypted, frames_of, plus, strong_key
from des import des, spread
from documents import ANN, BOB, EVE, FILE1, FILE2, HEAD, NORTH, PDC2, USER_DEFAULTS, WEST, document
from end_links import MEMO, NDR64, answer_of, limit_of
from forms import LIVE_SECRET, agree, line, live_calls, values
from interactive_logon import read as read_interactive, write as write_interactive
from logon_stubs import AUTHENTICATE, CHALLENGE, LOGOFF, LOGON, BadArm, plain_sam, read, write
from md4 import md4
from ndr_codec import Refused as NdrRefused
from rpc_units import ACK, AUTH3, BIND, FAULT, LIMIT, NAK, NDR, NETLOGON, PLAIN_BIND, REFUSED_BINDS, REQUEST, RESPONSE, Joiner, Refused, header
from rpc_units import short, whole
from rpc_units import read as read_unit
from rpc_units import write as write_unit
from set_stubs import hidden_by, shown_by, read_call as read_set, write_call as write_set, write_reply as write_set_reply
from sam_logon import NEVER, STATUS, hmac_md5, respond_v2
from wire import changed, le, steps

SUPPORTED, RC4_FLAG, STRONG_KEY = 0x41FF, 4, 0x4000
ACCESS_DENIED, INVALID_INFO_CLASS, NO_TRUST_SAM_ACCOUNT, DOWNGRADE_DETECTED = 0xC0000022, 0xC0000003, 0xC000018B, 0xC0000388
PROTOCOL_ERROR, OUT_OF_RANGE, BAD_STUB = 0x1C01000B, 0x1C010002, 0x6F7
NO_SUCH_LOGON_SESSION, INSUFFICIENT_RESOURCES = 0xC000005F, 0xC000009A
LINKS, SESSIONS, SET = 256, 10_000, 6
ZEROS = bytes(8)
NOW = 133_000_000_000_000_000
# The channel that each kind of account opens, and why such an account doesn't log on as a user.
CHANNELS = {"workstation": 2, "backup": 6, "trust": 4}
KINDS = {"workstation": "workstation account", "backup": "server account", "trust": "trust account"}
# The validation levels that are served, and LOGON_EXTRA_SIDS (MS-NRPC 2.2.1.4.11).
LEVELS, EXTRA_SIDS = (2, 3), 0x20


def utf16(text):
    return text.encode("utf-16-le")


def upper(units):
    """The upper case of ASCII letters in a text of 16-bit units."""
    return b"".join(unit.upper() if unit[1] == 0 and unit[0] < 0x80 else unit for unit in (units[at:at + 2] for at in range(0, len(units), 2)))


def same(one, other):
    return upper(one) == upper(other)


def sid_of(text):
    """The authority and the numbers of an identifier's text."""
    authority, *numbers = text.split("-")[2:]
    return int(authority), [int(number) for number in numbers]


# ---- keys and responses


def des_key(secret, client, server):
    """The DES key of MS-NRPC 3.1.4.3.3."""
    total = b"".join(le((int.from_bytes(client[at:at + 4], "little") + int.from_bytes(server[at:at + 4], "little")) % 2**32, 4) for at in (0, 4))
    return des(spread(secret[9:16]), des(spread(secret[:7]), total)) + bytes(8)


def key_of(channel):
    make = strong_key if channel["flags"] & STRONG_KEY else des_key
    return make(channel["secret"], channel["client"], channel["server"])


def response_v1(secret, challenge):
    """DESL of MS-NLMP 3.3.1."""
    padded = secret + bytes(5)
    return b"".join(des(spread(padded[at:at + 7]), challenge) for at in (0, 7, 14))


def base_key(secret, info):
    """The session base key where the NT response is right; else None (MS-NLMP 3.3)."""
    nt = info["nt"]
    if len(nt) == 24:
        return md4(secret) if nt == response_v1(secret, info["challenge"]) else None
    if len(nt) < 44:
        return None
    key = hmac_md5(secret, upper(info["user"]) + info["domain"])
    return hmac_md5(key, nt[:16]) if nt[:16] == hmac_md5(key, info["challenge"] + nt[16:]) else None


# ---- the controller


class Spent(Exception):
    """No challenge is left."""


class Shut(Exception):
    """The link is closed for this cause."""


class Controller:
    """The controller by its rules, and the line that is written of its steps."""

    # the flags that it grants
    supported = SUPPORTED

    def __init__(self, users=(ANN, BOB), machines=(FILE1, FILE2, PDC2), challenges=(), head=None, name="PDC1", trusts=()):
        self.head = HEAD if head is None else head
        self.users, self.machines, self.name = users, machines, name
        self.draws, self.now, self.stopped = [bytes.fromhex(text) for text in challenges], 0, False
        self.pending, self.channels, self.links = {}, {}, {}
        self.counts = [0] * len(users)
        self.hashes, self.sessions = {}, []
        self.actions = []
        text = document(users, machines, self.head, trusts)
        self.words, self.answers = [text, name.encode(), ",".join(challenges) or "-"], []

    def case(self):
        return line("controller.run", *self.words), steps(self.answers + [str(len(self.draws))])

    def counts_case(self):
        counts = self.counts + [0] * len(self.machines)
        return line("controller.counts", *self.words), ",".join(str(count) for count in counts)

    def secrets_case(self):
        return line("controller.secrets", *self.words), self.secrets() or "-"

    # the table

    def is_of(self, entry, computer):
        """Whether an account is the computer's: a trust's is that of the controllers that it lists."""
        if entry["kind"] == "trust":
            return any(same(computer, utf16(name)) for name in entry["controllers"])
        return same(computer + utf16("$"), utf16(entry["name"]))

    def secret(self, account, channel, computer):
        """The hash of the machine's account, where it may open such a channel."""
        for entry in self.machines:
            if same(account, utf16(entry["name"])) and self.is_of(entry, computer) and not entry.get("disabled"):
                if CHANNELS[entry["kind"]] == channel:
                    return self.hashes.get(entry["name"], bytes.fromhex(entry["hash"]))
        return None

    def secrets(self):
        """The text of all accounts whose hash was set, in the table's order."""
        changed = [entry["name"] for entry in self.machines if entry["name"] in self.hashes]
        return "".join(f"{name} {self.hashes[name].hex()}\n" for name in changed).encode().hex()

    def set_secret(self, account, secret):
        """The account's hash is that secret, and the text of all changed accounts is kept."""
        name = next(entry["name"] for entry in self.machines if same(account, utf16(entry["name"])))
        self.hashes[name] = secret
        self.actions.append(f"keep {self.secrets()}")

    def knows(self, computer):
        return any(self.is_of(entry, computer) for entry in self.machines)

    def verdict(self, info):
        """That on a network logon."""
        return self.judge(info, lambda secret: base_key(secret, info), len(info["nt"]) == 24)

    def judge(self, info, key_under, short):
        """The NTSTATUS, and what is granted, by the key under the stored hash; the count of bad passwords changes where
        the password decides."""
        if info["domain"] and not same(info["domain"], utf16(self.head["domain"])):
            return STATUS["no such domain"], None
        for entry in self.machines:
            if same(info["user"], utf16(entry["name"])):
                return STATUS[KINDS[entry["kind"]]], None
        place = next((place for place, entry in enumerate(self.users) if same(info["user"], utf16(entry["name"]))), None)
        if place is None:
            return STATUS["no such user"], None
        entry, count = USER_DEFAULTS | self.users[place], self.counts[place]
        key = key_under(bytes.fromhex(entry["hash"]))
        listed = [utf16(name) for name in entry["workstations"]]
        limit = self.head.get("lockout", 0)
        for why, counts, holds in [
            ("locked", False, entry["locked"] or limit and count >= limit),
            ("wrong password", False, self.head.get("ntlmv2_only") and short),
            ("wrong password", True, key is None),
            ("disabled", False, entry["disabled"]),
            ("expired", False, entry["expires"] and self.now >= entry["expires"]),
            ("workstation", False, listed and not any(same(info["workstation"], name) for name in listed)),
            ("must change", False, entry["must_change"]),
            ("password expired", False, entry["password_expires"] and self.now >= entry["password_expires"]),
        ]:
            if holds:
                self.counts[place] = min(count + counts, 65535)
                return STATUS[why], None
        self.counts[place] = 0
        return 0, self.granted(entry, key, count)

    def granted(self, entry, key, count):
        extra = [(sid_of(sid), 7) for sid in entry.get("extra_sids", [])]
        return plain_sam(
            logon_time=self.now, logoff_time=NEVER, kickoff_time=NEVER, password_set=entry["password_set"],
            password_can_change=entry["password_set"], password_must_change=entry["password_expires"] or NEVER,
            effective_name=utf16(entry["name"]), full_name=utf16(entry["full_name"]), user_id=entry["rid"], group_id=entry["group"],
            groups=[(group, 7) for group in entry["groups"]], key=key, server=utf16(self.name), domain=utf16(self.head["domain"]),
            sid=sid_of(self.head["sid"]), bad_count=count, extra=extra, user_flags=EXTRA_SIDS if extra else 0,
        )

    # calls

    def challenge(self, call):
        if not self.draws:
            raise Spent
        server = self.draws.pop(0)
        if self.knows(call["computer"]):
            self.pending[upper(call["computer"])] = call["challenge"], server
        return {"challenge": server, "status": 0}

    def authenticate(self, call):
        pair = self.pending.pop(upper(call["computer"]), None)
        flags = call["flags"] & self.supported
        refusal = {"credential": ZEROS, "flags": flags}
        secret = self.secret(call["account"], call["channel"], call["computer"])
        if secret is None:
            return refusal | {"status": NO_TRUST_SAM_ACCOUNT}
        if not call["flags"] & RC4_FLAG:
            return refusal | {"status": DOWNGRADE_DETECTED}
        if pair is None:
            return refusal | {"status": ACCESS_DENIED}
        channel = {"client": pair[0], "server": pair[1], "secret": secret, "flags": flags, "seed": call["credential"]}
        if call["credential"] != credential(key_of(channel), pair[0]):
            return refusal | {"status": ACCESS_DENIED}
        self.channels[upper(call["computer"])] = channel
        return {"credential": credential(key_of(channel), pair[1]), "flags": flags, "status": 0}

    def passes(self, call):
        """The channel's key and the credential that is returned, where the authenticator is the next one; else None."""
        given = call["authenticator"]
        channel = None if call["computer"] is None else self.channels.get(upper(call["computer"]))
        if channel is None or given is None:
            self.actions.append("judged NoChannel")
            return None
        key = key_of(channel)
        if given[0] != credential(key, plus(channel["seed"], given[1])):
            self.actions.append("judged Barred")
            return None
        channel["seed"] = plus(channel["seed"], given[1] + 1)
        return key, credential(key, channel["seed"])

    def interactive(self, call, key):
        """The verdict on an interactive logon, which opens a session where it is granted."""
        shown = crypted(key, call["info"]["nt"])
        status, info = self.judge(call["info"], lambda secret: md4(secret) if shown == secret else None, False)
        if info and len(self.sessions) == SESSIONS:
            return INSUFFICIENT_RESOURCES, None
        if info:
            self.sessions.append((upper(call["computer"]), upper(call["info"]["user"]), call["info"]["logon_id"]))
        return status, info

    def logoff(self, call):
        passed = self.passes(call)
        if passed is None:
            return {"returned": None, "status": ACCESS_DENIED}
        status, entry = INVALID_INFO_CLASS, None
        if "lm" in call["info"] and "challenge" not in call["info"]:
            entry = upper(call["computer"]), upper(call["info"]["user"]), call["info"]["logon_id"]
            status = 0 if entry in self.sessions else NO_SUCH_LOGON_SESSION
        if status == 0:
            self.sessions.remove(entry)
        self.actions.append(f"judged Passed({status})")
        return {"returned": (passed[1], 0), "status": status}

    def set(self, call):
        passed = self.passes(call)
        if passed is None:
            return (ZEROS, 0), ACCESS_DENIED
        status = NO_TRUST_SAM_ACCOUNT
        if self.secret(call["account"], call["channel"], call["computer"]) is not None:
            status = 0
            self.set_secret(call["account"], shown_by(passed[0], call["hidden"]))
        self.actions.append(f"judged Passed({status})")
        return (passed[1], 0), status

    def logon(self, call):
        denied = {"returned": None, "level": call["validation"], "info": None, "authoritative": 1, "status": ACCESS_DENIED}
        passed = self.passes(call)
        if passed is None:
            return denied
        key, returned = passed
        judge = self.verdict if "challenge" in call["info"] else lambda info: self.interactive(call, key)
        status, info = judge(call["info"]) if call["validation"] in LEVELS else (INVALID_INFO_CLASS, None)
        self.actions.append(f"judged Passed({status})")
        if info:
            info["key"] = crypted(key, info["key"])
            if call["validation"] == 2:
                info |= {"extra": [], "user_flags": info["user_flags"] & ~EXTRA_SIDS}
        return denied | {"returned": (returned, 0), "info": info, "status": status}

    # units

    def send(self, link, data):
        self.actions.append(f"send {link} {data.hex()}")

    def fault(self, link, unit, status):
        self.send(link, write_unit(fault_of(unit["call"], unit["context"], status)))

    def reply(self, link, number, context, limit, opnum, fields):
        stub = write_set_reply(*fields) if opnum == SET else write("reply", opnum, fields).stub
        unit = whole(RESPONSE, call=number, hint=len(stub), context=context, stub=stub)
        self.send(link, b"".join(frames_of(unit, limit)))

    def whole_call(self, link, unit):
        accepted, limit = self.links[link]["bound"]
        if unit["context"] not in accepted:
            return self.fault(link, unit, PROTOCOL_ERROR)
        answer = {CHALLENGE: self.challenge, AUTHENTICATE: self.authenticate, LOGON: self.logon, LOGOFF: self.logoff, SET: self.set}.get(unit["opnum"])
        if answer is None:
            return self.fault(link, unit, OUT_OF_RANGE)
        try:
            call = call_of(unit["opnum"], unit["stub"])
        except (NdrRefused, BadArm):
            return self.fault(link, unit, BAD_STUB)
        return self.reply(link, unit["call"], unit["context"], limit, unit["opnum"], answer(call))

    def fresh(self, link, unit):
        if unit["kind"] == REQUEST:
            return self.fault(link, unit, PROTOCOL_ERROR)
        if unit["kind"] != BIND:
            raise Shut("OutOfPlace")
        if unit["trailer"]:
            return self.send(link, write_unit(whole(NAK, call=unit["call"], reason=0)))
        results = [answer_of(NETLOGON, context) for context in unit["contexts"]]
        accepted = [context[0] for context, result in zip(unit["contexts"], results) if result[0] == 0]
        limit = limit_of(unit["receive"])
        self.links[link]["bound"] = accepted, limit
        return self.send(link, write_unit(whole(ACK, call=unit["call"], send=limit, receive=LIMIT, group=1, results=results)))

    def unit(self, link, data):
        try:
            unit = read_unit(data)
        except Refused:
            raise Shut("BadUnit") from None
        if self.links[link]["bound"] is None:
            return self.fresh(link, unit)
        if unit["kind"] != REQUEST:
            raise Shut("OutOfPlace")
        if unit["trailer"]:
            raise Shut("BadAuthentication")
        return self.request(link, unit)

    def request(self, link, unit):
        """A fragment of a call on a bound link."""
        try:
            call = self.links[link]["joiner"].add(unit)
        except Refused as refused:
            raise Shut("TooMuchHeld" if str(refused) == "CallTooLong" else "OutOfPlace") from None
        return self.whole_call(link, call) if call else None

    def piece(self, link, data):
        self.links[link]["rest"] += data
        while len(self.links[link]["rest"]) >= 16:
            rest = self.links[link]["rest"]
            try:
                header(rest, False)
            except Refused:
                raise Shut("BadUnit") from None
            size = short(rest, 8)
            if len(rest) < size:
                return
            self.links[link]["rest"] = rest[size:]
            self.unit(link, rest[:size])

    # events

    def open(self, link):
        self.links.pop(link, None)
        if len(self.links) >= LINKS:
            self.actions.append(f"close {link} TooManyLinks")
        else:
            self.links[link] = {"rest": b"", "joiner": Joiner(), "bound": None}

    def event(self, word, run=lambda: None):
        self.words.append(word)
        self.actions, counts, hashes = [], list(self.counts), dict(self.hashes)
        if self.stopped:
            self.answers.append("Err(Stopped)")
            return self
        try:
            run()
        except Spent:
            self.stopped, self.counts, self.hashes = True, counts, hashes
            self.answers.append("Err(Spent)")
            return self
        self.answers.append(",".join(self.actions) or "-")
        return self

    def at(self, moment):
        self.now = moment
        self.words.append(f"at/{moment}")
        self.answers.append("-")
        return self

    def opened(self, link=1):
        return self.event(f"opened/{link}", lambda: self.open(link))

    def closed(self, link=1):
        return self.event(f"closed/{link}", lambda: self.links.pop(link, None))

    def bytes(self, data, link=1):
        def run():
            if link in self.links:
                try:
                    self.piece(link, data)
                except Shut as cause:
                    self.actions.append(f"close {link} {cause}")
                    del self.links[link]

        return self.event(f"bytes/{link}/{data.hex() or '-'}", run)

    # what peers send

    def bound(self, link=1, receive=LIMIT, contexts=None):
        return self.opened(link).bytes(write_unit(bind(receive=receive, contexts=contexts)), link)

    def call(self, opnum, fields, link=1, number=2, context=0):
        stub = fields if isinstance(fields, bytes) else write("call", opnum, fields).stub
        return self.bytes(b"".join(frames_of(request_of(opnum, stub, number, context), LIMIT)), link)

    def asks(self, computer="FILE1", client="0102030405060708", **how):
        return self.call(CHALLENGE, {"primary": None, "computer": utf16(computer), "challenge": bytes.fromhex(client)}, **how)

    def auth_call(self, computer="FILE1", flags=SUPPORTED, **fields):
        """The call with the right credential, as far as there is a pair."""
        call = {"primary": None, "account": utf16(computer + "$"), "channel": 2, "computer": utf16(computer), "credential": b"\x55" * 8, "flags": flags}
        call |= fields
        pair = self.pending.get(upper(call["computer"]))
        secret = self.secret(call["account"], call["channel"], call["computer"])
        if pair and secret and "credential" not in fields:
            channel = {"client": pair[0], "server": pair[1], "secret": secret, "flags": flags & self.supported}
            call["credential"] = credential(key_of(channel), pair[0])
        return call

    def authenticates(self, link=1, **fields):
        return self.call(AUTHENTICATE, self.auth_call(**fields), link)

    def channel_open(self, computer="FILE1", link=1, **fields):
        return self.asks(computer, link=link).authenticates(link, computer=computer, **fields)

    def logon_call(self, user="ann", computer="FILE1", timestamp=1_700_000_000, **fields):
        """A logon of the user with the right response and the right authenticator, as far as there is a channel."""
        given = [entry for entry in self.users if entry["name"].lower() == user.lower()]
        challenge = bytes.fromhex("0123456789abcdef")
        secret = bytes.fromhex((given or [ANN])[0]["hash"])
        info = {"domain": utf16("CORP"), "control": 0, "logon_id": 7, "user": utf16(user), "workstation": utf16("WS"), "challenge": challenge,
                "nt": response_v1(secret, challenge), "lm": b""}
        info |= fields.pop("info", {})
        channel = self.channels.get(upper(utf16(computer)))
        made = (credential(key_of(channel), plus(channel["seed"], timestamp)), timestamp) if channel else (b"\x33" * 8, timestamp)
        return {"server": None, "computer": utf16(computer), "authenticator": made, "returned": (ZEROS, 0), "info": info, "validation": 3} | fields

    def logs_on(self, user="ann", link=1, number=2, **fields):
        return self.call(LOGON, self.logon_call(user, **fields), link, number)

    def next_of(self, computer, timestamp):
        """The computer's channel, and the authenticator that is next on it at that timestamp."""
        channel = self.channels.get(upper(utf16(computer)))
        return channel, (credential(key_of(channel), plus(channel["seed"], timestamp)), timestamp) if channel else (b"\x33" * 8, timestamp)

    def set_call(self, secret="61" * 16, computer="FILE1", timestamp=1_700_000_000, **fields):
        """A change of the computer's secret, with the right authenticator, as far as there is a channel."""
        channel, given = self.next_of(computer, timestamp)
        hidden = hidden_by(key_of(channel), bytes.fromhex(secret)) if channel else b"\x77" * 16
        call = {"primary": None, "account": utf16(computer + "$"), "channel": 2, "computer": utf16(computer), "authenticator": given, "hidden": hidden}
        return write_set(**(call | fields))

    def sets(self, *secret, link=1, number=2, **fields):
        return self.call(SET, self.set_call(*secret, **fields), link, number)

    def interactive_stub(self, opnum, user="ann", computer="FILE1", timestamp=1_700_000_000, named=None, **fields):
        """An interactive logon of the user, or its logoff, with the right hash and authenticator, as far as there is a
        channel."""
        given = [entry for entry in self.users if entry["name"].lower() == user.lower()]
        channel, made = self.next_of(computer, timestamp)
        secret = bytes.fromhex((given or [ANN])[0]["hash"])
        info = {"domain": utf16("CORP"), "control": 0, "logon_id": 7, "user": utf16(user), "workstation": utf16("WS"), "lm": bytes(16),
                "nt": crypted(key_of(channel), secret) if channel else bytes(16)}
        info |= fields.pop("info", {})
        call = {"server": None, "computer": utf16(computer), "authenticator": made, "returned": (ZEROS, 0), "info": info, "validation": 3 if opnum == LOGON else 0}
        return bytes(write_interactive(opnum, call | fields | (named or {})))

    def logs_on_at(self, user="ann", link=1, number=2, **fields):
        return self.call(LOGON, self.interactive_stub(LOGON, user, **fields), link, number)

    def logs_off(self, user="ann", link=1, number=2, **fields):
        return self.call(LOGOFF, self.interactive_stub(LOGOFF, user, **fields), link, number)


def call_of(opnum, stub):
    """The call of a stub: what is no network logon for its tag of 1 alone is an interactive one, or its logoff."""
    if opnum == SET:
        return read_set(stub)
    try:
        return read("call", opnum, stub)[0]
    except BadArm as refused:
        if str(refused) != "1":
            raise
        return read_interactive(opnum, stub)


def bind(receive=LIMIT, contexts=None, trailer=None, call=1):
    contexts = [(0, NETLOGON, [NDR])] if contexts is None else contexts
    return whole(BIND, call=call, send=LIMIT, receive=receive, group=0, contexts=contexts, trailer=trailer)


def fault_of(call, context, status):
    return whole(FAULT, call=call, hint=0, context=context, status=status)


def request_of(opnum, stub, call=2, context=0, trailer=None):
    return whole(REQUEST, call=call, hint=len(stub), context=context, opnum=opnum, stub=stub, trailer=trailer)


def with_referent(call, referent):
    """The stub of a logon, its authenticator's pointer with that referent; a null one has no target."""
    without = write("call", LOGON, call | {"authenticator": None}).stub
    if not referent:
        return without
    stub = write("call", LOGON, call).stub
    place = next(at for at in range(0, len(stub), 4) if stub[at:at + 4] != without[at:at + 4])
    return changed(stub, place, le(referent, 4))


# ---- scenarios

TRAILER = (10, 2, 0, bytes(16))
DRAWS = ["1011121314151617", "2021222324252627", "3031323334353637", "4041424344454647"]
# The answer to the bind of the worked example of docs/FORMATS.md.
PLAIN_ACK = (
    "05000c031000000038000000" "01000000" "d016d01601000000" "0100000001000000" "00000000045d888aeb1cc9119fe808002b10486002000000"
)


def other_units():
    """Units that no rule names on any link."""
    yield whole(RESPONSE, call=1, hint=0, context=0, stub=b"")
    yield fault_of(1, 0, 5)
    yield whole(ACK, call=1, send=LIMIT, receive=LIMIT, group=0, results=[(0, 0, NDR)])
    yield whole(NAK, call=1, reason=0)
    yield whole(AUTH3, call=1)


def link_cases():
    out = []
    worked = Controller().opened().bytes(PLAIN_BIND)
    assert worked.answers[1] == f"send 1 {PLAIN_ACK}"
    out.append(worked.case())
    assert write_unit(bind()) == PLAIN_BIND
    # a request on a fresh link: the fault, and the link stays as it is
    request = bytes.fromhex("050000031000000018000000" "09000000" "0000000007000200")
    fresh = Controller().opened().bytes(request)
    assert fresh.answers[1] == "send 1 050003031000000020000000" "09000000" "0000000007000000" "0b00011c00000000"
    out.append(fresh.bytes(request).bytes(PLAIN_BIND).case())
    for unit in (request_of(4, b"", trailer=TRAILER), request_of(2, b"abcd", 7, 3), request_of(65535, bytes(100), 2**32 - 1, 65535)):
        out.append(Controller().opened().bytes(write_unit(unit)).bytes(PLAIN_BIND).case())
        for first, last in ((True, False), (False, True), (False, False)):
            out.append(Controller().opened().bytes(write_unit(unit | {"first": first, "last": last})).bytes(PLAIN_BIND).case())
    # a bind with a trailer is refused, and the link stays as it is
    for trailer in (TRAILER, (10, 6, 1, b"NTLMSSP\0" + bytes(24))):
        nak = Controller().opened().bytes(write_unit(bind(trailer=trailer, call=9)))
        out.append(nak.bytes(request).bytes(PLAIN_BIND).asks().case())
    for unit in other_units():
        out.append(Controller().opened().bytes(write_unit(unit)).bytes(PLAIN_BIND).case())
        out.append(Controller().bound().bytes(write_unit(unit)).bytes(request).case())
    out.append(Controller().bound().bytes(PLAIN_BIND).bytes(PLAIN_BIND).case())
    out.append(Controller().bound().bytes(write_unit(bind(trailer=TRAILER))).case())
    # units that are refused
    for place, byte in [(place, byte) for place, byte, _ in REFUSED_BINDS] + [(10, 1), (9, 0x17)]:
        broken = changed(PLAIN_BIND, place, bytes([byte]))
        assert Controller().opened().bytes(broken).answers[1] == "close 1 BadUnit"
        out.append(Controller().opened().bytes(broken).bytes(PLAIN_BIND).case())
        out.append(Controller().bound().bytes(broken).bytes(PLAIN_BIND).case())
        out.append(Controller().opened().bytes(broken[:15]).bytes(broken[15:]).case())
    # a trailer on a bound link
    for unit in (request_of(4, b"", trailer=TRAILER), request_of(2, b"abcd", 2, 7, TRAILER)):
        out.append(Controller().bound().bytes(write_unit(unit)).bytes(PLAIN_BIND).case())
    # what is behind a close isn't read, what is before it is answered
    bad = changed(PLAIN_BIND, 0, b"\x04")
    out.append(Controller().opened().bytes(PLAIN_BIND + PLAIN_BIND + request).bytes(request).case())
    out.append(Controller().opened().bytes(request + bad + request).bytes(request).opened().bytes(request).case())
    return out


def piece_cases():
    out = []
    request = write_unit(request_of(4, b"", 9, 7))
    stream = request + PLAIN_BIND + request
    for size in (1, 7, 15, 16, 17, 24, len(stream)):
        end = Controller().opened()
        for at in range(0, len(stream), size):
            end.bytes(stream[at:at + size])
        out.append(end.bytes(b"").case())
    # two links hold their own bytes
    end = Controller().opened(1).opened(2).bytes(stream[:20], 1).bytes(stream[:30], 2).bytes(stream[20:], 1).bytes(stream[30:], 2)
    out.append(end.case())
    # a link that is opened again begins anew
    out.append(Controller().opened().bytes(stream[:20]).opened().bytes(stream).case())
    out.append(Controller().opened().bytes(stream[:20]).closed().bytes(stream[20:]).opened().bytes(stream).case())
    out.append(Controller().bound().opened().bytes(request).case())
    out.append(Controller().bytes(stream).closed().opened(2).bytes(stream).closed(1).closed(3).bytes(request, 2).case())
    # nothing is sent where a bind isn't whole
    strangers = Controller()
    for size in range(len(PLAIN_BIND)):
        strangers.opened(size).bytes(PLAIN_BIND[:size], size).closed(size)
    assert all(answer == "-" for answer in strangers.answers)
    out.append(strangers.case())
    quiet = Controller().opened().bytes(PLAIN_BIND[:40])
    for word in ("dialled/7", "failed", "stop"):
        quiet.event(word)
    out.append(quiet.bytes(b"").bytes(PLAIN_BIND[40:]).case())
    return out


def many_links():
    full = Controller()
    for link in range(LINKS + 1):
        full.opened(link)
    full.bytes(PLAIN_BIND, LINKS).bytes(PLAIN_BIND, LINKS - 1).opened(3).bytes(PLAIN_BIND, 3).closed(0).opened(LINKS).bytes(PLAIN_BIND, LINKS)
    return [full.case()]


def context_cases():
    out = []
    good, other, bare = (0, NETLOGON, [NDR]), (1, MEMO, [NDR]), (2, NETLOGON, [NDR64])
    for contexts in ([good], [other], [bare], [good, other, bare], [(7, NETLOGON, [NDR64, NDR]), (7, MEMO, [NDR])], []):
        end = Controller(challenges=DRAWS).bound(contexts=contexts)
        for context in (0, 1, 2, 7):
            end.asks(context=context, number=context)
        out.append(end.case())
    # a context that isn't accepted comes before the operation, the operation before the stub
    for context in (0, 5):
        for opnum in (0, 1, 2, LOGOFF, 4, 5, SET, 7, 14, 15, 16, 21, 26, 65535):
            for stub in (b"", b"\xff" * 12):
                out.append(Controller(challenges=DRAWS).bound().call(opnum, stub, context=context).asks().case())
    return out


def fragment_cases():
    out = []
    long_name = utf16("n" * 3000)
    stub = write("call", CHALLENGE, {"primary": long_name, "computer": utf16("FILE1"), "challenge": bytes(range(8))}).stub
    frames = frames_of(request_of(CHALLENGE, stub), LIMIT)
    assert len(frames) == 2
    begun = lambda: Controller(challenges=DRAWS).bound().bytes(frames[0])
    out.append(begun().bytes(frames[1]).authenticates().case())
    out.append(begun().bytes(frames[0]).bytes(frames[1]).case())
    out.append(Controller(challenges=DRAWS).bound().bytes(frames[1]).case())
    out.append(begun().asks().case())
    out.append(begun().bytes(write_unit(request_of(4, b"", trailer=TRAILER))).case())
    for name, value in (("call", 3), ("context", 1), ("opnum", 15)):
        unit = read_unit(frames[1]) | {name: value}
        out.append(begun().bytes(write_unit(unit)).bytes(frames[1]).case())
    # fragments of one call on two links are two calls
    end = Controller(challenges=DRAWS).bound(1).bound(2).bytes(frames[0], 1).bytes(frames[0], 2).bytes(frames[1], 2).bytes(frames[1], 1)
    out.append(end.case())
    # 65,536 bytes are joined, one more isn't
    for size in (65536, 65537):
        end = Controller(challenges=DRAWS).bound()
        for frame in frames_of(request_of(CHALLENGE, b"\xff" * size), LIMIT):
            end.bytes(frame)
        out.append(end.asks().case())
    return out


def opening_cases():
    out = []
    for flags, strong in ((0x1FF, False), (0x41FF, True), (0x1FB, None), (0xFFFFFFFF, True), (4, False), (0x4004, True), (0x01004004, True), (0, None)):
        end = Controller(challenges=DRAWS).bound().channel_open(flags=flags)
        out.append(end.logs_on().case())
    # a wrong credential, then the right one with no new challenge
    end = Controller(challenges=DRAWS).bound().asks()
    right = end.auth_call()["credential"]
    end.authenticates(credential=b"\x55" * 8).authenticates(credential=right).logs_on()
    out.append(end.case())
    for bit in (0, 7, 31, 32, 63):
        end = Controller(challenges=DRAWS).bound().asks()
        given = (int.from_bytes(end.auth_call()["credential"], "little") ^ 1 << bit).to_bytes(8, "little")
        out.append(end.authenticates(credential=given).logs_on().case())
    # the credential of the other key
    end = Controller(challenges=DRAWS).bound().asks()
    other = end.auth_call(flags=0x1FF)["credential"]
    out.append(end.authenticates(credential=other).case())
    # which account may open which channel; the order of the refusals
    disabled = FILE1 | {"disabled": True}
    for machines in ((FILE1, FILE2, PDC2), (disabled, FILE2, PDC2), ()):
        for account, channel, computer in (
            ("FILE1$", 2, "FILE1"), ("file1$", 2, "File1"), ("FILE1$", 6, "FILE1"), ("FILE1$", 4, "FILE1"), ("FILE2$", 2, "FILE1"), ("FILE1$", 2, "FILE2"),
            ("FILE1", 2, "FILE1"), ("PDC2$", 6, "PDC2"), ("PDC2$", 2, "PDC2"), ("ann", 2, "FILE1"), ("", 2, ""), ("$", 2, ""), ("FILE9$", 2, "FILE9"),
        ):
            for flags in (SUPPORTED, 0x1FB):
                end = Controller(machines=machines, challenges=DRAWS).bound().asks(computer)
                fields = {"account": utf16(account), "channel": channel, "flags": flags}
                out.append(end.call(AUTHENTICATE, end.auth_call(computer, **fields)).case())
    # a pair for each computer; a newer one replaces the older, in any case of its letters
    end = Controller(challenges=DRAWS).bound().asks("FILE1", "aa" * 8).asks("FILE2", "bb" * 8).asks("file1", "cc" * 8)
    out.append(end.authenticates(computer="FILE2").authenticates(computer="FILE1").logs_on(computer="File1").case())
    # a refusal leaves an older channel and takes the pair; an acceptance replaces the channel
    for flags, given in ((0x1FB, None), (SUPPORTED, b"\x55" * 8)):
        end = Controller(challenges=DRAWS).bound().channel_open().asks()
        fields = {} if given is None else {"credential": given}
        end.authenticates(flags=flags, **fields).logs_on().authenticates().logs_on(timestamp=1)
        out.append(end.case())
    end = Controller(challenges=DRAWS).bound().channel_open()
    old = end.logon_call()
    out.append(end.channel_open().call(LOGON, old).logs_on().case())
    # a pair and a channel live on when their link closes, and serve on another
    end = Controller(challenges=DRAWS).bound().asks().closed().bound(2).authenticates(2).closed(2).bound(3)
    out.append(end.logs_on(link=3).case())
    # no challenge is left
    end = Controller(challenges=DRAWS[:1]).bound().asks().asks().authenticates().opened(2).bytes(PLAIN_BIND, 2).closed().event("stop")
    out.append(end.case())
    end = Controller().bound().asks("NOBODY").asks()
    out.append(end.case())
    out.append(Controller(challenges=DRAWS).bound().asks("NOBODY").asks("").asks("ann").asks("FILE1$").authenticates().case())
    return out


def logon_cases():
    out = []
    # no channel: none for the computer, no computer, no authenticator
    end = Controller(challenges=DRAWS).bound().channel_open()
    out.append(end.logs_on(computer="FILE2").logs_on().case())
    for fields in ({"computer": None}, {"authenticator": None}, {"computer": None, "authenticator": None}):
        end = Controller(challenges=DRAWS).bound().channel_open()
        out.append(end.call(LOGON, end.logon_call() | fields).logs_on().case())
    # an authenticator with another referent is read alike; with a null one there is none
    for referent in (1, 0x00020000, 0xFFFFFFFF, 0):
        end = Controller(challenges=DRAWS).bound().channel_open()
        out.append(end.call(LOGON, with_referent(end.logon_call(), referent)).logs_on().case())
    # wrong authenticators leave the channel as it stood
    for bit in (0, 31, 32, 63):
        end = Controller(challenges=DRAWS).bound().channel_open()
        call = end.logon_call()
        given, timestamp = call["authenticator"]
        wrong = (int.from_bytes(given, "little") ^ 1 << bit).to_bytes(8, "little")
        end.call(LOGON, call | {"authenticator": (wrong, timestamp)}).call(LOGON, call | {"authenticator": (given, timestamp + 1)})
        out.append(end.call(LOGON, call).call(LOGON, call).logs_on(timestamp=3).case())
    # the timestamps that bring the same seed again
    for timestamps in ((2147483647, 2147483647, None), (4294967295, None), (0, None), (0, 0), (1, 2, 3)):
        end = Controller(challenges=DRAWS).bound().channel_open()
        first = end.logon_call(timestamp=timestamps[0])
        for timestamp in timestamps:
            end = end.call(LOGON, first) if timestamp is None else end.logs_on(timestamp=timestamp)
        out.append(end.case())
    # an authenticator of one computer's channel on another computer's
    end = Controller(challenges=DRAWS).bound().channel_open("FILE1").channel_open("FILE2")
    out.append(end.call(LOGON, end.logon_call(computer="FILE1") | {"computer": utf16("FILE2")}).logs_on(computer="FILE2").logs_on().case())
    # levels of validation
    for validation in (2, 3, 0, 1, 4, 6, 65535):
        end = Controller(challenges=DRAWS).bound().channel_open()
        out.append(end.logs_on(validation=validation).logs_on("nobody", validation=validation, timestamp=1).logs_on(timestamp=2).case())
    return out + verdict_cases() + count_cases()


def verdict_cases():
    out = []
    users = [
        ANN, BOB, EVE | {"locked": True}, ANN | {"name": "dis", "disabled": True}, ANN | {"name": "exp", "expires": NOW},
        ANN | {"name": "wks", "workstations": ["WS2"]}, ANN | {"name": "must", "must_change": True}, ANN | {"name": "old", "password_expires": NOW + 1},
        ANN | {"name": "many", "full_name": "f" * 64, "groups": list(range(1, 257))},
    ]
    for flags in (0x1FF, SUPPORTED):
        end = Controller(users=users, challenges=DRAWS).at(NOW).bound().channel_open(flags=flags)
        for place, entry in enumerate(users):
            end.logs_on(entry["name"], number=place, timestamp=place)
        end.at(NOW + 1).logs_on("old").logs_on("OLD", timestamp=77).logs_on("nobody", timestamp=1).logs_on("FILE1$", timestamp=2).logs_on("PDC2$", timestamp=3)
        end.logs_on(info={"nt": b"\x11" * 24}, timestamp=4).logs_on(info={"domain": utf16("OTHER")}, timestamp=5).logs_on(info={"domain": b""}, timestamp=6)
        nt, _ = respond_v2(ANN, "ann", "CORP", "0123456789abcdef", time=NOW)
        out.append(end.logs_on(info={"nt": bytes.fromhex(nt)}, timestamp=7).case())
    # a reply in fragments, by the size that the peer receives
    for receive in (0, 1432, 2000, 5840, 65535):
        end = Controller(users=users, challenges=DRAWS).bound(receive=receive).channel_open()
        out.append(end.logs_on("many").logs_on("ann", timestamp=1).case())
    return out


WRONG = {"nt": b"\x11" * 24}


def statuses(end):
    """The NTSTATUS values that were told, in order."""
    words = [word for answer in end.answers for word in answer.split(",") if word.startswith("judged Passed(")]
    return [int(word[len("judged Passed("):-1]) for word in words]


def counting(head=None, users=(ANN, BOB), **fields):
    """A controller of this table's head on whose link a channel stands."""
    return Controller(users=users, challenges=DRAWS, head=HEAD | (head or {}), **fields).at(NOW).bound().channel_open()


def count_cases():
    out = []
    # lockout over several logons: a wrong, a wrong and a right response
    locked = counting({"lockout": 2})
    for timestamp, info in enumerate((WRONG, WRONG, {})):
        locked.logs_on(info=info, timestamp=timestamp)
    assert statuses(locked) == [0xC000006A, 0xC000006A, 0xC0000234]
    out += [locked.logs_on("bob", timestamp=9).case(), locked.counts_case()]
    # with 3 the third is granted, and what is granted has the count as it stood; behind it the count is 0
    three = counting({"lockout": 3})
    for timestamp, info in enumerate((WRONG, WRONG, {}, {})):
        three.logs_on(info=info, timestamp=timestamp)
        out.append(three.counts_case())
    assert statuses(three) == [0xC000006A, 0xC000006A, 0, 0]
    granted = [read("reply", LOGON, read_unit(bytes.fromhex(answer.split(" ")[-1]))["stub"])[0]["info"]["bad_count"] for answer in three.answers[-2:]]
    assert granted == [2, 0]
    out.append(three.case())
    for lockout, wrong in ((0, 4), (1, 2), (1000, 4)):
        end = counting({"lockout": lockout})
        for timestamp in range(wrong):
            end.logs_on(info=WRONG, timestamp=timestamp)
        out += [end.logs_on(timestamp=77).case(), end.counts_case()]
    # a response of 24 bytes is refused and doesn't count, right or wrong; another one is judged
    only = counting({"ntlmv2_only": True, "lockout": 1})
    only.logs_on().logs_on(info=WRONG, timestamp=1)
    assert statuses(only) == [0xC000006A, 0xC000006A] and only.counts == [0, 0]
    out.append(only.counts_case())
    nt, _ = respond_v2(ANN, "ann", "CORP", "0123456789abcdef", time=NOW)
    out += [only.logs_on(info={"nt": bytes.fromhex(nt)}, timestamp=2).logs_on(info={"nt": b"\x11" * 44}, timestamp=3).case(), only.counts_case()]
    # a disabled account: a right response leaves the count, a wrong one raises it; none counts for a locked one, for
    # another level or name
    users = [ANN | {"disabled": True}, BOB | {"locked": True}]
    end = counting(users=users).logs_on(info=WRONG).logs_on(timestamp=1).logs_on("bob", info=WRONG, timestamp=2)
    end.logs_on("nobody", info=WRONG, timestamp=3).logs_on(info=WRONG, timestamp=4, validation=6)
    assert end.counts == [1, 0]
    out += [end.case(), end.counts_case()]
    # a call that doesn't pass isn't judged by the table
    end = counting({"lockout": 1}).logs_on(info=WRONG, authenticator=(ZEROS, 1)).logs_on(info=WRONG, computer="FILE2")
    out += [end.counts_case(), end.logs_on(timestamp=5).case()]
    # identifiers beside the groups: at level 3 they are carried, at level 2 neither they nor their flag
    extra = [ANN | {"extra_sids": ["S-1-5-32-544"]}, BOB | {"extra_sids": ["S-1-5-32-544", "S-1-18-1"]}]
    end = counting(users=extra)
    for timestamp, (user, level) in enumerate((user, level) for user in ("ann", "bob") for level in LEVELS):
        end.logs_on(user, validation=level, timestamp=timestamp)
    carried = "02000000" "0102000000000005" "20000000" "20020000"
    assert [carried in answer for answer in end.answers[-4:]] == [False, True, False, True]
    out.append(end.case())
    return out + event_cases()


def event_cases():
    """Several calls of one event."""
    out = []

    def logons(end, count, **fields):
        """The frames of so many logons in a row, each with the authenticator that is next then."""
        channel, data = end.channels[upper(utf16("FILE1"))], b""
        before = channel["seed"]
        for timestamp in range(count):
            stub = write("call", LOGON, end.logon_call(timestamp=timestamp, **fields)).stub
            data += b"".join(frames_of(request_of(LOGON, stub, 10 + timestamp), LIMIT))
            channel["seed"] = plus(channel["seed"], timestamp + 1)
        channel["seed"] = before
        return data

    def challenge():
        stub = write("call", CHALLENGE, {"primary": None, "computer": utf16("FILE2"), "challenge": bytes(8)}).stub
        return b"".join(frames_of(request_of(CHALLENGE, stub, 99), LIMIT))

    # a logon sees the counts of those before it
    for lockout, count in ((2, 4), (3, 3), (0, 3)):
        end = counting({"lockout": lockout})
        end.bytes(logons(end, count, info=WRONG))
        out += [end.case(), end.counts_case()]
    assert statuses(end) == [0xC000006A] * 3 and end.counts == [3, 0]
    # a challenge behind a logon: with one that is left both are done, without one neither is
    for draws, counts in ((DRAWS[:2], [1, 0]), (DRAWS[:1], [0, 0])):
        end = Controller(challenges=draws, head=HEAD | {"lockout": 1}).at(NOW).bound().channel_open()
        end.bytes(logons(end, 1, info=WRONG) + challenge())
        assert end.counts == counts
        out += [end.case(), end.counts_case(), end.opened(2).case()]
    # nor is what a logon before it freed
    end = Controller(challenges=DRAWS[:1]).at(NOW).bound().channel_open().logs_on(info=WRONG)
    end.bytes(logons(end, 1) + challenge())
    assert end.counts == [1, 0]
    return out + [end.case(), end.counts_case()]


def together(end, *steps):
    """What the steps send comes in one event, each with what is right behind those before it."""
    rehearsed = copy.deepcopy(end)
    before = len(rehearsed.words)
    for step in steps:
        step(rehearsed)
    return end.bytes(b"".join(bytes.fromhex(word.split("/")[2]) for word in rehearsed.words[before:]))


def replies(end, opnum, count):
    """What the last sends carry, as replies to calls of that number."""
    sent = [word.split(" ")[2] for answer in end.answers for word in answer.split(",") if word.startswith("send ")][-count:]
    return [read("reply", opnum, read_unit(bytes.fromhex(each))["stub"])[0] for each in sent]


def set_replies(end, count):
    """The same of NetrServerPasswordSet: the credential and the status."""
    sent = [word.split(" ")[2] for answer in end.answers for word in answer.split(",") if word.startswith("send ")][-count:]
    stubs = [read_unit(bytes.fromhex(each))["stub"] for each in sent]
    assert all(len(stub) == 16 and stub[8:12] == bytes(4) for stub in stubs)
    return [(stub[:8], int.from_bytes(stub[12:], "little")) for stub in stubs]


def is_faulted(end, status=BAD_STUB):
    """Whether the last answer is that fault alone."""
    unit = read_unit(bytes.fromhex(end.answers[-1].split(" ")[2]))
    return "," not in end.answers[-1] and (unit["kind"], unit["status"]) == (FAULT, status)


def kept_line(*lines):
    """The action that keeps these lines."""
    return f"keep {''.join(each + chr(10) for each in lines).encode().hex()}"


# Two secrets, and trusts' accounts of which the second and the third list a controller of the first.
ONE, TWO = "61" * 16, "62" * 16
SOUTH = NORTH | {"name": "SOUTH$", "hash": "45" * 16, "controllers": ["SDC", "NDC1"]}
SHUT = SOUTH | {"name": "SHUT$", "hash": "46" * 16, "disabled": True}


def set_cases():
    """NetrServerPasswordSet (MS-NRPC 3.5.4.4.6): who may, and what is set."""
    out = []
    opened = lambda **how: Controller(challenges=DRAWS, **how).bound().channel_open()
    # twice: each text has the secret that was set last; the channel keeps its key
    twice = opened().sets(ONE).sets(TWO, timestamp=1)
    assert [answer.split(",")[0] for answer in twice.answers[-2:]] == [kept_line(f"FILE1$ {secret}") for secret in (ONE, TWO)]
    assert statuses(twice) == [0, 0] and [status for _, status in set_replies(twice, 2)] == [0, 0]
    out += [twice.logs_on(timestamp=2).case(), twice.secrets_case()]
    # two accounts: the text has both, in the table's order
    both = opened().channel_open("FILE2").sets(TWO, computer="FILE2").sets(ONE, timestamp=1)
    assert both.answers[-1].startswith(kept_line(f"FILE1$ {ONE}", f"FILE2$ {TWO}"))
    out += [both.case(), both.secrets_case()]
    # a backup controller's, and in any case of the letters: the text has the table's
    backup = Controller(challenges=DRAWS).bound().channel_open("PDC2", channel=6).sets(ONE, computer="pdc2", account=utf16("Pdc2$"), channel=6)
    assert backup.answers[-1].startswith(kept_line(f"PDC2$ {ONE}") + ",judged Passed(0),")
    out += [backup.case(), opened().sets(ONE, computer="file1", account=utf16("fIlE1$")).secrets_case()]
    # under a DES key, of whose 16 bytes the last eight are zeros; with a server's name; any 16 bytes are a secret
    short = Controller(challenges=DRAWS).bound().channel_open(flags=0x1FF)
    assert key_of(short.channels[upper(utf16("FILE1"))])[8:] == bytes(8)
    out += [short.sets(ONE).case(), opened().sets(ONE, primary=utf16("\\\\PDC1")).case()]
    for hidden in (bytes(16), b"\xff" * 16, bytes(range(16))):
        end = opened().sets(hidden=hidden).channel_open()
        assert end.answers[-1].endswith("00000000") and end.channels[upper(utf16("FILE1"))]["secret"] != bytes.fromhex(FILE1["hash"])
        out.append(end.logs_on().case())
    # among other calls, with timestamps that wrap
    wrap = opened().sets(ONE, timestamp=2**32 - 1).logs_off(timestamp=0).sets(TWO, timestamp=2**31).sets(ONE, timestamp=2**31 - 1).logs_on_at(timestamp=2**32 - 1)
    assert statuses(wrap) == [0, NO_SUCH_LOGON_SESSION, 0, 0, 0]
    out.append(wrap.case())
    # a channel opens by the new secret, and no more by the old one
    anew = opened().sets(ONE).channel_open()
    assert replies(anew, AUTHENTICATE, 1)[0]["status"] == 0
    old = opened().sets(ONE).asks()
    pair = old.pending[upper(utf16("FILE1"))]
    stale = {"client": pair[0], "server": pair[1], "secret": bytes.fromhex(FILE1["hash"]), "flags": SUPPORTED}
    old.authenticates(credential=credential(key_of(stale), pair[0]))
    assert replies(old, AUTHENTICATE, 1)[0]["status"] == ACCESS_DENIED
    # the channel that stood stands on, under its own key
    out += [anew.logs_on().sets(TWO, timestamp=5).case(), old.logs_on(timestamp=1).sets(TWO, timestamp=2).case(), old.secrets_case()]
    # users' accounts and counts stay, and so do other computers' secrets
    apart = opened(head=HEAD | {"lockout": 2}).logs_on(info=WRONG).sets(ONE, timestamp=1).logs_on(info=WRONG, timestamp=2).logs_on(timestamp=3)
    assert statuses(apart) == [0xC000006A, 0, 0xC000006A, 0xC0000234]
    out += [apart.channel_open("FILE2").case(), apart.counts_case(), apart.secrets_case()]
    return out + set_refusals() + trust_cases() + set_events()


def set_refusals():
    """NetrServerPasswordSet, where no secret is set."""
    out = []
    opened = lambda **how: Controller(challenges=DRAWS, **how).bound().channel_open()
    # a bad authenticator; the right one passes, and comes again
    bad = opened()
    good = bad.set_call()
    bad.call(SET, bad.set_call(authenticator=(b"\x55" * 8, 1))).call(SET, good).call(SET, good)
    assert [answer.split(",")[0] for answer in bad.answers[-3:]] == ["judged Barred", kept_line(f"FILE1$ {ONE}"), "judged Barred"]
    assert [set_replies(bad, 3)[place] for place in (0, 2)] == [(ZEROS, ACCESS_DENIED)] * 2
    out += [bad.case(), bad.secrets_case()]
    for bit in (0, 31, 32, 63):
        end = opened()
        given, timestamp = end.next_of("FILE1", 9)[1]
        wrong = (int.from_bytes(given, "little") ^ 1 << bit).to_bytes(8, "little")
        end.sets(authenticator=(wrong, timestamp)).sets(authenticator=(given, timestamp + 1)).sets(authenticator=(given, timestamp))
        assert [answer.split(",")[0] for answer in end.answers[-3:-1]] == ["judged Barred"] * 2 and statuses(end) == [0]
        out += [end.case(), end.secrets_case()]
    # no channel: none was opened, another computer's was, or the challenges alone wait
    for end in (Controller(challenges=DRAWS).bound(), opened(), Controller(challenges=DRAWS).bound().asks("FILE2")):
        end.sets(computer="FILE2")
        assert end.answers[-1].split(",")[0] == "judged NoChannel" and set_replies(end, 1) == [(ZEROS, ACCESS_DENIED)]
        out += [end.case(), end.secrets_case()]
    # one computer's authenticator on another's channel
    end = opened().channel_open("FILE2")
    end.sets(computer="FILE2", authenticator=end.next_of("FILE1", 9)[1]).sets(computer="FILE2").sets()
    assert end.answers[-3].startswith("judged Barred") and statuses(end) == [0, 0]
    out += [end.case(), end.secrets_case()]
    # a cut stub is a fault, and the channel stands as it stood
    cut = opened()
    stub = cut.set_call()
    for size in (0, 3, 4, len(stub) - 28, len(stub) - 16, len(stub) - 1):
        cut.call(SET, stub[:size])
        assert is_faulted(cut)
    assert statuses(cut) == [] and cut.call(SET, stub) and statuses(cut) == [0]
    out += [cut.case(), cut.secrets_case()]
    # another account, type of channel or name: the seed has moved on, and the credential is returned
    machines = (FILE1, FILE2, PDC2, NORTH)
    for fields in (
        {"account": utf16("FILE2$")}, {"account": utf16("FILE1")}, {"account": utf16("PDC2$"), "channel": 6}, {"account": utf16("NORTH$"), "channel": 4},
        {"account": utf16("ann")}, {"account": b""}, {"channel": 6}, {"channel": 4}, {"channel": 0}, {"channel": 65535},
    ):
        end = opened(machines=machines)
        returned = credential(key_of(end.next_of("FILE1", 0)[0]), plus(end.next_of("FILE1", 0)[0]["seed"], 10))
        end.sets(timestamp=9, **fields)
        assert set_replies(end, 1) == [(returned, NO_TRUST_SAM_ACCOUNT)] and end.answers[-1].startswith(f"judged Passed({NO_TRUST_SAM_ACCOUNT})")
        out += [end.logs_on(timestamp=1).case(), end.secrets_case()]
    return out


def trust_cases():
    """Trusts' accounts, which several computers have: what is set is the account that the call names, where it isn't
    disabled and lists the computer, whichever opened the channel."""
    out = []
    machines = (FILE1, NORTH, SOUTH, SHUT)
    opened = lambda: Controller(machines=machines, challenges=DRAWS).bound().channel_open("NDC1", account=utf16("NORTH$"), channel=4)
    for account, is_set in (("NORTH$", True), ("south$", True), ("SHUT$", False), ("FILE1$", False)):
        end = opened().sets(ONE, computer="NDC1", account=utf16(account), channel=4)
        assert (statuses(end) == [0]) == is_set and (NO_TRUST_SAM_ACCOUNT in statuses(end)) != is_set
        out += [end.logs_on(computer="NDC1", timestamp=1).case(), end.secrets_case()]
    # a controller that shares the account opens by the new secret
    shared = opened().sets(ONE, computer="NDC1", account=utf16("NORTH$"), channel=4).channel_open("ndc2", account=utf16("NORTH$"), channel=4)
    assert replies(shared, AUTHENTICATE, 1)[0]["status"] == 0
    out.append(shared.logs_on(computer="NDC2").case())
    # names of trusts' accounts aren't users'
    out.append(opened().logs_on("NORTH$", computer="NDC1").logs_on_at("south$", computer="NDC1", timestamp=1).case())
    # an account that was disabled before: no channel opens
    out.append(Controller(machines=machines, challenges=DRAWS).bound().channel_open("NDC1", account=utf16("SHUT$"), channel=4).sets(computer="NDC1").case())
    disabled = Controller(machines=(FILE1 | {"disabled": True},), challenges=DRAWS).bound().channel_open().sets()
    assert disabled.answers[-1].startswith("judged NoChannel")
    return out + [disabled.case(), disabled.secrets_case()]


def set_events():
    """NetrServerPasswordSet among other calls of one event."""
    out = []
    opened = lambda draws=DRAWS, **how: Controller(challenges=draws, **how).bound().channel_open()
    sets = lambda secret, timestamp=0, **how: lambda end: end.sets(secret, timestamp=timestamp, **how)
    # several changes: each text is that behind its own call
    for count in (2, 3):
        secrets = [f"{0x61 + place:02x}" * 16 for place in range(count)]
        end = together(opened(), *[sets(secret, place) for place, secret in enumerate(secrets)])
        assert end.actions[::3] == [kept_line(f"FILE1$ {secret}") for secret in secrets]
        out += [end.logs_on(timestamp=99).case(), end.secrets_case()]
    # of two computers
    two = together(opened().channel_open("FILE2"), sets(TWO, computer="FILE2"), sets(ONE))
    assert two.actions[::3] == [kept_line(f"FILE2$ {TWO}"), kept_line(f"FILE1$ {ONE}", f"FILE2$ {TWO}")]
    out.append(two.case())
    # an opening behind a change is by the new secret, and one by the old secret is denied
    anew = together(opened(), sets(ONE), lambda end: end.asks(), lambda end: end.authenticates())
    assert replies(anew, AUTHENTICATE, 1)[0]["status"] == 0
    old = opened().asks()
    stale = old.auth_call()["credential"]
    together(old, sets(ONE), lambda end: end.authenticates(credential=stale))
    assert replies(old, AUTHENTICATE, 1)[0]["status"] == ACCESS_DENIED
    first = together(opened().asks(), lambda end: end.authenticates(), sets(ONE))
    assert statuses(first) == [0]
    out += [anew.logs_on().case(), old.logs_on(timestamp=1).case(), first.channel_open().case()]
    # logons behind and before a change, on the channel that stands
    logons = together(opened(), lambda end: end.logs_on(info=WRONG, timestamp=1), sets(ONE), lambda end: end.logs_on(timestamp=2), lambda end: end.logs_on_at(timestamp=3),
                      lambda end: end.logs_off(timestamp=4))
    assert statuses(logons) == [0xC000006A, 0, 0, 0, 0] and logons.counts == [0, 0]
    out += [logons.case(), logons.counts_case(), logons.secrets_case()]
    # a change that is barred, among others
    barred = together(opened(), sets(ONE), sets(TWO, authenticator=(ZEROS, 1)), sets("63" * 16, 2))
    assert statuses(barred) == [0, 0] and barred.secrets() == f"FILE1$ {'63' * 16}\n".encode().hex()
    out += [barred.case(), barred.secrets_case()]
    # a change, and behind it a challenge with none left: nothing has changed, and nothing is kept
    for before in ([], [sets("63" * 16, 7)]):
        spent = opened(DRAWS[:1], head=HEAD | {"lockout": 1})
        for step in before:
            step(spent)
        left = spent.secrets()
        together(spent, lambda end: end.logs_on(info=WRONG, timestamp=1), sets(ONE), lambda end: end.asks("FILE2"))
        assert spent.answers[-1] == "Err(Spent)" and spent.secrets() == left and spent.counts == [0, 0]
        out += [spent.case(), spent.counts_case(), spent.secrets_case(), spent.opened(2).case()]
    # with one that is left both are done
    done = together(opened(DRAWS[:2]), sets(ONE), lambda end: end.asks("FILE2"))
    assert done.secrets() and not done.stopped
    # behind what closes the link nothing is set; what was set before it is
    shut = opened()
    data = bytes.fromhex(copy.deepcopy(shut).sets(ONE).words[-1].split("/")[2])
    late = opened().bytes(PLAIN_BIND + data)
    shut.bytes(data + PLAIN_BIND)
    assert late.answers[-1] == "close 1 OutOfPlace" and not late.hashes and shut.answers[-1].endswith("close 1 OutOfPlace")
    out += [done.case(), done.secrets_case(), late.secrets_case(), shut.case(), shut.secrets_case()]
    return out


def interactive_cases():
    """Logons and logoffs at level 1 (MS-NRPC 3.5.4.5.3, 3.5.4.5.4), and sessions."""
    out = []
    opened = lambda **how: Controller(challenges=DRAWS, **how).at(NOW).bound().channel_open()
    # in, off, and off again with the next authenticator
    end = opened().logs_on_at().logs_off(timestamp=1).logs_off(timestamp=2)
    assert statuses(end) == [0, 0, NO_SUCH_LOGON_SESSION] and not end.sessions
    out.append(end.case())
    # at a station whose workstation is its own name, with its logon id of 0; what is granted has the MD4 of the hash
    station = Controller(machines=(FILE1, FILE2, PDC2, FILE1 | {"name": "WS1$", "hash": "43" * 16}), challenges=DRAWS).at(NOW).bound().channel_open("WS1")
    own = {"workstation": utf16("WS1"), "logon_id": 0}
    station.logs_on_at(computer="WS1", info=own)
    granted = replies(station, LOGON, 1)[0]["info"]
    channel = station.channels[upper(utf16("WS1"))]
    assert crypted(key_of(channel), granted["key"]) == md4(bytes.fromhex(ANN["hash"])) and granted["effective_name"] == utf16("ann")
    station.logs_off(computer="WS1", info=own, timestamp=1)
    assert statuses(station) == [0, 0] and not station.sessions
    out.append(station.case())
    # a session by names in other letters, and of another logon id, user or computer
    letters = opened().logs_on_at("ann").logs_off("ANN", timestamp=1, computer="file1")
    assert statuses(letters) == [0, 0]
    out.append(letters.case())
    for number in (0, 1, 2**32, 2**64 - 1):
        ids = opened().logs_on_at(info={"logon_id": number}).logs_off(timestamp=1, info={"logon_id": number ^ 2**32}).logs_off(timestamp=2, info={"logon_id": number})
        assert statuses(ids) == [0, NO_SUCH_LOGON_SESSION, 0]
        out.append(ids.case())
    other = opened().logs_on_at().logs_off(timestamp=1, info={"logon_id": 8}).logs_off("bob", timestamp=2).logs_off(timestamp=3)
    assert statuses(other) == [0, NO_SUCH_LOGON_SESSION, NO_SUCH_LOGON_SESSION, 0]
    out.append(other.case())
    two = opened().channel_open("FILE2").logs_on_at().logs_off(computer="FILE2").logs_on_at(computer="FILE2", timestamp=1).logs_off(timestamp=2).logs_off(computer="FILE2", timestamp=3)
    assert statuses(two) == [0, NO_SUCH_LOGON_SESSION, 0, 0, 0]
    out.append(two.case())
    # domain, workstation and hashes of a logoff aren't looked at
    free = opened().logs_on_at().logs_off(timestamp=1, info={"domain": utf16("OTHER"), "workstation": b"", "nt": b"\x99" * 16, "lm": b"\x99" * 16, "control": 5})
    assert statuses(free) == [0, 0]
    out.append(free.case())
    # a session twice: each logoff takes out one
    double = opened().logs_on_at().logs_on_at(timestamp=1).logs_off(timestamp=2).logs_off(timestamp=3).logs_off(timestamp=4)
    assert statuses(double) == [0, 0, 0, 0, NO_SUCH_LOGON_SESSION]
    out.append(double.case())
    # a new channel leaves the sessions, under either kind of key
    for flags in (SUPPORTED, 0x1FF):
        again = opened().logs_on_at().channel_open(flags=flags).logs_on_at(timestamp=1).logs_off(timestamp=2).logs_off(timestamp=3)
        assert statuses(again) == [0, 0, 0, 0]
        out.append(again.case())
    # no network logon opens a session, and what isn't granted opens none
    none = opened().logs_on(info={"logon_id": 7}).logs_off(timestamp=1).logs_on_at(timestamp=2, info={"nt": bytes(16)}).logs_off(timestamp=3)
    none.logs_on_at(timestamp=4, validation=6).logs_off(timestamp=5)
    assert statuses(none) == [0, NO_SUCH_LOGON_SESSION, 0xC000006A, NO_SUCH_LOGON_SESSION, INVALID_INFO_CLASS, NO_SUCH_LOGON_SESSION]
    out.append(none.case())
    # several calls of one event
    event = together(opened(), lambda end: end.logs_on_at(), lambda end: end.logs_off(timestamp=1), lambda end: end.logs_off(timestamp=2), lambda end: end.logs_on_at("bob", timestamp=3))
    assert statuses(event) == [0, 0, NO_SUCH_LOGON_SESSION, 0]
    out.append(event.logs_off("bob", timestamp=4).case())
    return out + unpassed_cases() + interactive_verdicts() + arm_cases()


def unpassed_cases():
    """Calls at level 1, and logoffs at both levels, whose authenticator doesn't pass."""
    out = []
    opened = lambda **how: Controller(challenges=DRAWS, **how).at(NOW).bound().channel_open()
    network = lambda end, timestamp=1, **fields: write("call", LOGOFF, {name: value for name, value in (end.logon_call(timestamp=timestamp) | fields).items() if name != "validation"}).stub
    denied = {"returned": None, "status": ACCESS_DENIED}
    # a logoff at level 2 is judged, and of no level that is served
    end = opened()
    end.call(LOGOFF, network(end))
    assert statuses(end) == [INVALID_INFO_CLASS] and replies(end, LOGOFF, 1)[0]["returned"] is not None
    out.append(end.logs_on(timestamp=1).case())
    # the session stands on
    end = opened().logs_on_at()
    end.call(LOGOFF, network(end, timestamp=1)).logs_off(timestamp=2)
    assert statuses(end) == [0, INVALID_INFO_CLASS, 0]
    out.append(end.case())
    # no channel: no computer is named, no authenticator is there, or the computer has none
    for fields in ({"computer": None}, {"authenticator": None}, {"computer": utf16("FILE2")}, {"computer": b""}):
        end = opened()
        for opnum in (LOGON, LOGOFF):
            end.call(opnum, end.interactive_stub(opnum, named=fields))
            assert end.answers[-1].startswith("judged NoChannel,")
        end.call(LOGOFF, network(end, **fields))
        assert end.answers[-1].startswith("judged NoChannel,") and replies(end, LOGOFF, 1) == [denied] and not end.sessions
        out.append(end.logs_on_at(timestamp=1).case())
    bare = Controller(challenges=DRAWS).bound().logs_on_at().logs_off()
    out.append(bare.call(LOGOFF, network(bare)).case())
    # an authenticator that isn't the next: no session opens or ends
    for bit in (0, 31, 32, 63):
        end = opened().logs_on_at("bob")
        given, timestamp = end.next_of("FILE1", 1)[1]
        wrong = {"authenticator": ((int.from_bytes(given, "little") ^ 1 << bit).to_bytes(8, "little"), timestamp)}
        end.logs_on_at(named=wrong).logs_off("bob", named=wrong)
        assert [answer.split(",")[0] for answer in end.answers[-2:]] == ["judged Barred"] * 2 and replies(end, LOGOFF, 1) == [denied]
        end.call(LOGOFF, network(end, **wrong))
        assert end.answers[-1].startswith("judged Barred,") and len(end.sessions) == 1
        out.append(end.logs_off(timestamp=1).logs_off("bob", timestamp=2).case())
    # a call again
    for opnum in (LOGON, LOGOFF):
        end = opened()
        stub = end.interactive_stub(opnum)
        out.append(end.call(opnum, stub).call(opnum, stub).case())
        assert [answer.split(",")[0] for answer in end.answers[-2:]] == [f"judged Passed({NO_SUCH_LOGON_SESSION if opnum == LOGOFF else 0})", "judged Barred"]
    return out


def interactive_verdicts():
    """The rules at level 1: those of a network logon, with the stored hash in place of a right response."""
    out = []
    opened = lambda **how: Controller(challenges=DRAWS, **how).at(NOW).bound().channel_open()
    # levels of validation: another one is judged by no rule, and its count stays
    for validation in (2, 3, 0, 1, 4, 6, 65535):
        end = opened().logs_on_at(validation=validation).logs_off(timestamp=1).logs_on_at(info={"nt": bytes(16)}, validation=validation, timestamp=2)
        served = validation in LEVELS
        assert statuses(end) == ([0, 0, 0xC000006A] if served else [INVALID_INFO_CLASS, NO_SUCH_LOGON_SESSION, INVALID_INFO_CLASS])
        out += [end.case(), end.counts_case()]
    extra = [ANN | {"extra_sids": ["S-1-5-32-544"]}, BOB]
    out.append(opened(users=extra).logs_on_at(validation=2).logs_on_at(validation=3, timestamp=1).case())
    # a hash that differs in one bit, or isn't hidden; the other one isn't looked at
    end = opened()
    for bit in (0, 7, 120, 127):
        wrong = crypted(key_of(end.next_of("FILE1", 0)[0]), (int(ANN["hash"], 16) ^ 1 << bit).to_bytes(16, "big"))
        end.logs_on_at(info={"nt": wrong}, timestamp=bit)
    end.logs_on_at(info={"nt": bytes.fromhex(ANN["hash"])}, timestamp=1).logs_on_at(info={"lm": b"\x99" * 16, "control": 2**32 - 1}, timestamp=2)
    assert statuses(end) == [0xC000006A] * 5 + [0] and end.counts == [0, 0] and replies(end, LOGON, 1)[0]["info"]["bad_count"] == 5
    out += [end.case(), end.counts_case()]
    # wrong hashes and wrong responses count together
    for lockout, wrong in ((1, 1), (2, 2), (3, 2), (0, 3)):
        locked = opened(head=HEAD | {"lockout": lockout})
        for timestamp in range(wrong):
            locked.logs_on_at(info={"nt": bytes(16)}, timestamp=timestamp) if timestamp % 2 == 0 else locked.logs_on(info=WRONG, timestamp=timestamp)
        out.append(locked.counts_case())
        locked.logs_on_at(timestamp=8).logs_off(timestamp=9)
        is_locked = 0 < lockout <= wrong
        assert statuses(locked) == [0xC000006A] * wrong + ([0xC0000234, NO_SUCH_LOGON_SESSION] if is_locked else [0, 0])
        out += [locked.logs_on(timestamp=10).case(), locked.counts_case()]
    # each rule by itself; another domain is one that isn't known, also where it is trusted
    users = [
        ANN, BOB, EVE | {"locked": True}, ANN | {"name": "dis", "disabled": True}, ANN | {"name": "exp", "expires": NOW}, ANN | {"name": "wks", "workstations": ["WS2"]},
        ANN | {"name": "own", "workstations": ["ws"]}, ANN | {"name": "must", "must_change": True}, ANN | {"name": "old", "password_expires": NOW},
    ]
    end = opened(users=users, machines=(FILE1, PDC2, NORTH))
    for timestamp, name in enumerate([entry["name"] for entry in users] + ["nobody", "FILE1$", "pdc2$", "NORTH$", ""]):
        end.logs_on_at(name, timestamp=timestamp)
    assert statuses(end) == [0, 0] + [STATUS[why] for why in ("locked", "disabled", "expired", "workstation")] + [0] + [
        STATUS[why] for why in ("must change", "password expired", "no such user", "workstation account", "server account", "trust account", "no such user")]
    assert len(end.sessions) == 3
    out += [end.case(), end.counts_case()]
    end = opened(trusts=[WEST])
    for timestamp, domain in enumerate(("CORP", "corp", "", "OTHER", "WEST", "CORP ")):
        end.logs_on_at(info={"domain": utf16(domain)}, timestamp=timestamp)
    assert statuses(end) == [0, 0, 0] + [STATUS["no such domain"]] * 3
    out.append(end.case())
    # NTLMv2 alone is asked of responses, not of hashes
    only = opened(head=HEAD | {"ntlmv2_only": True}).logs_on_at().logs_on(timestamp=1)
    assert statuses(only) == [0, 0xC000006A]
    return out + [only.case(), only.counts_case()]


def arm_cases():
    """Which layout a stub of opnum 2 or 3 has: a stub of tag 1 and level 1 is one at level 1, any other tag or a tag
    that isn't the level's is a fault."""
    out = []
    for opnum in (LOGON, LOGOFF):
        end = Controller(challenges=DRAWS).at(NOW).bound().channel_open()
        if opnum == LOGOFF:
            end.logs_on_at()
        stub = end.interactive_stub(opnum, timestamp=1)
        place = next(at for at in range(0, len(stub) - 4) if stub[at:at + 4] == b"\x01\x00\x01\x00")
        for level, tag in ((2, 1), (1, 2), (0, 1), (3, 1), (0, 0), (3, 3), (5, 5), (6, 6), (0x101, 1), (1, 0x101)):
            end.call(opnum, changed(stub, place, le(level, 2) + le(tag, 2)))
            assert is_faulted(end)
        # a null pointer, and stubs that are cut
        end.call(opnum, changed(stub, place + 4, bytes(4)))
        assert is_faulted(end)
        for size in (place, place + 2, place + 4, place + 8, len(stub) // 2, len(stub) - 1):
            end.call(opnum, stub[:size])
            assert is_faulted(end)
        # the channel stands as it stood
        out.append(end.call(opnum, stub).case())
        assert statuses(end)[-1] == 0
    # a level 2 layout under level 1, and the other way round
    end = Controller(challenges=DRAWS).at(NOW).bound().channel_open()
    for stub in (write("call", LOGON, end.logon_call()).stub, end.interactive_stub(LOGON)):
        words = (b"\x02\x00\x02\x00", b"\x01\x00\x01\x00")
        place, word = next((at, word) for at in range(0, len(stub) - 4) for word in words if stub[at:at + 4] == word)
        out.append(end.call(LOGON, changed(stub, place, words[words[0] == word])).case())
    return out


def recorded_cases():
    """The recorded link: the client's calls, behind a bind of Samba's, with the challenge that its controller drew.
    What is answered here has its credentials, return credentials and verdicts."""
    calls = live_calls()
    bind_unit = next(bytes.fromhex(case["unit"]) for case in values("units")["units"] if case["name"].startswith("bind without trailer"))
    end = Controller(challenges=[calls[1]["fields"]["challenge"]]).at(NOW).opened().bytes(bind_unit)
    for number, (asked, replied) in enumerate(zip(calls[::2], calls[1::2])):
        call = read("call", asked["opnum"], bytes.fromhex(asked["stub"]))[0]
        end.call(asked["opnum"], bytes.fromhex(asked["stub"]), number=2 + number)
        sent = read_unit(bytes.fromhex(end.answers[-1].split(" ")[-1]))
        reply, fields = read("reply", asked["opnum"], sent["stub"])[0], replied["fields"]
        if asked["opnum"] == LOGON:
            agree(reply["returned"][0].hex, fields["returned"]["credential"], replied["name"])
        elif asked["opnum"] == AUTHENTICATE:
            agree(reply["credential"].hex, fields["credential"], replied["name"])
            agree(lambda: reply["flags"], call["flags"], replied["name"])
        else:
            agree(reply["challenge"].hex, fields["challenge"], replied["name"])
        agree(lambda: reply["status"], fields["status"], replied["name"])
    return [end.case()]


def published_cases():
    """Channels of published secrets and challenges, and of published sequences of authenticators."""
    out = []
    for channel in values("netlogon")["channels"]:
        client, server, secret = (bytes.fromhex(channel[name]) for name in ("client_challenge", "server_challenge", "secret"))
        for flags, kind in ((SUPPORTED, "strong_key"), (0x1FF, "des_key")):
            end = Controller(machines=[FILE1 | {"hash": secret.hex()}], challenges=[server.hex()]).bound().asks(client=client.hex())
            right = bytes.fromhex(channel[f"client_credential_{kind}"])
            end.authenticates(flags=flags, credential=right)
            agree(lambda: channel[f"server_credential_{kind}"] in end.answers[-1], True, f"server's credential, {kind}")
            out.append(end.case())
    return out


def line_cases():
    """The lines of judged calls (docs/FORMATS.md, "Commands, exits and what is printed"); other actions put none."""
    words = [document([ANN], [FILE1], HEAD), b"PDC1"]
    out = []
    for status in ["00000000", "c000006a", "C0000234", "0000000a"]:
        out.append((line("controller.line", *words, status), f'"passed {status.lower()}\\n"'))
        out.append((line("controller.line", *words, f"answered/{status}"), f'"answered {status.lower()}\\n"'))
    judged = [("forwarded", "forwarded\\n"), ("barred", "barred\\n"), ("none", "no channel\\n")]
    for action, text in judged + [(name, "") for name in ["keep", "send", "dial", "close", "told"]]:
        out.append((line("controller.line", *words, action), f'"{text}"'))
    return out


def cases():
    """Each line and its answer."""
    return (
        link_cases() + piece_cases() + many_links() + context_cases() + fragment_cases() + opening_cases() + logon_cases() + set_cases()
        + interactive_cases() + recorded_cases()
        + published_cases() + line_cases()
    )
