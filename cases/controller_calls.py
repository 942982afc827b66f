"""Cases of controller_calls.

`calls.run DOCUMENT NAME COMPUTERS STEP ..`: calls that a controller of this table and name answers one after the
other, as in one event. `challenge/STUB/SERVER` is a call by its stub and the server challenge of its answer,
`authenticate/STUB`, `logon/STUB`, `logoff/STUB` and `set/STUB` are one by its stub: a logon and a logoff at level 1
or 2. `fault/STATUS` answers a call by a fault of that status (8 hex digits), and `tell/ACTION` tells an action of
`controller.line`. `fill/COMPUTER/USER/COUNT` opens so many sessions, with logon ids from 0 on.
`on/LINK/CALL/CONTEXT/LIMIT` sets where the calls behind it are answered (on link 1, call 2, context 0, in fragments
of 5,840 bytes before), and `at/MOMENT` the moment, which is 0 before. The answer has the actions in order, as of
`controller.run`, and the counts of bad passwords as the changes leave them, users first. For each of COMPUTERS
(texts, joined by commas) follow the challenges that wait, `CLIENT/SERVER`, and the key of its channel, each `-` where
there is none. `calls.left` with the same words: the text of the secrets that are set, as the changes leave them, how
many sessions stand, and the last four of them. `calls.fault CALL CONTEXT STATUS`: the bytes of a fault.

The actions are worked out by `domain_controller.py`, from the rules of docs/FORMATS.md ("The controller"), MS-NRPC
3.1.4 and 3.5.4 and the layouts of C706 12.6. Calls of the recorded link between Samba's client and its controller are
among those that are answered.
"""

from channel_client import plus
from documents import ANN, BOB, EVE, FILE1, FILE2, HEAD, NORTH, PDC2
from domain_controller import ACCESS_DENIED, BAD_STUB, DOWNGRADE_DETECTED, DRAWS, INSUFFICIENT_RESOURCES, INVALID_INFO_CLASS, LEVELS
from domain_controller import NO_SUCH_LOGON_SESSION, NO_TRUST_SAM_ACCOUNT, NOW, ONE, OUT_OF_RANGE, PROTOCOL_ERROR, SESSIONS, SET, SHUT, SOUTH
from domain_controller import SUPPORTED, TWO, WRONG, ZEROS, Controller, call_of, fault_of, key_of, statuses, upper, utf16
from forms import agree, line, live_calls, struct, units_of, values
from logon_stubs import AUTHENTICATE, CHALLENGE, LOGOFF, LOGON, write
from rpc_units import LIMIT
from rpc_units import write as write_unit
from sam_logon import STATUS, respond_v2
from secret_change import HIDDEN
from set_stubs import hidden_by, shown_by
from wire import steps

# The least limit of a fragment that a bind agrees on.
LEAST = 1432


class Desk(Controller):
    """A controller that answers calls without links, and the line that is written of it."""

    def __init__(self, computers=("FILE1",), challenges=DRAWS, **how):
        super().__init__(challenges=challenges, **how)
        self.computers, self.place, self.made = computers, (1, 2, 0, LIMIT), []
        self.words[2] = ",".join(utf16(computer).hex() for computer in computers)

    def left_case(self):
        last = [struct("Session", computer=units_of(computer.hex()), user=units_of(user.hex()), logon_id=number) for computer, user, number in self.sessions[-4:]]
        return line("calls.left", *self.words), steps([self.secrets() or "-", str(len(self.sessions)), f"[{', '.join(last)}]"])

    def case(self):
        counts = ",".join(str(count) for count in self.counts + [0] * len(self.machines))
        return line("calls.run", *self.words), steps([",".join(self.actions) or "-", counts] + [self.kept(utf16(name)) for name in self.computers])

    def kept(self, computer):
        """What is kept of a computer."""
        pair, channel = self.pending.get(upper(computer)), self.channels.get(upper(computer))
        return ("/".join(half.hex() for half in pair) if pair else "-") + " " + (key_of(channel).hex() if channel else "-")

    def at(self, moment):
        self.now = moment
        self.words.append(f"at/{moment}")
        return self

    def on(self, link=1, number=2, context=0, limit=LIMIT):
        self.place = link, number, context, limit
        self.words.append(f"on/{link}/{number}/{context}/{limit}")
        return self

    def call(self, opnum, fields):
        """A call, by its fields or its stub."""
        stub = fields if isinstance(fields, bytes) else write("call", opnum, fields).stub
        name, answer = {
            CHALLENGE: ("challenge", self.challenge), AUTHENTICATE: ("authenticate", self.authenticate), LOGON: ("logon", self.logon),
            LOGOFF: ("logoff", self.logoff), SET: ("set", self.set),
        }[opnum]
        self.words.append(f"{name}/{stub.hex()}" + (f"/{self.draws[0].hex()}" if opnum == CHALLENGE else ""))
        fields = answer(call_of(opnum, stub))
        self.made.append((opnum, fields))
        self.reply(*self.place, opnum, fields)
        return self

    def authenticates(self, **fields):
        return self.call(AUTHENTICATE, self.auth_call(**fields))

    def channel_open(self, computer="FILE1", **fields):
        return self.asks(computer).authenticates(computer=computer, **fields)

    def logs_on(self, user="ann", **fields):
        return self.call(LOGON, self.logon_call(user, **fields))

    def sets(self, *secret, **fields):
        return self.call(SET, self.set_call(*secret, **fields))

    def logs_on_at(self, user="ann", **fields):
        return self.call(LOGON, self.interactive_stub(LOGON, user, **fields))

    def logs_off(self, user="ann", **fields):
        return self.call(LOGOFF, self.interactive_stub(LOGOFF, user, **fields))

    def fills(self, computer, user, count):
        self.words.append(f"fill/{utf16(computer).hex()}/{utf16(user).hex()}/{count}")
        free = max(SESSIONS - len(self.sessions), 0)
        self.sessions += [(upper(utf16(computer)), upper(utf16(user)), number) for number in range(min(count, free))]
        return self

    def fails(self, status):
        link, number, context, _ = self.place
        self.words.append(f"fault/{status:08x}")
        self.send(link, write_unit(fault_of(number, context, status)))
        return self

    def tells(self, name, action):
        self.words.append(f"tell/{name}")
        self.actions.append(action)
        return self

    def replies(self, opnum):
        """The replies to calls of that number, in their order."""
        return [fields for made, fields in self.made if made == opnum]


def judged(end):
    """How the calls were judged, in order."""
    return [action for action in end.actions if action.startswith("judged ")]


# ---- NetrServerReqChallenge


def challenge_cases():
    out = []
    # the challenges wait for a computer that the table has, in any case of its letters, and for no other
    for computer in ("FILE1", "file1", "PDC2", "NOBODY", "", "FILE1$", "ann"):
        out.append(Desk(("FILE1", "PDC2", "NOBODY", "", "ann")).asks(computer).case())
    disabled = FILE1 | {"disabled": True}
    out.append(Desk(machines=(disabled,)).asks().case())
    # newer ones take the place of older ones, of that computer alone
    out.append(Desk(("FILE1", "FILE2")).asks(client="aa" * 8).asks("FILE2", "bb" * 8).asks("File1", "cc" * 8).case())
    # an older channel stands
    out.append(Desk().channel_open().asks().case())
    return out


# ---- NetrServerAuthenticate2


def authenticate_cases():
    out = []
    # by the flags that are offered: the channel has a key of either kind, or RC4 isn't among them
    for flags, refused in ((0x1FF, 0), (0x41FF, 0), (0xFFFFFFFF, 0), (4, 0), (0x4004, 0), (0x1FB, DOWNGRADE_DETECTED), (0, DOWNGRADE_DETECTED)):
        end = Desk().channel_open(flags=flags)
        assert end.replies(AUTHENTICATE)[-1]["status"] == refused
        out.append(end.case())
    # no enabled account opens that channel for that computer, which comes before the flags and the challenges
    for machines in ((FILE1, FILE2, PDC2), (FILE1 | {"disabled": True}, FILE2, PDC2), ()):
        for account, channel, computer in (
            ("FILE1$", 2, "FILE1"), ("file1$", 2, "File1"), ("FILE1$", 6, "FILE1"), ("FILE2$", 2, "FILE1"), ("PDC2$", 6, "PDC2"), ("ann", 2, "FILE1"),
        ):
            end = Desk(("FILE1", "PDC2"), machines=machines).asks(computer)
            out.append(end.authenticates(computer=computer, account=utf16(account), channel=channel).case())
    unknown = Desk().asks().authenticates(account=utf16("FILE9$"), flags=0)
    assert unknown.replies(AUTHENTICATE)[-1]["status"] == NO_TRUST_SAM_ACCOUNT
    out.append(unknown.authenticates().case())
    without = Desk().authenticates(flags=0x1FB)
    assert without.replies(AUTHENTICATE)[-1]["status"] == DOWNGRADE_DETECTED
    out.append(without.case())
    # no challenges wait; the client's credential is another one, in any bit
    out.append(Desk().authenticates().case())
    for bit in (0, 7, 31, 32, 63):
        end = Desk().asks()
        given = (int.from_bytes(end.auth_call()["credential"], "little") ^ 1 << bit).to_bytes(8, "little")
        out.append(end.authenticates(credential=given).case())
    # the challenges serve one call alone, whatever comes of it
    end = Desk().asks()
    right = end.auth_call()["credential"]
    end.authenticates(credential=right).authenticates(credential=right)
    assert [reply["status"] for reply in end.replies(AUTHENTICATE)] == [0, ACCESS_DENIED]
    out.append(end.case())
    out.append(Desk().asks().authenticates(credential=ZEROS).authenticates(credential=right).case())
    # a refusal leaves an older channel, an acceptance takes its place
    out.append(Desk().channel_open().asks().authenticates(flags=0x1FB).case())
    out.append(Desk().channel_open().asks(client="aa" * 8).authenticates(flags=0x1FF).case())
    out.append(Desk(("FILE1", "FILE2")).channel_open().channel_open("FILE2").case())
    return out


# ---- NetrLogonSamLogon


def logon_cases():
    out = []
    # no channel: the call names no computer or has no authenticator, or the computer has none
    for fields in ({"computer": None}, {"authenticator": None}, {"computer": None, "authenticator": None}, {"computer": utf16("FILE2")}):
        end = Desk().channel_open()
        end.call(LOGON, end.logon_call() | fields).logs_on(timestamp=1)
        assert judged(end) == ["judged NoChannel", "judged Passed(0)"]
        out.append(end.case())
    # an authenticator that isn't the next, in its credential or its timestamp: the next one passes as before
    for bit in (0, 31, 32, 63):
        end = Desk().channel_open()
        call = end.logon_call()
        given, timestamp = call["authenticator"]
        wrong = (int.from_bytes(given, "little") ^ 1 << bit).to_bytes(8, "little")
        end.call(LOGON, call | {"authenticator": (wrong, timestamp)}).call(LOGON, call | {"authenticator": (given, timestamp + 1)})
        end.call(LOGON, call).call(LOGON, call)
        assert judged(end) == ["judged Barred", "judged Barred", "judged Passed(0)", "judged Barred"]
        out.append(end.case())
    # one computer's authenticator on another's channel
    end = Desk(("FILE1", "FILE2")).channel_open().channel_open("FILE2")
    end.call(LOGON, end.logon_call() | {"computer": utf16("FILE2")}).logs_on(computer="FILE2").logs_on()
    assert judged(end)[0] == "judged Barred"
    out.append(end.case())
    # a level that isn't served, and both that are, under keys of both kinds
    for flags in (0x1FF, SUPPORTED):
        for level in (2, 3, 0, 1, 4, 6, 65535):
            end = Desk().channel_open(flags=flags).logs_on(validation=level).logs_on("nobody", validation=level, timestamp=1)
            assert (f"judged Passed({INVALID_INFO_CLASS})" in end.actions) == (level not in LEVELS)
            out.append(end.case())
    extra = [ANN | {"extra_sids": ["S-1-5-32-544"]}, BOB]
    end = Desk(users=extra).channel_open()
    out.append(end.logs_on(validation=2).logs_on(validation=3, timestamp=1).case())
    return out + verdict_cases() + count_cases()


def verdict_cases():
    out = []
    # verdicts of several rules, each on its own
    users = [
        ANN, BOB, EVE | {"locked": True}, ANN | {"name": "dis", "disabled": True}, ANN | {"name": "exp", "expires": NOW},
        ANN | {"name": "wks", "workstations": ["WS2"]}, ANN | {"name": "must", "must_change": True}, ANN | {"name": "old", "password_expires": NOW + 1},
    ]
    for entry in users:
        out.append(Desk(users=users).at(NOW).channel_open().logs_on(entry["name"]).case())
    for user, info in (("nobody", {}), ("FILE1$", {}), ("PDC2$", {}), ("ann", {"domain": utf16("OTHER")}), ("ann", {"domain": b""})):
        out.append(Desk(users=users).at(NOW).channel_open().logs_on(user, info=info).case())
    # the moment of each call is its own
    out.append(Desk(users=users).at(NOW).channel_open().logs_on("old").at(NOW + 1).logs_on("old", timestamp=1).case())
    nt, _ = respond_v2(ANN, "ann", "CORP", "0123456789abcdef", time=NOW)
    out.append(Desk().at(NOW).channel_open().logs_on(info={"nt": bytes.fromhex(nt)}).case())
    # a reply in fragments of the line's limit, under its link, its number and its context
    many = ANN | {"name": "many", "full_name": "f" * 64, "groups": list(range(1, 257))}
    for limit in (LEAST, 2000, LIMIT):
        out.append(Desk(users=[many]).on(limit=limit).channel_open().on(7, 2**32 - 1, 65535, limit).logs_on("many").case())
    return out


def count_cases():
    out = []
    # a logon sees the counts that those before it left
    for lockout, count, told in ((2, 4, [0xC000006A] * 2 + [0xC0000234] * 2), (3, 3, [0xC000006A] * 3), (0, 3, [0xC000006A] * 3)):
        end = Desk(head=HEAD | {"lockout": lockout}).channel_open()
        for timestamp in range(count):
            end.logs_on(info=WRONG, timestamp=timestamp)
        end.answers = [",".join(end.actions)]
        assert statuses(end) == told
        out.append(end.case())
    # one that is granted sets its count to 0, and carries it as it stood; others keep theirs
    end = Desk().channel_open().logs_on(info=WRONG).logs_on("bob", info=WRONG, timestamp=1).logs_on(timestamp=2)
    assert end.counts == [0, 1] and end.replies(LOGON)[-1]["info"]["bad_count"] == 1
    out.append(end.case())
    # a call that doesn't pass, or asks for another level, changes none
    end = Desk().channel_open().logs_on(info=WRONG, authenticator=(ZEROS, 1)).logs_on(info=WRONG, validation=6)
    assert end.counts == [0, 0]
    out.append(end.case())
    return out


# ---- NetrServerPasswordSet


def network_logoff(end, **fields):
    """The stub of a logoff at level 2."""
    call = end.logon_call(**fields)
    del call["validation"]
    return write("call", LOGOFF, call).stub


def set_cases():
    out = []
    # in one event: a change, logons and an opening behind it, by the new secret
    end = Desk().channel_open().sets(ONE).logs_on(timestamp=1).channel_open(client="aa" * 8).sets(TWO, timestamp=2)
    assert judged(end) == ["judged Passed(0)"] * 3 and end.replies(AUTHENTICATE)[-1]["status"] == 0
    out += [end.case(), end.left_case()]
    # no channel, another authenticator, and another account: each has its reply
    for fields, how, status in (
        ({"computer": "FILE2"}, "NoChannel", ACCESS_DENIED), ({"authenticator": (b"\x55" * 8, 1)}, "Barred", ACCESS_DENIED), ({}, "Passed(0)", 0),
        ({"account": utf16("FILE2$")}, f"Passed({NO_TRUST_SAM_ACCOUNT})", NO_TRUST_SAM_ACCOUNT), ({"channel": 6}, f"Passed({NO_TRUST_SAM_ACCOUNT})", NO_TRUST_SAM_ACCOUNT),
    ):
        end = Desk(("FILE1", "FILE2")).channel_open().sets(ONE, **fields)
        (returned, timestamp), told = end.replies(SET)[-1]
        assert judged(end) == [f"judged {how}"] and (told, timestamp) == (status, 0) and (returned == ZEROS) == (status == ACCESS_DENIED)
        out += [end.case(), end.left_case()]
    # a Keep stands before what is told and sent
    end = Desk().on(3, 9, 5, LEAST).channel_open().sets(ONE)
    assert [action.split(" ")[0] for action in end.actions[-3:]] == ["keep", "judged", "send"]
    out += [end.tells("keep", f"keep {b'text'.hex()}").sets(TWO, timestamp=1).case(), end.left_case()]
    # trusts: what the call names is set, where it lists the computer and isn't disabled
    for account in ("NORTH$", "SOUTH$", "SHUT$"):
        end = Desk(("NDC1",), machines=(FILE1, NORTH, SOUTH, SHUT)).channel_open("NDC1", account=utf16("NORTH$"), channel=4)
        out += [end.sets(ONE, computer="NDC1", account=utf16(account), channel=4).case(), end.left_case()]
    # what is published of a secret that is hidden
    for key, secret, hidden in HIDDEN:
        agree(lambda: hidden_by(bytes.fromhex(key), bytes.fromhex(secret)).hex(), hidden, "a hidden secret")
        agree(lambda: shown_by(bytes.fromhex(key), bytes.fromhex(hidden)).hex(), secret, "a hidden secret")
    return out


# ---- logons and logoffs at level 1


def interactive_cases():
    out = []
    # a session opens at what is granted, and ends at its logoff
    end = Desk().at(NOW).channel_open().logs_on_at().logs_on_at("BOB", timestamp=1, info={"logon_id": 2**64 - 1}).logs_on_at("eve", timestamp=2)
    assert judged(end) == ["judged Passed(0)"] * 2 + [f"judged Passed({STATUS['no such user']})"] and len(end.sessions) == 2
    out += [end.case(), end.left_case()]
    end.logs_off("Ann", timestamp=3)
    out += [end.left_case(), end.logs_off("ann", timestamp=4).case(), end.left_case()]
    # a level that isn't served, a network logon, and a logoff at level 2 leave the sessions
    end = Desk().at(NOW).channel_open().fills("FILE1", "ann", 2).logs_on_at(validation=4).logs_on(timestamp=1)
    end.call(LOGOFF, network_logoff(end, timestamp=2, info={"logon_id": 0}))
    assert judged(end) == [f"judged Passed({INVALID_INFO_CLASS})", "judged Passed(0)", f"judged Passed({INVALID_INFO_CLASS})"]
    out += [end.case(), end.left_case()]
    # no channel, and another authenticator, at each kind
    for fields, how in (({"computer": "FILE2"}, "NoChannel"), ({"named": {"computer": None}}, "NoChannel"), ({"named": {"authenticator": None}}, "NoChannel"),
                        ({"named": {"authenticator": (ZEROS, 1)}}, "Barred")):
        end = Desk(("FILE1", "FILE2")).channel_open().fills("FILE2", "ann", 8).fills("FILE1", "ann", 8).logs_on_at(**fields).logs_off(**fields)
        assert judged(end) == [f"judged {how}"] * 2 and end.replies(LOGOFF) == [{"returned": None, "status": ACCESS_DENIED}]
        out += [end.case(), end.left_case()]
    return out + full_cases()


def full_cases():
    """10,000 sessions stand at most: the next logon that would be granted is refused, and counts as granted."""
    out = []
    for count in (SESSIONS - 2, SESSIONS - 1, SESSIONS, SESSIONS + 1):
        room = max(SESSIONS - count, 0)
        end = Desk().at(NOW).channel_open().fills("WS1", "bob", count)
        for timestamp in range(3):
            end.logs_on_at(timestamp=timestamp)
        assert judged(end) == ["judged Passed(0)"] * room + [f"judged Passed({INSUFFICIENT_RESOURCES})"] * (3 - room)
        assert all((reply["info"] is None) == (reply["status"] != 0) for reply in end.replies(LOGON))
        out += [end.case(), end.left_case()]
    # the count of bad passwords is as behind the verdict, and other refusals come before
    end = Desk().at(NOW).channel_open().fills("FILE1", "bob", SESSIONS).logs_on_at(info={"nt": bytes(16)}).logs_on_at(timestamp=1, info={"nt": bytes(16)})
    out.append(end.case())
    assert end.counts == [2, 0]
    end.logs_on_at(timestamp=2)
    assert judged(end) == [f"judged Passed({STATUS['wrong password']})"] * 2 + [f"judged Passed({INSUFFICIENT_RESOURCES})"] and end.counts == [0, 0]
    out += [end.case(), end.left_case()]
    # network logons need no session; a logoff makes room for one
    end = Desk().at(NOW).channel_open().fills("FILE1", "ann", SESSIONS).logs_on().logs_off(timestamp=1, info={"logon_id": SESSIONS}).logs_on_at(timestamp=2)
    end.logs_off("ANN", timestamp=3, info={"logon_id": 5000}).logs_on_at("bob", timestamp=4).logs_on_at("bob", timestamp=5).logs_off(timestamp=6, info={"logon_id": 9999})
    wanted = (0, NO_SUCH_LOGON_SESSION, INSUFFICIENT_RESOURCES, 0, 0, INSUFFICIENT_RESOURCES, 0)
    assert judged(end) == [f"judged Passed({status})" for status in wanted]
    return out + [end.case(), end.left_case()]


# ---- actions and faults


def action_cases():
    """An action more, behind those before it."""
    told = [
        ("keep", f"keep {b'text'.hex()}"), ("send", f"send 1 {b'bytes'.hex()}"), ("dial", f"dial {b'peer'.hex()}"), ("close", "close 1 CallDone"),
        ("told", "told 1 NoController(BadReply)"), ("forwarded", "judged Forwarded"), ("barred", "judged Barred"), ("none", "judged NoChannel"),
        ("c000006a", f"judged Passed({0xC000006A})"),
    ]
    out = [Desk().tells(name, action).case() for name, action in told]
    end = Desk().asks()
    for name, action in told:
        end.tells(name, action)
    return out + [end.authenticates().case()]


def fault_cases():
    """C706 12.6.4.7: the frame, alone and on a link."""
    out = []
    for number, context, status in (
        (2, 0, OUT_OF_RANGE), (0, 0, PROTOCOL_ERROR), (2**32 - 1, 65535, BAD_STUB), (1, 256, 2**32 - 1), (0x01020304, 0x0506, 0x0708090A),
    ):
        data = write_unit(fault_of(number, context, status))
        assert len(data) == 32
        out.append((line("calls.fault", number, context, f"{status:08x}"), data.hex()))
        out.append(Desk().on(9, number, context, LEAST).fails(status).case())
    worked = "050003031000000020000000" "09000000" "0000000007000000" "0b00011c00000000"
    assert write_unit(fault_of(9, 7, PROTOCOL_ERROR)).hex() == worked
    out.append((line("calls.fault", 9, 7, f"{PROTOCOL_ERROR:08x}"), worked))
    # beside other calls
    out.append(Desk().channel_open().fails(OUT_OF_RANGE).logs_on().fails(BAD_STUB).case())
    return out


def line_cases():
    """Where calls are answered: fragments of 1,432 to 5,840 bytes."""
    out = [Desk().on(4, 5, 6, limit).asks().case() for limit in (LEAST, LEAST + 1, LIMIT)]
    for limit in (0, LEAST - 1, LIMIT + 1, 65535):
        for end in (Desk().on(4, 5, 6, limit).asks(), Desk().channel_open().on(4, 5, 6, limit).logs_on(), Desk().asks().on(4, 5, 6, limit).authenticates()):
            out.append((end.case()[0], "no such case"))
    return out


# ---- published values


def published_cases():
    """Channels of published secrets and challenges."""
    out = []
    for channel in values("netlogon")["channels"]:
        client, server, secret = (bytes.fromhex(channel[name]) for name in ("client_challenge", "server_challenge", "secret"))
        for flags, kind in ((SUPPORTED, "strong_key"), (0x1FF, "des_key")):
            end = Desk(machines=[FILE1 | {"hash": secret.hex()}], challenges=[server.hex()]).asks(client=client.hex())
            end.authenticates(flags=flags, credential=bytes.fromhex(channel[f"client_credential_{kind}"]))
            agree(lambda: end.replies(AUTHENTICATE)[-1]["credential"].hex(), channel[f"server_credential_{kind}"], f"server's credential, {kind}")
            agree(lambda: end.kept(utf16("FILE1")), f"- {channel[kind]}", f"session key, {kind}")
            out.append(end.case())
    return out


def recorded_cases():
    """The calls of the recorded link in their order, with the challenge that its controller drew. What is answered has
    its credentials, return credentials and statuses."""
    calls = live_calls()
    end = Desk(challenges=[calls[1]["fields"]["challenge"]]).at(NOW)
    for asked, replied in zip(calls[::2], calls[1::2]):
        end.call(asked["opnum"], bytes.fromhex(asked["stub"]))
        reply, fields = end.made[-1][1], replied["fields"]
        if asked["opnum"] == LOGON:
            agree(reply["returned"][0].hex, fields["returned"]["credential"], replied["name"])
        elif asked["opnum"] == AUTHENTICATE:
            agree(reply["credential"].hex, fields["credential"], replied["name"])
        else:
            agree(reply["challenge"].hex, fields["challenge"], replied["name"])
        agree(lambda: reply["status"], fields["status"], replied["name"])
    return [end.case()]


def sequence_cases():
    """Authenticators whose timestamps wrap, and one that comes again."""
    out = []
    for timestamps in ((4294967295, 0, 1), (2147483648, 2147483647, 5), (0, 0, 0)):
        end = Desk().channel_open()
        for timestamp in timestamps:
            end.logs_on(timestamp=timestamp)
        out.append(end.case())
    return out


def cases():
    """Each line and its answer."""
    return (
        challenge_cases() + authenticate_cases() + logon_cases() + set_cases() + interactive_cases() + sequence_cases() + action_cases() + fault_cases() + line_cases()
        + published_cases() + recorded_cases()
    )
