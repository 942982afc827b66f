"""Cases of domain_controller, of a controller that can seal.

`controller.sealing DOCUMENT NAME CHALLENGES STEP ..`: as `controller.trusts`, of a controller that can seal too. A
sealed reply's confounder is drawn as a challenge is. `holds/LINK` is answered with whether that link is open and
sealed.

The actions are worked out here by the rules of docs/FORMATS.md ("Sealed channels", "The controller"), MS-NRPC 3.3
and MS-RPCE 2.2.2.11: the controller of `trusts.py`, with an end of `channel_sealing.py` for each computer whose channel
seals. What is sealed by a computer here, its controller opens, and the other way round.
"""

from channel_sealing import ACK_VALUE, OWN, PRIVACY, PROVIDER, ROOM, End, bind_value, call_frames, joined, names_of, part_of, sealed_ack, trailer_of
from documents import ANN, BOB
from domain_controller import Controller, NOW, PROTOCOL_ERROR, SET, SUPPORTED, NdrRefused, Shut, Spent, bind, call_of, key_of, request_of, response_v1, upper, utf16
from forms import line
from logon_stubs import AUTHENTICATE, CHALLENGE, LOGOFF, LOGON, BadArm, write
from rpc_units import BIND, LIMIT, NAK, NETLOGON, REQUEST, RESPONSE, VALUE, Refused, whole
from rpc_units import read as read_unit
from rpc_units import write as write_unit
from set_stubs import write_reply as write_set_reply
from trusts import OWN_DRAWS, ROAM, SAM, Trusting, hops, other
from wire import flipped, steps, truth

SECURE = 0x40000000
JUDGED = (LOGON, LOGOFF, SET)


class Plain(Controller):
    """A controller that can't seal, in lines of one that can."""

    def case(self):
        return line("controller.sealing", *self.words), steps(self.answers + [str(len(self.draws))])


class Sealing(Trusting):
    """The controller by its rules, which can seal; and the computers whose channels seal."""

    supported = SUPPORTED | SECURE

    def __init__(self, trusts=(), **how):
        super().__init__(trusts=trusts, **how)
        # how many channels were opened; of each computer whose channel seals, which opening it is of, and both ends
        self.openings, self.kept, self.there = 0, {}, {}
        # how the reply to the call at hand is sealed
        self.link, self.reply_by = None, None

    def case(self):
        return line("controller.sealing", *self.words), steps(self.answers + [str(len(self.draws))])

    # channels and links

    def authenticate(self, call):
        reply = super().authenticate(call)
        if reply["status"] == 0:
            name = upper(call["computer"])
            self.kept.pop(name, None)
            if reply["flags"] & SECURE:
                key = key_of(self.channels[name])
                self.kept[name] = {"opening": self.openings, "end": End(key, False)}
                self.there[name] = End(key, True)
            self.openings += 1
        return reply

    def stands(self, seal):
        """Whether the link's channel is the computer's still."""
        kept = self.kept.get(seal["computer"])
        return kept is not None and kept["opening"] == seal["opening"]

    def belongs(self, computer):
        """Whether a call of the link at hand that names this computer may be one of its channel."""
        seal = self.links[self.link].get("seal")
        if seal is None:
            return upper(computer) not in self.kept
        return upper(computer) == seal["computer"] and self.stands(seal)

    def passes(self, call):
        if call["computer"] is not None and not self.belongs(call["computer"]):
            self.actions.append("judged NoChannel")
            return None
        return super().passes(call)

    def fresh(self, link, unit):
        trailer = unit["trailer"]
        names = names_of(trailer[3]) if unit["kind"] == BIND and trailer and trailer[:2] == (PROVIDER, PRIVACY) else None
        name = upper(utf16(names[1].decode("latin-1"))) if names else None
        if name not in self.kept:
            return super().fresh(link, unit)
        super().fresh(link, {**unit, "trailer": None})
        self.actions.pop()
        kept = self.kept[name]
        self.links[link]["seal"] = {"computer": name, "opening": kept["opening"], "context": trailer[2], "receive": unit["receive"], "there": self.there[name]}
        return self.send(link, write_unit(sealed_ack(unit, NETLOGON)))

    def unit(self, link, data):
        seal = self.links[link].get("seal")
        if seal is None:
            return super().unit(link, data)
        try:
            unit = read_unit(data)
        except Refused:
            raise Shut("BadUnit") from None
        if unit["kind"] != REQUEST:
            raise Shut("OutOfPlace")
        if isinstance(part_of(data), str) or not self.stands(seal) or unit["opnum"] in (CHALLENGE, AUTHENTICATE):
            raise Shut("BadAuthentication")
        answer, plain = self.kept[seal["computer"]]["end"].open(data)
        if answer != "Ok(())":
            raise Shut("BadAuthentication")
        return self.request(link, {**read_unit(plain), "trailer": None})

    def whole_call(self, link, unit):
        self.link, self.reply_by = link, None
        seal = self.links[link].get("seal")
        if seal and unit["opnum"] in JUDGED and unit["context"] in self.links[link]["bound"][0] and is_readable(unit):
            if not self.draws:
                raise Spent
            self.reply_by = seal, self.draws.pop(0)
        return super().whole_call(link, unit)

    def reply(self, link, number, context, limit, opnum, fields):
        if self.reply_by is None or fields is None:
            return super().reply(link, number, context, limit, opnum, fields)
        seal, confounder = self.reply_by
        stub = write_set_reply(*fields) if opnum == SET else write("reply", opnum, fields).stub
        unit = whole(RESPONSE, call=number, hint=len(stub), context=context, stub=stub)
        frames = self.kept[seal["computer"]]["end"].seal_all(call_frames(unit, seal["receive"], seal["context"]), confounder)
        # the computer opens them, and has the reply
        opened = [seal["there"].open(frame) for frame in frames]
        assert all(answer == "Ok(())" for answer, _ in opened) and joined([left for _, left in opened]) == unit
        return self.send(link, b"".join(frames))

    # a logon that another controller answers

    def logon(self, call):
        answer = super().logon(call)
        if answer is None:
            self.forwarded[-1][3]["seal"] = self.reply_by
        return answer

    def answer_place(self, place, status, info=None):
        for at, (trust, one, where, kept) in enumerate(self.forwarded):
            if (trust, one) == (self.turn_of, place):
                self.reply_by = kept["seal"]
                # a sealed link's channel was replaced: the answer goes to nobody
                if self.reply_by and not self.stands(self.reply_by[0]):
                    self.forwarded[at] = trust, one, None, kept
        super().answer_place(place, status, info)

    def holds(self, link=2):
        self.words.append(f"holds/{link}")
        self.answers.append(truth(not self.stopped and "seal" in self.links.get(link, {})))
        return self

    # what computers send

    def bind_of(self, computer="FILE1", domain="CORP", receive=LIMIT, context=OWN, value=None, contexts=None, call=1):
        value = bind_value(domain.encode("latin-1"), computer.encode("latin-1")) if value is None else value
        return bind(receive=receive, contexts=contexts, trailer=trailer_of(value, context), call=call)

    def binds(self, link=2, **how):
        return self.opened(link).bytes(write_unit(self.bind_of(**how)), link)

    def sealed(self, opnum, stub, link=2, number=2, context=0, receive=LIMIT, trailer=OWN):
        """The frames of a call as the computer of a sealed link seals them."""
        stub = stub if isinstance(stub, bytes) else write("call", opnum, stub).stub
        return self.links[link]["seal"]["there"].seal_all(call_frames(request_of(opnum, stub, number, context), receive, trailer))

    def asks_sealed(self, opnum, stub, link=2, **how):
        return self.bytes(b"".join(self.sealed(opnum, stub, link, **how)), link)

    def logs_on_sealed(self, user="ann", link=2, number=2, **fields):
        return self.asks_sealed(LOGON, self.logon_call(user, **fields), link, number=number)


def is_readable(unit):
    try:
        call_of(unit["opnum"], unit["stub"])
    except (NdrRefused, BadArm):
        return False
    return True


# ---- scenarios

ALL = SUPPORTED | SECURE
EXTRA = ANN | {"extra_sids": ["S-1-5-32-544", "S-1-18-1"]}
LATER = 1_700_000_001


def opened(flags=ALL, computer="FILE1", **how):
    """A controller on whose link 1 the computer opened a channel that seals."""
    return Sealing(**how).at(NOW).bound().channel_open(computer, flags=flags)


def bound(computer="FILE1", **how):
    """The same, and its link 2 is sealed."""
    return opened(computer=computer, **how).binds(computer=computer)


def last(end):
    return end.answers[-1]


def is_closed(end, link=2, cause="BadAuthentication"):
    return last(end) == f"close {link} {cause}"


def flag_cases():
    """Which flags are granted, and which channels seal by them."""
    out = []
    for flags in (ALL, SUPPORTED, SECURE | 4, SECURE | 0x1FF, SECURE | 0x4004, 0xFFFFFFFF, 0xFFFFFFFF ^ SECURE, SECURE, 0x600FFFFF, 0x41FF | 0x80000000):
        end = opened(flags=flags)
        granted = int.from_bytes(bytes.fromhex(last(end).split(" ")[-1])[-8:-4], "little")
        assert granted == flags & ALL or not flags & 4
        seals = bool(flags & SECURE) and bool(flags & 4)
        end.holds(1).holds(2).binds().holds()
        assert last(end) == truth(seals)
        # on its own link a sealed channel's call is heard, on another link none
        end.logs_on(link=1)
        assert ("NoChannel" in last(end)) == seals or not flags & 4
        out.append(end.case())
    # a refused opening leaves what stood
    end = bound().asks(link=1).authenticates(1, credential=b"\x55" * 8, flags=ALL).logs_on_sealed()
    assert "judged Passed(0)" in last(end)
    out.append(end.case())
    return out


def bind_cases():
    """Binds with trailers: names in any case, bytes behind them, no names, other computers, other trailers."""
    out = []
    for domain, computer in (("CORP", "FILE1"), ("corp", "file1"), ("OTHER", "File1"), ("", "FILE1")):
        end = opened().binds(domain=domain, computer=computer).holds().logs_on_sealed()
        assert end.answers[-2] == "true" and "judged Passed(0)" in last(end)
        out.append(end.case())
    for computer in ("FILE2", "FILE1$", "", "NOBODY", "FILE1 ", "F\xceLE1"):
        end = opened().binds(computer=computer).holds()
        assert last(end) == "false" and write_unit(whole(NAK, call=1, reason=0)).hex() in end.answers[-2]
        # a plain bind may follow on that link, and it isn't sealed
        out.append(end.bytes(write_unit(bind(call=2)), 2).holds().logs_on(link=2).case())
    good = bind_value(b"CORP", b"FILE1")
    tried = [good + b"more", good + bytes(100), good[:-1], b"", b"x", ACK_VALUE, flipped(good, 0, 1), flipped(good, 4, 1), good[:8] + b"FILE1\0CORP\0", good[:8]]
    for value in tried:
        end = opened().binds(value=value).holds()
        assert last(end) == truth(value.startswith(good))
        out.append(end.case())
    # trailers of another kind or level
    for trailer in ((10, 6, OWN, good), (PROVIDER, 5, OWN, good), (PROVIDER, 2, OWN, good), (16, 6, OWN, good), VALUE):
        end = opened().opened(2).bytes(write_unit(bind(trailer=trailer)), 2).holds()
        assert last(end) == "false"
        out.append(end.case())
    # the context of the bind's trailer is that of the acknowledgement and of replies
    for context in (0, 1, 0x01020304, 2**32 - 1):
        end = opened().binds(context=context).logs_on_sealed()
        assert read_unit(bytes.fromhex(end.answers[-1].split(" ")[-1]))["trailer"][2] == context
        out.append(end.case())
    # a second bind, whatever it has, has no place
    for again in (bind(call=2), Sealing.bind_of(bound(), call=2)):
        end = bound().bytes(write_unit(again), 2)
        assert is_closed(end, cause="OutOfPlace")
        out.append(end.holds().case())
    # contexts that aren't served, and a call on one that wasn't accepted
    end = opened().binds(contexts=[(0, NETLOGON, [NETLOGON])]).holds().logs_on_sealed()
    assert read_unit(bytes.fromhex(last(end).split(" ")[-1]))["status"] == PROTOCOL_ERROR
    out.append(end.case())
    # before a channel that seals stands, and before any
    out.append(opened(flags=SUPPORTED).binds().holds().case())
    out.append(Sealing().at(NOW).binds(1).holds(1).case())
    return out


def logon_cases():
    """Sealed logons, level 1, level 3 with extra SIDs, logoffs, changes of the secret, on several links in turn."""
    out = []
    for validation in (2, 3):
        end = bound(users=(EXTRA, BOB)).logs_on_sealed(validation=validation).logs_on_sealed("bob", timestamp=LATER, info={"nt": b""})
        assert "judged Passed(0)" in end.answers[-2] and "judged Passed(3221225578)" in last(end)
        out.append(end.case())
    # numbers go on over links, and a link that closes leaves them
    end = bound().logs_on_sealed().binds(3).logs_on_sealed(link=3, timestamp=LATER).closed(2).binds(2).logs_on_sealed(link=2, timestamp=LATER + 1).logs_on_sealed(link=3, timestamp=LATER + 2)
    assert [answer.split(",")[0] for answer in end.answers if "judged" in answer] == ["judged Passed(0)"] * 4
    out.append(end.closed(3).holds(3).holds(2).case())
    # level 1 and its logoff
    end = bound()
    end.asks_sealed(LOGON, end.interactive_stub(LOGON)).asks_sealed(LOGOFF, end.interactive_stub(LOGOFF, timestamp=LATER))
    end.asks_sealed(LOGOFF, end.interactive_stub(LOGOFF, timestamp=LATER + 1))
    assert [answer.split(",")[0] for answer in end.answers[-3:]] == ["judged Passed(0)", "judged Passed(0)", "judged Passed(3221225567)"]
    out.append(end.case())
    # a changed secret: the channel stands, and the next one opens by the new secret
    end = bound()
    end.asks_sealed(SET, end.set_call("61" * 16)).logs_on_sealed(timestamp=LATER)
    assert end.answers[-2].startswith("keep") and "judged Passed(0)" in last(end)
    end.channel_open(flags=ALL).logs_on_sealed(timestamp=1)
    assert is_closed(end)
    out.append(end.binds(3).logs_on_sealed(link=3, timestamp=1).case())
    assert "judged Passed(0)" in end.answers[-1]
    # a stub that isn't read, and an operation that isn't served: a fault, which isn't sealed
    end = bound().asks_sealed(LOGON, b"\1\2\3").asks_sealed(7, b"").asks_sealed(SET, b"").logs_on_sealed()
    out.append(end.case())
    # a computer of each kind, two computers at once
    end = opened().channel_open("PDC2", flags=ALL, account=utf16("PDC2$"), channel=6).binds(2).binds(3, computer="PDC2")
    end.logs_on_sealed(link=3, computer="PDC2").logs_on_sealed(link=2)
    assert [answer.split(",")[0] for answer in end.answers[-2:]] == ["judged Passed(0)"] * 2
    out.append(end.case())
    return out


def size_cases():
    """By the size that the computer receives: a sealed link's limit is at least 1,448, of which 16 bytes are kept."""
    out = []
    many = ANN | {"groups": list(range(513, 513 + 256))}
    for receive in (0, 1431, 1432, 1447, 1448, 1449, 1463, 1464, 1465, 2048, 4280, 5839, 5840, 65535):
        end = opened(users=(many, BOB)).binds(receive=receive).logs_on_sealed()
        units, data = [], bytes.fromhex(last(end).split(" ")[-1])
        while data:
            size = int.from_bytes(data[8:10], "little")
            units.append(data[:size])
            data = data[size:]
        assert all(len(unit) <= max(1448, min(receive, LIMIT)) - 16 + 40 for unit in units) and (receive > 2600 or len(units) > 1)
        out.append(end.case())
    # requests in fragments, each in an event of its own, and all in one
    long = {"info": {"workstation": utf16("w" * 1200)}}
    for receive in (1432, 2000):
        end = bound()
        frames = end.sealed(LOGON, end.logon_call(**long), receive=receive)
        assert len(frames) > 1
        for frame in frames:
            end.bytes(frame, 2)
        assert "judged Passed(0)" in last(end)
        frames = end.sealed(LOGON, end.logon_call(timestamp=LATER, **long), receive=receive)
        end.bytes(b"".join(frames), 2)
        assert "judged Passed(0)" in last(end)
        out.append(end.case())
    return out


def unit_cases():
    """Each byte of a sealed request altered; units that are repeated, left out, exchanged; unsealed ones."""
    out = []
    ready = bound()
    # a bit of each byte; then the request as it was sealed passes on the same channel, whose number no refusal took
    for start in range(8):
        end = bound()
        request = end.sealed(LOGON, end.logon_call())[0]
        for at in range(start, len(request), 8):
            end.bytes(flipped(request, at, 1 << at // 8 % 8), 2)
            assert "judged" not in last(end) and (last(end) == "-" or last(end).startswith("close 2 "))
            # a unit that says that it is longer waits for more
            end.closed(2).binds(2) if last(end) == "-" else end.binds(2)
        end.bytes(request, 2)
        assert last(end).startswith("judged Passed(0),")
        out.append(end.case())
    request = ready.sealed(LOGON, ready.logon_call())[0]
    # the same request twice: the second closes its link, and nothing is barred
    end = bound().bytes(request, 2).bytes(request, 2)
    assert "judged Passed(0)" in end.answers[-2] and is_closed(end)
    out.append(end.holds().case())
    end = bound().bytes(request + request, 2)
    assert last(end).startswith("judged Passed(0),send 2") and last(end).endswith(",close 2 BadAuthentication")
    out.append(end.case())
    end = bound().bytes(request, 2).binds(3).bytes(request, 3)
    assert is_closed(end, 3)
    out.append(end.case())
    # one left out: the next isn't taken, and what was left out is, on another link
    end = bound()
    first, second = end.sealed(LOGON, end.logon_call())[0], end.sealed(LOGON, end.logon_call(timestamp=LATER))[0]
    end.bytes(second, 2)
    assert is_closed(end)
    end.binds(3).bytes(first, 3)
    assert "judged Passed(0)" in last(end)
    out.append(end.case())
    # fragments in another order, and one of them twice
    long = {"info": {"workstation": utf16("w" * 2000)}}
    for order in ((1, 0, 2), (0, 0), (0, 2), (0, 1, 1)):
        end = bound()
        frames = end.sealed(LOGON, end.logon_call(**long), receive=1432)
        end.bytes(b"".join(frames[place] for place in order), 2)
        assert is_closed(end)
        out.append(end.case())
    # without a trailer, with another one, with a value of another size
    plain = request_of(LOGON, write("call", LOGON, ready.logon_call()).stub)
    for trailer in (None, VALUE, (10, 6, OWN, ROOM), (PROVIDER, 5, OWN, ROOM), trailer_of(ROOM[:31]), trailer_of(ROOM + b"x"), trailer_of(ROOM)):
        end = bound().bytes(write_unit({**plain, "trailer": trailer}), 2)
        assert is_closed(end)
        out.append(end.case())
    # any context in a request's trailer
    for context in (0, 2, 0x01020304):
        end = bound()
        end.asks_sealed(LOGON, end.logon_call(), trailer=context)
        assert "judged Passed(0)" in last(end)
        out.append(end.case())
    # opening calls, sealed and not
    for opnum in (CHALLENGE, AUTHENTICATE):
        for is_sealed in (True, False):
            end = bound()
            fields = {"primary": None, "computer": utf16("FILE1"), "challenge": bytes(8)} if opnum == CHALLENGE else end.auth_call(flags=ALL)
            frames = end.sealed(opnum, fields) if is_sealed else [write_unit(request_of(opnum, write("call", opnum, fields).stub))]
            end.bytes(frames[0], 2)
            assert is_closed(end)
            out.append(end.case())
    # units of other kinds
    for unit in (whole(RESPONSE, call=2, hint=0, context=0, stub=b"", trailer=trailer_of(ROOM)), whole(NAK, call=1, reason=0), bind(call=3)):
        end = bound().bytes(write_unit(unit), 2)
        assert is_closed(end, cause="OutOfPlace")
        out.append(end.case())
    return out


def rule_cases():
    """Calls that aren't on their computer's own channel."""
    out = []
    # an unsealed call of every kind for a computer whose channel seals
    for opnum in JUDGED:
        for level in (1, 2):
            if (opnum, level) == (SET, 2):
                continue
            end = bound()
            if opnum == SET:
                stub = end.set_call()
            elif level == 1:
                stub = end.interactive_stub(opnum)
            else:
                call = end.logon_call()
                stub = write("call", opnum, call if opnum == LOGON else {name: value for name, value in call.items() if name != "validation"}).stub
            end.call(opnum, stub, link=1)
            assert last(end).startswith("judged NoChannel,send 1")
            # the same on its own link passes: nothing moved
            end.asks_sealed(opnum, stub)
            assert last(end).startswith(("judged Passed", "keep"))
            out.append(end.case())
    # a sealed call that names another computer, with or without a channel, sealed or not
    for flags in (ALL, SUPPORTED, None):
        for opnum in JUDGED:
            end = bound()
            if flags is not None:
                end.channel_open("FILE2", flags=flags)
            stub = {LOGON: lambda: end.logon_call(computer="FILE2"), SET: lambda: end.set_call(computer="FILE2"), LOGOFF: lambda: end.interactive_stub(LOGOFF, computer="FILE2")}[opnum]()
            end.asks_sealed(opnum, stub)
            assert last(end).startswith("judged NoChannel,send 2")
            if flags == SUPPORTED:
                # on a link that isn't sealed it passes
                end.call(opnum, stub, link=1)
                assert last(end).startswith(("judged Passed", "keep"))
            out.append(end.logs_on_sealed().case())
    # no computer, no authenticator, a wrong one
    for fields in ({"computer": None}, {"authenticator": None}, {"computer": None, "authenticator": None}, {"authenticator": (b"\x33" * 8, 7)}):
        end = bound()
        end.asks_sealed(LOGON, end.logon_call() | fields)
        assert last(end).startswith("judged Barred" if "computer" not in fields and fields["authenticator"] else "judged NoChannel")
        out.append(end.logs_on_sealed().case())
    # a channel that was replaced, by one that seals, by one that doesn't, by one of the same challenges
    for flags in (ALL, SUPPORTED):
        end = bound().channel_open(flags=flags).holds()
        end.asks_sealed(LOGON, end.logon_call())
        assert is_closed(end)
        out.append(end.holds().logs_on(link=1, timestamp=LATER).case())
        assert ("Passed(0)" in end.answers[-1]) == (flags == SUPPORTED)
    same_again = bound(challenges=OWN_DRAWS[:1] * 6).channel_open(flags=ALL)
    same_again.logs_on_sealed()
    assert is_closed(same_again)
    out.append(same_again.case())
    # another computer's opening leaves it
    end = bound().channel_open("FILE2", flags=ALL).logs_on_sealed().logs_on_sealed(link=2, timestamp=LATER)
    assert last(end).startswith("judged Passed(0)")
    out.append(end.case())
    return out


def spent_cases():
    """A confounder is drawn for each judged call on a sealed link, and for no other."""
    out = []
    for count in range(1, 4):
        end = bound(challenges=OWN_DRAWS[:count])
        for timestamp in range(3):
            end.logs_on_sealed(timestamp=timestamp)
        assert end.answers.count("Err(Spent)") == 1 and end.answers[-1] == ("Err(Stopped)" if count < 3 else "Err(Spent)")
        out.append(end.holds().case())
    # calls that find no channel draw one too; faults draw none
    end = bound(challenges=OWN_DRAWS[:2])
    end.asks_sealed(LOGON, b"").asks_sealed(LOGON, end.logon_call(computer="FILE2")).logs_on_sealed()
    assert last(end) == "Err(Spent)"
    out.append(end.case())
    # an unsealed call draws none
    end = bound(challenges=OWN_DRAWS[:2]).logs_on(link=1).logs_on(link=1).logs_on_sealed()
    assert last(end).startswith("judged Passed(0)")
    out.append(end.case())
    return out


def forwarded_cases():
    """Logons from a sealed link that another controller answers."""
    out = []
    begun = lambda **how: Sealing(trusts=(ROAM,), **how).at(NOW).bound().channel_open(flags=ALL).binds()

    def roams(end, link=2, **fields):
        response = response_v1(bytes.fromhex(SAM["hash"]), bytes.fromhex("0123456789abcdef"))
        return end.asks_sealed(LOGON, end.logon_call("sam", info={"domain": utf16("ROAM"), "nt": response}, **fields), link)

    # granted and refused, at each level: its reply is sealed, with the confounder that was drawn when it came
    for users in (None, ()):
        for validation in (2, 3):
            end, there = begun(), other() if users is None else other(users=users)
            hops(roams(end, validation=validation), there)
            answered = next(answer for answer in end.answers if "judged Answered" in answer)
            assert part_of(bytes.fromhex(answered.split(",send 2 ")[1])) not in ("Nothing", "Missing")
            out.append(end.case())
    # others behind it meanwhile
    end, there = begun(), other()
    roams(end).logs_on_sealed(timestamp=LATER)
    end.actions = ["dial "]
    hops(end, there)
    out.append(end.case())
    # its channel was replaced meanwhile, by one that seals and by one that doesn't: it is answered to nobody, and told
    # all the same
    for flags in (ALL, SUPPORTED):
        end, there = begun(), other()
        roams(end)
        end.channel_open(flags=flags)
        end.actions = ["dial "]
        hops(end, there)
        answered = next(answer for answer in end.answers if "judged Answered" in answer)
        assert "send 2" not in answered
        out.append(end.case())
    # its link closed meanwhile
    end, there = begun(), other()
    roams(end).closed(2)
    end.actions = ["dial "]
    hops(end, there)
    out.append(end.case())
    # and another of that number opened
    end, there = begun(), other()
    roams(end).binds(2)
    end.actions = ["dial "]
    hops(end, there)
    assert all("send 2" not in answer for answer in end.answers if "judged Answered" in answer)
    out.append(end.case())
    # nobody can be asked: the dial fails
    end = begun()
    roams(end).failed()
    assert "judged Answered(3221225566),send 2" in last(end)
    out.append(end.case())
    # one that isn't sealed, beside it
    end, there = begun(), other()
    end.channel_open("FILE2", flags=SUPPORTED).roams(computer="FILE2")
    roams(end, timestamp=LATER)
    end.actions = ["dial "]
    hops(end, there)
    out.append(end.case())
    return out


def plain_cases():
    """Where no opening offers secure RPC, all is answered as by a controller that can't seal."""
    out = []
    made = lambda: Plain(challenges=OWN_DRAWS[:6]).at(NOW)
    end = made().bound().channel_open().logs_on().logs_on("bob", timestamp=LATER)
    out.append(end.sets(timestamp=LATER + 1).case())
    end = made().bound()
    trailer = trailer_of(bind_value(b"CORP", b"FILE1"))
    end.channel_open().opened(2).bytes(write_unit(bind(trailer=trailer)), 2).bytes(write_unit(bind(call=2)), 2).logs_on(link=2)
    out.append(end.case())
    out.append(made().bound().logs_on().closed(1).opened(1).bytes(b"x" * 16, 1).event("stop").logs_on().case())
    return out


def cases():
    """Each line and its answer."""
    return flag_cases() + bind_cases() + logon_cases() + size_cases() + unit_cases() + rule_cases() + spent_cases() + forwarded_cases() + plain_cases()
