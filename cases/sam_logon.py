"""Cases of sam_logon: `logon.judge DOCUMENT CONTROLLER DOMAIN USER WORKSTATION CHALLENGE NT NOW`, the same with a level
behind it for
`logon.at_level`, and `logon.interactive DOCUMENT CONTROLLER DOMAIN USER WORKSTATION HASH NOW`.

`logon.steps DOCUMENT CONTROLLER NOW STEP..` judges one after the other, each with its verdict in short:
`judge,DOMAIN,USER,WORKSTATION,CHALLENGE,NT` and `interactive,DOMAIN,USER,WORKSTATION,HASH` change the table; `weigh`
and `weigh_interactive` give a change besides, which `commit` makes;
`count,AT` and `set_count,AT,COUNT` give the count of bad passwords.

The rules and their order are this project's own choice (docs/FORMATS.md, "Verdict on a logon"); the NTSTATUS values are
those of MS-ERREF 2.3.1. NTLMv1 responses are published values; NTLMv2 responses are computed here by Python's HMAC-MD5
(MS-NLMP 3.3.2).
"""

import hmac
import itertools

from documents import ANN, BOB, FILE1, HEAD, NORTH, PDC2, USER_DEFAULTS, WEST, document, sid
from forms import array, items, line, live_calls, ok, struct, units, utf16, values
from md4 import md4

CONTROLLER = "PDC1"
NOW = 133_000_000_000_000_000
NEVER = 0x7FFF_FFFF_FFFF_FFFF
CHALLENGE = "0123456789abcdef"

# The NTLMv1 response under a hash of 16 bytes 0x11 to that challenge and its session base key, the response under one
# of 16 bytes 0x41, and the NTLMv2 response of the user ANN of no domain at time 0 with no pairs and its key: by another
# implementation of MS-NLMP 3.3.
V1 = "176724fef3cefd31176724fef3cefd31f905acd82f73dc92"
V1_KEY = "6428471eef58e829c71f646c6795491a"
WRONG = "1c060effcee3751f1c060effcee3751f799e058076233584"
V2 = "c4a7c6787e62eec05e07383265e99aff01010000000000000000000000000000aaaaaaaaaaaaaaaa0000000000000000"
V2_KEY = "03fdca0516ed31fd1fad519b6a46a89c"

STATUS = {
    "no such domain": 0xC00000DF,
    "no such user": 0xC0000064,
    "trust account": 0xC0000198,
    "workstation account": 0xC0000199,
    "server account": 0xC000019A,
    "locked": 0xC0000234,
    "wrong password": 0xC000006A,
    "disabled": 0xC0000072,
    "expired": 0xC0000193,
    "workstation": 0xC0000070,
    "must change": 0xC0000224,
    "password expired": 0xC0000071,
}

# The rules on a user's account in their order, each with keys of the account by which it refuses; the wrong password
# has none.
RULES = [
    ("locked", {"locked": True}),
    ("wrong password", {}),
    ("disabled", {"disabled": True}),
    ("expired", {"expires": NOW}),
    ("workstation", {"workstations": ["WS2"]}),
    ("must change", {"must_change": True}),
    ("password expired", {"password_expires": NOW}),
]


def hmac_md5(key, data):
    """HMAC-MD5, by Python's own library."""
    return hmac.new(key, data, "md5").digest()


def respond_v2(entry, user, domain, challenge, pairs=b"", client=b"\xaa" * 8, time=0):
    """An NTLMv2 response and its session base key, in hex (MS-NLMP 3.3.2)."""
    name = (user.upper() + domain).encode("utf-16-le")
    key = hmac_md5(bytes.fromhex(entry["hash"]), name)
    temp = b"\1\1" + bytes(6) + time.to_bytes(8, "little") + client + bytes(4) + pairs + bytes(4)
    proof = hmac_md5(key, bytes.fromhex(challenge) + temp)
    return (proof + temp).hex(), hmac_md5(key, proof).hex()


def judge(text, user, nt, domain="CORP", workstation="WS", challenge=CHALLENGE, now=NOW):
    """A line that judges a logon."""
    names = utf16(domain), utf16(user), utf16(workstation)
    return line("logon.judge", text, CONTROLLER.encode(), *names, challenge, nt, now)


def refused(why):
    """What is printed of a refusal."""
    return ok(f"Status({STATUS[why]})")


def granted(entry, key, head=None, now=NOW, level=3):
    """What is printed of what is granted to the user of an entry, as a reply at a level carries it."""
    head = HEAD if head is None else head
    entry = USER_DEFAULTS | entry
    extra = entry["extra_sids"] if level == 3 else []
    info = struct(
        "SamInfo",
        logon_time=now,
        logoff_time=NEVER,
        kickoff_time=NEVER,
        password_set=entry["password_set"],
        password_can_change=entry["password_set"],
        password_must_change=entry["password_expires"] or NEVER,
        effective_name=units(entry["name"]),
        full_name=units(entry["full_name"]),
        script=units(""),
        profile=units(""),
        home=units(""),
        home_drive=units(""),
        logon_count=0,
        bad_count=0,
        user_id=entry["rid"],
        group_id=entry["group"],
        groups=items(f"({group}, 7)" for group in entry["groups"]),
        user_flags=0x20 if extra else 0,
        key=array(key),
        server=units(CONTROLLER),
        domain=units(head["domain"]),
        sid=sid(head["sid"]),
        extra=items(f"({sid(each)}, 7)" for each in extra),
    )
    return ok(f"Granted({info})")


def of_rules(head=HEAD):
    """Every choice of rules that hold at once: the first decides."""
    out = []
    for holds in itertools.product([False, True], repeat=len(RULES)):
        keys, why, nt = {}, None, V1
        for (rule, of_rule), hold in zip(RULES, holds):
            if hold:
                keys |= of_rule
                why = why or rule
                nt = WRONG if rule == "wrong password" else nt
        answer = refused(why) if why else granted(ANN | keys, V1_KEY)
        out.append((judge(document([ANN | keys], head=head), "ann", nt), answer))
    return out


def of_names():
    """The domain, the user and the kind of the account come before the rules on the account."""
    text = document([ANN | {"locked": True}, BOB], [FILE1, PDC2, NORTH], trusts=[WEST])
    out = []
    for user, domain, why in [
        ("ann", "WEST", "no such domain"),
        ("NORTH$", "CORP", "trust account"),
        ("north$", "", "trust account"),
        ("dan", "OTHER", "no such domain"),
        ("ann", "OTHER", "no such domain"),
        ("FILE1$", "OTHER", "no such domain"),
        ("dan", "CORP", "no such user"),
        ("", "CORP", "no such user"),
        ("FILE1", "CORP", "no such user"),
        ("FILE1$", "CORP", "workstation account"),
        ("file1$", "corp", "workstation account"),
        ("PDC2$", "", "server account"),
        ("ann", "CORP", "locked"),
        ("bob", "CORP", "wrong password"),
    ]:
        out.append((judge(text, user, V1, domain), refused(why)))
    out.append((judge(text, "FILE1$", WRONG), refused("workstation account")))
    disabled = document([ANN], [PDC2 | {"disabled": True}])
    out.append((judge(disabled, "PDC2$", WRONG), refused("server account")))
    return out


def of_moments():
    """A moment that is set has come from that moment on; 0 is none."""
    out = []
    for key, why in [("expires", "expired"), ("password_expires", "password expired")]:
        for moment, now, has_come in [
            (0, NOW, False),
            (NOW, NOW, True),
            (NOW + 1, NOW, False),
            (NOW - 1, NOW, True),
            (1, 0, False),
            (1, 1, True),
            (NEVER, NEVER - 1, False),
            (NEVER, NEVER, True),
            (0, 2**64 - 1, False),
        ]:
            entry = ANN | {key: moment}
            answer = refused(why) if has_come else granted(entry, V1_KEY, now=now)
            out.append((judge(document([entry]), "ann", V1, now=now), answer))
    return out


def of_workstations():
    """Any workstation where none is listed; else one of those, in any case of its letters."""
    out = []
    for listed, workstation, may in [
        ([], "WS", True),
        ([], "", True),
        (["WS"], "WS", True),
        (["WS"], "ws", True),
        (["WS2", "ws"], "WS", True),
        (["WS2"], "WS", False),
        (["WS"], "", False),
        (["WS"], "WS2", False),
        (["WS"], "W", False),
        (["1", "2", "3", "4", "5", "6", "7", "WS"], "WS", True),
    ]:
        entry = ANN | {"workstations": listed}
        answer = granted(entry, V1_KEY) if may else refused("workstation")
        out.append((judge(document([entry]), "ann", V1, workstation=workstation), answer))
    return out


def of_grants():
    """What is granted."""
    further = {
        "full_name": "Ann of Corp",
        "groups": [513, 1100],
        "group": 514,
        "password_set": 132_000_000_000_000_000,
        "password_expires": NOW + 1,
        "workstations": ["WS2", "ws"],
    }
    out = []
    for keys in [{}, further, {"groups": []}, {"groups": list(range(1, 257))}, {"rid": 4294967295}]:
        entry = ANN | keys
        out.append((judge(document([BOB, entry]), "ann", V1), granted(entry, V1_KEY)))
    # No domain, and another case of the name's letters: the user's own table, and a response made for these.
    text = document([ANN])
    out.append((judge(text, "ANN", V1, domain=""), granted(ANN, V1_KEY)))
    out.append((judge(text, "ANN", V2, domain=""), granted(ANN, V2_KEY)))
    assert respond_v2(ANN, "ANN", "", CHALLENGE) == (V2, V2_KEY)
    # NTLMv2: the user counts in upper case, the domain as it was sent.
    for entry in [ANN, BOB, ANN | {"name": "n" * 64}]:
        for domain in ["CORP", "corp", ""]:
            for user in [entry["name"], entry["name"].upper()]:
                pairs = b"\2\0\4\0W\0S\0" + bytes(4)
                nt, key = respond_v2(entry, user, domain, CHALLENGE, pairs, time=NOW)
                text = document([entry])
                out.append((judge(text, user, nt, domain), granted(entry, key)))
                other = "" if domain else "CORP"
                out.append((judge(text, user, nt, other), refused("wrong password")))
    return out


def of_settings():
    """The responses of the published settings, under tables that have their hash."""
    out = []
    for case in values("ntlm")["settings"]:
        entry = {"name": "u", "rid": 7, "hash": case["nt_hash"]}
        text = document([entry])
        challenge, v1, ess, v2 = case["server_challenge"], case["v1"], case["v1_ess"], case["v2"]
        out.append((judge(text, "u", v1["nt_response"], challenge=challenge), granted(entry, v1["base_key"])))
        hashed = ess["hashed_challenge"]
        out.append((judge(text, "u", ess["nt_response"], challenge=hashed), granted(entry, ess["base_key"])))
        # With extended session security the hashed challenge is answered, and the server's is not.
        out.append((judge(text, "u", ess["nt_response"], challenge=challenge), refused("wrong password")))
        # The table's names are ASCII.
        if case["user"].isascii() and case["domain"].isascii():
            entry |= {"name": case["user"]}
            head = HEAD | {"domain": case["domain"] or "CORP"}
            nt = v2["nt_response"]
            logon = judge(document([entry], head=head), case["user"], nt, case["domain"], challenge=challenge)
            out.append((logon, granted(entry, v2["base_key"], head)))
    return out


def of_live_link():
    """The three logons of a recorded link, with the statuses of Samba's controller: ann is granted, bob's password is
    wrong, and there is no user of the third name. The session base key of NTLMv1 is MD4 of the hash (MS-NLMP 3.3.1)."""
    text = document([ANN, BOB])
    out = []
    logons = live_calls()[4:]
    for call, reply in zip(logons[::2], logons[1::2]):
        info, status = call["fields"]["info"], reply["fields"]["status"]
        if status == 0:
            answer = granted(ANN, md4(bytes.fromhex(ANN["hash"])).hex())
        else:
            answer = ok(f"Status({status})")
        names = info["domain"], info["workstation"], info["challenge"]
        out.append((judge(text, info["user"], info["nt"], *names), answer))
    assert len(out) == 3
    return out


def interactive(text, user, nt, domain="CORP", workstation="WS", now=NOW):
    """A line that judges an interactive logon."""
    names = utf16(domain), utf16(user), utf16(workstation)
    return line("logon.interactive", text, CONTROLLER.encode(), *names, nt, now)


def of_interactive_logons():
    """By the NT hash itself: the same rules in the same order, and the key is MD4 of the hash."""
    out = []
    wrong = "41" * 16
    for holds in itertools.product([False, True], repeat=len(RULES)):
        keys, why, nt = {}, None, ANN["hash"]
        for (rule, of_rule), hold in zip(RULES, holds):
            if hold:
                keys |= of_rule
                why = why or rule
                nt = wrong if rule == "wrong password" else nt
        answer = refused(why) if why else granted(ANN | keys, V1_KEY)
        out.append((interactive(document([ANN | keys]), "ann", nt), answer))
    text = document([ANN | {"locked": True}, BOB], [FILE1, PDC2])
    for user, domain, why in [
        ("dan", "OTHER", "no such domain"),
        ("ann", "OTHER", "no such domain"),
        ("dan", "CORP", "no such user"),
        ("FILE1$", "corp", "workstation account"),
        ("PDC2$", "", "server account"),
        ("ann", "CORP", "locked"),
        ("bob", "CORP", "wrong password"),
    ]:
        out.append((interactive(text, user, ANN["hash"], domain), refused(why)))
    text = document([ANN, BOB])
    for user, domain in [("ANN", ""), ("aNn", "Corp")]:
        out.append((interactive(text, user, ANN["hash"], domain), granted(ANN, V1_KEY)))
    # each byte of the hash counts
    for place in range(16):
        nt = bytearray.fromhex(ANN["hash"])
        nt[place] ^= 1
        out.append((interactive(text, "ann", bytes(nt)), refused("wrong password")))
    for case in values("ntlm")["settings"]:
        entry = {"name": "u", "rid": 7, "hash": case["nt_hash"]}
        out.append((interactive(document([entry]), "u", case["nt_hash"]), granted(entry, case["v1"]["base_key"])))
    return out


# ---- one after the other

# Rules that refuse, but for the wrong password: their status, and keys of the account or of the table by which they do,
# in their order.
REFUSING = {
    "locked": ({"locked": True}, {}),
    "disabled": ({"disabled": True}, {}),
    "expired": ({"expires": NOW}, {}),
    "workstation": ({"workstations": ["WS2"]}, {}),
    "must change": ({"must_change": True}, {}),
    "password expired": ({"password_expires": NOW}, {}),
}


class Judging:
    """Verdicts one after the other, and the counts of bad passwords, by the rules: of accounts that another rule
    refuses, or none."""

    def __init__(self, entries, head=None):
        self.head = HEAD | (head or {})
        self.text = document(entries, head=self.head)
        self.entries = entries
        self.counts = [0] * len(entries)
        self.changes = []
        self.words, self.answers = [], []

    def standing(self, at):
        """The count as the changes leave it."""
        return ([self.counts[at]] + [count for place, count in self.changes if place == at])[-1]

    def verdict(self, at, right, short):
        """The verdict on an account, and its count afterwards."""
        entry, count = USER_DEFAULTS | self.entries[at], self.standing(at)
        lockout = self.head.get("lockout", 0)
        if entry["locked"] or (lockout and lockout <= count):
            return f"status {STATUS['locked']}", count
        if self.head.get("ntlmv2_only") and short:
            return f"status {STATUS['wrong password']}", count
        if not right:
            return f"status {STATUS['wrong password']}", min(count + 1, 65535)
        for why in ["disabled", "expired", "workstation", "must change", "password expired"]:
            keys, _ = REFUSING[why]
            if all(entry[key] == value for key, value in keys.items()):
                return f"status {STATUS[why]}", count
        extra = len(entry["extra_sids"])
        return f"granted {count} {0x20 if extra else 0} {extra}", 0

    def step(self, how, at, *shown, right=True, short=False, user=None):
        """A logon of the user of an entry."""
        names = [utf16("CORP"), utf16(user or self.entries[at]["name"]), utf16("WS")]
        self.words.append(",".join([how] + names + list(shown)))
        verdict, count = self.verdict(at, right, short)
        if how in ("judge", "interactive"):
            assert not self.changes
            self.counts[at] = count
        elif count != self.standing(at):
            self.changes.append((at, count))
            verdict += f" Some({struct('TableChange', place=at, change=f'Count({count})')})"
        else:
            verdict += " None"
        self.answers.append(verdict)

    def network(self, at, nt, right, how="judge"):
        self.step(how, at, CHALLENGE, nt, right=right, short=len(nt) == 48)

    def hash(self, at, nt, how="interactive"):
        self.step(how, at, nt, right=nt == self.entries[at]["hash"])

    def commit(self):
        self.words.append("commit")
        for at, count in self.changes:
            self.counts[at] = count
        self.changes = []
        self.answers.append("done")

    def set_count(self, at, count):
        self.words.append(f"set_count,{at},{count}")
        self.counts[at] = count
        self.answers.append(f"Some({count})")

    def count(self, at):
        self.words.append(f"count,{at}")
        self.answers.append(f"Some({self.counts[at]})")

    def case(self):
        return line("logon.steps", self.text, CONTROLLER.encode(), NOW, *self.words), ";".join(self.answers)


def of_lockout():
    """A count of bad passwords rises with each wrong one, is 0 after a grant, and locks out."""
    out = []
    wrong_v2 = "00" * 44
    right_v2, _ = respond_v2(ANN, "ann", "CORP", CHALLENGE)
    wrong_hash = "41" * 16
    # Two wrong ones lock out under 2; under 3 the third is granted with a count of 2, and a fourth with 0.
    for lockout, answers in [(2, ["C000006A", "C000006A", "C0000234"]), (3, ["C000006A", "C000006A", "granted 2", "granted 0"])]:
        judging = Judging([ANN], {"lockout": lockout})
        for at, _ in enumerate(answers):
            judging.network(0, WRONG if at < 2 else V1, 2 <= at)
        judging.count(0)
        for answer, wanted in zip(judging.answers, answers):
            assert answer == f"{wanted} 0 0" if "granted" in wanted else answer == f"status {int(wanted, 16)}"
        out.append(judging.case())
    # Under each number, with a network logon and an interactive one in turn, about each limit.
    for lockout in [0, 1, 2, 3, 999, 1000]:
        for start in sorted({0, max(lockout - 2, 0), max(lockout - 1, 0), lockout, lockout + 1, 65534, 65535}):
            judging = Judging([BOB, ANN], {"lockout": lockout})
            judging.set_count(1, start)
            for _ in range(2):
                judging.network(1, WRONG, False)
                judging.count(1)
                judging.hash(1, wrong_hash)
                judging.count(1)
            judging.network(1, V1, True)
            judging.count(1)
            judging.hash(1, ANN["hash"])
            judging.network(1, right_v2, True)
            judging.count(1)
            judging.count(0)
            out.append(judging.case())
    # An account that a rule refuses: a wrong password raises the count where the rule stands behind it, a right one
    # leaves it.
    for why, (keys, _) in REFUSING.items():
        for lockout in [0, 3]:
            judging = Judging([ANN | keys], {"lockout": lockout})
            judging.set_count(0, 1)
            for nt, right in [(V1, True), (WRONG, False), (V1, True)]:
                judging.network(0, nt, right)
                judging.count(0)
            for nt in [ANN["hash"], wrong_hash, ANN["hash"]]:
                judging.hash(0, nt)
                judging.count(0)
            assert judging.answers[1] == f"status {STATUS[why]}" and judging.answers[2] == "Some(1)"
            out.append(judging.case())
    # Responses of each kind under a table that refuses those of 24 bytes: they leave the count, right or wrong. A hash
    # is none.
    for only in [False, True]:
        judging = Judging([ANN], {"ntlmv2_only": only, "lockout": 5})
        for nt, right in [(V1, True), (WRONG, False), (right_v2, True), (wrong_v2, False), ("", False), ("11" * 23, False), ("11" * 25, False), (right_v2, True)]:
            judging.network(0, nt, right)
            judging.count(0)
        judging.hash(0, wrong_hash)
        judging.hash(0, ANN["hash"])
        judging.count(0)
        if only:
            assert judging.answers[0] == "status 3221225578" and judging.answers[1] == "Some(0)"
        out.append(judging.case())
    # Weighed, with changes that are to be made: the last one of the account counts, and the table stays until they are
    # made.
    for lockout in [0, 2]:
        judging = Judging([BOB, ANN], {"lockout": lockout})
        for nt, right in [(WRONG, False), (V1, True), (WRONG, False), (WRONG, False), (V1, True), (right_v2, True)]:
            judging.network(1, nt, right, "weigh")
            judging.count(1)
        judging.hash(1, wrong_hash, "weigh_interactive")
        judging.hash(0, BOB["hash"], "weigh_interactive")
        judging.hash(0, wrong_hash, "weigh_interactive")
        judging.commit()
        judging.count(0)
        judging.count(1)
        judging.network(1, V1, True)
        judging.count(1)
        out.append(judging.case())
    return out


def of_machines_by_count():
    """The kind of an account is judged before its count: a machine's account is refused for its kind, and its count
    stays, also where it would lock a user out."""
    out = []
    kinds = [(FILE1, "workstation account"), (PDC2, "server account"), (NORTH, "trust account")]
    for entry, why in kinds:
        text = document([ANN], [entry], head=HEAD | {"lockout": 2}, trusts=[WEST])
        names = [utf16("CORP"), utf16(entry["name"]), utf16("WS")]
        words, answers = [], []
        for count in (0, 1, 2, 3):
            words += [f"set_count,1,{count}", ",".join(["judge"] + names + [CHALLENGE, WRONG])]
            words += [",".join(["interactive"] + names + [entry["hash"]]), "count,1"]
            answers += [f"Some({count})", f"status {STATUS[why]}", f"status {STATUS[why]}", f"Some({count})"]
        out.append((line("logon.steps", text, CONTROLLER.encode(), NOW, *words), ";".join(answers)))
    return out


def of_table_of_verdicts():
    """The table of verdicts again, under other numbers of bad passwords; and with responses of 24 bytes refused all but
    the kinds of accounts and what is locked is a wrong password."""
    out = []
    for lockout in [0, 1, 3, 1000]:
        out += of_rules(HEAD | {"lockout": lockout})
    head = HEAD | {"ntlmv2_only": True}
    for keys in [{}, {"disabled": True}, {"expires": NOW}, {"must_change": True}]:
        for nt in [V1, WRONG]:
            out.append((judge(document([ANN | keys], head=head), "ann", nt), refused("wrong password")))
            out.append((judge(document([ANN | keys | {"locked": True}], head=head), "ann", nt), refused("locked")))
    return out


def alone(answer):
    """What a call gives that can't fail, in place of the Ok that has it."""
    return answer.removeprefix("Ok(").removesuffix(")")


def of_levels():
    """What a reply carries at each level."""
    out = []
    aliases = ["S-1-5-32-544", "S-1-18-1"]
    for extra in [[], aliases[:1], aliases, [f"S-1-5-{number}" for number in range(16)]]:
        entry = ANN | {"extra_sids": extra}
        words, answer = judge(document([entry]), "ann", V1), granted(entry, V1_KEY)
        out.append((words, answer))
        for level in [2, 3, 4, 6]:
            at_level = line("logon.at_level", *words.split(" ")[1:], level)
            out.append((at_level, alone(granted(entry, V1_KEY, level=level))))
        out.append((interactive(document([entry]), "ann", ANN["hash"]), answer))
    words = judge(document([ANN | {"disabled": True}]), "ann", V1)
    out.append((line("logon.at_level", *words.split(" ")[1:], 2), alone(refused("disabled"))))
    return out


def cases():
    """Each line and its answer."""
    return (
        of_live_link()
        + of_rules()
        + of_names()
        + of_moments()
        + of_workstations()
        + of_grants()
        + of_settings()
        + of_interactive_logons()
        + of_lockout()
        + of_machines_by_count()
        + of_table_of_verdicts()
        + of_levels()
    )
