"""Cases of account_table.

`table.read DOCUMENT` (the domain's name, its identifier and the number of accounts, or the refusal), `table.policy
DOCUMENT`, `table.account DOCUMENT AT`, `table.trust DOCUMENT AT`, `table.find DOCUMENT USER`, `table.machine DOCUMENT
ACCOUNT CHANNEL COMPUTER`, `table.knows DOCUMENT COMPUTER`, `table.route DOCUMENT DOMAIN`; `table.find_among COUNT
USER..` looks up among so many users `u0`, `u1` and so on, and
`table.read_without_keys USERS MACHINES TRUSTS` reads so many of each that have no keys. Documents are bytes, names of
look-ups 16-bit units.

`table.steps DOCUMENT STEP..` changes a table: `set_count,AT,COUNT`, `set_hash,AT,HASH`, `count,AT`, `hash,AT` (and
whether it was set),
`secrets`, `apply,TEXT`; and collects changes: `change,AT,COUNT`, `change_hash,AT,HASH`, `count_with,AT`,
`state_with,AT` (the count, the hash, and whether it was set), `secrets_with`, `commit`.

The document and its refusals are this project's own choice (docs/FORMATS.md, "Account table"); the answers were worked
out from that table by hand.
"""

import copy

from documents import (
    ANN,
    BOB,
    EVE,
    FILE1,
    FILE2,
    HEAD,
    NORTH,
    PDC2,
    WEST,
    account,
    document,
    name,
    sid,
)
from forms import array, line, struct, utf16
from wire import truth

CORP = document([ANN, BOB, EVE], [FILE1, FILE2])
LONG = "n" * 64
TOO_LONG = "n" * 65
HASH = "22" * 16

# All keys of a user and of a machine.
WHOLE_ANN = {
    "name": "Ann",
    "rid": 4294967295,
    "hash": "00112233445566778899aabbccDDEEFF",
    "full_name": "Ann of Corp",
    "group": 514,
    "groups": [513, 514],
    "disabled": True,
    "locked": True,
    "must_change": True,
    "expires": 1,
    "password_set": 2,
    "password_expires": 9223372036854775807,
    "workstations": ["WS", "WS2"],
    "extra_sids": ["S-1-5-32-544", "S-1-18-1"],
}
WHOLE_PDC2 = PDC2 | {"disabled": True}
WHOLE = document(
    [WHOLE_ANN | {"other": 1}],
    [WHOLE_PDC2 | {"rid": "x", "locked": 1, "controllers": 1, "extra_sids": 1}],
    HEAD | {"lockout": 1000, "ntlmv2_only": True, "other": 1},
    [WEST | {"controllers": 1}],
)

# Documents whose refusal stands in the document itself.
TOP = [
    ("user = 1\nmachine = 1", "BadValue", "User"),
    ("user = [1]", "BadValue", "User"),
    ("user = {}", "BadValue", "User"),
    ("machine = [{}, 1]\nuser = [{}]", "BadValue", "Machine"),
    ("machine = 'x'", "BadValue", "Machine"),
    ("sid = 'S-1-5-1'\nuser = [{}]", "Missing", "Domain"),
    ("", "Missing", "Domain"),
    ("domain = ''", "BadValue", "Domain"),
    ("domain = 1", "BadValue", "Domain"),
    ('domain = "C\\tP"', "BadValue", "Domain"),
    ("domain = 'CÖRP'", "BadValue", "Domain"),
    (f"domain = '{TOO_LONG}'", "BadValue", "Domain"),
    ("domain = 'CORP'", "Missing", "Sid"),
    ("domain = 'CORP'\nsid = 1", "BadValue", "Sid"),
    ("domain = 'CORP'\nsid = 'S-1-05-1'", "BadValue", "Sid"),
    ("domain = 'CORP'\nsid = 'S-1-5'", "BadValue", "Sid"),
    ("domain = 'CORP'\nsid = 'S-1-5-1-2-3-4-5-6-7-8-9-10-11-12-13-14-15'", "BadValue", "Sid"),
    # `lockout` and then `ntlmv2_only` come behind the identifier, and before the users.
    ("lockout = 'x'\nntlmv2_only = 1\ndomain = 'CORP'", "Missing", "Sid"),
    ("lockout = -1\nntlmv2_only = 1\ndomain = 'CORP'\nsid = 'S-1-5-1'\nuser = [{}]", "BadValue", "Lockout"),
    ("lockout = 1001\ndomain = 'CORP'\nsid = 'S-1-5-1'", "BadValue", "Lockout"),
    ("lockout = '1'\ndomain = 'CORP'\nsid = 'S-1-5-1'", "BadValue", "Lockout"),
    ("lockout = 1000\nntlmv2_only = 1\ndomain = 'CORP'\nsid = 'S-1-5-1'\nuser = [{}]", "BadValue", "Ntlmv2Only"),
    ("ntlmv2_only = 'true'\ndomain = 'CORP'\nsid = 'S-1-5-1'", "BadValue", "Ntlmv2Only"),
    # The list of trusted domains is looked at behind that of the machines.
    ("trust = 1\nmachine = 1", "BadValue", "Machine"),
    ("trust = [1]\nmachine = [{}]", "BadValue", "Trust"),
    ("trust = [{}]", "Missing", "Domain"),
]

# Keys of a second user, and the first refusal among them.
USER = [
    ({}, "Missing", "Name"),
    ({"name": "bob$"}, "BadValue", "Name"),
    ({"name": ""}, "BadValue", "Name"),
    ({"name": 1}, "BadValue", "Name"),
    ({"name": TOO_LONG}, "BadValue", "Name"),
    ({"name": "bob"}, "Missing", "Rid"),
    ({"name": "bob", "rid": 0}, "BadValue", "Rid"),
    ({"name": "bob", "rid": -1}, "BadValue", "Rid"),
    ({"name": "bob", "rid": 4294967296}, "BadValue", "Rid"),
    ({"name": "bob", "rid": "1"}, "BadValue", "Rid"),
    ({"name": "bob", "rid": 1}, "Missing", "Hash"),
    ({"name": "bob", "rid": 1, "hash": "22"}, "BadValue", "Hash"),
    ({"name": "bob", "rid": 1, "hash": "2" * 31 + "g"}, "BadValue", "Hash"),
    ({"name": "bob", "rid": 1, "hash": "2" * 33}, "BadValue", "Hash"),
    ({"name": "bob", "rid": 1, "hash": "2" * 34}, "BadValue", "Hash"),
    ({"name": "bob", "rid": 1, "hash": 2}, "BadValue", "Hash"),
]

# Values of keys that a user needn't have.
OPTIONAL = [
    ("full_name", 1, "FullName"),
    ("full_name", TOO_LONG, "FullName"),
    ("full_name", "Ännchen", "FullName"),
    ("group", 0, "Group"),
    ("group", 4294967296, "Group"),
    ("groups", [513, -1], "Groups"),
    ("groups", 513, "Groups"),
    ("groups", [0], "Groups"),
    ("groups", list(range(1, 258)), "Groups"),
    ("disabled", 1, "Disabled"),
    ("locked", "true", "Locked"),
    ("must_change", 0, "MustChange"),
    ("expires", -1, "Expires"),
    ("expires", "0", "Expires"),
    ("password_set", -1, "PasswordSet"),
    ("password_expires", "0", "PasswordExpires"),
    ("workstations", ["WS", ""], "Workstations"),
    ("workstations", "WS", "Workstations"),
    ("workstations", [TOO_LONG], "Workstations"),
    ("workstations", ["1", "2", "3", "4", "5", "6", "7", "8", "9"], "Workstations"),
    ("extra_sids", "S-1-5-32-544", "ExtraSids"),
    ("extra_sids", ["S-1-05-1"], "ExtraSids"),
    ("extra_sids", ["S-1-5-32-544", "S-1-5"], "ExtraSids"),
    ("extra_sids", ["S-1-5-32-544", 1], "ExtraSids"),
    ("extra_sids", [f"S-1-5-{number}" for number in range(17)], "ExtraSids"),
]

# Values up to their limits.
TAKEN = [
    {"full_name": LONG},
    {"full_name": ""},
    {"workstations": ["1", "2", "3", "4", "5", "6", "7", LONG]},
    {"workstations": []},
    {"groups": list(range(1, 257))},
    {"groups": []},
    {"groups": [1, 4294967295]},
    {"group": 1},
    {"group": 4294967295},
    {"expires": 0},
    {"expires": 9223372036854775807},
    {"password_set": 9223372036854775807},
    {"disabled": False, "locked": False, "must_change": False},
    {"extra_sids": []},
    {"extra_sids": [f"S-1-5-{number}" for number in range(16)]},
    {"extra_sids": ["S-1-281474976710655-4294967295-2-3-4-5-6-7-8-9-10-11-12-13-14-15"]},
]

# Keys of a machine, and the first refusal among them.
MACHINE = [
    ({}, "Missing", "Name"),
    ({"name": "F"}, "BadValue", "Name"),
    ({"name": "$"}, "BadValue", "Name"),
    ({"name": LONG + "$"}, "BadValue", "Name"),
    ({"name": "F$"}, "Missing", "Kind"),
    ({"name": "F$", "kind": "Trust"}, "BadValue", "Kind"),
    ({"name": "F$", "kind": "trust"}, "Missing", "Hash"),
    ({"name": "F$", "kind": "trust", "hash": HASH}, "Missing", "Controllers"),
    ({"name": "F$", "kind": "trust", "hash": HASH, "disabled": 1}, "BadValue", "Disabled"),
    ({"name": "F$", "kind": "Backup"}, "BadValue", "Kind"),
    ({"name": "F$", "kind": 2}, "BadValue", "Kind"),
    ({"name": "F$", "kind": "backup"}, "Missing", "Hash"),
    ({"name": "F$", "kind": "backup", "hash": ""}, "BadValue", "Hash"),
    ({"name": "F$", "kind": "backup", "hash": HASH, "disabled": 1}, "BadValue", "Disabled"),
]


# Values of a trust's controllers that aren't taken: from one to eight names of 1 to 64 bytes are.
CONTROLLERS = ["NDC1", [], [""], ["NDC1", 1], [TOO_LONG], [f"NDC{number}" for number in range(9)]]

# Keys of a trusted domain, and the first refusal among them.
TRUST = [
    ({}, "Missing", "Domain"),
    ({"domain": ""}, "BadValue", "Domain"),
    ({"domain": 1}, "BadValue", "Domain"),
    ({"domain": TOO_LONG}, "BadValue", "Domain"),
    # The table's own name, in any case of its letters.
    ({"domain": "CORP"}, "BadValue", "Domain"),
    ({"domain": "Corp"}, "BadValue", "Domain"),
    ({"domain": "EAST"}, "Missing", "Hash"),
    ({"domain": "EAST", "hash": "22"}, "BadValue", "Hash"),
    ({"domain": "EAST", "hash": HASH}, "Missing", "Address"),
    ({"domain": "EAST", "hash": HASH, "address": ""}, "BadValue", "Address"),
    ({"domain": "EAST", "hash": HASH, "address": 1}, "BadValue", "Address"),
    ({"domain": "EAST", "hash": HASH, "address": "a" * 256}, "BadValue", "Address"),
]


def read(text):
    """A line that reads a document."""
    return line("table.read", text)


def refusal(how, part, entry, word):
    """What is printed of a refusal at a key."""
    return f"{how}(Key {{ list: {part}, entry: {entry}, word: {word} }})"


def trust(entry):
    """What is printed of the trusted domain that an entry stands for."""
    address = struct("Blob", bytes=array(entry["address"].encode("ascii").hex()))
    return struct("Trust", domain=name(entry["domain"]), hash=array(entry["hash"]), address=address)


def table(head, count):
    """What is printed of a table."""
    return f"{name(head['domain'])} {sid(head['sid'])} {count}"


def of_tables():
    """Documents that are taken, and their accounts."""
    out = [(read(CORP), table(HEAD, 5)), (read(WHOLE), table(HEAD, 2)), (read(document()), table(HEAD, 0))]
    entries = [(ANN, "User"), (BOB, "User"), (EVE, "User"), (FILE1, "Workstation"), (FILE2, "Workstation")]
    for at, (entry, kind) in enumerate(entries):
        out.append((line("table.account", CORP, at), f"Some({account(entry, kind)})"))
    out.append((line("table.account", WHOLE, 0), f"Some({account(WHOLE_ANN, 'User')})"))
    out.append((line("table.account", WHOLE, 1), f"Some({account(WHOLE_PDC2, 'Backup')})"))
    for at in [5, 6, 4294967295]:
        out.append((line("table.account", CORP, at), "None"))
    for keys in TAKEN:
        text = document([ANN, BOB | keys])
        out.append((read(text), table(HEAD, 2)))
        out.append((line("table.account", text, 1), f"Some({account(BOB | keys, 'User')})"))
    long_sid = HEAD | {"sid": "S-1-5-1-2-3-4-5-6-7-8-9-10-11-12-13-14"}
    out.append((read(document(head=long_sid)), table(long_sid, 0)))
    # What holds of all accounts.
    for head, lockout, only in [
        ({}, 0, "false"),
        ({"lockout": 0, "ntlmv2_only": False}, 0, "false"),
        ({"lockout": 1}, 1, "false"),
        ({"lockout": 1000, "ntlmv2_only": True}, 1000, "true"),
        ({"ntlmv2_only": True}, 0, "true"),
    ]:
        policy = struct("Policy", lockout=lockout, ntlmv2_only=only)
        out.append((line("table.policy", document([ANN], head=HEAD | head)), policy))
    # Trusts' accounts, and trusted domains.
    for keys in [{}, {"controllers": ["N"]}, {"controllers": [f"NDC{number}" for number in range(7)] + [LONG]}, {"disabled": True}]:
        text = document([ANN], [NORTH | keys])
        out.append((line("table.account", text, 1), f"Some({account(NORTH | keys, 'Trust')})"))
    trusts = [WEST, {"domain": LONG, "hash": "66" * 16, "address": "a" * 255}, WEST | {"domain": "EAST", "address": "e"}]
    text = document([ANN], [NORTH], trusts=trusts)
    out.append((read(text), table(HEAD, 2)))
    for at, entry in enumerate(trusts):
        out.append((line("table.trust", text, at), f"Some({trust(entry)})"))
    for at in [3, 4294967295]:
        out.append((line("table.trust", text, at), "None"))
    out.append((line("table.trust", WHOLE, 0), f"Some({trust(WEST)})"))
    out.append((line("table.trust", CORP, 0), "None"))
    long_domain = HEAD | {"domain": LONG}
    out.append((read(document(head=long_domain)), table(long_domain, 0)))
    out.append((read(document([ANN | {"name": LONG}])), table(HEAD, 1)))
    return out


def of_refusals():
    """Documents that are refused, each at its first key."""
    out = []
    for text, how, word in TOP:
        out.append((read(text.encode("utf-8")), refusal(how, "Top", 0, word)))
    for keys, how, word in USER:
        out.append((read(document([ANN, keys])), refusal(how, "User", 1, word)))
    for key, value, word in OPTIONAL:
        keys = {"name": "bob", "rid": 1, "hash": HASH, key: value}
        out.append((read(document([ANN, keys])), refusal("BadValue", "User", 1, word)))
    # A number that isn't whole is no number of the table.
    text = document([ANN, BOB]).replace(b"rid = 1002", b"rid = 1002\npassword_set = 1.5")
    out.append((read(text), refusal("BadValue", "User", 1, "PasswordSet")))
    for keys, how, word in MACHINE:
        out.append((read(document(machines=[keys])), refusal(how, "Machine", 0, word)))
        out.append((read(document([ANN], [FILE1, keys])), refusal(how, "Machine", 1, word)))
    for value in CONTROLLERS:
        keys = {"name": "F$", "kind": "trust", "hash": HASH, "controllers": value}
        out.append((read(document([ANN], [FILE1, keys])), refusal("BadValue", "Machine", 1, "Controllers")))
    for keys, how, word in TRUST:
        out.append((read(document([ANN], [FILE1], trusts=[keys])), refusal(how, "Trust", 0, word)))
        out.append((read(document(trusts=[WEST, keys])), refusal(how, "Trust", 1, word)))
    # Trusted domains come behind the machines.
    out.append((read(document([ANN], [{}], trusts=[{}])), refusal("Missing", "Machine", 0, "Name")))
    # A trusted domain that one before has, in any case of its letters: right after its name is judged.
    out.append((read(document(trusts=[WEST, {"domain": "West"}])), f"Twice({name('West')})"))
    out.append((read(document([ANN], [NORTH], trusts=[WEST, WEST | {"domain": "ann"}])), table(HEAD, 2)))
    # Users come before machines, and the document's own keys before both.
    out.append((read(document([{}], [{}])), refusal("Missing", "User", 0, "Name")))
    out.append((read(document([{}], [{}], {"domain": "CORP"})), refusal("Missing", "Top", 0, "Sid")))
    # A name that an account before has, in any case of its letters: right after the name is judged.
    for users, machines, twice in [
        ([ANN, BOB, EVE, {"name": "Ann"}], [FILE1, FILE2], "Ann"),
        ([ANN, ANN], [], "ann"),
        ([ANN, BOB, EVE], [FILE1, FILE2, {"name": "file1$"}], "file1$"),
    ]:
        out.append((read(document(users, machines)), f"Twice({name(twice)})"))
    out.append((read(document([ANN, {"name": "Anna"}])), refusal("Missing", "User", 1, "Rid")))
    for text in [b"domain = ", b"domain = 'CORP'\xff", b"domain = 'CORP'\ndomain = 'CORP'\n", b"[[user]"]:
        out.append((read(text), "BadToml"))
    # At most 10,000 users, machines and trusted domains together.
    for counts in [(10000, 1, 0), (9999, 1, 1), (10001, 0, 0), (0, 10001, 0), (0, 0, 10001), (5000, 5000, 1)]:
        out.append((line("table.read_without_keys", *counts), "TooMany"))
    for counts in [(9999, 1, 0), (9998, 1, 1), (10000, 0, 0), (0, 10000, 0), (0, 0, 10000)]:
        out.append((line("table.read_without_keys", *counts), refusal("Missing", "Top", 0, "Domain")))
    return out


def of_look_ups():
    """Accounts by name, computers and domains."""
    out = []
    for user, answer in [
        ("ANN", "Some(0)"),
        ("ann", "Some(0)"),
        ("Bob", "Some(1)"),
        ("eve", "Some(2)"),
        ("file1$", "Some(3)"),
        ("FILE2$", "Some(4)"),
        ("dan", "None"),
        ("", "None"),
        ("ann ", "None"),
        ("an", "None"),
        ("änn", "None"),
        ("a" * 64, "None"),
        ("a" * 65, "None"),
    ]:
        out.append((line("table.find", CORP, utf16(user)), answer))
    long_user = document([ANN | {"name": LONG}])
    out.append((line("table.find", long_user, utf16(LONG.upper())), "Some(0)"))
    out.append((line("table.find", long_user, utf16(TOO_LONG)), "None"))
    with_backup = document([ANN], [FILE1, FILE2 | {"disabled": True}, PDC2])
    with_trust = document([ANN], [FILE1, NORTH, NORTH | {"name": "SOUTH$", "controllers": ["SDC"], "disabled": True}], trusts=[WEST, WEST | {"domain": "EAST"}])
    for text, who, channel, computer, answer in [
        (CORP, "file1$", 2, "FILE1", "Some(3)"),
        (CORP, "FILE1$", 2, "file1", "Some(3)"),
        (CORP, "file1$", 6, "FILE1", "None"),
        (CORP, "FILE2$", 2, "FILE1", "None"),
        (CORP, "FILE2$", 2, "FILE2", "Some(4)"),
        (CORP, "FILE1$", 2, "FILE1$", "None"),
        (CORP, "FILE3$", 2, "FILE3", "None"),
        (CORP, "ann", 2, "ann", "None"),
        (CORP, "ann", 2, "an", "None"),
        (with_backup, "FILE1$", 2, "FILE1", "Some(1)"),
        (with_backup, "FILE2$", 2, "FILE2", "None"),
        (with_backup, "PDC2$", 6, "PDC2", "Some(3)"),
        (with_backup, "PDC2$", 2, "PDC2", "None"),
        (with_backup, "PDC2$", 0, "PDC2", "None"),
        (WHOLE, "PDC2$", 6, "PDC2", "None"),
        # A trust's account opens channel type 4 for the computers that it lists, whatever its own name.
        (with_trust, "NORTH$", 4, "NDC1", "Some(2)"),
        (with_trust, "north$", 4, "ndc2", "Some(2)"),
        (with_trust, "NORTH$", 4, "NDC3", "None"),
        (with_trust, "NORTH$", 4, "NORTH", "None"),
        (with_trust, "NORTH$", 2, "NDC1", "None"),
        (with_trust, "NORTH$", 6, "NDC1", "None"),
        (with_trust, "NORTH$", 2, "NORTH", "None"),
        (with_trust, "FILE1$", 4, "FILE1", "None"),
        (with_trust, "FILE1$", 2, "FILE1", "Some(1)"),
        (with_trust, "SOUTH$", 4, "SDC", "None"),
    ]:
        out.append((line("table.machine", text, utf16(who), channel, utf16(computer)), answer))
    for text, computer, answer in [
        (CORP, "file2", "true"),
        (CORP, "FILE1", "true"),
        (CORP, "FILE3", "false"),
        (CORP, "FILE1$", "false"),
        (CORP, "", "false"),
        (CORP, "ann", "false"),
        (CORP, "a" * 64, "false"),
        (with_backup, "PDC2", "true"),
        # Also where it is disabled.
        (with_backup, "FILE2", "true"),
        # A trust's account is known by the computers that it lists.
        (with_trust, "NDC1", "true"),
        (with_trust, "ndc2", "true"),
        (with_trust, "SDC", "true"),
        (with_trust, "NORTH", "false"),
        (with_trust, "FILE1", "true"),
        (with_trust, "WEST", "false"),
    ]:
        out.append((line("table.knows", text, utf16(computer)), answer))
    for domain, answer in [
        ("corp", "Own"),
        ("CORP", "Own"),
        ("", "Own"),
        ("OTHER", "Elsewhere"),
        ("COR", "Elsewhere"),
        ("CORPS", "Elsewhere"),
        ("CÖRP", "Elsewhere"),
    ]:
        out.append((line("table.route", CORP, utf16(domain)), answer))
    for domain, answer in [("west", "Trust(0)"), ("EAST", "Trust(1)"), ("CORP", "Own"), ("", "Own"), ("NORTH", "Elsewhere"), ("WES", "Elsewhere")]:
        out.append((line("table.route", with_trust, utf16(domain)), answer))
    # One account, a few, and many.
    for count in [1, 2, 100, 1000]:
        users = [utf16(user) for user in ["u0", f"U{count - 1}", f"u{count}"]]
        answer = f"Some(0);Some({count - 1});None"
        out.append((line("table.find_among", count, *users), answer))
    return out


class Changing:
    """A table that changes, by its rules: the counts and hashes of its accounts, which of them were set, and the
    changes that are to be made."""

    def __init__(self, users, machines):
        self.text, self.users = document(users, machines), len(users)
        self.names = [entry["name"] for entry in users + machines]
        self.hashes = [entry["hash"].lower() for entry in users + machines]
        self.counts = [0] * len(self.names)
        self.marks = [False] * len(self.names)
        self.changes = []

    def has(self, at):
        return at < len(self.names)

    def place(self, name):
        """The place of a computer's account of that name."""
        places = [at for at, other in enumerate(self.names) if other.upper() == name.upper()]
        return places[0] if places and self.users <= places[0] else None

    def set_count(self, at, count):
        if not self.has(at):
            return "not to be done"
        self.counts[at] = count
        return "done"

    def set_hash(self, at, digits):
        if not self.has(at) or at < self.users:
            return "not to be done"
        self.hashes[at], self.marks[at] = digits, True
        return "done"

    def count(self, at):
        return f"Some({self.counts[at]})" if self.has(at) else "None"

    def hash(self, at):
        return f"{array(self.hashes[at])} {truth(self.marks[at])}" if self.has(at) else "None"

    def secrets(self):
        """A line of each account whose hash was set."""
        lines = [f"{name} {digits}\n" for name, digits, mark in zip(self.names, self.hashes, self.marks) if mark]
        return "".join(lines).encode("ascii").hex() or "-"

    def apply(self, text):
        """All lines of a text are set, or none."""
        lines, settings = text.split("\n"), {}
        if not lines[-1]:
            lines.pop()
        for each in lines:
            at = self.place(each[:-33]) if each[-33:-32] == " " else None
            if at is None or at in settings or not set(each[-32:]) <= set("0123456789abcdefABCDEF"):
                return "Err(NotSecrets)"
            settings[at] = each[-32:].lower()
        for at, digits in settings.items():
            self.set_hash(at, digits)
        return "Ok(())"

    def change(self, at, count):
        self.changes.append(("count", at, count))
        return "done"

    def change_hash(self, at, digits):
        if self.has(at) and at < self.users:
            return "not to be done"
        self.changes.append(("hash", at, digits))
        return "done"

    def after(self):
        """The table as the changes leave it: each is made behind those before it, and past the last account none."""
        table = copy.deepcopy(self)
        table.commit()
        return table

    def count_with(self, at):
        return self.after().count(at)

    def state_with(self, at):
        table = self.after()
        return f"{table.counts[at]} {array(table.hashes[at])} {truth(table.marks[at])}" if self.has(at) else "None"

    def secrets_with(self):
        return self.after().secrets()

    def commit(self):
        for what, at, value in self.changes:
            if what == "count":
                self.set_count(at, value)
            else:
                self.set_hash(at, value)
        self.changes = []
        return "done"

    def case(self, *steps):
        """A line of steps, each a name with its values, and what each gives."""
        answers = [getattr(self, name)(*rest) for name, *rest in steps]
        words = [",".join([name] + [each.encode("utf-8").hex() or "-" if name == "apply" else str(each) for each in rest]) for name, *rest in steps]
        return line("table.steps", self.text, *words), ";".join(answers)


def of_changes():
    """Counts, hashes and secrets that are set, and changes that are made later."""
    out = []
    top = 65535
    users, machines = [ANN, BOB], [FILE1, PDC2, NORTH]

    def case(*steps):
        out.append(Changing(users, machines).case(*steps))

    # Counts of any account, at its place alone.
    case(*[("count", at) for at in [0, 1, 2, 3, 4, 5, 4294967295]])
    case(("set_count", 1, 3), *[("count", at) for at in range(6)], ("set_count", 1, top), ("count", 1), ("set_count", 1, 0), ("count", 1),
         ("set_count", 5, 1), ("count", 5), ("secrets",), ("hash", 1))
    # Changes are made at the end, in their order; past the last account they change nothing.
    case(("change", 0, 1), ("count", 0), ("count_with", 0), ("count_with", 1), ("change", 0, 2), ("count_with", 0), ("change", 1, 7),
         ("change", 5, 9), ("count_with", 5), ("count", 0), ("commit",), ("count", 0), ("count", 1), ("count", 5), ("count_with", 0))
    case(("set_count", 0, 5), ("count_with", 0), ("change", 0, 0), ("count_with", 0), ("count", 0), ("change", 0, top), ("change", 1, 1),
         ("change", 0, 4), ("count_with", 0), ("commit",), ("count", 0), ("count", 1), ("commit",), ("count", 0))
    # Hashes of computers and trusts alone.
    one, two = "0f" * 16, "e1" * 16
    states = [("state_with", at) for at in range(6)]
    case(*states, ("secrets_with",))
    # Changes of hashes, among those of counts: the text has what the changes leave, and before they are made nothing
    # else has.
    case(("change_hash", 2, one), ("secrets_with",), ("secrets",), ("hash", 2), *states, ("change", 2, 3), ("change", 0, 5), *states,
         ("change_hash", 2, two), ("secrets_with",), *states, ("count_with", 2), ("commit",), ("secrets",), ("hash", 2), ("count", 2), ("count", 0),
         ("secrets_with",), *states)
    case(("change_hash", 4, two), ("change_hash", 2, one), ("secrets_with",), ("change_hash", 4, one), ("secrets_with",), ("commit",), ("secrets",),
         ("change_hash", 3, two), ("secrets_with",), ("secrets",), ("commit",), ("commit",), ("secrets",))
    # Beside hashes that were set before, and the same hash again.
    case(("set_hash", 3, one), ("change_hash", 3, two), ("secrets_with",), ("secrets",), ("change_hash", 2, FILE1["hash"]), ("secrets_with",),
         ("commit",), ("secrets",), ("hash", 2), ("apply", f"FILE1$ {one}\n"), ("change_hash", 4, two), ("secrets_with",), ("state_with", 2))
    # A text that is applied meanwhile, and a hash that is set meanwhile, stand before the changes.
    case(("change_hash", 2, one), ("apply", f"FILE1$ {two}\nNORTH$ {two}\n"), ("secrets",), ("secrets_with",), ("set_hash", 2, "33" * 16),
         ("state_with", 2), ("commit",), ("secrets",))
    # Past the last account they change nothing; of users none is made here.
    case(("change_hash", 5, one), ("change_hash", 4294967295, one), ("secrets_with",), *states, ("commit",), ("secrets",), ("change_hash", 0, one),
         ("change_hash", 1, one), ("secrets_with",), ("state_with", 0))
    case(*[("hash", at) for at in range(6)])
    case(("set_hash", 0, one), ("set_hash", 1, one), ("set_hash", 2, one), ("set_hash", 5, one), *[("hash", at) for at in range(5)], ("secrets",))
    case(("secrets",), ("set_hash", 4, two), ("set_hash", 2, one), ("secrets",), ("set_hash", 2, two), ("secrets",), ("count", 2))
    # Texts of secrets: what was written is read back, digits in either case, and the last newline may be missing.
    written = f"FILE1$ {one}\nNORTH$ {two}\n"
    case(("apply", written), ("secrets",), *[("hash", at) for at in range(5)], ("apply", written), ("secrets",))
    for text in ["", written, written[:-1], f"file1$ {one.upper()}\n", f"PDC2$ {two}", f"NORTH$ {two}\nFILE1$ {one}\n"]:
        case(("apply", text), *[("hash", at) for at in range(5)], ("secrets",))
    for text in [
        "\n",
        written + "\n",
        f"FILE1$ {one}\n\nNORTH$ {two}\n",
        f"FILE1$ {one}\nFILE1$ {two}\n",
        f"FILE1$ {one}\nfile1$ {two}\n",
        f"ann {one}\n",
        f"FILE2$ {one}\n",
        f" {one}\n",
        one,
        f"FILE1$  {one}\n",
        f"FILE1$ {one} \n",
        f"FILE1$ {one}0\n",
        f"FILE1$ {one[:-1]}\n",
        f"FILE1$ {one[:-1]}g\n",
        f"FILE1$\t{one}\n",
        f"FILE1$ {one}\r\n",
        f"FILE1${one}\n",
        f"{'F' * 64}$ {one}\n",
        # The first line isn't set where a later one is refused.
        f"FILE1$ {one}\nann {two}\n",
    ]:
        case(("apply", text), *[("hash", at) for at in range(5)], ("secrets",))
    case(("set_hash", 2, one), ("apply", "x"), ("hash", 2), ("secrets",))
    # A name may have a space: the last one before the digits ends it.
    users, machines = [ANN], [FILE1 | {"name": "FILE 1$"}]
    case(("apply", f"FILE 1$ {one}\n"), ("secrets",), ("apply", f"FILE {one}\n"), ("secrets",))
    return out


def cases():
    """Each line and its answer."""
    return of_tables() + of_refusals() + of_look_ups() + of_changes()
