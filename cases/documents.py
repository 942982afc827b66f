"""Documents of an account table, and the accounts that they stand for."""

from forms import array, items, struct

HEAD = {"domain": "CORP", "sid": "S-1-5-21-1-2-3"}

ANN = {"name": "ann", "rid": 1001, "hash": "11" * 16}
BOB = {"name": "bob", "rid": 1002, "hash": "22" * 16}
EVE = {"name": "eve", "rid": 1003, "hash": "33" * 16}
FILE1 = {"name": "FILE1$", "kind": "workstation", "hash": "41" * 16}
FILE2 = {"name": "FILE2$", "kind": "workstation", "hash": "42" * 16}
PDC2 = {"name": "PDC2$", "kind": "backup", "hash": "43" * 16}
NORTH = {"name": "NORTH$", "kind": "trust", "hash": "44" * 16, "controllers": ["NDC1", "NDC2"]}
WEST = {"domain": "WEST", "hash": "55" * 16, "address": "10.0.0.9:135"}

# What a key is where it isn't there.
USER_DEFAULTS = {
    "full_name": "",
    "group": 513,
    "groups": [513],
    "disabled": False,
    "locked": False,
    "must_change": False,
    "expires": 0,
    "password_set": 0,
    "password_expires": 0,
    "workstations": [],
    "extra_sids": [],
}


def toml(value):
    """A value as TOML writes it."""
    if isinstance(value, bool):
        return "true" if value else "false"
    if isinstance(value, int):
        return str(value)
    if isinstance(value, list):
        return "[" + ", ".join(toml(each) for each in value) + "]"
    assert "'" not in value
    if any(ord(sign) < 32 for sign in value):
        return '"' + "".join(f"\\u{ord(sign):04x}" if ord(sign) < 32 else sign for sign in value) + '"'
    return f"'{value}'"


def document(users=(), machines=(), head=None, trusts=()):
    """A document of these users, machines and trusted domains, as bytes."""
    lines = [f"{key} = {toml(value)}" for key, value in (HEAD if head is None else head).items()]
    for name, entries in [("user", users), ("machine", machines), ("trust", trusts)]:
        for entry in entries:
            lines.append(f"[[{name}]]")
            lines += [f"{key} = {toml(value)}" for key, value in entry.items()]
    return ("\n".join(lines) + "\n").encode("utf-8")


def name(text):
    """What is printed of a name."""
    return struct("Name", bytes=array(text.encode("ascii").hex()))


def sid(text):
    """What is printed of a security identifier."""
    authority, *numbers = text.split("-")[2:]
    return struct("Sid", authority=authority, numbers=items(numbers))


def account(entry, kind):
    """What is printed of the account that an entry stands for."""
    fields = dict(USER_DEFAULTS, rid=0) | entry
    return struct(
        "Account",
        name=name(fields["name"]),
        rid=fields["rid"],
        hash=array(fields["hash"]),
        full_name=name(fields["full_name"]),
        group=fields["group"],
        groups=items(str(group) for group in fields["groups"]),
        disabled=toml(fields["disabled"]),
        locked=toml(fields["locked"]),
        must_change=toml(fields["must_change"]),
        expires=fields["expires"],
        password_set=fields["password_set"],
        password_expires=fields["password_expires"],
        workstations=items(name(each) for each in fields["workstations"]),
        extra_sids=items(sid(each) for each in fields["extra_sids"]),
        bad_count=0,
        controllers=items(name(each) for each in fields.get("controllers", []) if kind == "Trust"),
        changed="false",
        kind=kind,
    )
