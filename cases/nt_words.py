"""Cases of nt_words.

`jobs.job ROLE WORD..` (what the words ask for, or why they aren't of the form; `-` is an empty word, and `COUNT*TEXT`
so many times the text), `jobs.files ROLE FAILING FILES WORD..` (what the files of the words' job come to, over files in
memory of `NAME=BYTES` between commas, of which the calls FAILING fail: a controller's domain, seed and changed secrets,
a member's secrets, seed and secret to change to, a hash and a seed, a station's secret, hash and seed, or the exit, its
status and its line; and that all that was kept is still told).

The commands, their options and the forms of files are this project's own choice (docs/FORMATS.md, "Commands, exits and
what is printed").
"""

from documents import ANN, FILE1, document, name
from forms import array, err, line, ok, struct

from nt_top import CHALLENGE, CONTROLLER, HASH, LOGON, MEMBER, MESSAGE, end, ending, run

# The options of each command, in order, with a value that is right.
SERVE = {
    "listen": "127.0.0.1:1445",
    "name": "DC1",
    "table": "t",
    "seed": "s",
    "boot": "1",
}
SERVE_MEMBER = {
    "listen": "127.0.0.1:1446",
    "computer": "FILE1",
    "domain": "CORP",
    "secret": "k",
    "controller": "127.0.0.1:1445",
    "seed": "s",
    "boot": "1",
}
ASK = {
    "server": "127.0.0.1:1446",
    "domain": "CORP",
    "user": "ann",
    "workstation": "WS",
    "hash": "h",
    "seed": "s",
    "boot": "1",
}
STATION = {
    "controller": "127.0.0.1:1445",
    "computer": "WS1",
    "secret": "k",
    "domain": "CORP",
    "user": "ann",
    "hash": "h",
    "seed": "s",
    "boot": "1",
}
DRILL = {"number": "7", "moves": "100000"}
MOST = 4294967295

COMMANDS = {
    "Controller": (CONTROLLER, "serve", SERVE, ["listen", "name", "table", "seed", "boot", "events", "secrets"]),
    "Member": (
        MEMBER,
        "serve",
        SERVE_MEMBER,
        ["listen", "computer", "domain", "secret", "controller", "seed", "boot", "events", "change", "seal"],
    ),
    "Logon": (
        LOGON,
        "logon",
        ASK,
        ["server", "domain", "user", "workstation", "hash", "level", "auth", "echo", "seed", "boot"],
    ),
    "Station": (
        LOGON,
        "station",
        STATION,
        ["controller", "computer", "secret", "domain", "user", "hash", "seed", "boot"],
    ),
    "Drill": (LOGON, "drill", DRILL, ["number", "moves"]),
}

ADDRESSES = ["listen", "controller", "server"]
NAMES = ["name", "computer", "domain", "user", "workstation"]
FILES = ["table", "seed", "secret", "hash", "secrets", "change"]
NUMBERS = ["boot", "events", "number"]
MOSTS = {"echo": 4096, "moves": 100000}
TEXTS = ADDRESSES + NAMES + FILES
DEFAULTS = {"events": MOST, "echo": 0, "level": "privacy", "auth": "v2", "secrets": None, "change": None, "seal": "off"}
LEVELS = {"connect": 2, "integrity": 5, "privacy": 6}
AUTHS = {"v1": "V1", "v1ess": "V1Ess", "v2": "V2"}
SWITCH = {"on": "true", "off": "false"}


def words_of(command, values):
    """The words of a command with these values of its options, each as two words."""
    return [command] + [word for option, value in values.items() for word in ("--" + option, value)]


def expanded(value):
    """The text that a word of a line stands for."""
    count, star, text = value.partition("*")
    return text * int(count) if star else value


def field(option, value):
    """A field of a job as `{:?}` prints it."""
    if option in ["secrets", "change"]:
        return "None" if value is None else 'Some("' + expanded(value) + '")'
    if option == "level":
        return str(LEVELS[value])
    if option == "auth":
        return AUTHS[value]
    if option == "seal":
        return SWITCH[value]
    if option in TEXTS:
        return '"' + expanded(value) + '"'
    return str(int(value))


def job(command, values):
    """What is printed of a job with these values."""
    options = COMMANDS[command][3]
    whole = {**DEFAULTS, **values}
    words = struct(f"{command}Words", **{option: field(option, whole[option]) for option in options})
    return ok(f"{command}({words})")


def bad(number):
    """What is printed of words that aren't of the form."""
    return err(f"BadWords({number})")


def asks(role, words, answer):
    """A case of what words ask for."""
    return (line("jobs.job", role, *words), answer)


def takes(command, values=()):
    """A case in which the words with these values beside the usual ones are taken."""
    role, first, usual, _ = COMMANDS[command]
    whole = {**usual, **dict(values)}
    return asks(role, words_of(first, whole), job(command, whole))


def refuses(command, number, values):
    """A case in which they are refused by that number."""
    role, first, usual, _ = COMMANDS[command]
    return asks(role, words_of(first, {**usual, **values}), bad(number))


def wrong_values(option):
    """Values of an option that aren't of its kind."""
    if option in ADDRESSES:
        return ["", "256*a"]
    if option in NAMES:
        return ["", "65*n", "\u00e9", "a\tb"]
    if option in FILES:
        return ["", "4097*f"]
    if option == "level":
        return ["", "Connect", "connects", "connec", "2"]
    if option == "auth":
        return ["", "V2", "v", "v22", "ntlm", "v1"]
    if option == "seal":
        return ["", "On", "OFF", "o", "onn", "of", "offf", "1", "true", "yes"]
    most = MOSTS.get(option, MOST)
    return ["", "+7", "x", "7x", "0x7", "4294967296", "9999999999", "00000000001", "\u0667", str(most + 1)]


def right_values(option):
    """Values of an option at the ends of its kind."""
    if option in ADDRESSES:
        return ["a", "255*a", "\u00e9"]
    if option in NAMES:
        return ["n", "64*n", "~"]
    if option in FILES:
        return ["f", "4096*f", "\u00e9"]
    if option == "level":
        return list(LEVELS)
    if option == "auth":
        return ["v1ess", "v2"]
    if option == "seal":
        return list(SWITCH)
    most = MOSTS.get(option, MOST)
    return ["0", "007", "0000000000", str(most), f"{most:010}"]


def of_values():
    """Every option's values, right ones and wrong ones; the first wrong one in the order of the options counts."""
    out = []
    for command, (role, first, usual, options) in COMMANDS.items():
        out.append(takes(command))
        for number, option in enumerate(options, 1):
            out += [takes(command, {option: value}) for value in right_values(option)]
            out += [refuses(command, number, {option: value}) for value in wrong_values(option)]
            # Later options are judged later, wherever they stand among the words.
            for later in options[number:]:
                out.append(refuses(command, number, {later: "", option: ""}))
            if option in usual:
                without = {key: value for key, value in usual.items() if key != option}
                out.append(asks(role, words_of(first, without), bad(0)))
            twice = words_of(first, usual) + 2 * ["--" + option, right_values(option)[0]]
            out.append(asks(role, twice, bad(0)))
            # A value that looks like an option is one only behind an equals sign.
            dashed = words_of(first, {**usual, option: "-7"})
            out.append(asks(role, dashed, bad(0)))
            joined = [word for word in words_of(first, {key: usual[key] for key in usual if key != option})]
            answer = bad(number) if option in NUMBERS or option in MOSTS or option in ["level", "auth", "seal"] else None
            if answer:
                out.append(asks(role, joined + [f"--{option}=-7"], answer))
        # An order of the options that isn't that of the table.
        turned = dict(reversed(usual.items()))
        out.append(asks(role, words_of(first, turned), job(command, usual)))
    return out


def of_levels():
    """Version 1 goes with the level `connect` alone, and the level is judged before."""
    out = [takes("Logon", {"level": "connect", "auth": auth}) for auth in AUTHS]
    out += [takes("Logon", {"auth": "v1", "level": "connect"})]
    for level in ["integrity", "privacy"]:
        out.append(refuses("Logon", 7, {"level": level, "auth": "v1"}))
        out += [takes("Logon", {"level": level, "auth": auth}) for auth in ["v1ess", "v2"]]
    out.append(refuses("Logon", 6, {"level": "secret", "auth": "v1"}))
    out.append(refuses("Logon", 7, {"auth": "v1", "echo": "4097"}))
    out.append(refuses("Logon", 8, {"echo": "4097", "seed": "", "boot": ""}))
    return out


def of_lines():
    """What `clap` takes and refuses as a whole."""
    usual = words_of("serve", SERVE)
    with_equals = ["serve"] + [f"--{option}={value}" for option, value in SERVE.items()]
    out = [
        asks(CONTROLLER, with_equals, job("Controller", SERVE)),
        asks(CONTROLLER, usual + ["--"], job("Controller", SERVE)),
        asks(CONTROLLER, usual[:1] + ["--secrets", "c"] + usual[1:], job("Controller", {**SERVE, "secrets": "c"})),
        asks(CONTROLLER, usual[:5] + ["--secrets=c"] + usual[5:] + ["--events", "3"], job("Controller", {**SERVE, "secrets": "c", "events": "3"})),
        asks(CONTROLLER, usual + ["--secrets", "c"], job("Controller", {**SERVE, "secrets": "c"})),
    ]
    member = words_of("serve", SERVE_MEMBER)
    out += [
        asks(MEMBER, member[:1] + ["--change", "c"] + member[1:], job("Member", {**SERVE_MEMBER, "change": "c"})),
        asks(MEMBER, member + ["--change=c", "--events", "3"], job("Member", {**SERVE_MEMBER, "change": "c", "events": "3"})),
        asks(MEMBER, member[:1] + ["--seal", "on"] + member[1:], job("Member", {**SERVE_MEMBER, "seal": "on"})),
        asks(MEMBER, member + ["--seal=on", "--change", "c"], job("Member", {**SERVE_MEMBER, "change": "c", "seal": "on"})),
    ]
    for words in [
        [],
        [""],
        ["serve"],
        ["serve", "--help"],
        ["serve", "-h"],
        ["serve", "--version"],
        ["server"] + usual[1:],
        ["Serve"] + usual[1:],
        ["serv"] + usual[1:],
        ["logon"] + usual[1:],
        ["drill", "--number", "1", "--moves", "1"],
        usual[1:],
        usual + ["x"],
        usual + ["--", "x"],
        usual + ["--events"],
        usual + ["--event", "1"],
        usual + ["--eventss", "1"],
        usual + ["--secret", "k"],
        usual + ["--secrets"],
        usual + ["--secrets", "c", "--secrets", "c"],
        usual + ["--secrets=c", "--secrets", "d"],
        usual + ["-e", "1"],
        usual[:-1],
        ["serve"] + usual,
        # A wrong value stands beside a fault of the whole line: the line is judged first.
        words_of("serve", {**SERVE, "listen": ""}) + ["x"],
        words_of("serve", {**SERVE, "boot": "x"}) + ["--events"],
    ]:
        out.append(asks(CONTROLLER, words, bad(0)))
    for role, words in [
        (MEMBER, words_of("serve", SERVE)),
        (MEMBER, words_of("serve", {**SERVE_MEMBER, "secrets": "c"})),
        (MEMBER, member + ["--change"]),
        (MEMBER, member + ["--change", "c", "--change", "c"]),
        (MEMBER, member + ["--changes", "c"]),
        (MEMBER, member + ["--seal"]),
        (MEMBER, member + ["--seal", "on", "--seal", "off"]),
        (MEMBER, member + ["--sealed", "on"]),
        (CONTROLLER, usual + ["--seal", "on"]),
        (LOGON, words_of("logon", {**ASK, "seal": "on"})),
        (CONTROLLER, usual + ["--change", "c"]),
        (LOGON, words_of("logon", {**ASK, "secrets": "c"})),
        (LOGON, words_of("logon", {**ASK, "change": "c"})),
        (CONTROLLER, words_of("serve", SERVE_MEMBER)),
        (MEMBER, words_of("logon", ASK)),
        (LOGON, words_of("serve", SERVE)),
        (MEMBER, words_of("drill", DRILL)),
        (MEMBER, words_of("station", STATION)),
        (CONTROLLER, words_of("station", STATION)),
        (LOGON, words_of("station", ASK)),
        (LOGON, words_of("logon", STATION)),
        (LOGON, words_of("Station", STATION)),
        (LOGON, words_of("stations", STATION)),
        (LOGON, words_of("statio", STATION)),
        (LOGON, ["station"]),
        (LOGON, ["station", "--help"]),
        (LOGON, words_of("station", {**STATION, "events": "3"})),
        (LOGON, words_of("station", {**STATION, "workstation": "WS"})),
        (LOGON, words_of("station", STATION) + ["x"]),
        (LOGON, ["drill"]),
        (LOGON, ["drill", "--number", "1"]),
        (LOGON, ["logon", "--number", "1", "--moves", "1"]),
        (LOGON, ["check", HASH, CHALLENGE, MESSAGE]),
        (MEMBER, ["check", HASH, CHALLENGE]),
        (MEMBER, ["check", HASH, CHALLENGE, MESSAGE, "x"]),
        (LOGON, ["show"]),
        (LOGON, ["show", "m", "x"]),
    ]:
        out.append(asks(role, words, bad(0)))
    out.append(asks(LOGON, ["drill", "--number", "1", "--moves", "100001"], bad(2)))
    checked = struct("CheckWords", hash='"h"', challenge='"c"', message='"m"')
    out.append(asks(MEMBER, ["check", "h", "c", "m"], ok(f"Check({checked})")))
    out.append(asks(MEMBER, ["check", "", "", ""], ok(f"Check({struct('CheckWords', hash=EMPTY, challenge=EMPTY, message=EMPTY)})")))
    out.append(asks(LOGON, ["show", "--help"], ok(f"Show({struct('ShowWords', message=DASHES)})")))
    return out


EMPTY = '""'
DASHES = '"--help"'

# ---- files

TABLE = document([ANN], [FILE1])
SEED = "00" * 31 + "07"
SECRET = "0123456789abcdefABCDEF0123456789"
# As many bytes as a file may have: 16,777,216, by parts of 64, the first of which is no TOML.
MOST_BYTES = "262144*78" + "20" * 63


def ascii_hex(text):
    """A text as bytes in hex."""
    return text.encode("ascii").hex()


def files_of(**contents):
    """Files in a line."""
    return ",".join(f"{key}={value or '-'}" for key, value in contents.items()) or "-"


def comes(command, answer, failing="", **contents):
    """A case of what the files of a command come to."""
    role, first, usual, _ = COMMANDS[command]
    return (line("jobs.files", role, failing, files_of(**contents), *words_of(first, usual)), answer + ";told")


def of_controller_files():
    """The table, and then the seed."""
    table = TABLE.hex()
    good = f"{name('CORP')};{array(SEED)};{EMPTY}"
    fault, bad_seed = ending("FileFault"), ending("BadInput", 4)
    refused = lambda cause: f"BadTable({cause});4;\"bad table\""
    missing = refused("Missing(Key { list: Top, entry: 0, word: Domain })")
    return [
        comes("Controller", good, t=table, s=SEED),
        comes("Controller", good, s=SEED, t=table),
        # The first file of a name counts.
        comes("Controller", bad_seed, t=table, s="00"),
        # A file that isn't there, and a read that fails.
        comes("Controller", fault),
        comes("Controller", fault, s=SEED),
        comes("Controller", fault, t=table),
        comes("Controller", fault, failing="0", t=table, s=SEED),
        comes("Controller", fault, failing="1", t=table, s=SEED),
        comes("Controller", good, failing="2", t=table, s=SEED),
        # The table is judged before the seed is read: no second read fails.
        comes("Controller", refused("BadToml"), failing="1", t=ascii_hex("x"), s=SEED),
        comes("Controller", refused("BadToml"), t="ff"),
        comes("Controller", missing, failing="1", t="", s=SEED),
        comes("Controller", missing, t="", s="00"),
        # A seed of another length.
        comes("Controller", bad_seed, t=table, s=""),
        comes("Controller", bad_seed, t=table, s="00" * 31),
        comes("Controller", bad_seed, t=table, s="00" * 33),
        comes("Controller", bad_seed, t=table, s=SEED + "0a"),
        # More bytes than a file may have.
        comes("Controller", ending("BadInput", 3), failing="1", t=MOST_BYTES + "+20", s=SEED),
        comes("Controller", bad_seed, t=table, s=MOST_BYTES + "+20"),
        comes("Controller", refused("BadToml"), t=MOST_BYTES, s=SEED),
    ]


def of_changed_secrets():
    """The changed secrets of a controller, read last: the form of the file, and what is changed by it."""
    table = document([ANN], [FILE1, {**FILE1, "name": "FILE2$"}])
    first, second = "0f" * 16, "A0" * 16
    fault, bad = ending("FileFault"), ending("BadInput", 7)

    def case(answer, secrets=None, failing="", held=table.hex(), seed=SEED):
        contents = {"t": held, "s": seed, **({} if secrets is None else {"c": secrets})}
        words = words_of("serve", {**SERVE, "secrets": "c"})
        return (line("jobs.files", CONTROLLER, failing, files_of(**contents), *words), answer + ";told")

    def changed(text, *lines):
        """These lines, in the table's order, are those of the changed accounts."""
        kept = "".join(each + "\\n" for each in lines)
        return case(f'{name("CORP")};{array(SEED)};"{kept}"', ascii_hex(text))

    one, other = f"FILE1$ {first}", f"FILE2$ {second.lower()}"
    out = [
        changed(""),
        changed(one + "\n", one),
        changed(one, one),
        # digits and names in either case; the names are written as the table has them, in its order
        changed(f"FILE2$ {second}\nFILE1$ {first}\n", one, other),
        changed(f"file2$ {second}\nFile1$ {first.upper()}", one, other),
        changed(f"file2$ {second}\n", other),
        # the file isn't there, and each read of the three fails
        case(fault),
        case(fault, ascii_hex(one), failing="2"),
        case(fault, ascii_hex(one), failing="1"),
        case(fault, ascii_hex(one), failing="0"),
        case(f'{name("CORP")};{array(SEED)};"{one}\\n"', ascii_hex(one), failing="3"),
        # the seed is judged before the secrets are read, and the table before the seed
        case(ending("BadInput", 4), ascii_hex("x"), failing="2", seed="00"),
        case('BadTable(BadToml);4;"bad table"', ascii_hex("x"), failing="1", held="ff"),
        # too long, and as long as a file may be
        case(bad, MOST_BYTES + "+20"),
        case(bad, MOST_BYTES),
    ]
    for text in [
        "\n",
        one + "\n\n",
        "\n" + one,
        one + "\r\n",
        one + " ",
        " " + one,
        one + "0",
        one[:-1],
        one[:-1] + "g",
        f"FILE1$  {first}",
        f"FILE1$\t{first}",
        f"FILE1${first}",
        first,
        f" {first}",
        # an unknown name, a machine's name without its sign, a user's name
        f"FILE3$ {first}",
        f"FILE1 {first}",
        f"ann {first}",
        f"ann {first}\n{one}\n",
        # the same account twice
        one + "\n" + one + "\n",
        one + f"\nfile1$ {second}\n",
        # a good line before one that isn't
        one + "\nx\n",
    ]:
        out.append(case(bad, ascii_hex(text)))
    out.append(case(bad, "ff20" + ascii_hex(first)))
    return out


def of_hash_files():
    """A hash, and then the seed."""
    good = f"{array(SECRET.lower())};{array(SEED)}"
    fault = ending("FileFault")

    def case(answer, secret=None, seed=SEED, failing=""):
        contents = {} if secret is None else {"h": ascii_hex(secret)}
        if seed is not None:
            contents["s"] = seed
        return comes("Logon", answer, failing, **contents)

    out = [case(good, text) for text in (SECRET, SECRET + "\n", SECRET.lower(), SECRET.upper())]
    out += [case(fault), case(fault, SECRET, None), case(fault, SECRET, failing="0"), case(fault, SECRET, failing="1")]
    # The hash is judged before the seed is read: no second read fails.
    out += [case(ending("BadInput", 5), text, failing="1") for text in NO_SECRETS + [f"{SECRET}\n{OTHER}"]]
    out += [case(ending("BadInput", 9), SECRET, seed) for seed in ["", "00" * 31, "00" * 33]]
    out.append(case(ending("BadInput", 5), "x", "00"))
    out.append(comes("Logon", ending("BadInput", 5), "1", h=MOST_BYTES + "+20", s=SEED))
    return out


def of_station_files():
    """A machine's secret, then a user's hash, and then the seed."""
    good = f"{array(SECRET.lower())};{array(OTHER)};{array(SEED)}"
    fault = ending("FileFault")

    def case(answer, secret=SECRET, user=OTHER, seed=SEED, failing=""):
        contents = {key: ascii_hex(text) for key, text in (("k", secret), ("h", user)) if text is not None}
        if seed is not None:
            contents["s"] = seed
        return comes("Station", answer, failing, **contents)

    out = [case(good, text) for text in (SECRET, SECRET + "\n", SECRET.lower(), SECRET.upper())]
    out += [case(good, user=text) for text in (OTHER + "\n", OTHER.upper())]
    out += [case(fault, None, None, None), case(fault, user=None), case(fault, seed=None), case(fault, None)]
    out += [case(fault, failing=failing) for failing in "012"] + [case(good, failing="3")]
    # The secret is judged before the hash is read, and the hash before the seed.
    out += [case(ending("BadInput", 3), text, failing="1") for text in NO_SECRETS + [f"{SECRET}\n{OTHER}", f"{SECRET}\n{OTHER}\n"]]
    out += [case(ending("BadInput", 6), user=text, failing="2") for text in NO_SECRETS + [f"{SECRET}\n{OTHER}"]]
    out += [case(ending("BadInput", 7), seed=seed) for seed in ["", "00" * 31, "00" * 33]]
    out += [case(ending("BadInput", 3), "x", "x", "00"), case(ending("BadInput", 6), user="x", seed="00")]
    out.append(comes("Station", ending("BadInput", 3), "1", k=MOST_BYTES + "+20", h=ascii_hex(OTHER), s=SEED))
    out.append(comes("Station", ending("BadInput", 6), "2", k=ascii_hex(SECRET), h=MOST_BYTES + "+20", s=SEED))
    return out


OTHER = "fe" * 16
# Texts that are neither one line of 32 hex digits nor two.
NO_SECRETS = [
    "",
    "\n",
    SECRET[:-1],
    SECRET[:-1] + "\n",
    SECRET + "0",
    SECRET + "\n\n",
    SECRET + "\r\n",
    SECRET + " ",
    SECRET + "00",
    "g" + SECRET[1:],
    " " + SECRET,
    "0x" + SECRET[2:],
    SECRET + OTHER,
    f"{SECRET}\n{OTHER[:-1]}",
    f"{SECRET}\n{OTHER[:-1]}\n",
    f"{SECRET}\n{OTHER}0",
    f"{SECRET}\n{OTHER}\n\n",
    f"{SECRET}\n{OTHER}\n{SECRET}\n",
    f"{SECRET}\n\n{OTHER}\n",
    f"{SECRET}\r\n{OTHER}\r\n",
    f"{SECRET}\n g{OTHER[1:]}",
    f"{SECRET}\ng{OTHER[1:]}\n",
    f"\n{SECRET}\n{OTHER}\n",
]


def of_member_files():
    """The secrets that a machine keeps, the seed, and then the secret to change to, where a file of it is named."""
    fault = ending("FileFault")

    def case(answer, secrets=None, seed=SEED, change=None, failing="", named=True):
        contents = {key: ascii_hex(text) for key, text in (("k", secrets), ("c", change)) if text is not None}
        if seed is not None:
            contents["s"] = seed
        words = words_of("serve", {**SERVE_MEMBER, **({"change": "c"} if named else {})})
        return (line("jobs.files", MEMBER, failing, files_of(**contents), *words), answer + ";told")

    def good(lines, change=None):
        """What is printed of these secrets, the seed and the secret to change to."""
        text = "".join(each.lower() + "\\n" for each in lines)
        return f'"{text}";{array(SEED)};' + ("None" if change is None else f"Some({array(change.lower())})")

    out = []
    for lines in ([SECRET], [SECRET, OTHER], [SECRET.upper(), SECRET.lower()]):
        text = "\n".join(lines)
        for held in (text, text + "\n"):
            out.append(case(good(lines), held, named=False))
            # of the change's file nothing is read where none is named, and it is judged also where two secrets are kept
            out.append(case(good(lines), held, change="x", failing="2", named=False))
            out += [case(good(lines, OTHER), held, change=change) for change in (OTHER, OTHER + "\n", OTHER.upper())]
            out.append(case(ending("BadInput", 9), held, change="x"))
    # a file that isn't there, and a read that fails
    out += [case(fault, named=False), case(fault, SECRET, None, named=False), case(fault, SECRET), case(fault, None, change=OTHER)]
    out += [case(fault, SECRET, change=OTHER, failing=failing) for failing in "012"]
    out.append(case(good([SECRET], OTHER), SECRET, change=OTHER, failing="3"))
    # The secrets are judged before the seed is read, and the seed before the change.
    out += [case(ending("BadInput", 4), text, change="x", failing="1") for text in NO_SECRETS]
    out += [case(ending("BadInput", 6), SECRET, seed, "x", failing="2") for seed in ["", "00" * 31, "00" * 33]]
    out.append(case(ending("BadInput", 4), "x", "00", "x"))
    # The change is one secret alone.
    out += [case(ending("BadInput", 9), SECRET, change=text) for text in NO_SECRETS + [f"{OTHER}\n{SECRET}", f"{OTHER}\n{SECRET}\n"]]
    # Too long, and as long as a file may be.
    for long in (MOST_BYTES + "+20", MOST_BYTES):
        words = words_of("serve", {**SERVE_MEMBER, "change": "c"})
        held = files_of(k=long, s=SEED, c=ascii_hex(OTHER))
        out.append((line("jobs.files", MEMBER, "1", held, *words), ending("BadInput", 4) + ";told"))
        held = files_of(k=ascii_hex(SECRET), s=SEED, c=long)
        out.append((line("jobs.files", MEMBER, "", held, *words), ending("BadInput", 9) + ";told"))
    return out


def of_no_files():
    """Jobs without files read none, and words that aren't of the form come to no read."""
    out = []
    for role, words in [
        (MEMBER, ["check", HASH, CHALLENGE, MESSAGE]),
        (LOGON, ["show", "m"]),
        (LOGON, ["drill", "--number", "1", "--moves", "1"]),
    ]:
        out.append((line("jobs.files", role, "0", "", *words), "no files;told"))
    for role, words, number in [
        (CONTROLLER, ["serve"], 0),
        (CONTROLLER, words_of("serve", {**SERVE, "seed": ""}), 4),
        (CONTROLLER, words_of("serve", {**SERVE, "secrets": ""}), 7),
        (MEMBER, words_of("serve", {**SERVE_MEMBER, "change": ""}), 9),
        (LOGON, words_of("logon", {**ASK, "echo": "4097"}), 8),
        (LOGON, words_of("station", {**STATION, "boot": "4294967296"}), 8),
    ]:
        out.append((line("jobs.files", role, "0", "", *words), ending("BadWords", number) + ";told"))
    return out


def of_runs():
    """The top call judges the words of the commands, and puts nothing where they aren't of their form: a sink that
    fails isn't asked. The words of a controller, of a member server and of a logon run, and the first of their files
    isn't there. A drill runs, and the sink fails."""
    out = [(run(LOGON, "drill", "--number", "1", "--moves", "100001", failing="0"), end("BadWords", 2))]
    for role, first, usual, options in COMMANDS.values():
        short = {**usual, "moves": "1"} if first == "drill" else usual
        runs = end("SinkFault") if first == "drill" else end("FileFault")
        out.append((run(role, *words_of(first, short), failing="0"), runs))
        for number, option in enumerate(options, 1):
            words = words_of(first, {**usual, option: ""})
            out.append((run(role, *words, failing="0"), end("BadWords", number)))
    return out


def cases():
    """Each line and its answer."""
    return of_runs() + of_values() + of_levels() + of_lines() + of_controller_files() + of_changed_secrets() + of_hash_files() + of_station_files() + of_member_files() + of_no_files()
