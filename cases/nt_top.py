"""Cases of nt_top.

`top.run ROLE FAILING WORD..` (the exit, its status, its line, what was put as text, and that all that the outside in
memory kept is still told; `-` is an empty word), `top.narrow ROLE FAILING WORD..` (the same over a sink that takes at
most three bytes of a piece),
`top.exit NAME NUMBER` (the exit, its status and its line), `top.say FAILING NAME NUMBER` (the status of the exit that
is reported to a sink of errors, and what was put). FAILING are the numbers of the sink's calls that fail.

The commands, exits and lines are this project's own choice (docs/FORMATS.md, "Commands, exits and what is printed");
whether a response stands is a published value. What a drill counts is what the world of `domain_world` counts, which is
Python's.
"""

import struct

import domain_world
from forms import line, utf16, values
from ntlm_messages import KINDS, read, read_pairs, recorded_messages

# The NT hash of `Password`, and the challenge of MS-NLMP 4.2.1.
HASH = "a4f49c406510bdcab6824ee7c30fd852"
CHALLENGE = "0123456789abcdef"

# Flags of MS-NLMP 2.2.2.5: Unicode texts, NTLM, always sign; and extended session security.
PLAIN = 0x00008201
EXTENDED = 0x00088201

MEMBER, LOGON, CONTROLLER = "member", "logon", "controller"


def authenticate(flags, lm, nt, domain, user, workstation, key=b""):
    """An AUTHENTICATE message (MS-NLMP 2.2.1.3) without version and checksum: the names, the responses and the key,
    without gaps."""
    fields = {"domain": domain, "user": user, "workstation": workstation, "lm": lm, "nt": nt, "key": key}
    places, at = {}, 64
    for name, value in fields.items():
        places[name] = at
        at += len(value)
    out = b"NTLMSSP\0" + struct.pack("<I", 3)
    for name in ["lm", "nt", "domain", "user", "workstation", "key"]:
        out += struct.pack("<HHI", len(fields[name]), len(fields[name]), places[name])
    return out + struct.pack("<I", flags) + b"".join(fields.values())


def of_user(flags, lm, nt):
    """The message of Domain\\User at COMPUTER with these responses, in hex."""
    names = [utf16(text) for text in ["Domain", "User", "COMPUTER"]]
    lm, nt, *names = (bytes.fromhex(text) for text in [lm, nt] + names)
    return authenticate(flags, lm, nt, *names).hex()


# The responses of MS-NLMP 4.2.2 to 4.2.4 to that challenge.
V1 = "67c43011f30298a2ad35ece64f16331c44bdbed927841f94"
ESS_LM, ESS = "aa" * 8 + "00" * 16, "7537f803ae367128ca458204bde7caf81e97ed2683267232"
V2 = (
    "68cd0ab851e51c96aabc927bebef6a1c01010000000000000000000000000000aaaaaaaaaaaaaaaa00000000"
    "02000c0044006f006d00610069006e0001000c005300650072007600650072000000000000000000"
)
MESSAGE = of_user(PLAIN, "", V1)
MESSAGE_ESS = of_user(EXTENDED, ESS_LM, ESS)
MESSAGE_V2 = of_user(PLAIN, "", V2)

# What each exit is, its status and its line.
EXITS = {
    "Done": ("Done", 0, ""),
    "Refused": ("Refused(Response)", 1, "refused"),
    "BadWords": ("BadWords({0})", 2, "bad words: {0}"),
    "FileFault": ("FileFault", 3, "file not read"),
    "BadTable": ("BadTable(TooMany)", 4, "bad table"),
    "BadInput": ("BadInput({0})", 4, "bad input: {0}"),
    "PortFault": ("PortFault", 5, "port failed"),
    "SinkFault": ("SinkFault", 6, "output failed"),
    "NoMemory": ("NoMemory", 7, "no memory"),
    "NoAnswer": ("NoAnswer(LinkClosed)", 8, "no answer"),
    "BadPeer": ("BadPeer(BadUnit)", 9, "bad peer"),
    "Spent": ("Spent", 10, "challenges spent"),
}


def text(put):
    """A text as `{:?}` prints it."""
    return '"' + put.replace("\n", "\\n") + '"'


def ending(name, number=0):
    """What is printed of an exit."""
    exit_text, status, exit_line = EXITS[name]
    return f"{exit_text.format(number)};{status};{text(exit_line.format(number))}"


def end(name, number=0, put=""):
    """What is printed of a run."""
    return f"{ending(name, number)};{text(put)};told"


ACCEPTED = end("Done", put="accepted\n")
REFUSED = end("Refused", put="refused\n")


def run(role, *words, failing="", operation="top.run"):
    """A line that runs a command."""
    return line(operation, role, failing, *words)


def check(message, challenge=CHALLENGE, nt_hash=HASH):
    """A line that checks a message."""
    return run(MEMBER, "check", nt_hash, challenge, message)


def altered(data):
    """Bytes in hex with one bit of the last one changed."""
    return data[:-2] + f"{int(data[-2:], 16) ^ 1:02x}"


def shown(kind, flags, fields):
    """The lines of a message that is shown."""
    lines = [f"type {kind}", f"flags {flags}"] + [f"{name} {value or '-'}" for name, value in fields]
    return "".join(each + "\n" for each in lines)


def show(message, kind, flags, fields):
    """A line that shows a message, and its answer."""
    return run(LOGON, "show", message), end("Done", put=shown(kind, flags, fields))


def of_checks():
    """Responses under their challenge and hash, and under others."""
    out = [
        (check(MESSAGE), ACCEPTED),
        (check(MESSAGE.upper()), ACCEPTED),
        (check(MESSAGE, CHALLENGE.upper(), HASH.upper()), ACCEPTED),
        (check(MESSAGE, "0123456789abcdee"), REFUSED),
        (check(MESSAGE, nt_hash=altered(HASH)), REFUSED),
        (check(MESSAGE_ESS), ACCEPTED),
        (check(MESSAGE_ESS, "0123456789abcdee"), REFUSED),
        (check(MESSAGE_V2), ACCEPTED),
        (check(MESSAGE_V2, "0123456789abcdee"), REFUSED),
        (check(MESSAGE_V2, nt_hash=altered(HASH)), REFUSED),
        # The response with extended session security counts so only under the flag and beside an LM response of 24
        # bytes.
        (check(of_user(PLAIN, ESS_LM, ESS)), REFUSED),
        (check(of_user(EXTENDED, "", ESS)), REFUSED),
        # An empty response, and one byte too much.
        (check(of_user(PLAIN, "", "")), REFUSED),
        (check(of_user(PLAIN, "", V1 + "00")), REFUSED),
        (check(of_user(PLAIN, V1, "")), REFUSED),
    ]
    # A field of no bytes may have any place (MS-NLMP 2.2.1.3): the user is empty, and NTLMv1 doesn't ask for it.
    no_user = MESSAGE[:72] + "00000000ffffffff" + MESSAGE[88:]
    out.append((check(no_user), ACCEPTED))
    names = [("domain", utf16("Domain")), ("user", ""), ("workstation", utf16("COMPUTER"))]
    out.append(show(no_user, 3, "00008201", [("lm", ""), ("nt", V1), *names, ("key", "")]))
    return out


def of_settings():
    """The responses of the published settings, in messages of their user."""
    out = []
    for case in values("ntlm")["settings"]:
        names = [bytes.fromhex(case[f"{name}_utf16"]) for name in ["domain", "user", "workstation"]]
        challenge = case["server_challenge"]
        for logon, flags, lm in [
            ("v1", PLAIN, ""),
            ("v1_ess", EXTENDED, case["v1_ess"]["lm_response"]),
            ("v2", PLAIN, ""),
            ("v2", EXTENDED, "00" * 24),
        ]:
            nt = bytes.fromhex(case[logon]["nt_response"])
            message = authenticate(flags, bytes.fromhex(lm), nt, *names).hex()
            out.append((check(message, challenge, case["nt_hash"]), ACCEPTED))
            out.append((check(message, altered(challenge), case["nt_hash"]), REFUSED))
            out.append((check(message, challenge, altered(case["nt_hash"])), REFUSED))
    return out


def of_foreign_messages():
    """The messages of other clients and servers."""
    messages = values("messages")
    out = []
    for case in messages["authenticate"]:
        for each in case["checks"]:
            answer = ACCEPTED if each["accepted"] else REFUSED
            out.append((check(case["message"], each["challenge"], case["nt_hash"]), answer))
        fields = case["fields"]
        names = ["lm", "nt", "domain", "user", "workstation", "key"]
        out.append(show(case["message"], 3, fields["flags"], [(name, fields[name]) for name in names]))
    for case in messages["negotiate"]:
        fields = case["fields"]
        names = ["domain", "workstation"]
        out.append(show(case["message"], 1, fields["flags"], [(name, fields[name]) for name in names]))
    for case in messages["challenge"]:
        fields = case["fields"]
        parts = [(name, fields[name]) for name in ["target", "challenge"]]
        parts += [(f"pair {number}", value) for number, value in fields["pairs"]]
        out.append(show(case["message"], 2, fields["flags"], parts))
    return out


def fields_of(found, *names):
    """These fields of a message, in the order of its lines."""
    return [(name.lower(), found[name].hex()) for name in names]


def of_recorded_links():
    """The messages of two recorded links between Samba's client and its controller: the response answers that link's
    challenge alone."""
    out = []
    for session in values("units")["sessions"]:
        messages = recorded_messages(session)
        negotiate, challenge, last = [read(kind, message) for kind, message in zip(KINDS, messages)]
        server, nt_hash = challenge["challenge"].hex(), session["nt_hash"]
        out.append((check(messages[2].hex(), server, nt_hash), ACCEPTED))
        out.append((check(messages[2].hex(), altered(server), nt_hash), REFUSED))
        out.append((check(messages[2].hex(), server, altered(nt_hash)), REFUSED))
        pairs = [(f"pair {number}", value.hex()) for number, value in read_pairs(challenge["Info"])]
        for kind, (message, found, parts) in enumerate([
            (messages[0], negotiate, fields_of(negotiate, "Domain", "Workstation")),
            (messages[1], challenge, fields_of(challenge, "Target", "challenge") + pairs),
            (messages[2], last, fields_of(last, "Lm", "Nt", "Domain", "User", "Workstation", "Key")),
        ], 1):
            out.append(show(message.hex(), kind, f"{found['flags']:08x}", parts))
    return out


def of_shows():
    """Messages by their fields, and what is no message."""
    names = [(name, utf16(value)) for name, value in [("domain", "Domain"), ("user", "User"), ("workstation", "COMPUTER")]]
    of_message = [("lm", ""), ("nt", V1), *names, ("key", "")]
    no_names = "4e544c4d535350000100000007820000"
    out = [
        show(MESSAGE, 3, "00008201", of_message),
        show(MESSAGE.upper(), 3, "00008201", of_message),
        show(MESSAGE_ESS, 3, "00088201", [("lm", ESS_LM), ("nt", ESS), *names, ("key", "")]),
        show(no_names, 1, "00008207", [("domain", ""), ("workstation", "")]),
    ]
    of_samba = values("messages")["challenge"][0]["message"]
    # The target information without the four bytes that end it (MS-NLMP 2.2.2.1): its length stands at byte 40.
    assert of_samba[80:88] == "2e002e00" and of_samba.endswith("00000000")
    without_end = of_samba[:80] + "2a002a00" + of_samba[88:]
    for message in [
        "",
        "4e5",
        "4e544c4d5353500001000000",
        "4e544c4d53535000",
        "4e544c4d535350000400000007820000",
        "4e544c4d535350000000000007820000",
        "5e544c4d535350000100000007820000",
        no_names[:-2],
        MESSAGE[:-2],
        without_end,
        without_end[:-8],
        "zz",
        no_names + "0",
    ]:
        out.append((run(LOGON, "show", message), end("BadInput", 1)))
    return out


def of_words():
    """Command lines that aren't of their form."""
    cut = MESSAGE[:-2]
    out = []
    for role, words, name, number in [
        (MEMBER, [], "BadWords", 0),
        (LOGON, [], "BadWords", 0),
        (CONTROLLER, [], "BadWords", 0),
        (CONTROLLER, ["serve"], "BadWords", 0),
        (CONTROLLER, ["check", HASH, CHALLENGE, MESSAGE], "BadWords", 0),
        (CONTROLLER, ["show", MESSAGE], "BadWords", 0),
        (MEMBER, [""], "BadWords", 0),
        (MEMBER, ["check"], "BadWords", 0),
        (MEMBER, ["check", HASH, CHALLENGE], "BadWords", 0),
        (MEMBER, ["check", HASH, CHALLENGE, MESSAGE, ""], "BadWords", 0),
        (MEMBER, ["check", HASH, CHALLENGE, MESSAGE, MESSAGE], "BadWords", 0),
        (MEMBER, ["Check", HASH, CHALLENGE, MESSAGE], "BadWords", 0),
        (MEMBER, ["checks", HASH, CHALLENGE, MESSAGE], "BadWords", 0),
        (MEMBER, ["chec", HASH, CHALLENGE, MESSAGE], "BadWords", 0),
        (MEMBER, ["--check", HASH, CHALLENGE, MESSAGE], "BadWords", 0),
        (MEMBER, ["show", MESSAGE], "BadWords", 0),
        (LOGON, ["show"], "BadWords", 0),
        (LOGON, ["show", MESSAGE, MESSAGE], "BadWords", 0),
        (LOGON, ["show", MESSAGE, ""], "BadWords", 0),
        (LOGON, ["Show", MESSAGE], "BadWords", 0),
        (LOGON, ["check", HASH, CHALLENGE, MESSAGE], "BadWords", 0),
        (MEMBER, ["check", HASH[:-2], "", ""], "BadInput", 1),
        (MEMBER, ["check", HASH + "00", CHALLENGE, MESSAGE], "BadInput", 1),
        (MEMBER, ["check", "g" + HASH[1:], "", ""], "BadInput", 1),
        (MEMBER, ["check", "", CHALLENGE, MESSAGE], "BadInput", 1),
        (MEMBER, ["check", "0x" + HASH[2:], CHALLENGE, MESSAGE], "BadInput", 1),
        (MEMBER, ["check", HASH, CHALLENGE[:-2], ""], "BadInput", 2),
        (MEMBER, ["check", HASH, CHALLENGE[:-1], ""], "BadInput", 2),
        (MEMBER, ["check", HASH, CHALLENGE + "00", MESSAGE], "BadInput", 2),
        (MEMBER, ["check", HASH, "g" + CHALLENGE[1:], MESSAGE], "BadInput", 2),
        (MEMBER, ["check", HASH, "", MESSAGE], "BadInput", 2),
        (MEMBER, ["check", HASH, CHALLENGE, "4e5"], "BadInput", 3),
        (MEMBER, ["check", HASH, CHALLENGE, cut], "BadInput", 3),
        (MEMBER, ["check", HASH, CHALLENGE, ""], "BadInput", 3),
        (MEMBER, ["check", HASH, CHALLENGE, "zz"], "BadInput", 3),
        (MEMBER, ["check", HASH, CHALLENGE, "4e544c4d535350000100000007820000"], "BadInput", 3),
    ]:
        out.append((run(role, *words), end(name, number)))
    return out


def of_sinks():
    """A sink is given the rest of what it didn't take, and its fault is named: a front of the text was put."""
    command = ["check", HASH, CHALLENGE, MESSAGE]
    line_of = "accepted\n"
    out = []
    for failing, put in [("", 9), ("9", 9), ("3", 9), ("2", 6), ("1", 3), ("0", 0), ("0,1", 0)]:
        answer = end("Done" if put == 9 else "SinkFault", put=line_of[:put])
        out.append((run(MEMBER, *command, failing=failing, operation="top.narrow"), answer))
    for failing, put in [("", 9), ("1", 9), ("0", 0)]:
        answer = end("Done" if put == 9 else "SinkFault", put=line_of[:put])
        out.append((run(MEMBER, *command, failing=failing), answer))
    # The refusal of a response comes to its exit only where its line was put.
    wrong = ["check", HASH, "0123456789abcdee", MESSAGE]
    out.append((run(MEMBER, *wrong, operation="top.narrow"), REFUSED))
    for call in range(3):
        out.append((run(MEMBER, *wrong, failing=str(call), operation="top.narrow"), end("SinkFault", put="refused\n"[: 3 * call])))
    # Nothing is put where the words aren't of their form, so that no fault of the sink comes.
    out.append((run(MEMBER, "check", failing="0"), end("BadWords", 0)))
    out.append((run(LOGON, "show", "", failing="0"), end("BadInput", 1)))
    of_message = shown(1, "00008207", [("domain", ""), ("workstation", "")])
    shows = ["show", "4e544c4d535350000100000007820000"]
    for call in range(-(-len(of_message) // 3)):
        answer = end("SinkFault", put=of_message[: 3 * call])
        out.append((run(LOGON, *shows, failing=str(call), operation="top.narrow"), answer))
    out.append((run(LOGON, *shows, operation="top.narrow"), end("Done", put=of_message)))
    # Over a sink that takes all of a piece, each put of the message's lines.
    for call in range(2):
        done = call > 0
        out.append((run(LOGON, *shows, failing=str(call)), end("Done" if done else "SinkFault", put=of_message if done else "")))
    return out


def drill_lines(number, count):
    """The six lines of a drill: what the world of `domain_world` counts."""
    counts = domain_world.drill().drive(domain_world.moves_from(number, count))
    return "".join(f"{name.replace('_', ' ')} {value}\n" for name, value in counts.items())


def of_drills():
    """Drills, whose words stand in any order, and their lines."""
    # Number 1 makes one Onward, and nothing was sent.
    none = "moves 1\naccepted 0\nrefused 0\nno controller 0\npassed 0\nbarred 0\n"
    assert drill_lines(1, 1) == none
    out = []
    for number, count in [(1, 1), (7, 0), (7, 1000), (0, 300), (2, 500), (4294967295, 300)]:
        words = ["drill", "--number", str(number), "--moves", str(count)]
        out.append((run(LOGON, *words), end("Done", put=drill_lines(number, count))))
    for words in [["--moves", "1", "--number", "1"], ["--number=1", "--moves=1"], ["--number", "001", "--moves", "01"]]:
        out.append((run(LOGON, "drill", *words), end("Done", put=none)))
    for role, words, number in [
        (LOGON, ["drill", "--number", "1", "--moves", "100001"], 2),
        (LOGON, ["drill", "--number", "4294967296", "--moves", "1"], 1),
        (LOGON, ["drill", "--number", "4294967296", "--moves", "100001"], 1),
        (LOGON, ["drill", "--moves", "1"], 0),
        (LOGON, ["Drill", "--number", "1", "--moves", "1"], 0),
        (MEMBER, ["drill", "--number", "1", "--moves", "1"], 0),
        (CONTROLLER, ["drill", "--number", "1", "--moves", "1"], 0),
    ]:
        out.append((run(role, *words), end("BadWords", number)))
    # A sink that takes three bytes at a time has a front of the lines where it fails.
    words = ["drill", "--number", "1", "--moves", "1"]
    out.append((run(LOGON, *words, operation="top.narrow"), end("Done", put=none)))
    for call in range(-(-len(none) // 3)):
        out.append((run(LOGON, *words, failing=str(call), operation="top.narrow"), end("SinkFault", put=none[: 3 * call])))
    return out


def of_exits():
    """The exits, their statuses and their lines."""
    out = []
    for name in EXITS:
        numbers = [0, 3, 4294967295] if name in ["BadWords", "BadInput"] else [0]
        out += [(line("top.exit", name, number), ending(name, number)) for number in numbers]
        said = EXITS[name][2].format(numbers[-1])
        put = said and said + "\n"
        status = EXITS[name][1]
        out.append((line("top.say", "", name, numbers[-1]), f"{status};{text(put)};told"))
        # The sink fails at once, or it fails after all was taken.
        out.append((line("top.say", "0", name, numbers[-1]), f'{status};"";told'))
        out.append((line("top.say", "1", name, numbers[-1]), f"{status};{text(put)};told"))
    return out


def cases():
    """Each line and its answer."""
    return (
        of_checks()
        + of_settings()
        + of_foreign_messages()
        + of_recorded_links()
        + of_shows()
        + of_words()
        + of_drills()
        + of_sinks()
        + of_exits()
    )
