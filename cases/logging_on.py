"""Cases of the command `logon`, as `nt_top` runs it over the outside in memory: the operation `serves.run` of
`serving.py`.

Call 0 of the port is the dial, which gives link 1000, and call 1 the send of the bind. What is sent, the exit and the
lines are worked out by the client of
`logon_client.py`, beside its server, at the moment 0 of the clock in memory. The units that are written here byte by
byte are those of C706 12.6.4.4 and 12.6.4.5.
"""

from documents import ANN, BOB
from forms import line
from logon_client import DRAWS, OFFERED, PLANS, TARGET_FLAGS, Client, Server
from member_server import Member, controller_of, turns
from sessions import ESS, INTEGRITY, KEY_EXCH, NTLM, PRIVACY

from nt_top import EXITS, LOGON, ending, text
from nt_words import ASK, SEED, ascii_hex, files_of, words_of
from rpc_units import NONE

LINK = 1000
LEVELS = {2: "connect", INTEGRITY: "integrity", PRIVACY: "privacy"}
# A bind_nak for call 1 that gives the reason 0, and one protocol version.
BIND_NAK = bytes.fromhex("05000d031000000015000000" "01000000" "0000010500")
HASH = "11" * 16


def exit_of(outcome):
    """What is printed of the exit of an outcome."""
    if outcome is None:
        return ending("NoAnswer")
    if outcome.startswith("Some(In "):
        return ending("Done")
    cause = outcome[5:-1]
    _, status, exit_line = EXITS[cause.split("(")[0]]
    return f"{cause};{status};{text(exit_line)}"


def lines_of(client):
    """The lines that are put for a client's outcome: a unit outside 0x20 to 0x7E is a question mark."""
    if client.outcome is None or not client.outcome.startswith("Some(In "):
        return ""
    units = [client.name[at] | client.name[at + 1] << 8 for at in range(0, len(client.name), 2)]
    name = "".join(chr(unit) if 0x20 <= unit <= 0x7E else "?" for unit in units)
    return f"in {name}\n" + (f"echo {client.echo}\n" if client.echo else "")


def shown(put):
    """A text that was put, as `{:?}` prints it."""
    return text(put.replace("\\", "\\\\"))


def sends_of(client):
    """What the client sent, in order."""
    actions = [action for answer in client.answers for action in answer.split(",")]
    return ",".join(action[5:].replace(" ", ":") for action in actions if action.startswith("send ")) or "-"


def events_of(client):
    """The client's events that a port gives, in a line."""
    words = [word for word in client.words[9:] if word.split("/")[0] in ("opened", "bytes", "closed", "stop")]
    return ",".join(word.replace("/", ":") for word in words) or "-"


def command_of(client, **options):
    """The words of the command for the client's plan."""
    values = {**ASK, "level": LEVELS[client.level], "auth": client.kind, "echo": str(client.echo), **options}
    order = ["server", "domain", "user", "workstation", "hash", "level", "auth", "echo", "seed", "boot"]
    return words_of("logon", {name: values[name] for name in order})


def played(client, exit_text=None, put=None, sent=None, events=None, failing="", reads="", puts="", files=None, **options):
    """A case of a logon, by what the client says of its events."""
    held = {"h": ascii_hex(client.words[4]), "s": SEED} if files is None else files
    answer = [
        exit_of(client.outcome) if exit_text is None else exit_text,
        shown(lines_of(client) if put is None else put),
        sends_of(client) if sent is None else sent,
        "told",
    ]
    events = events_of(client) if events is None else events
    return (
        line("serves.run", events, failing, reads, puts, client.words[8], files_of(**held), LOGON, *command_of(client, **options)),
        ";".join(answer),
    )


def bound(**plan):
    """A client whose dial was answered."""
    return Client(**plan).dialled(LINK)


def on(client, *pieces):
    """The client after bytes on its link."""
    for piece in pieces:
        client.bytes(piece, LINK)
    return client


def asked(plan=None, **server):
    """A client that waits for its name, and its server."""
    client = bound(**(plan or {}))
    peer = Server(client, **server)
    return on(client, peer.ack()), peer


def logged_on(plan=None, **server):
    """A client whose server answered everything."""
    client, peer = asked(plan, **server)
    on(client, b"".join(peer.who()))
    return on(client, b"".join(peer.echo())) if client.echo else client


def of_the_links():
    """The dial fails, the bind isn't sent, the link is closed, and the port gives no more."""
    dial_failed, closed = ending("NoAnswer").replace("LinkClosed", "DialFailed"), ending("NoAnswer")
    nothing = bound(echo=0)
    return [
        played(Client(echo=0), dial_failed, failing="0", sent="-"),
        # The events that the port would give aren't asked for.
        played(Client(echo=0), dial_failed, failing="0", sent="-", events="closed:1000,stop"),
        played(nothing, closed, failing="1", sent="-"),
        played(bound(echo=0).closed(LINK)),
        played(bound(echo=0).closed(7).closed(LINK)),
        played(nothing),
        played(nothing, events="stop,bytes:1000:00"),
        # The first `next` fails, and the one behind the client's answer to the CHALLENGE.
        played(nothing, ending("PortFault"), failing="2"),
        played(asked({"echo": 0})[0], ending("PortFault"), failing="5"),
        # A send fails, and what the step sends later on the link isn't sent.
        played(asked({"echo": 0})[0], closed, failing="3", sent=sends_of(nothing)),
    ]


def of_outcomes():
    """Each outcome is the exit."""
    out = [
        played(on(bound(echo=0), BIND_NAK)),
        played(on(bound(echo=0), bytes(16))),
        played(asked({"echo": 0}, flags=OFFERED & ~NTLM | TARGET_FLAGS)[0]),
        played(asked({"echo": 0}, flags=OFFERED & ~ESS | TARGET_FLAGS)[0]),
        played(on(bound(echo=0), Server(bound(echo=0)).ack(results=[]))),
        played(on(bound(echo=0), Server(bound(echo=0)).ack(call=2))),
        played(on(bound(echo=0), Server(bound(echo=0)).ack(message=b"x"))),
        # The member server rejects the context.
        played(on(bound(echo=0), Server(bound(echo=0)).ack(results=[(2, 1, NONE)]))),
    ]
    client, peer = asked({"echo": 0})
    frame = bytearray(b"".join(peer.who()))
    frame[-1] ^= 1
    out.append(played(on(client, bytes(frame))))
    client, peer = asked({"echo": 0})
    out.append(played(on(client, b"".join(peer.reply(b"", 2)))))
    for status in (5, 0x6BA):
        fault = bytes.fromhex("050003031000000020000000" "01000000" "0000000000000000") + status.to_bytes(4, "little") + bytes(4)
        out.append(played(on(bound(echo=0), fault)))
    return out


def of_lines():
    """The name and the echo are put once the client is in, and nothing else is."""
    out = [played(logged_on(plan | {"echo": echo})) for plan in PLANS for echo in (0, 16)]
    out.append(played(logged_on({"echo": 4096})))
    # The longest names.
    names = {"user": "u" * 64, "domain": "d" * 64, "workstation": "w" * 64}
    out.append(played(logged_on({"echo": 0, **names}), **names))
    out += [played(logged_on({"echo": 0}, name=name)) for name in ("CORP\\ann", "", "a\u00e9\u007f\n?")]
    # The link is closed behind the last answer: the client is in already.
    out.append(played(logged_on(), events=events_of(logged_on()) + ",closed:1000"))
    # The sink fails: nothing of the lines is put, which are put in one piece.
    out.append(played(logged_on(), ending("SinkFault"), put="", puts="0"))
    out.append(played(logged_on(), puts="1"))
    # Without lines the sink isn't asked.
    out.append(played(on(bound(), BIND_NAK), puts="0"))
    return out


def of_challenges():
    """One challenge is drawn for the client's own, and two more where a key is exchanged."""
    out = []
    for count in range(4):
        for flags in (None, OFFERED & ~KEY_EXCH | TARGET_FLAGS):
            client, peer = asked({"draws": DRAWS[:count], "echo": 0}, flags=flags)
            if client.stopped:
                out.append(played(client, ending("Spent")))
            else:
                out.append(played(on(client, b"".join(peer.who()))))
    # None is drawn before the CHALLENGE.
    out.append(played(bound(draws=[], echo=0)))
    out.append(played(on(bound(draws=[], echo=0), BIND_NAK)))
    return out


def of_the_files():
    """Each file is judged before the next one is read, and before the server is dialled."""
    fault, nothing = ending("FileFault"), "-"
    hash_text = ascii_hex(HASH)
    refused = lambda exit_text, files, reads="", failing="": played(bound(echo=0), exit_text, sent=nothing, files=files, reads=reads, failing=failing)
    out = [
        refused(fault, {}),
        refused(fault, {"h": hash_text}),
        refused(fault, {"h": hash_text, "s": SEED}, reads="0"),
        refused(fault, {"h": hash_text, "s": SEED}, reads="1"),
        refused(ending("BadInput", 5), {"h": hash_text + "30", "s": SEED}, reads="1", failing="0"),
        refused(ending("BadInput", 9), {"h": hash_text, "s": SEED + "0a"}, failing="0"),
        refused(ending("BadInput", 9), {"h": hash_text, "s": ""}, failing="0"),
    ]
    out.append(played(logged_on(), files={"h": hash_text + "0a", "s": SEED}))
    return out


def of_words():
    """The response of version 1 has no place above the level connect, and no more than 4,096 bytes are echoed. Nothing
    is read then."""
    out = []
    for options, number in [({"auth": "v1", "level": "integrity"}, 7), ({"auth": "v1"}, 7), ({"echo": "4097"}, 8), ({"boot": "x"}, 10), ({"level": "none"}, 6)]:
        out.append(played(bound(echo=0), ending("BadWords", number), sent="-", reads="0", failing="0", **options))
    return out


def carried(users=(ANN, BOB), **plan):
    """A client whose bytes are carried to a member and back, while those of the member's turns are carried to a
    controller and back."""
    client, member, controller = bound(**plan), Member(), controller_of(users)
    member.opened(1).bytes(client.sent(), 1)
    on(client, member.sent(1))
    member.bytes(client.sent(), 1)
    turns(member, controller)
    while member.sent(1):
        on(client, member.sent(1))
        if not client.sent():
            break
        member.bytes(client.sent(), 1)
    return client


def of_the_domain():
    """Logons at a member and its controller, by their rules: a user who may log on, one who is disabled, one who isn't
    there, and a wrong password."""
    out = [played(carried(echo=4096, secret=ANN["hash"]))]
    for plan in PLANS:
        out.append(played(carried(echo=16, secret=ANN["hash"], **plan)))
        out.append(played(carried(echo=16, secret=BOB["hash"], **plan)))
    out.append(played(carried((ANN | {"disabled": True},), secret=ANN["hash"])))
    out.append(played(carried((), secret=ANN["hash"])))
    outs = [answer.split(";")[0] for _, answer in out]
    assert outs == ["Done"] + ["Done", "Refused(Fault(5))"] * len(PLANS) + ["Refused(Fault(5))"] * 2, outs
    return out


def cases():
    """The cases of `logon`."""
    return of_the_domain() + of_the_links() + of_outcomes() + of_lines() + of_challenges() + of_the_files() + of_words()
