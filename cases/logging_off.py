"""Cases of the command `station`, as `nt_top` runs it over the outside in memory: the operation `serves.run` of
`serving.py`.

Call 0 of the port is the dial, which gives link 1000, and each later dial gives the next number; the close of a link is
no call that is counted. What is sent, the exit and the lines are worked out by the station of `interactive_station.py`,
beside the controller of `domain_controller.py`, at the moment 0 of the clock in memory.
"""

from documents import ANN
from domain_controller import FILE1, FILE2, Controller
from forms import line
from interactive_station import DRAWS, NOW, SERVERS, WS1, Pair, Station, reply_with
from logging_on import sends_of, shown
from logon_stubs import LOGOFF, LOGON as LOGON_CALL
from rpc_units import NAK, whole
from rpc_units import write as write_unit

from nt_top import LOGON, ending, text
from nt_words import SEED, STATION, ascii_hex, files_of, words_of

# The first link that is dialled.
LINK = 1000
OTHER = "12" * 16


class Asked(Pair):
    """A station whose dials are answered by the port in memory, and the controller that it dials."""

    def __init__(self, station=None, machines=(FILE1, FILE2, WS1), **how):
        self.station = station or Station()
        self.controller = Controller(machines=machines, challenges=SERVERS, **how).at(NOW)
        self.links = LINK - 1


def exit_of(outcome):
    """What is printed of the exit of an outcome."""
    if outcome is None:
        return ending("NoAnswer")
    how = outcome[5:-1]
    kind, cause = how.split("(", 1) if "(" in how else (how, "")
    if kind.startswith("Off "):
        return ending("Done")
    if kind == "NoAnswer":
        return ending("NoAnswer").replace("LinkClosed", cause[:-1])
    name, status, said = {"Refused": ("Status", 1, "refused"), "BadPeer": ("Station", 9, "bad peer")}[kind]
    return f"{kind}({name}({cause});{status};{text(said)}"


def lines_of(station):
    """The lines that are put: `in` where the logon is granted, and `off` for a user who is logged off. A unit outside
    0x20 to 0x7E is a question mark."""
    put = ""
    if any("told " in answer for answer in station.answers):
        names = [[each[at] | each[at + 1] << 8 for at in range(0, len(each), 2)] for each in station.names]
        domain, user = ("".join(chr(unit) if 0x20 <= unit <= 0x7E else "?" for unit in units) for units in names)
        put = f"in {domain}\\{user}\n"
    return put + ("off\n" if station.outcome and station.outcome.startswith("Some(Off ") else "")


def events_of(station):
    """The station's events that a port gives, in a line."""
    words = [word for word in station.words[7:] if word.split("/")[0] in ("opened", "bytes", "closed", "stop")]
    return ",".join(word.replace("/", ":") for word in words) or "-"


def command_of(station, **options):
    """The words of the command for the station's plan."""
    plan = {"computer": station.computer, "domain": station.domain.decode("utf-16-le"), "user": station.user.decode("utf-16-le")}
    values = {**STATION, **{name: value for name, value in plan.items() if value}, **options}
    return words_of("station", {name: values[name] for name in STATION})


def played(station, exit_text=None, put=None, sent=None, events=None, failing="", reads="", puts="", files=None, **options):
    """A case of a station, by what it says of its events."""
    held = {"k": ascii_hex(station.secret.hex()), "h": ascii_hex(station.hash.hex()), "s": SEED} if files is None else files
    answer = [
        exit_of(station.outcome) if exit_text is None else exit_text,
        shown(lines_of(station) if put is None else put),
        sends_of(station) if sent is None else sent,
        "told",
    ]
    events = events_of(station) if events is None else events
    return (
        line("serves.run", events, failing, reads, puts, station.words[6], files_of(**held), LOGON, *command_of(station, **options)),
        ";".join(answer),
    )


def upto(calls, **how):
    """A station that has had so many of its calls answered."""
    return Asked(**how).upto(calls)


def of_the_runs():
    """A whole logon and logoff, and logons that are refused or denied."""
    whole_run, wrong, restarted = upto(4).station, upto(3, station=Station(secret=OTHER)).station, upto(3)
    restarted.controller = Controller(machines=(FILE1, FILE2, WS1), challenges=SERVERS).at(NOW)
    restarted.call()
    out = [
        played(whole_run),
        # What comes behind the outcome isn't asked for.
        played(whole_run, events=events_of(whole_run) + ",closed:1003,stop"),
        played(wrong),
        # Another domain, a computer without an account, a wrong secret of the computer.
        played(upto(3, station=Station(domain="OTHER")).station),
        played(upto(2, machines=(FILE1, FILE2)).station),
        played(upto(2, station=Station(account="44" * 16)).station),
        # The controller was started again behind the logon: the line of the user who is in stays.
        played(restarted.station),
        played(upto(3).call(reply_with(LOGOFF, 8, status=0xC000005F)).station),
        # A logon answered at another level, a logoff's reply without a credential.
        played(upto(2).call(reply_with(LOGON_CALL, 6, level=2)).station),
        played(upto(3).call(reply_with(LOGOFF, 8, returned=None)).station),
    ]
    # The names that are put are those of the verdict, and the longest ones.
    out.append(played(upto(4, station=Station(user="ANN")).station))
    names = {"domain": "D" * 64, "user": "u" * 64}
    long_user = ANN | {"name": "u" * 64}
    out.append(played(upto(3, station=Station(**names, computer="C" * 63), users=(long_user,), machines=(FILE1, WS1 | {"name": "C" * 63 + "$"})).station))
    texts = [";".join(answer.split(";")[:3]) for _, answer in out]
    assert texts[0] == 'Done;0;""' and '"in CORP\\\\ann\\noff\\n"' in out[0][1], out[0][1]
    assert texts[2] == 'Refused(Status(3221225578));1;"refused"' and ';"";' in out[2][1], out[2][1]
    assert texts[6] == 'BadPeer(Station(Denied));9;"bad peer"' and '"in CORP\\\\ann\\n"' in out[6][1], out[6][1]
    return out


def of_the_links():
    """At each call: the dial fails, the bind or the request isn't sent, the link is closed, the port gives no more, and
    a call of it fails. A call has five calls of the port: the dial, the bind, an answer, the request and the reply."""
    out = []
    dial_failed = ending("NoAnswer").replace("LinkClosed", "DialFailed")
    for calls in range(4):
        before, number = upto(calls).station, LINK + calls
        bound, asked = upto(calls).dial().station, upto(calls).dial().answer().station
        out += [
            played(before, dial_failed, failing=str(5 * calls)),
            played(before, ending("NoAnswer"), failing=str(5 * calls + 1)),
            played(bound, ending("PortFault"), failing=str(5 * calls + 2)),
            played(asked, ending("NoAnswer"), failing=str(5 * calls + 3), sent=sends_of(bound)),
            played(asked, ending("PortFault"), failing=str(5 * calls + 4)),
            # The port gives no more, or says so.
            played(bound),
            played(asked),
            played(asked, events=(events_of(asked) + f",stop,closed:{number}").removeprefix("-,")),
        ]
        for made in (lambda: upto(calls).dial(), lambda: upto(calls).dial().answer()):
            out.append(played(made().station.closed(number)))
            out.append(played(made().station.closed(7).closed(number)))
            # Bytes of other links are passed over, and another link that opens.
            out.append(played(made().station.bytes(b"x", 7).opened(8).closed(number)))
            out.append(played(made().station.bytes(write_unit(whole(NAK, call=9, reason=0))).closed(number)))
    return out


def of_the_sink():
    """The first line is put where the logon is granted, and the second behind the outcome; each is put in one piece."""
    station, logged_on = upto(4).station, upto(3).dial().station
    first = "in CORP\\ann\n"
    return [
        # Behind a line that isn't put the next link isn't dialled.
        played(station, ending("SinkFault"), put="", puts="0", sent=sends_of(upto(2).dial().answer().station)),
        played(station, ending("SinkFault"), put=first, puts="1"),
        played(station, puts="2"),
        played(logged_on, puts="1"),
        # Where nothing is put the sink isn't asked.
        played(upto(3, station=Station(secret=OTHER)).station, puts="0"),
    ]


def of_challenges():
    """One challenge is drawn, where the first link opens."""
    none = Station(draws=[]).dialled(LINK)
    return [
        played(none, ending("Spent"), sent="-"),
        played(upto(4, station=Station(draws=DRAWS[:1])).station),
        played(Station(draws=[]), ending("NoAnswer").replace("LinkClosed", "DialFailed"), failing="0"),
    ]


def of_the_files():
    """Each file is judged before the next one is read, and before the controller is dialled."""
    fault, dialled = ending("FileFault"), Station().dialled(LINK)
    key, user = ascii_hex("43" * 16), ascii_hex("11" * 16)
    refused = lambda exit_text, files, reads="", failing="": played(dialled, exit_text, sent="-", files=files, reads=reads, failing=failing)
    whole_files = {"k": key, "h": user, "s": SEED}
    out = [
        refused(fault, {}),
        refused(fault, {"k": key}),
        refused(fault, {"k": key, "h": user}),
        *(refused(fault, whole_files, reads=str(call)) for call in range(3)),
        refused(ending("BadInput", 3), whole_files | {"k": key + "30"}, reads="1", failing="0"),
        # Two secrets aren't one.
        refused(ending("BadInput", 3), whole_files | {"k": key + "0a" + key}, reads="1", failing="0"),
        refused(ending("BadInput", 6), whole_files | {"h": ""}, reads="2", failing="0"),
        refused(ending("BadInput", 7), whole_files | {"s": SEED + "0a"}, failing="0"),
        refused(ending("BadInput", 7), whole_files | {"s": ""}, failing="0"),
    ]
    out.append(played(upto(4).station, files={"k": key + "0a", "h": user + "0a", "s": SEED}))
    return out


def of_words():
    """Words that aren't of their form, before any file is read."""
    out = []
    dialled = Station().dialled(LINK)
    for options, number in [({"boot": "x"}, 8), ({"controller": ""}, 1), ({"computer": "n" * 65}, 2), ({"domain": "\u00e9"}, 4), ({"user": ""}, 5), ({"hash": ""}, 6)]:
        out.append(played(dialled, ending("BadWords", number), sent="-", reads="0", failing="0", **{name: value or "-" for name, value in options.items()}))
    return out


def cases():
    """The cases of `station`."""
    return of_the_runs() + of_the_links() + of_the_sink() + of_challenges() + of_the_files() + of_words()
