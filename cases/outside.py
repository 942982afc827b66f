"""Cases of outside: the implementations in memory, a scenario a line.

`outside.sink FAILING PIECE..`, `outside.sure_sink PIECE..` (each answer, then the bytes kept), `outside.clock FIRST
LATER COUNT` (so many moments), `outside.list_chances DRAWS STEP..` and `outside.counter_chances STEP..` (`next` or
`start,SEED,BOOT`),
`outside.files FILES FAILING STEP..` (files as `NAME:CONTENT`, a step `NAME` to read or `NAME=CONTENT` to write),
`outside.port EVENTS FAILING STEP..` (steps
`listen,ADDRESS`, `next`, `next,WANT`, `dial,PEER`, `send,LINK,BYTES`, `close,LINK`; then the sends kept),
`outside.sure_port EVENTS STEP..`, `outside.event EVENT` (its copy). FAILING are the numbers of the calls that fail,
lists stand between commas. The last answer of each scenario says that what was kept is still told.

What each does is this project's own choice (the crate's own text); the challenge maker's draws are published values.
"""

from forms import array, blob, err, items, line, ok, values

TOLD = "told"
FAILED = err("Failed")
STARTED = "started"


def answers(*each):
    """The answers of a scenario."""
    return ";".join(str(answer) for answer in each)


def hexed(text):
    """A text's bytes, in hex, or `-`."""
    return text.encode().hex() or "-"


def of_sinks():
    """Sinks take all of a piece, but for the calls that fail."""
    out = []
    for failing, pieces in [
        ([], []),
        ([], ["ab"]),
        ([1], ["ab", "cd", "ef"]),
        ([0], ["ab", "cd"]),
        ([0, 1, 2], ["ab", "", "cd", "ef"]),
        ([7], ["", "a"]),
        ([2, 1], ["ab", "cd", "ef", "gh"]),
        ([], ["x" * 300, "y"]),
    ]:
        kept, told = "", []
        for number, piece in enumerate(pieces):
            told.append(FAILED if number in failing else ok(len(piece)))
            kept += "" if number in failing else piece
        words = [hexed(piece) for piece in pieces]
        listed = ",".join(str(number) for number in failing)
        out.append((line("outside.sink", listed, *words), answers(*told, hexed(kept), TOLD)))
        sure = answers(*[ok(len(piece)) for piece in pieces], hexed("".join(pieces)), TOLD)
        out.append((line("outside.sure_sink", *words), sure))
    return out


def of_clocks():
    """A clock gives its moments, of which the last repeats."""
    return [
        (line("outside.clock", 5, "7", 3), answers(5, 7, 7, TOLD)),
        (line("outside.clock", 5, "", 2), answers(5, 5, TOLD)),
        (line("outside.clock", 9, "8,7,8", 6), answers(9, 8, 7, 8, 8, 8, TOLD)),
        (line("outside.clock", 2**64 - 1, "0", 3), answers(2**64 - 1, 0, 0, TOLD)),
        (line("outside.clock", 5, "7", 0), answers(TOLD)),
    ]


def of_list_chances():
    """Listed challenges are drawn once each, also across starts."""
    first, second = "01" * 8, "0203040506070809"
    one, two, spent = ok(array(first)), ok(array(second)), err("Spent")
    start = f"start,{'03' * 32},4"
    drawn = f"{first},{second}"
    return [
        (line("outside.list_chances", drawn, "next", start, "next", "next"), answers(one, STARTED, two, spent)),
        (line("outside.list_chances", drawn, "next", "next", "next", "next"), answers(one, two, spent, spent)),
        (line("outside.list_chances", "", "next", start, "next"), answers(spent, STARTED, spent)),
        (line("outside.list_chances", drawn, start, start, "next"), answers(STARTED, STARTED, one)),
        (line("outside.list_chances", f"{first},{first}", "next", "next", "next"), answers(one, one, spent)),
    ]


def of_counter_chances():
    """The published draws of the challenge maker."""
    out, every, told = [], [], []
    for maker in values("netlogon")["challenge_maker"]:
        steps = [f"start,{maker['seed']},{maker['boot']}"] + ["next"] * len(maker["first_draws"])
        draws = [STARTED] + [ok(array(draw)) for draw in maker["first_draws"]]
        out.append((line("outside.counter_chances", *steps), answers(*draws)))
        # The same again: a start begins anew.
        out.append((line("outside.counter_chances", *steps, *steps), answers(*draws, *draws)))
        every += steps
        told += draws
        if maker["boot"] == 0 and int(maker["seed"], 16) == 0:
            # As after a start with a seed of zeros and boot 0.
            out.append((line("outside.counter_chances", *steps[1:]), answers(*draws[1:])))
    out.append((line("outside.counter_chances", *every), answers(*told)))
    return out


def of_files():
    """The first file of a name counts; a listed call and a name that isn't there fail."""
    files = [("a", "1"), ("b", "2"), ("a", "3"), ("", "of no name"), ("c", "")]
    words = ",".join(f"{hexed(name)}:{hexed(content)}" for name, content in files)
    out = []
    for failing, names in [
        ([2], ["a", "c", "b", "b"]),
        ([], ["a", "b", "c", "d", "a"]),
        ([0], ["a", "a"]),
        ([1, 3], ["a", "a", "", "", "a"]),
        ([], [""]),
        ([], ["A", "ab"]),
        ([0, 1, 2], ["d", "a", "b", "b"]),
    ]:
        told = []
        for number, name in enumerate(names):
            contents = [content for each, content in files if each == name]
            fails = number in failing or not contents
            told.append(FAILED if fails else ok(blob(contents[0].encode().hex())))
        listed = ",".join(str(number) for number in failing)
        reads = [hexed(name) for name in names]
        out.append((line("outside.files", words, listed, *reads), answers(*told, TOLD)))
    out.append((line("outside.files", "", "", hexed("a")), answers(FAILED, TOLD)))
    return out + of_writes()


def of_writes():
    """A write replaces the first file of its name, or is a new file; a listed call fails and leaves every file; calls
    of both kinds are counted together."""
    files = [("a", "1"), ("b", "2"), ("a", "3")]
    words = ",".join(f"{hexed(name)}:{hexed(content)}" for name, content in files)
    out = []
    for failing, steps in [
        ([], [("a", "new"), "a", "b", ("b", ""), "b", "a"]),
        ([], ["c", ("c", "more"), "c", ("c", "most"), "c", ("", "of no name"), ""]),
        ([0, 2], [("a", "lost"), "a", "a", "a", ("a", "kept"), "a"]),
        ([1], [("c", "kept"), ("c", "lost"), "c"]),
    ]:
        first = [list(file) for file in files]
        told, asked = [], []
        for number, step in enumerate(steps):
            name = step if isinstance(step, str) else step[0]
            places = [at for at, (each, _) in enumerate(first) if each == name]
            if isinstance(step, str):
                asked.append(hexed(name) or "-")
                fails = number in failing or not places
                told.append(FAILED if fails else ok(blob(first[places[0]][1].encode().hex())))
                continue
            asked.append(f"{hexed(name) or '-'}={hexed(step[1]) or '-'}")
            told.append(FAILED if number in failing else ok("()"))
            if number in failing:
                continue
            if places:
                first[places[0]][1] = step[1]
            else:
                first.append([name, step[1]])
        listed = ",".join(str(number) for number in failing)
        out.append((line("outside.files", words, listed, *asked), answers(*told, TOLD)))
    return out


def of_ports():
    """A port gives its events and then `Stop`, and keeps what is sent; dials give the links from 1000 on."""
    hi = f"Bytes(1, {blob('6869')})"
    unit, stop, closed = ok("()"), ok("Stop"), "closed"
    none = items([])
    one = items([f"(1000, {blob('6f6e65')})"])
    two = items([f"(1000, {blob('6f6e65')})", f"(7, {blob('')})"])
    events = "opened:1,bytes:1:6869"
    out = []
    for listed, failing, steps, told in [
        (
            events,
            "2",
            ["listen,68657265", "next", "next", "next,1", "next"],
            [unit, ok("Opened(1)"), FAILED, ok(hi), stop, none],
        ),
        (
            "",
            "1,4",
            ["dial,70", "dial,70", "dial,70", "send,1000,6f6e65", "send,1000,6f6e65", "close,1000"],
            [ok(1000), FAILED, ok(1001), unit, FAILED, closed, one],
        ),
        ("", "0", ["listen,61", "listen,61", "next"], [FAILED, unit, stop, none]),
        (events, "", ["next,5", "next,1", "next", "next"], [ok("Opened(1)"), ok(hi), stop, stop, none]),
        (
            "closed:3,stop,opened:999,bytes:2:",
            "0",
            ["next", "next", "next", "next", "next", "next"],
            [FAILED, ok("Closed(3)"), stop, ok("Opened(999)"), ok(f"Bytes(2, {blob('')})"), stop, none],
        ),
        # Closes aren't counted, and dials count those that failed too.
        (
            "",
            "1,3",
            ["dial,61", "close,1000", "dial,61", "close,7", "dial,61", "dial,61", "dial,61"],
            [ok(1000), closed, FAILED, closed, ok(1001), FAILED, ok(1002), none],
        ),
        # Sends to any link are kept, in order.
        ("", "1", ["send,1000,6f6e65", "send,7,61", "send,7,-"], [unit, FAILED, unit, two]),
        ("", "", [], [none]),
    ]:
        out.append((line("outside.port", listed, failing, *steps), answers(*told, TOLD)))
        if not failing:
            out.append((line("outside.sure_port", listed, *steps), answers(*told, TOLD)))
    for listed, steps, told in [
        (
            events,
            ["listen,68657265", "dial,70", "next", "send,1000,6f6e65", "next,1", "dial,70", "close,1000", "next"],
            [unit, ok(1000), ok("Opened(1)"), unit, ok(hi), ok(1001), closed, stop, one],
        ),
        ("closed:3", ["send,1000,6f6e65", "send,7,-", "next"], [unit, unit, ok("Closed(3)"), two]),
    ]:
        out.append((line("outside.port", listed, "", *steps), answers(*told, TOLD)))
        out.append((line("outside.sure_port", listed, *steps), answers(*told, TOLD)))
    # Events that a script doesn't have: links from 1000 on are those that dials give, and dials are answered where they
    # are made.
    for listed in ["opened:1000", "opened:1,opened:4294967295", "dialled:7", "dial_failed", "stop,dialled:1000"]:
        out.append((line("outside.port", listed, "", "next"), "not to be listed"))
        out.append((line("outside.sure_port", listed, "next"), "not to be listed"))
    return out


def of_events():
    """A copy is equal."""
    return [
        (line("outside.event", "opened:7"), ok("Opened(7)")),
        (line("outside.event", "bytes:7:6869"), ok(f"Bytes(7, {blob('6869')})")),
        (line("outside.event", "bytes:4294967295:-"), ok(f"Bytes(4294967295, {blob('')})")),
        (line("outside.event", "closed:1000"), ok("Closed(1000)")),
        (line("outside.event", "dialled:1000"), ok("Dialled(1000)")),
        (line("outside.event", "dial_failed"), ok("DialFailed")),
        (line("outside.event", "stop"), ok("Stop")),
    ]


def cases():
    """Each line and its answer."""
    return (
        of_sinks()
        + of_clocks()
        + of_list_chances()
        + of_counter_chances()
        + of_files()
        + of_ports()
        + of_events()
    )
