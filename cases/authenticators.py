"""Cases of authenticators.

`sequence.run KEY SEED STEP..`, whose steps are `make=TIMESTAMP`, `judge=TIMESTAMP:CREDENTIAL`, `return=CREDENTIAL`,
`awaits` and `key`. The answers stand with `;` between them. `sequence.channel SECRET CLIENT SERVER FLAGS STEP..` is the
same on a new channel, whose seed is the client's credential. `sequence.timestamp NOW`: the timestamp of a moment in
units of 100 ns since 1601.
"""

import datetime

from forms import LIVE_SECRET, array, line, live_calls, ok, option, struct, values


def not_next(awaited):
    """The refusal, with the credential that is awaited."""
    return f"Err({struct('NotNext', awaited=array(awaited))})"


def authenticator(step):
    """The authenticator of a step."""
    return struct("Authenticator", credential=array(step["credential"]), timestamp=step["timestamp"])


def altered(credential):
    """A credential with one bit changed."""
    return credential[:-2] + f"{int(credential[-2:], 16) ^ 1:02x}"


def scenario(sequence, steps):
    """A line of steps, each with its answer, on one end's sequence."""
    words = [step for step, _ in steps]
    return line("sequence.run", sequence["key"], sequence["seed"], *words), ";".join(
        answer for _, answer in steps
    )


def made(step):
    """The maker's part in a step: it makes, awaits, refuses another credential, takes the right one, and then awaits
    none."""
    returned = step["awaited_return"]
    return [
        (f"make={step['timestamp']}", authenticator(step)),
        ("awaits", option(returned, array)),
        (f"return={altered(returned)}", not_next(returned)),
        ("awaits", option(returned, array)),
        (f"return={returned}", ok("()")),
        ("awaits", "None"),
    ]


def judged(step):
    """The judge's part in a step."""
    return (f"judge={step['timestamp']}:{step['credential']}", ok(array(step["awaited_return"])))


def refused(timestamp, credential, awaited):
    """The judge's part in a step that it refuses."""
    return (f"judge={timestamp}:{credential}", not_next(awaited))


def of_moments():
    """Moments and their seconds since 1970, modulo 2^32, by Python's own calendar."""
    first = datetime.datetime(1601, 1, 1)
    out = []
    for when in [
        first,
        datetime.datetime(1969, 12, 31, 23, 59, 59),
        datetime.datetime(1970, 1, 1),
        datetime.datetime(2000, 2, 29, 12, 30, 15),
        datetime.datetime(2026, 1, 1),
        datetime.datetime(2106, 2, 7, 6, 28, 15),
        datetime.datetime(2106, 2, 7, 6, 28, 16),
        datetime.datetime(9999, 12, 31, 23, 59, 59),
    ]:
        seconds = (when - first) // datetime.timedelta(seconds=1)
        timestamp = (when - datetime.datetime(1970, 1, 1)) // datetime.timedelta(seconds=1) % 2**32
        for part in [0, 1, 9_999_999]:
            out.append((line("sequence.timestamp", 10_000_000 * seconds + part), str(timestamp)))
    last = 2**64 - 1
    out.append((line("sequence.timestamp", last), str((last // 10_000_000 - 11_644_473_600) % 2**32)))
    return out


def of_live_link():
    """The three logons of a recorded link between Samba's client and its controller, as each end makes and judges
    them."""
    asked, answered, offered, _, *logons = [case["fields"] for case in live_calls()]
    steps = [
        call["authenticator"] | {"awaited_return": reply["returned"]["credential"]}
        for call, reply in zip(logons[::2], logons[1::2])
    ]
    assert len(steps) == 3
    of_channel = LIVE_SECRET, asked["challenge"], answered["challenge"], f"{offered['flags']:08x}"
    of_maker = [part for step in steps for part in made(step)]
    of_judge = [judged(step) for step in steps]
    return [
        (
            line("sequence.channel", *of_channel, *[step for step, _ in each]),
            ";".join(answer for _, answer in each),
        )
        for each in [of_maker, of_judge]
    ]


def cases():
    """Each line and its answer."""
    sequences = values("netlogon")["sequences"]
    out = []
    for sequence in sequences:
        steps, last = sequence["steps"], sequence["then_refused"]
        # The maker's end, the judge's end, and the judge's end once more with a refused step before each, which changes
        # nothing.
        key = ("key", sequence["key"])
        out.append(
            scenario(sequence, [key, ("awaits", "None"), key] + [part for step in steps for part in made(step)])
        )
        wrong = refused(last["timestamp"], last["credential"], last["awaited"])
        out.append(scenario(sequence, [judged(step) for step in steps] + [wrong]))
        both = []
        for step in steps:
            credential = step["credential"]
            both.append(refused(step["timestamp"], altered(credential), credential))
            both.append(judged(step))
        out.append(scenario(sequence, both))
        # Without the return credentials: the last one made is awaited.
        each = [(f"make={step['timestamp']}", authenticator(step)) for step in steps]
        out.append(scenario(sequence, each + [("awaits", option(steps[-1]["awaited_return"], array))]))
    # Timestamps, each plus one, that sum to 2^32 leave the seed where it stood: what passed passes again (MS-NRPC
    # 3.1.4.5).
    second = sequences[1]["steps"]
    half = [step for step in second if step["timestamp"] == 2147483647]
    out.append(scenario(sequences[1], [judged(step) for step in second] + [judged(step) for step in half]))
    # 2^32 - 1 twice: the same bytes pass twice. 0 twice: the second is refused, and the credential of its seed is
    # awaited.
    last, again, none = second[0], second[1], second[2]
    assert last == again and none["timestamp"] == 0
    out.append(
        scenario(
            sequences[1],
            [judged(last), judged(last), judged(last), judged(none)]
            + [refused(0, none["credential"], none["awaited_return"])],
        )
    )
    return out + of_live_link() + of_moments()
