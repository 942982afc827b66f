"""Cases of the sessions of interactive_logon: `sessions.steps STEP..`, with the steps `add/COMPUTER/USER/ID`,
`remove/COMPUTER/USER/ID`,
`fill/COMPUTER/USER/COUNT`, which adds so many with logon ids from 0 on, `count` and `all`. Names are 16-bit units in
hex.

At most 10,000 are kept, names in ASCII upper case, and the first that fits is taken out: this project's own rules,
worked out here by a list.
"""

import random

from forms import line, struct, units, utf16

LIMIT = 10_000


def upper(name):
    """ASCII upper case."""
    return "".join(chr(ord(letter) - 32) if "a" <= letter <= "z" else letter for letter in name)


class Sessions:
    """The list, by its rules."""

    def __init__(self):
        self.list = []

    def add(self, computer, user, number):
        if len(self.list) == LIMIT:
            return "Err(Full)"
        self.list.append((upper(computer), upper(user), number))
        return "Ok(())"

    def remove(self, computer, user, number):
        entry = upper(computer), upper(user), number
        if entry not in self.list:
            return "false"
        self.list.remove(entry)
        return "true"

    def shown(self):
        return "[" + ", ".join(struct("Session", computer=units(c), user=units(u), logon_id=n) for c, u, n in self.list) + "]"


def scenario(*steps):
    """A line and its answer: each step is its name and its values."""
    sessions, words, answers = Sessions(), [], []
    for name, *value in steps:
        if name in ("add", "remove", "fill"):
            computer, user, number = value
            words.append("/".join([name, utf16(computer) or "-", utf16(user) or "-", str(number)]))
        else:
            words.append(name)
        if name == "fill":
            last = "Ok(())"
            for each in range(number):
                last = sessions.add(computer, user, each)
            answers.append(last)
        elif name in ("add", "remove"):
            answers.append(getattr(sessions, name)(computer, user, number))
        else:
            answers.append(str(len(sessions.list)) if name == "count" else sessions.shown())
    return line("sessions.steps", *words), ";".join(answers)


def cases():
    """Each line and its answer."""
    out = [
        scenario(("all",), ("count",), ("remove", "WS1", "ann", 0)),
        scenario(("add", "ws1", "ann", 0), ("all",), ("remove", "WS1", "ANN", 1), ("remove", "WS2", "ANN", 0), ("remove", "WS1", "BOB", 0),
                 ("remove", "Ws1", "aNN", 0), ("remove", "Ws1", "aNN", 0), ("all",)),
        # two alike: the first is taken out, and the order of the others stays
        scenario(("add", "WS1", "ann", 7), ("add", "WS2", "bob", 7), ("add", "WS1", "ann", 7), ("add", "WS3", "eve", 8), ("remove", "WS1", "ann", 7),
                 ("all",), ("remove", "WS1", "ann", 7), ("all",), ("remove", "WS1", "ann", 7)),
        # ASCII letters alone have another case; names differ by one unit, and may be empty
        scenario(("add", "\u00e4", "j\u00fcrgen", 2**64 - 1), ("remove", "\u00c4", "J\u00fcRGEN", 2**64 - 1), ("remove", "\u00e4", "J\u00fcRGEN", 2**64 - 1)),
        scenario(("add", "", "", 0), ("add", "W", "", 0), ("all",), ("remove", "", "", 0), ("all",)),
        scenario(("add", "WS1", "ann", 2**32), ("remove", "WS1", "ann", 0), ("remove", "WS1", "ann", 2**32)),
        scenario(("add", "[\\]^_`{|}~@", "az", 0), ("all",)),
        # 9,999, 10,000, and no more; one taken out leaves room for one
        scenario(("fill", "WS1", "ann", LIMIT - 1), ("count",), ("add", "WS1", "bob", 0), ("count",), ("add", "WS1", "bob", 1), ("count",),
                 ("remove", "ws1", "BOB", 1), ("remove", "ws1", "BOB", 0), ("add", "WS1", "eve", 5), ("add", "WS1", "eve", 5), ("count",)),
        scenario(("fill", "WS1", "ann", LIMIT), ("fill", "WS1", "ann", 1), ("remove", "WS1", "ann", LIMIT - 1), ("remove", "WS1", "ann", LIMIT), ("count",)),
        scenario(("fill", "WS1", "ann", LIMIT + 1), ("count",)),
    ]
    chooser = random.Random("sessions")
    for _ in range(20):
        steps = []
        for _ in range(40):
            names = chooser.choice(["WS1", "ws1", "WS2"]), chooser.choice(["ann", "ANN", "bob"]), chooser.randrange(3)
            steps.append((chooser.choice(["add", "remove"]), *names))
        out.append(scenario(*steps, ("all",)))
    return out
