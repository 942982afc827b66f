"""Cases of end_loop, over a small end of the program's own and the outside in memory:

    loop.serve EVENTS FAILING FAILING_PUTS DRAWS MOMENT MOST FILE FAILING_WRITES     `serve_at` without first actions
    loop.serve_first EVENTS FAILING FAILING_PUTS DRAWS MOMENT MOST FILE FAILING_WRITES
                                             `serve_at` a text to keep and a dial
    loop.begin EVENTS FAILING FAILING_PUTS DRAWS MOMENT MOST FILE FAILING_WRITES     `begin_with` a first dial

The answers are worked out here by the rules of the loop (docs/FORMATS.md, "Serving") and of the small end: a link that
is opened gets the next challenge, and `opened` is put; what comes is written to FILE, where one is named, before it is
sent back twice and dialled; a link that was dialled gets `on`; a dial that failed puts `barred`; the end is over when
the link that it dialled last is closed. Calls of the port are counted from 0, `listen` among them, and so are writes.
What the file `kept` holds at the end is read last.
"""

from forms import line

# What is done before the first event is asked for: `serve_at` listens before it.
FIRST = {"serve": [], "serve_first": [("keep", b"first".hex()), ("dial",)], "begin": [("dial",)]}

CHALLENGES = ["1011121314151617", "2021222324252627", "3031323334353637"]


class Halts(Exception):
    """The run halts."""


class Port:
    """Gives the events and then `stop`; the calls of the listed numbers fail."""

    def __init__(self, events, failing):
        self.events, self.failing, self.calls, self.link, self.sent = list(events), failing, 0, 1000, []

    def fails(self):
        self.calls += 1
        return self.calls - 1 in self.failing

    def next(self):
        if self.fails():
            raise Halts("PortFault")
        return self.events.pop(0) if self.events else ("stop",)

    def dial(self):
        if self.fails():
            return ("dial_failed",)
        self.link += 1
        return ("dialled", self.link - 1)

    def send(self, link, data):
        if self.fails():
            return False
        self.sent.append((link, data))
        return True


class Run:
    """A run of the small end."""

    def __init__(self, events, failing, failing_puts, draws, waiting, file, failing_writes):
        self.port, self.draws, self.failing_puts = Port(events, failing), list(draws), failing_puts
        self.puts, self.out, self.queue = 0, b"", []
        self.file, self.failing_writes, self.writes, self.files = file, failing_writes, 0, {}
        self.waiting, self.link, self.over, self.stopped = waiting, None, False, False

    def put(self, text):
        if not text:
            return
        self.puts += 1
        if self.puts - 1 in self.failing_puts:
            raise Halts("SinkFault")
        self.out += text

    def write(self, data):
        if self.file is None:
            return
        self.writes += 1
        if self.writes - 1 in self.failing_writes:
            raise Halts("FileFault")
        self.files[self.file] = data

    def actions(self, event):
        kind = event[0]
        if kind == "opened":
            if not self.draws:
                self.stopped = True
                raise Halts("Spent")
            return [("line", b"opened\n"), ("send", event[1], self.draws.pop(0))]
        if kind == "bytes":
            self.waiting += 1
            return [("keep", event[2]), ("send", event[1], event[2]), ("send", event[1], event[2]), ("dial",)]
        if kind == "closed" and event[1] == self.link:
            self.link, self.over = None, True
            return [("line", b"over\n")]
        if kind == "dialled" and self.waiting:
            self.waiting, self.link = self.waiting - 1, event[1]
            return [("send", event[1], b"on".hex())]
        if kind == "dial_failed" and self.waiting:
            self.waiting -= 1
            return [("line", b"barred\n")]
        return []

    def perform(self, actions):
        failed = set()
        for action in actions:
            if action[0] == "line":
                self.put(action[1])
            elif action[0] == "keep":
                self.write(action[1])
            elif action[0] == "dial":
                self.queue.append(self.port.dial())
            elif action[1] not in failed and not self.port.send(action[1], action[2]):
                failed.add(action[1])
                self.queue.append(("closed", action[1]))

    def step(self, event):
        self.perform(self.actions(event))

    def drain(self):
        while self.queue:
            self.step(self.queue.pop(0))

    def serve(self, most):
        self.drain()
        asked = 0
        while asked < most and not self.over:
            event = self.port.next()
            if event[0] == "stop":
                return
            self.step(event)
            self.drain()
            asked += 1

    def seen(self, done):
        sent = ",".join(f"{link}:{data or '-'}" for link, data in self.port.sent) or "-"
        link = f"Some({self.link})" if self.link is not None else "None"
        state = f"Small {{ waiting: {self.waiting}, link: {link}, over: {str(self.over).lower()}, stopped: {str(self.stopped).lower()} }}"
        kept = self.files.get("kept")
        return ";".join([done, sent, self.out.hex() or "-", state, "none" if kept is None else kept or "-", "told"])


def word(event):
    return ":".join(str(part) or "-" for part in event)


def case(operation, events, failing=(), failing_puts=(), draws=CHALLENGES, most=99, file=None, failing_writes=()):
    """A line and its answer."""
    run = Run(events, set(failing), set(failing_puts), draws, FIRST[operation].count(("dial",)), file, set(failing_writes))
    try:
        if operation != "begin" and run.port.fails():
            raise Halts("PortFault")
        run.perform(FIRST[operation])
        run.serve(most)
        done = "Ok(())"
    except Halts as halt:
        done = f"Err({halt})"
    numbers = lambda values: ",".join(str(value) for value in values) or "-"
    words = [",".join(word(event) for event in events) or "-", numbers(failing), numbers(failing_puts), ",".join(draws) or "-", "5", str(most), file or "-", numbers(failing_writes)]
    return line(f"loop.{operation}", *words), run.seen(done)


OPENED = ("opened", 1)
TALK = ("bytes", 1, "70656572")
LONG = [OPENED, TALK, ("opened", 2), ("bytes", 2, "ff"), ("closed", 1), ("closed", 1001), ("opened", 3)]


def cases():
    """Each line and its answer."""
    out = [case("serve", []), case("serve", [OPENED]), case("serve", LONG), case("begin", []), case("begin", LONG)]
    # a failing call of each kind at each place
    for number in range(18):
        out.append(case("serve", LONG, [number]))
        out.append(case("begin", LONG, [number]))
    # two sends on a link of which the first fails, and both; a send and the dial after it
    out += [case("serve", [OPENED, TALK, OPENED], failing) for failing in ([4], [5], [4, 5], [4, 6], [5, 6], [6], [6, 7])]
    # a failing put at each line
    out += [case("serve", LONG, (), [number]) for number in range(5)]
    out += [case("begin", LONG, (), [number]) for number in range(4)]
    out.append(case("begin", LONG, [0], [0]))
    # challenges that are spent, before the first and between
    out += [case("serve", [OPENED, TALK, ("opened", 2), ("opened", 3)], (), (), CHALLENGES[:count]) for count in range(3)]
    # as many events as are taken, with dials' answers in the queue
    out += [case("serve", LONG, (), (), CHALLENGES, most) for most in range(9)]
    out += [case("begin", LONG, (), (), CHALLENGES, most) for most in range(4)]
    # `Stop` in mid-run, and events after the outcome
    out.append(case("serve", [OPENED, ("stop",), TALK]))
    out.append(case("serve", [TALK, ("closed", 1000), OPENED, TALK]))
    out.append(case("begin", [("closed", 1000), OPENED]))
    return out + of_kept() + of_first_actions()


def of_kept():
    """Each text that comes is in the file before it is sent back, whatever the port does then; a write that fails ends
    the run before it, and what was written and sent until then stands."""
    three = [OPENED, TALK, ("bytes", 1, ""), ("bytes", 1, "ff" * 300), ("opened", 2)]
    out = []
    for operation in ["serve", "begin"]:
        for file in ["kept", "other", None]:
            out.append(case(operation, three, file=file))
            out.append(case(operation, [], file=file))
        out += [case(operation, three, file="kept", failing_writes=[number]) for number in range(3)]
        # without a name no write is made, so that none fails; the file that is read at the end isn't there
        out.append(case(operation, three, failing_writes=[0, 1, 2]))
        # the send, the put and the dial behind a write fail
        out += [case(operation, three, [number], file="kept") for number in range(14)]
        out += [case(operation, LONG, (), [number], file="kept") for number in range(5)]
        out += [case(operation, three, file="kept", most=most) for most in range(5)]
    # the write of a text that the queue's events stand behind
    out.append(case("serve", LONG, file="kept", failing_writes=[1]))
    out.append(case("begin", LONG, file="kept", failing_writes=[0]))
    return out


def of_first_actions():
    """What is done first is done once the port listens, and before an event is asked for: where the port doesn't
    listen the file stands as it was, and a first write that fails ends the run before the dial."""
    out = []
    for file in ["kept", "other", None]:
        out += [case("serve_first", events, file=file) for events in ([], LONG, [("stop",), OPENED])]
        # the port doesn't listen, the dial fails, and the first events aren't given
        out += [case("serve_first", LONG, [number], file=file) for number in range(5)]
        out += [case("serve_first", LONG, file=file, failing_writes=[number]) for number in range(3)]
        out += [case("serve_first", LONG, file=file, most=most) for most in range(3)]
    # the put at the answer of a dial that failed, and a challenge that isn't there
    out.append(case("serve_first", LONG, [1], [0], file="kept"))
    out.append(case("serve_first", LONG, draws=[], file="kept"))
    return out
