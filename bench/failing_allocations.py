#!/usr/bin/env python3
"""Lets each allocation of lines of the case programs fail in turn, and compares the answers.

    python3 bench/failing_allocations.py [--lines N] [--most A] [--runs R] [--minutes M] [--all] [--show] [PROGRAM ..]

Of each program (account_cases, wire_cases, end_cases, top_cases) it looks at N lines: one of each operation, and 24 at
least. Each allocation of a line fails in a run of its own. A line has at most A allocations (600), and a program at
most R runs (1,500). The line must be answered as without the failure, or with want of memory; all other lines must be
answered as ever. What is answered otherwise is printed, and the status is then 1. Nothing here belongs to the gate, and
nothing is proved by it: `rt try` builds the program with checks, once for each pass.

`rt try --fail-alloc N` fails the Nth allocation of a run, and each call builds the program anew. So N stays as it is,
and the place in the line is moved by what stands in front of it: a line of one word allocates twice and a line of five
words three times, which both passes see for themselves. The first pass counts the allocations before the first line and
those of each line. The second one fails each allocation of each line.

Want of memory is one of three. An error of it ends the program in place of the line. A step of the line names it, and
an end answers `Stopped` to each event behind that. `not told` stands at the line's end, where what was kept in memory
lacks what found none, and all else is as ever.
"""

import argparse
import collections
import os
import pathlib
import re
import signal
import subprocess
import sys
import tempfile
import time

CRATES = pathlib.Path(__file__).resolve().parent.parent / "crates"
PROGRAMS = ["account_cases", "wire_cases", "end_cases", "top_cases"]
NONE = "no such case"
# A line of one word, and one of five, neither of which is a case: how often each allocates.
ONE, FIVE = "x", "x a b c d"
ONE_COUNT, FIVE_COUNT = 2, 3
# The first word of an end's events, by operation, and how many answers stand in front of theirs.
EVENTS = {"controller.run": (4, 0), "member.run": (6, 0), "client.run": (10, 1)}
# Which answers, from a line's end on, are of what was kept in memory, by operation.
LAST, TWO, THREE, SERVED = {-1}, {-2, -1}, {-3, -2, -1}, {-4, -3, -1}
KEPT = {
    "outside.sink": TWO, "outside.sure_sink": TWO, "outside.clock": LAST, "outside.files": LAST, "outside.port": TWO,
    "outside.sure_port": TWO, "top.run": TWO, "top.narrow": TWO, "top.say": TWO, "jobs.files": LAST, "serves.run": THREE,
    "loop.serve": SERVED, "loop.begin": SERVED,
}
WANT = re.compile(r"Memory\b|\bno memory\b")
ERRORS = ("out of memory", "memory allocation failed", "no memory")


# ---- lines


def lines_of(program):
    """Each line and its answer."""
    folder = CRATES / program
    return list(zip((folder / "stdin").read_text().splitlines(), (folder / "stdout").read_text().splitlines()))


def chosen(cases, count, longest):
    """Lines of all operations in turn: of each the middle one by length, the shortest, the longest, and those
    between."""
    kinds = collections.OrderedDict()
    for case in cases:
        if len(case[0]) <= longest and len(case[1]) <= 4 * longest:
            kinds.setdefault(case[0].split(" ")[0], []).append(case)
    queues = []
    for found in kinds.values():
        found.sort(key=lambda case: len(case[0]))
        places = [round(part * (len(found) - 1)) for part in (0.5, 0, 1, 0.25, 0.75, 0.375, 0.625)]
        queues.append([found[place] for place in dict.fromkeys(places)])
    out = []
    while len(out) < count and any(queues):
        for queue in queues:
            if queue and len(out) < count:
                out.append(queue.pop(0))
    return out


# ---- runs


class Run:
    """What a run wrote, and how it ended."""

    def __init__(self, said, out):
        self.out, self.lines = out, out.split("\n")[:-1]
        self.said, self.errors = said, ""

    def ended(self):
        return re.search(r"run=ended status=(\d+)", self.said)

    def is_done(self):
        found = self.ended()
        return bool(found) and found[1] == "0"

    def finds_no_memory(self):
        found = self.ended()
        return bool(found) and found[1] == "1" and any(text in self.errors.lower() for text in ERRORS)


def tried(program, failing, files, deadline):
    """Builds the program, and runs it on each file with this allocation failing. The runs that came, by name."""
    runs = {}
    with tempfile.TemporaryDirectory(prefix="failing-") as top:
        cases = pathlib.Path(top) / "cases"
        cases.mkdir()
        for name, text in files.items():
            (cases / name).write_text(text)
        words = ["rt", "try", "--fail-alloc", str(failing), "--steps", "1", "--seconds", "20", "--cases", str(cases)]
        how = {"cwd": CRATES / program, "stdin": subprocess.DEVNULL, "start_new_session": True}
        with open(f"{top}/out", "wb") as out, open(f"{top}/err", "wb") as err:
            tool = subprocess.Popen(words, stdout=out, stderr=err, **how)
            try:
                tool.wait(max(1, deadline - time.monotonic()))
            except subprocess.TimeoutExpired:
                os.killpg(tool.pid, signal.SIGTERM)
                tool.wait()
                print(f"{program}: the time is over; what ran is judged")
        out = pathlib.Path(f"{top}/out").read_text(errors="replace")
        err = pathlib.Path(f"{top}/err").read_text(errors="replace")
    texts = {}
    for part in re.split(r"^== ", out, flags=re.M)[1:]:
        name, _, text = part.partition("\n")
        texts[name] = text
    errors = []
    for each in err.split("\n"):
        found = re.match(r"case=(\S+) ", each)
        if not found:
            errors.append(each)
            continue
        name = found[1]
        if name in files:
            runs[name] = Run(each, texts.get(name, ""))
            runs[name].errors = "\n".join(text for text in errors if text and not text.startswith("allocations:"))
        errors = []
    if not runs:
        sys.exit(f"{program}: nothing ran\n{err[-2000:]}")
    return runs


class Plan:
    """Inputs of one length: lines in front, a case, and lines behind it."""

    def __init__(self, failing, cases):
        self.failing = failing
        self.behind = failing // ONE_COUNT + 50
        self.size = max(len(case[0].encode()) for case in cases) + len(FIVE) + 2 * (self.behind + failing) + 20

    def front(self, count):
        """Lines in front that allocate so often; None where there are none."""
        odd = count % ONE_COUNT
        ones = (count - FIVE_COUNT * odd) // ONE_COUNT
        return None if ones < 0 else [FIVE] * odd + [ONE] * ones

    def text(self, front, case, behind):
        lines = front + ([case] if case else []) + [ONE] * behind
        text = "".join(line + "\n" for line in lines)
        left = self.size - len(text.encode()) - 1
        assert left > 0
        return text + "x" * left + "\n"


def measured(program, plan, cases, deadline):
    """How many allocations there are before the first line, and in each case; None where those are too many."""
    files = {}
    for count in range(plan.failing - 40, plan.failing - 3, 5):
        files[f"base-{count}"] = plan.text(plan.front(count), None, plan.behind)
    for place, (text, _) in enumerate(cases):
        for count in (ONE_COUNT, FIVE_COUNT):
            files[f"case-{place}-{count}"] = plan.text(plan.front(count), text, plan.behind)
    runs = tried(program, plan.failing, files, deadline)
    bases, counts = set(), {}
    for name, run in runs.items():
        kind, *numbers = name.split("-")
        count = int(numbers[-1])
        if not run.finds_no_memory():
            continue
        front, printed = len(plan.front(count)), len(run.lines)
        if kind == "base" and printed >= front:
            # Of a line of one word the second allocation is the one whose failure ends the program.
            bases.add(plan.failing - count - 2 * (printed - front) - 2)
        elif kind == "case" and printed > front and run.lines[front] == cases[int(numbers[0])][1]:
            counts[int(numbers[0])] = plan.failing - count - 2 * (printed - front - 1) - 2
    assert len(bases) == 1, f"{program}: lines in front don't allocate as they are said to: {bases}"
    base = bases.pop()
    return base, [counts[place] - base if place in counts else None for place in range(len(cases))]


# ---- answers


def is_stopped(operation, words, answers, place):
    """Whether an end answers `Stopped` to each event behind this place."""
    first, before = EVENTS[operation]
    for later in range(place + 1, len(answers)):
        number = first + later - before
        if number >= len(words) or words[number] == "wants" or words[number].startswith("at/"):
            continue
        if answers[later] != "Err(Stopped)":
            return False
    return True


def judged(line, wanted, answer):
    """What another answer than the wanted one is: `memory`, `not told`, or why it is neither."""
    words = line.split(" ")
    old, new = wanted.split(";"), answer.split(";")
    if "not told" in new and "not told" not in old:
        kept = KEPT.get(words[0])
        if kept is None:
            return "`not told` of an operation that keeps nothing"
        if len(old) == len(new) and all(old[at] == new[at] for at in range(-len(old), 0) if at not in kept):
            return "not told"
    place = next((at for at, (one, other) in enumerate(zip(old, new)) if one != other), min(len(old), len(new)))
    if place >= len(new) or not WANT.search(new[place]):
        return f"step {place} has another answer, which isn't want of memory"
    if words[0] in EVENTS and not is_stopped(words[0], words, new, place):
        return f"an end answers behind want of memory, at step {place}"
    return "memory"


def compared(plan, case, front, run):
    """What a run came to: `as ever`, `ended`, `memory`, `not told`, `behind`, or what is wrong."""
    line, wanted = case
    before = [NONE] * len(front)
    if not run.ended():
        return f"no end: {run.said} {run.errors}"
    if run.lines[:len(before)] != before[:len(run.lines)]:
        return "a line in front has another answer"
    rest = run.lines[len(before):]
    if not run.is_done() and not run.finds_no_memory():
        return f"ends otherwise: {run.said} {run.errors}"
    if not rest:
        return "in front" if len(run.lines) < len(before) else "ended" if run.finds_no_memory() else "a line is missing"
    if any(text != NONE for text in rest[1:]):
        return "a line behind has another answer"
    came = "as ever" if rest[0] == wanted else judged(line, wanted, rest[0])
    if run.finds_no_memory():
        return "behind" if came == "as ever" else "two failures"
    return came


def sweep(program, options, started):
    """Tries a program. The number of answers that are wrong."""
    deadline = started + 60 * options.minutes
    cases = lines_of(program)
    wanted = options.lines or max(24, len({case[0].split(" ")[0] for case in cases}))
    cases = chosen(cases, wanted + 16, options.longest)
    plan = Plan(options.most + 40, cases)
    base, counts = measured(program, plan, cases, deadline)
    # the cheapest line of each operation, and then all others, cheap ones first, as long as there are runs
    most = [count if count is not None else min(options.most, plan.failing - base - FIVE_COUNT) for count in counts]
    order = sorted((place for place in range(len(cases)) if counts[place] is not None or options.all), key=lambda place: most[place])
    firsts = list({cases[place][0].split(" ")[0]: place for place in reversed(order)}.values())
    picked, runs = [], 0
    for place in sorted(firsts, key=lambda place: most[place]) + [place for place in order if place not in firsts]:
        if runs + most[place] <= options.runs:
            picked.append((cases[place], counts[place], most[place]))
            runs += most[place]
    print(f"{program}: {base} allocations before the first line, {len(picked)} lines, {runs} allocations of theirs")
    files, fronts = {}, {}
    for place, ((text, _), count, most) in enumerate(picked):
        # Two further ones show that the line's last allocation was tried: they are those of the line behind it.
        for number in range(1, most + (3 if count is not None else 1)):
            front = plan.front(plan.failing - base - number)
            if front is not None:
                name = f"{place:03}-{number:04}"
                files[name], fronts[name] = plan.text(front, text, 4), front
    ran = tried(program, plan.failing, files, deadline)
    total, wrong, lines = collections.Counter(), 0, 0
    for place, (case, count, most) in enumerate(picked):
        found = collections.Counter()
        for number in range(1, most + (3 if count is not None else 1)):
            name = f"{place:03}-{number:04}"
            if name not in ran:
                found["not run"] += 1
                continue
            came = compared(plan, case, fronts[name], ran[name])
            if count is not None and number > count:
                if came != ("behind" if number == count + 2 else "as ever"):
                    print(f"  {case[0][:60]}: what is behind its {count} allocations: {came}")
                    wrong += 1
                continue
            if came not in ("as ever", "ended", "memory", "not told"):
                wrong += 1
                print(f"  {case[0]}\n    allocation {number}: {came}\n    wanted   {case[1]}")
                print("    answered " + "\n             ".join(ran[name].lines[len(fronts[name]):][:1] + [ran[name].errors]))
                came = "wrong"
            found[came] += 1
        total += found
        lines += not found["not run"]
        if options.show:
            shown = ", ".join(f"{name} {number}" for name, number in sorted(found.items()))
            print(f"  {case[0][:70]}: {'more' if count is None else count}: {shown}")
    shown = ", ".join(f"{number} {name}" for name, number in sorted(total.items()))
    print(f"{program}: {lines} lines to their ends, {len({case[0].split(' ')[0] for case, _, _ in picked})} operations: {shown}")
    return wrong


def main():
    parser = argparse.ArgumentParser(description=__doc__.split("\n")[0])
    parser.add_argument("programs", nargs="*", default=PROGRAMS)
    parser.add_argument("--lines", type=int, default=0, help="how many lines of a program")
    parser.add_argument("--most", type=int, default=600, help="how many allocations of a line at most")
    parser.add_argument("--runs", type=int, default=1500, help="how many runs of a program at most")
    parser.add_argument("--longest", type=int, default=2000, help="how many bytes a line has at most")
    parser.add_argument("--minutes", type=float, default=30, help="how long a program may take")
    parser.add_argument("--all", action="store_true", help="take lines with more allocations too, and fail the first ones")
    parser.add_argument("--show", action="store_true", help="print what each line came to")
    options = parser.parse_args()
    os.nice(5)
    wrong = 0
    for program in options.programs:
        wrong += sweep(program, options, time.monotonic())
        sys.stdout.flush()
    print(f"{wrong} wrong answers")
    sys.exit(1 if wrong else 0)


if __name__ == "__main__":
    main()
