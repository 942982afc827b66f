#!/usr/bin/env python3
"""Writes what the case programs are run on, and what they must answer.

    python3 cases/make.py           writes crates/PROGRAM/stdin and crates/PROGRAM/stdout of each program
    python3 cases/make.py --check   says which of those files are not what it would write; status 1 where any isn't,
                                    where two published values contradict each other, or where the drill of 100,000
                                    moves isn't clear or counts something else (it takes about a minute)

Each library has a module here (`cases/LIBRARY.py`) with a function `cases()`, which gives pairs of a line and its
answer. Answers come from published values (`values/`), from literals that name their source, or from Python's own
libraries: never from a program of this repository. Nothing is built here, and no program of this repository is run.
"""

import importlib
import pathlib
import sys

sys.dont_write_bytecode = True

HERE = pathlib.Path(__file__).resolve().parent
CRATES = HERE.parent / "crates"

# The libraries of each program, in the order of their lines.
PROGRAMS = {
    "primitive_cases": [
        "des_cipher",
        "digest_parts",
        "rc4_stream",
        "channel_keys",
        "authenticators",
        "ntlm_responses",
        "ntlm_seal",
        "netlogon_seal",
        "secret_change",
    ],
    "wire_cases": [
        "wire_base",
        "ntlm_messages",
        "rpc_units",
        "ndr_codec",
        "logon_stubs",
        "interactive_logon",
        "memo_stubs",
        "set_stubs",
    ],
    "account_cases": [
        "account_table",
        "sam_logon",
        "logon_sessions",
        "outside",
    ],
    "end_cases": [
        "end_links",
        "end_loop",
        "channel_sealing",
        "channel_client",
        "sealed_turns",
        "channel_turns",
        "controller_calls",
        "domain_controller",
        "trusts",
        "sealed_controller",
        "logon_client",
        "interactive_station",
        "member_server",
        "sealed_member",
        "domain_world",
        "world_trusts",
        "world_seals",
        "world_stations",
    ],
    "top_cases": [
        "nt_top",
        "serving",
        "logging_on",
        "logging_off",
        "nt_words",
    ],
}


def lines_of(program):
    """The lines of a program's input and of its output, a case a line. The same case twice is kept once."""
    answers = {}
    for library in PROGRAMS[program]:
        for line, answer in importlib.import_module(library).cases():
            for text in (line, answer):
                if not text or "\n" in text or "\r" in text or text.strip(" ") != text:
                    sys.exit(f"{program}: not a line by itself: {text!r}")
            if answers.setdefault(line, answer) != answer:
                sys.exit(f"{program}: two answers to {line!r}")
    return list(answers), list(answers.values())


def files():
    """Each file and its text."""
    for program, libraries in PROGRAMS.items():
        if libraries:
            lines, answers = lines_of(program)
            folder = CRATES / program
            yield folder / "stdin", "".join(line + "\n" for line in lines)
            yield folder / "stdout", "".join(answer + "\n" for answer in answers)


def main():
    sys.path.insert(0, str(HERE))
    only_check = sys.argv[1:] == ["--check"]
    if sys.argv[1:] and not only_check:
        sys.exit(__doc__)
    importlib.import_module("forms").is_checking = only_check
    differs = False
    for path, text in files():
        name = path.relative_to(HERE.parent)
        old = path.read_text(encoding="utf-8") if path.exists() else None
        if old == text:
            continue
        if only_check:
            print(f"{name} is not what cases/make.py writes")
            differs = True
        else:
            path.write_text(text, encoding="utf-8")
            print(f"{name}: {text.count(chr(10))} lines")
    sys.exit(1 if differs else 0)


if __name__ == "__main__":
    main()
