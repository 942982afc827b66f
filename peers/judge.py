#!/usr/bin/env python3
"""A domain controller in plain Python: the one of `cases/domain_controller.py`, over TCP.

usage: judge.py PORT SECRET HASH

Listens at PORT of the loopback address, as the controller of the domain CORP with the user ann, of that NT hash, and
the workstation WS1, of that secret, 32 hex digits each. It serves one link after the other. For each judged call it
prints `passed` and the status, `barred` or `no channel`. It ends when it is killed. A link on which nothing comes for
10 seconds is closed."""

import os
import socket
import sys
import time

sys.path.insert(0, os.path.join(os.path.dirname(os.path.abspath(__file__)), "..", "cases"))
sys.dont_write_bytecode = True

from documents import ANN
from domain_controller import FILE1, Controller

# Seconds between 1601-01-01 and 1970-01-01.
SECONDS_TO_1970 = 11_644_473_600
CHALLENGES = 1000


def printed(action):
    """The line of a judged call."""
    how = action.removeprefix("judged ")
    if how.startswith("Passed("):
        return f"passed {int(how[7:-1]):08x}"
    return {"Barred": "barred", "NoChannel": "no channel"}[how]


def perform(link, actions):
    """Sends what is to be sent, and prints what was judged; whether the link goes on."""
    for action in actions:
        if action.startswith("send "):
            link.sendall(bytes.fromhex(action.split(" ")[2]))
        elif action.startswith("judged "):
            print(printed(action), flush=True)
    return not any(action.startswith("close ") for action in actions)


def serve(controller, link, number):
    """Serves a link until a side closes it."""
    link.settimeout(10)
    controller.opened(number)
    with link:
        while data := link.recv(65536):
            controller.at(int((time.time() + SECONDS_TO_1970) * 10**7)).bytes(data, number)
            if not perform(link, controller.actions):
                return
    controller.closed(number)


def main():
    port, secret, user_hash = sys.argv[1:]
    challenges = [os.urandom(8).hex() for _ in range(CHALLENGES)]
    controller = Controller(users=(ANN | {"hash": user_hash},), machines=(FILE1 | {"name": "WS1$", "hash": secret},), challenges=challenges)
    with socket.create_server(("127.0.0.1", int(port))) as listener:
        number = 0
        while True:
            number += 1
            try:
                serve(controller, listener.accept()[0], number)
            except OSError:
                continue


if __name__ == "__main__":
    main()
