#!/usr/bin/env python3
"""A link to a controller that goes mute: in plain Python.

usage: mute_proxy.py PORT CONTROLLER_PORT LINK ANSWERS

Listens at PORT of the loopback address, and opens a link to CONTROLLER_PORT there for each link that comes, one after
the other. Units go both ways as they are (C706 12.6), until on the link of that number, counted from 1, so many answers
were handed on. What is asked next is handed on too, and its answer is taken: `mute` is printed, and nothing more is
done on the link until the side that asks closes it. Later links are served as the first ones. It ends when it is
killed. Each wait for a unit ends after 10 seconds, and so does its link."""

import os
import socket
import sys

sys.dont_write_bytecode = True
sys.path.insert(0, os.path.dirname(os.path.abspath(__file__)))

from losing_proxy import unit, whole_call


def fall_mute(asking, controller):
    """Takes the answer, and waits until the side that asks closes its link."""
    while not unit(controller)[1]:
        pass
    print("mute", flush=True)
    while asking.recv(65536):
        pass


def serve(asking, port, answers):
    """Carries what comes on a link, until a side closes it, or so many answers were handed on, where a number is
    given."""
    asking.settimeout(10)
    with asking, socket.create_connection(("127.0.0.1", port), 10) as controller:
        controller.settimeout(10)
        while True:
            whole_call(asking, controller)
            if answers == 0:
                return fall_mute(asking, controller)
            whole_call(controller, asking)
            answers = None if answers is None else answers - 1


def main():
    port, controller_port, link, answers = map(int, sys.argv[1:])
    with socket.create_server(("127.0.0.1", port)) as listener:
        number = 0
        while True:
            number += 1
            try:
                serve(listener.accept()[0], controller_port, answers if number == link else None)
            except (EOFError, OSError):
                continue


if __name__ == "__main__":
    main()
