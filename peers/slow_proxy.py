#!/usr/bin/env python3
"""A link to a controller on which answers are late: in plain Python.

usage: slow_proxy.py PORT CONTROLLER_PORT SECONDS

Listens at PORT of the loopback address, and opens a link to CONTROLLER_PORT there for each link that comes, one after
the other. Units go both ways as they are (C706 12.6), each answer so many seconds after it came. It ends when it is
killed. Each wait for a unit ends after 10 seconds, and so does its link."""

import os
import socket
import sys
import time

sys.dont_write_bytecode = True
sys.path.insert(0, os.path.dirname(os.path.abspath(__file__)))

from losing_proxy import whole_call


def serve(asking, port, seconds):
    """Carries what comes on a link, until a side closes it."""
    asking.settimeout(10)
    with asking, socket.create_connection(("127.0.0.1", port), 10) as controller:
        while True:
            whole_call(asking, controller)
            time.sleep(seconds)
            whole_call(controller, asking)


def main():
    port, controller_port = map(int, sys.argv[1:3])
    with socket.create_server(("127.0.0.1", port)) as listener:
        while True:
            try:
                serve(listener.accept()[0], controller_port, float(sys.argv[3]))
            except (EOFError, OSError):
                continue


if __name__ == "__main__":
    main()
