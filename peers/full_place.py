#!/usr/bin/env python3
"""A place at which no dial is answered: in plain Python.

usage: full_place.py PORT

Listens at PORT of the loopback address, fills the queue of links that wait to be accepted, and accepts none: Linux
passes over each further one, as a machine does that can't be reached. Prints `full` then. It ends when it is killed."""

import socket
import sys
import time


def main():
    address = ("127.0.0.1", int(sys.argv[1]))
    listener = socket.create_server(address, backlog=0)
    held = [listener]
    while True:
        link = socket.socket()
        link.settimeout(0.3)
        held.append(link)
        try:
            link.connect(address)
        except TimeoutError:
            break
    print("full", flush=True)
    while True:
        time.sleep(60)


if __name__ == "__main__":
    main()
