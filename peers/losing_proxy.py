#!/usr/bin/env python3
"""A link between a member server and its controller that loses one reply: in plain Python.

usage: losing_proxy.py PORT CONTROLLER_PORT OPNUM

Listens at PORT of the loopback address, and opens a link to CONTROLLER_PORT there for each link that comes, one after
the other. Units go both ways as they are (C706 12.6). The reply to the first request of call OPNUM is taken from the
controller and not handed on: both links are closed then, and `lost` is printed. It ends when it is killed. Each wait
for a unit ends after 10 seconds, and so does its link."""

import socket
import sys

REQUEST = 0


def take(link, count):
    """So many bytes of a link."""
    data = b""
    while len(data) < count:
        piece = link.recv(count - len(data))
        if not piece:
            raise EOFError
        data += piece
    return data


def unit(link):
    """A whole unit: its bytes, its kind, whether it is the last of its call, and its call's number where it asks."""
    head = take(link, 16)
    data = head + take(link, int.from_bytes(head[8:10], "little") - 16)
    opnum = int.from_bytes(data[22:24], "little") if head[2] == REQUEST else None
    return data, bool(head[3] & 2), opnum


def whole_call(source, target):
    """Hands on the units of a call up to its last one; gives the number of the call."""
    while True:
        data, last, opnum = unit(source)
        target.sendall(data)
        if last:
            return opnum


def carry(member, controller, to_lose):
    """Calls and their replies, until a side closes its link, or the reply to a call to lose comes: whether it came."""
    while True:
        if whole_call(member, controller) in to_lose:
            while not unit(controller)[1]:
                pass
            return True
        whole_call(controller, member)


def serve(member, port, to_lose):
    """Carries what comes on a member's link, until a side closes it or a reply is lost: whether one was."""
    member.settimeout(10)
    with member, socket.create_connection(("127.0.0.1", port), 10) as controller:
        try:
            return carry(member, controller, to_lose)
        except (EOFError, OSError):
            return False


def main():
    port, controller_port, opnum = map(int, sys.argv[1:])
    to_lose = {opnum}
    with socket.create_server(("127.0.0.1", port)) as listener:
        while True:
            try:
                lost = serve(listener.accept()[0], controller_port, to_lose)
            except OSError:
                continue
            if lost:
                print("lost", flush=True)
                to_lose = set()


if __name__ == "__main__":
    main()
