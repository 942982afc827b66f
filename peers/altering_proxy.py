#!/usr/bin/env python3
"""Logons over a member server whose channel seals, of which a byte is altered on the way to the controller or back: in
plain Python, with the client of `cases/`.

usage: altering_proxy.py PORT CONTROLLER_PORT MEMBER_PORT DOMAIN USER HASH SHARE OF

Listens at PORT of the loopback address, where the member server at MEMBER_PORT asks its controller, and opens a link to
CONTROLLER_PORT there for each link that comes, one after the other. USER logs on over the member server, again and
again. Of one logon after the other a bit of one byte of the sealed request is altered, and then of one byte of the
sealed reply, at the places whose number modulo OF is SHARE. Behind an altered unit both links are closed, so that
nobody waits for more of a unit that says that it is longer. An altered logon gets no answer; of the next two, one is
let in.

Prints `listening` once it does, and at the end `request COUNT`, `reply COUNT` and `in COUNT`: how many requests and
replies were altered, and how many logons were let in. It ends with status 0 where all came so, and with 1 else. Each
wait ends after 10 seconds."""

import os
import socket
import sys
import threading
import time

sys.path.insert(0, os.path.join(os.path.dirname(os.path.abspath(__file__)), "..", "cases"))
sys.dont_write_bytecode = True

import logon_client
from wire import flipped

NO_ANSWER = "Some(NoAnswer(NoController))"


def take(link, count):
    """So many bytes of a link."""
    data = b""
    while len(data) < count:
        piece = link.recv(count - len(data))
        if not piece:
            raise EOFError
        data += piece
    return data


def call_in(link):
    """The units of a call, up to its last one, and whether the first has a trailer."""
    data, last, trailer = b"", False, False
    while not last:
        head = take(link, 16)
        last, trailer = bool(head[3] & 2), trailer or head[10:12] != bytes(2)
        data += head + take(link, int.from_bytes(head[8:10], "little") - 16)
    return data, trailer


class Proxy:
    """The links between the member and its controller."""

    def __init__(self, port, controller_port):
        self.controller_port = controller_port
        # what is to be altered: `request` or `reply`, the place and the bits; and the sizes of both as they came last
        self.to_alter, self.sizes, self.answered = None, {}, b""
        self.listener = socket.create_server(("127.0.0.1", port))
        threading.Thread(target=self.run, daemon=True).start()

    def run(self):
        while True:
            link = self.listener.accept()[0]
            link.settimeout(10)
            try:
                with link, socket.create_connection(("127.0.0.1", self.controller_port), 10) as controller:
                    self.serve(link, controller)
            except (EOFError, OSError):
                pass

    def altered(self, part, data):
        """The bytes, altered where they are to be; and whether they are."""
        self.sizes[part] = len(data)
        if self.to_alter is None or self.to_alter[0] != part:
            return data, False
        _, place, mask = self.to_alter
        self.to_alter = None
        return flipped(data, place, mask), True

    def serve(self, member, controller):
        data, is_sealed = call_in(member)
        controller.sendall(data)
        member.sendall(call_in(controller)[0])
        while True:
            data, _ = call_in(member)
            data, is_altered = self.altered("request", data) if is_sealed else (data, False)
            controller.sendall(data)
            if is_altered:
                controller.shutdown(socket.SHUT_WR)
                self.answered += controller.recv(1)
                return
            data, _ = call_in(controller)
            data, is_altered = self.altered("reply", data) if is_sealed else (data, False)
            member.sendall(data)
            if is_altered:
                return


class Logons:
    """A user's logons over the member server."""

    def __init__(self, member_port, domain, user, secret):
        self.port, self.plan = member_port, {"domain": domain, "user": user, "secret": secret, "echo": 0}
        self.let_in = 0

    def outcome(self):
        """What a logon comes to."""
        draws = [os.urandom(8).hex() for _ in range(3)]
        client = logon_client.Client(draws=draws, **self.plan).at((int(time.time()) + 11_644_473_600) * 10_000_000).dialled()
        with socket.create_connection(("127.0.0.1", self.port), 10) as link:
            link.settimeout(10)
            link.setsockopt(socket.IPPROTO_TCP, socket.TCP_NODELAY, 1)
            while client.outcome is None:
                if client.sent():
                    link.sendall(client.sent())
                data = link.recv(65536)
                client.bytes(data) if data else client.closed()
        self.let_in += client.outcome.startswith("Some(In ")
        return client.outcome

    def is_let_in(self):
        return self.outcome().startswith("Some(In ")


def fail(*what):
    print(*what, flush=True)
    sys.exit(1)


def main():
    port, controller_port, member_port = map(int, sys.argv[1:4])
    domain, user, secret, share, of = sys.argv[4:]
    proxy, logons = Proxy(port, controller_port), Logons(member_port, domain, user, secret)
    print("listening", flush=True)
    until = time.monotonic() + 10
    while not logons.is_let_in():
        if time.monotonic() > until:
            fail("no logon is let in")
        time.sleep(0.1)
    counts = {}
    for part in ("request", "reply"):
        places = range(int(share), proxy.sizes[part], int(of))
        counts[part] = len(places)
        for place in places:
            proxy.to_alter = part, place, 1 << place % 8
            found = logons.outcome()
            if found != NO_ANSWER or proxy.to_alter or proxy.answered:
                fail(f"byte {place} of the {part} altered: {found}, answered {proxy.answered.hex()}")
            if not logons.is_let_in() and not logons.is_let_in():
                fail(f"byte {place} of the {part} altered: the next two logons aren't let in")
    for part, count in counts.items():
        print(part, count)
    print("in", logons.let_in)


if __name__ == "__main__":
    main()
