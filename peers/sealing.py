#!/usr/bin/env python3
"""A machine whose Netlogon channel seals, and a controller of one: in plain Python, by the formulas and stubs of
`cases/`.

usage: sealing.py machine PORT DOMAIN COMPUTER SECRET NEW USER HASH
       sealing.py controller PORT DOMAIN COMPUTER SECRET USER HASH
       sealing.py plain PORT DOMAIN COMPUTER SECRET USER HASH

SECRET, NEW and HASH are 32 hex digits. `machine` opens a channel for COMPUTER$ at the controller at that port of the
loopback address, by NetrServerAuthenticate2 with secure RPC among its flags, and binds links of it with a trailer of
Netlogon whose context is 01020304. USER logs on there at level 3; an unsealed logon is refused; the secret is changed
to NEW; a call is sent twice, at which its link is closed; a channel is opened by NEW, after which the old channel's
link is closed at its next call, and USER logs on on the new one. A line is printed of each step, of a logon with the
identifiers beyond the domain's that it was granted. It ends with status 0 where each step came to what it should, with
2 else.

`controller` listens at that port, and is the controller of cases/sealed_controller.py of a domain with that computer
and that user, who has two identifiers beyond the domain's. The trailers of its replies have the context 01020304,
whatever a bind's has. `plain` is one that can't seal. Both print what a call comes to as nt_controller does, and end
when they are killed. Each wait for a machine ends after 10 seconds, and so does its link."""

import os
import selectors
import socket
import sys
import time

sys.path.insert(0, os.path.join(os.path.dirname(os.path.abspath(__file__)), "..", "cases"))
sys.path.insert(0, os.path.dirname(os.path.abspath(__file__)))
sys.dont_write_bytecode = True

from channel_client import credential, plus
from channel_sealing import ACK_VALUE, PRIVACY, PROVIDER, End, bind_value, call_frames, trailer_of
from domain_controller import SET, SUPPORTED, Controller, bind, key_of, request_of, response_v1, utf16
from logon_stubs import AUTHENTICATE, CHALLENGE, LOGON, read, write
from machine import Link, left
from rpc_units import ACK, LIMIT, Joiner
from rpc_units import read as read_unit
from rpc_units import write as write_unit
from sealed_controller import SECURE, Sealing
from set_stubs import hidden_by, write_call as write_set

CONTEXT = 0x01020304
FLAGS = SUPPORTED | SECURE
GRANTED_SIDS = ["S-1-5-32-544", "S-1-18-1"]


# ---- a machine


class SealedLink(Link):
    """A link that is sealed, as one of the channel of that end."""

    def __init__(self, port, domain, computer, end):
        self.end, self.number = end, 1
        self.socket = socket.create_connection(("127.0.0.1", port), 10)
        self.socket.settimeout(10)
        value = bind_value(domain.encode(), computer.encode())
        ack = self.asked(write_unit(bind(trailer=trailer_of(value, CONTEXT))))
        if ack["kind"] != ACK or ack["trailer"] != (PROVIDER, PRIVACY, CONTEXT, ACK_VALUE):
            left("the bind isn't answered by the acknowledgement of a channel that seals")
        self.receive = ack["receive"]

    def frames(self, opnum, stub):
        self.number += 1
        return b"".join(self.end.seal_all(call_frames(request_of(opnum, stub, self.number), self.receive, CONTEXT), os.urandom(8)))

    def call(self, opnum, stub):
        """The stub of the reply, whose frames are opened in turn."""
        self.socket.sendall(self.frames(opnum, stub))
        joiner, unit = Joiner(), None
        while unit is None:
            head = self.bytes(16)
            answer, plain = self.end.open(head + self.bytes(int.from_bytes(head[8:10], "little") - 16))
            if answer != "Ok(())":
                left(f"a reply comes to {answer}")
            unit = read_unit(plain)
            if unit["trailer"][2] != CONTEXT:
                left("a reply's trailer has another context than the bind's")
            unit = joiner.add({**unit, "trailer": None})
        return unit["stub"]

    def is_closed_by(self, data):
        """Whether the controller closes the link at these bytes, without an answer."""
        self.socket.sendall(data)
        try:
            return self.socket.recv(1) == b""
        except ConnectionResetError:
            return True


def is_closed(what, link, data):
    """The link is closed at these bytes."""
    closed = link.is_closed_by(data)
    print(what, "closed" if closed else "answered")
    if not closed:
        left("the link stays open")


class Machine:
    """A machine of the domain, and its channel."""

    def __init__(self, port, domain, computer, user, secret):
        self.port, self.domain, self.computer, self.user, self.hash = port, domain, computer, user, secret
        self.key = self.seed = self.end = None

    def opens(self, secret):
        """A channel that seals."""
        link, client = Link(self.port), os.urandom(8)
        asked = write("call", CHALLENGE, {"primary": None, "computer": utf16(self.computer), "challenge": client})
        server = read("reply", CHALLENGE, link.call(CHALLENGE, asked.stub))[0]["challenge"]
        self.key = key_of({"client": client, "server": server, "secret": secret, "flags": FLAGS})
        self.seed = credential(self.key, client)
        fields = {"primary": None, "account": utf16(self.computer + "$"), "channel": 2, "computer": utf16(self.computer), "credential": self.seed, "flags": FLAGS}
        reply = read("reply", AUTHENTICATE, link.call(AUTHENTICATE, write("call", AUTHENTICATE, fields).stub))[0]
        print(f"opened {reply['status']:08x} {reply['flags']:08x}")
        if reply["status"] or reply["flags"] != FLAGS or reply["credential"] != credential(self.key, server):
            left("no channel that seals was opened")
        self.end = End(self.key, True)

    def binds(self):
        return SealedLink(self.port, self.domain, self.computer, self.end)

    def given(self):
        now = int(time.time())
        return credential(self.key, plus(self.seed, now)), now

    def moves(self, returned, given):
        """The seed behind a call that passed, whose return credential is the one that is awaited."""
        self.seed = plus(self.seed, given[1] + 1)
        if returned[0] != credential(self.key, self.seed):
            left("the return credential is another")

    def logon_stub(self, given):
        challenge = bytes.fromhex("0123456789abcdef")
        info = {"domain": utf16(self.domain), "control": 0, "logon_id": 7, "user": utf16(self.user), "workstation": utf16("WS"),
                "challenge": challenge, "nt": response_v1(self.hash, challenge), "lm": b""}
        call = {"server": None, "computer": utf16(self.computer), "authenticator": given, "returned": (bytes(8), 0), "info": info, "validation": 3}
        return write("call", LOGON, call).stub

    def logs_on(self, link):
        given = self.given()
        reply = read("reply", LOGON, link.call(LOGON, self.logon_stub(given)))[0]
        extra = sorted("S-1-" + "-".join(str(number) for number in (sid[0], *sid[1])) for sid, _ in reply["info"]["extra"]) if reply["info"] else []
        print(f"logon {reply['status']:08x}", *extra)
        if reply["status"]:
            left("the logon is refused")
        self.moves(reply["returned"], given)

    def is_refused(self):
        """An unsealed logon of a channel that seals."""
        reply = read("reply", LOGON, Link(self.port).call(LOGON, self.logon_stub(self.given())))[0]
        print(f"unsealed {reply['status']:08x}")
        if reply["status"] != 0xC0000022 or reply["returned"]:
            left("an unsealed logon is answered otherwise")

    def changes(self, link, secret):
        given = self.given()
        reply = link.call(SET, write_set(None, utf16(self.computer + "$"), 2, utf16(self.computer), given, hidden_by(self.key, secret)))
        status = int.from_bytes(reply[12:16], "little")
        print(f"changed {status:08x}")
        if status:
            left("the change is refused")
        self.moves((reply[:8], 0), given)



def machine(port, domain, computer, secret, new, user, secret_of_user):
    end = Machine(int(port), domain, computer, user, bytes.fromhex(secret_of_user))
    end.opens(bytes.fromhex(secret))
    link = end.binds()
    end.logs_on(link)
    end.is_refused()
    # numbers go on over links
    other = end.binds()
    end.logs_on(other)
    end.logs_on(link)
    end.changes(other, bytes.fromhex(new))
    # a call twice: its answer comes, and then the link is closed
    given = end.given()
    frames = other.frames(LOGON, end.logon_stub(given))
    other.socket.sendall(frames)
    head = other.bytes(16)
    other.end.open(head + other.bytes(int.from_bytes(head[8:10], "little") - 16))
    end.seed = plus(end.seed, given[1] + 1)
    is_closed("again", other, frames)
    old = end.binds()
    end.opens(bytes.fromhex(new))
    is_closed("replaced", old, old.frames(LOGON, end.logon_stub(end.given())))
    end.logs_on(end.binds())


# ---- a controller


class Served(Sealing):
    """The controller whose replies have a context of their own."""

    def fresh(self, link, unit):
        super().fresh(link, unit)
        if "seal" in self.links[link]:
            self.links[link]["seal"]["context"] = CONTEXT


LINES = {"judged Barred": "barred", "judged NoChannel": "no channel"}


def lines_in(actions):
    for action in actions:
        if action.startswith("judged Passed("):
            yield f"passed {int(action[14:-1]):08x}"
        elif action in LINES:
            yield LINES[action]


class Server:
    """The links of a controller."""

    def __init__(self, port, end):
        self.end, self.links = end, {}
        self.choice = selectors.DefaultSelector()
        self.listener = socket.create_server(("127.0.0.1", port))
        self.choice.register(self.listener, selectors.EVENT_READ, 0)
        self.next = 1

    def drop(self, number):
        if number in self.links:
            link = self.links.pop(number)[0]
            self.choice.unregister(link)
            link.close()

    def acts(self):
        for text in lines_in(self.end.actions):
            print(text, flush=True)
        for action in self.end.actions:
            word, *rest = action.split(" ")
            if word == "send" and int(rest[0]) in self.links:
                self.links[int(rest[0])][0].sendall(bytes.fromhex(rest[1]))
            elif word == "close":
                self.drop(int(rest[0]))

    def comes(self, number):
        link = self.links[number][0]
        try:
            data = link.recv(65536)
        except OSError:
            data = b""
        self.end.at((int(time.time()) + 11_644_473_600) * 10_000_000)
        if data:
            self.links[number] = link, time.monotonic() + 10
            self.end.bytes(data, number)
        else:
            self.drop(number)
            self.end.closed(number)
        self.acts()

    def accepts(self):
        link = self.listener.accept()[0]
        link.settimeout(10)
        self.links[self.next] = link, time.monotonic() + 10
        self.choice.register(link, selectors.EVENT_READ, self.next)
        self.end.opened(self.next)
        self.next += 1
        self.acts()

    def runs(self):
        while True:
            for key, _ in self.choice.select(1):
                if key.data == 0:
                    self.accepts()
                elif key.data in self.links:
                    self.comes(key.data)
            for number in [number for number, (_, until) in self.links.items() if until < time.monotonic()]:
                self.drop(number)
                self.end.closed(number)


def serve(kind, port, domain, computer, secret, user, secret_of_user):
    users = [{"name": user, "rid": 1001, "hash": secret_of_user, "extra_sids": GRANTED_SIDS}]
    machines = [{"name": computer + "$", "kind": "workstation", "hash": secret}]
    challenges = [os.urandom(8).hex() for _ in range(200)]
    Server(int(port), kind(users=users, machines=machines, head={"domain": domain, "sid": "S-1-5-21-1-2-3"}, challenges=challenges)).runs()


def controller(*words):
    serve(Served, *words)


def plain(*words):
    serve(Controller, *words)


if __name__ == "__main__":
    {"machine": machine, "controller": controller, "plain": plain}[sys.argv[1]](*sys.argv[2:])
