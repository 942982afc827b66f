#!/usr/bin/env python3
"""A machine that opens a secure channel at a controller by its secret, and may change it: in plain Python, by the
formulas and stubs of `cases/`.

usage: machine.py PORT COMPUTER SECRET [NEW]

Binds to Netlogon's interface at that port of the loopback address, and opens a channel for COMPUTER$ by
NetrServerReqChallenge and NetrServerAuthenticate2 with SECRET, 32 hex digits. With NEW it sets that secret by
NetrServerPasswordSet on it. Prints the status of each call, of NetrServerAuthenticate2 first. Ends with status 0 where
each was 0 and each credential that came back is the one that is awaited, with 1 where a call was denied, and with 2 at
any other answer. Each wait ends after 10 seconds."""

import os
import socket
import sys
import time

sys.path.insert(0, os.path.join(os.path.dirname(os.path.abspath(__file__)), "..", "cases"))
sys.dont_write_bytecode = True

from channel_client import credential, frames_of, plus
from domain_controller import SET, SUPPORTED, bind, key_of, request_of, utf16
from logon_stubs import AUTHENTICATE, CHALLENGE, read, write
from rpc_units import ACK, LIMIT
from rpc_units import read as read_unit
from rpc_units import write as write_unit
from set_stubs import hidden_by, write_call as write_set


def left(what):
    print(what)
    sys.exit(2)


class Link:
    """A link to the controller: a unit goes, and one comes."""

    def __init__(self, port):
        self.socket = socket.create_connection(("127.0.0.1", port), 10)
        self.socket.settimeout(10)
        self.number = 1
        if self.asked(write_unit(bind()))["kind"] != ACK:
            left("the bind isn't answered by an acknowledgement")

    def bytes(self, count):
        data = b""
        while len(data) < count:
            piece = self.socket.recv(count - len(data))
            if not piece:
                left("the link was closed")
            data += piece
        return data

    def asked(self, data):
        self.socket.sendall(data)
        head = self.bytes(16)
        return read_unit(head + self.bytes(int.from_bytes(head[8:10], "little") - 16))

    def call(self, opnum, stub):
        """The stub of the reply."""
        self.number += 1
        return self.asked(b"".join(frames_of(request_of(opnum, stub, self.number), LIMIT)))["stub"]


def opened(link, computer, secret):
    """The key and the seed of a channel, where it was opened."""
    client = os.urandom(8)
    asked = write("call", CHALLENGE, {"primary": None, "computer": utf16(computer), "challenge": client})
    challenged = read("reply", CHALLENGE, link.call(CHALLENGE, asked.stub))[0]
    server = challenged["challenge"]
    key = key_of({"client": client, "server": server, "secret": secret, "flags": SUPPORTED})
    seed = credential(key, client)
    fields = {"primary": None, "account": utf16(computer + "$"), "channel": 2, "computer": utf16(computer), "credential": seed, "flags": SUPPORTED}
    reply = read("reply", AUTHENTICATE, link.call(AUTHENTICATE, write("call", AUTHENTICATE, fields).stub))[0]
    print(f"{reply['status']:08x}")
    if reply["status"]:
        sys.exit(1)
    if reply["credential"] != credential(key, server):
        left("the controller's credential is another")
    return key, seed


def change(link, computer, key, seed, secret):
    """Sets a new secret."""
    now = int(time.time())
    given = (credential(key, plus(seed, now)), now)
    stub = write_set(None, utf16(computer + "$"), 2, utf16(computer), given, hidden_by(key, secret))
    reply = link.call(SET, stub)
    status = int.from_bytes(reply[12:16], "little")
    print(f"{status:08x}")
    if status:
        sys.exit(1)
    if reply[:8] != credential(key, plus(seed, now + 1)):
        left("the return credential is another")


def main():
    port, computer, *secrets = sys.argv[1:]
    link = Link(int(port))
    key, seed = opened(link, computer, bytes.fromhex(secrets[0]))
    for secret in secrets[1:]:
        change(link, computer, key, seed, bytes.fromhex(secret))


if __name__ == "__main__":
    main()
