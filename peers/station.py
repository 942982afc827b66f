#!/usr/bin/env python3
"""A workstation that logs a user on by the NT hash and off again: in plain Python, by the formulas and stubs of
`cases/`.

usage: station.py PORT COMPUTER SECRET DOMAIN USER HASH CALL..

Opens a secure channel for COMPUTER$ at the controller at that port of the loopback address with SECRET, 32 hex digits.
Each CALL, `logon` or `logoff`, is then made at level 1 (MS-NRPC 3.5.4.5.3, 3.5.4.5.4) with the next authenticator, on
the same link. Prints the status of NetrServerAuthenticate2 and of each call, and for a logon that is granted the names
`DOMAIN\\USER` that it is told. Ends with status 0 where each call was answered with the credential that is awaited and
each key that was told is that of the hash, with 1 where the channel or a call was denied, and with 2 at any other
answer. Each wait ends after 10 seconds."""

import sys
import time

sys.dont_write_bytecode = True

from machine import Link, left, opened

from channel_client import ACCESS_DENIED, ZEROS, credential, crypted, plus, rc4
from domain_controller import utf16
from interactive_logon import write as write_interactive
from logon_stubs import LOGOFF, LOGON, read
from md4 import md4

OPNUMS = {"logon": LOGON, "logoff": LOGOFF}


class Workstation:
    """A workstation on its open channel."""

    def __init__(self, link, computer, key, seed):
        self.link, self.computer, self.key, self.seed = link, utf16(computer), key, seed

    def asks(self, opnum, domain, user, user_hash):
        """The reply to a call with the next authenticator, where it returns the credential that is awaited."""
        now = int(time.time())
        given = (credential(self.key, plus(self.seed, now)), now)
        info = {"domain": utf16(domain), "control": 0, "logon_id": 0, "user": utf16(user), "workstation": self.computer,
                "lm": bytes(16), "nt": rc4(self.key, user_hash)}
        call = {"server": None, "computer": self.computer, "authenticator": given, "returned": (ZEROS, 0), "info": info,
                "validation": 3 if opnum == LOGON else 0}
        reply = read("reply", opnum, self.link.call(opnum, bytes(write_interactive(opnum, call))))[0]
        print(f"{reply['status']:08x}")
        if reply["status"] == ACCESS_DENIED:
            sys.exit(1)
        self.seed = plus(self.seed, now + 1)
        if reply["returned"] is None or reply["returned"][0] != credential(self.key, self.seed):
            left("the return credential is another")
        return reply


def main():
    port, computer, secret, domain, user, user_hash, *calls = sys.argv[1:]
    link, user_hash = Link(int(port)), bytes.fromhex(user_hash)
    station = Workstation(link, computer, *opened(link, computer, bytes.fromhex(secret)))
    for call in calls:
        reply = station.asks(OPNUMS[call], domain, user, user_hash)
        if call == "logon" and reply["status"] == 0:
            info = reply["info"]
            print("\\".join(info[name].decode("utf-16-le") for name in ("domain", "effective_name")))
            if crypted(station.key, info["key"]) != md4(user_hash):
                left("the key is another")


if __name__ == "__main__":
    main()
