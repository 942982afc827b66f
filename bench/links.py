#!/usr/bin/env python3
"""How the servers do over TCP: logons a second and processor time a logon at a controller, over one link and over many
at once, beside those of a bare loop in C (bench/bare.c) in the same run; of logons that it hands on to a trusted
domain's controller; the time of nt_logon from its start to `in`, and what its logon takes of the member server's
processor and of the controller's; and how long a dial that hangs holds the other links of a member server.

usage: links.py FOLDER .. [one]      a FOLDER has the three programs; `one`: over one link alone and without trusts, for
programs that serve no more links, or know no trusts

Several folders are measured in turn in each round, so that what else the machine does weighs on all of them alike. The
requests are made before the time is taken, by the Python world of cases/. Processor time is what /proc tells of the
server's process. Each wait has an end, and what was started is stopped. The bare loop reads a request of 392 bytes and
writes a reply of 512, as a logon has them; without a C compiler its lines are left out."""

import os
import selectors
import socket
import subprocess
import sys
import tempfile
import time

sys.path.insert(0, os.path.join(os.path.dirname(os.path.abspath(__file__)), "..", "cases"))
from channel_client import OFFERED, credential, plus, strong_key
from domain_controller import bind, request_of
from logon_stubs import AUTHENTICATE, CHALLENGE, LOGON, plain_info, plain_logon, read, utf16, write
from rpc_units import read as read_unit
from rpc_units import write as write_unit
from sessions import desl

SECRET, HASH, ASKED, CLIENT = b"\x41" * 16, b"\x11" * 16, bytes(range(8)), bytes.fromhex("1011121314151617")
MANY, SILENT, ROUNDS, LOGONS = 64, 200, 15, 60
LIMIT = 30
REQUEST, REPLY = 392, 512


def free_port():
    with socket.socket() as place:
        place.bind(("127.0.0.1", 0))
        return place.getsockname()[1]


def connect(port):
    """A link to the port, which is listened at within ten seconds."""
    for _ in range(100):
        try:
            link = socket.create_connection(("127.0.0.1", port), LIMIT)
            link.setsockopt(socket.IPPROTO_TCP, socket.TCP_NODELAY, 1)
            return link
        except ConnectionRefusedError:
            time.sleep(0.1)
    sys.exit("nobody listens")


def unit_from(link):
    """The bytes of the next unit."""
    data = b""
    while len(data) < 16 or len(data) < int.from_bytes(data[8:10], "little"):
        piece = link.recv(65536)
        if not piece:
            sys.exit("the link was closed")
        data += piece
    return data


class Member:
    """A link with a channel of its own to the controller, and the logons that it will ask for."""

    def __init__(self, port, number):
        self.name, self.link, self.calls = f"M{number}", connect(port), 1
        self.link.sendall(write_unit(bind()))
        unit_from(self.link)
        opened = self.ask(CHALLENGE, {"primary": None, "computer": utf16(self.name), "challenge": CLIENT})
        self.key = strong_key(SECRET, CLIENT, opened["challenge"])
        self.seed = credential(self.key, CLIENT)
        account = {"primary": None, "account": utf16(self.name + "$"), "channel": 2, "computer": utf16(self.name)}
        assert self.ask(AUTHENTICATE, account | {"credential": self.seed, "flags": OFFERED})["status"] == 0

    def request(self, opnum, fields):
        self.calls += 1
        return write_unit(request_of(opnum, write("call", opnum, fields).stub, call=self.calls))

    def ask(self, opnum, fields):
        self.link.sendall(self.request(opnum, fields))
        return read("reply", opnum, read_unit(unit_from(self.link))["stub"])[0]

    def prepare(self, count, **names):
        """Makes the logon of the user that is asked for so many times. By its timestamp the next authenticator is the
        same again."""
        self.left, self.held = count, b""
        made = credential(self.key, plus(self.seed, 2**32 - 1)), 2**32 - 1
        info = plain_info(challenge=ASKED, nt=desl(HASH, ASKED), lm=b"", **names)
        call = plain_logon(computer=utf16(self.name), authenticator=made, info=info, validation=3)
        self.logon = self.request(LOGON, call)

    def send(self, count):
        """Sends so many of the logons that are left, together."""
        count = min(count, self.left)
        self.left -= count
        if count:
            self.link.sendall(self.logon * count)

    def take(self):
        """Takes what came, and tells how many answers were whole. A granted one is longer than 300 bytes."""
        self.held += self.link.recv(65536)
        count = 0
        while len(self.held) >= 16 and len(self.held) >= (size := int.from_bytes(self.held[8:10], "little")):
            assert size > 300, f"a logon was refused: {self.held[:size].hex()}"
            self.held, count = self.held[size:], count + 1
        return count


def processor(process):
    """Seconds that the process used."""
    with open(f"/proc/{process.pid}/schedstat") as told:
        return int(told.read().split()[0]) / 1e9


class Exchanges:
    """A link to the bare loop, and the exchanges that are left on it."""

    def __init__(self, port):
        self.link = connect(port)

    def prepare(self, count, **names):
        self.left, self.held = count, 0

    def send(self, count):
        count = min(count, self.left)
        self.left -= count
        if count:
            self.link.sendall(bytes(REQUEST) * count)

    def take(self):
        """Takes what came, and tells how many replies were whole."""
        self.held += len(self.link.recv(65536))
        count, self.held = divmod(self.held, REPLY)
        return count


def run(servers, members, depth, count, **names):
    """Logons a second, and microseconds of the servers' processors for each."""
    for member in members:
        member.prepare(count, **names)
    waits = selectors.DefaultSelector()
    for member in members:
        waits.register(member.link, selectors.EVENT_READ, member)
    used, begun = sum(map(processor, servers)), time.perf_counter()
    for member in members:
        member.send(depth)
    left = count * len(members)
    while left:
        ready = waits.select(LIMIT)
        assert ready, "no answer"
        for key, _ in ready:
            answers = key.data.take()
            left -= answers
            key.data.send(answers)
    passed = time.perf_counter() - begun
    used = sum(map(processor, servers)) - used
    return count * len(members) / passed, used / (count * len(members)) * 1e6


def best(what, *measured, **names):
    """Prints the best of some rounds and their median, of each that is measured: its name, its servers, and what `run`
    takes of it. In a round each has its turn."""
    rounds = [[] for _ in measured]
    for _ in range(ROUNDS):
        for taken, (_, servers, members, depth, count) in zip(rounds, measured):
            taken.append(run(servers, members, depth, count, **names))
    for taken, (name, *_) in zip(rounds, measured):
        rates, times = sorted(rate for rate, _ in taken), sorted(time for _, time in taken)
        print(f"{f'{what}{name}:':45} {rates[-1]:8.0f} a second at best, median {rates[ROUNDS // 2]:8.0f}; "
              f"processor {times[0]:.1f} us at best, median {times[ROUNDS // 2]:.1f}", flush=True)


def bare_loop(folder):
    """A bare loop, which listens, and its port; nothing where there is no C compiler."""
    source, program, port = os.path.join(os.path.dirname(os.path.abspath(__file__)), "bare.c"), os.path.join(folder, "bare"), free_port()
    try:
        subprocess.run(["cc", "-O2", "-o", program, source], check=True)
    except (OSError, subprocess.CalledProcessError):
        return None, port
    return subprocess.Popen([program, str(port)]), port


class Domain:
    """A controller and a member server on ports of their own."""

    def __init__(self, programs, folder, trusts):
        self.programs, self.folder, self.started, self.name = programs, folder, [], ""
        self.port, self.member_port, self.trusted_port = free_port(), free_port(), free_port()
        machines = "".join(f'[[machine]]\nname = "M{number}$"\nkind = "workstation"\nhash = "{SECRET.hex()}"\n' for number in range(MANY))
        trust = f'[[trust]]\ndomain = "ROAM"\nhash = "{SECRET.hex()}"\naddress = "127.0.0.1:{self.trusted_port}"\n' if trusts else ""
        self.file("table", f'domain = "CORP"\nsid = "S-1-5-21-1-2-3"\n[[user]]\nname = "ann"\nrid = 1001\nhash = "{HASH.hex()}"\n{machines}{trust}')
        self.file("trusted", f'domain = "ROAM"\nsid = "S-1-5-21-4-5-6"\n[[user]]\nname = "sam"\nrid = 1001\nhash = "{HASH.hex()}"\n'
                  f'[[machine]]\nname = "CORP$"\nkind = "trust"\nhash = "{SECRET.hex()}"\ncontrollers = ["PDC"]\n')
        self.file("hash", HASH.hex())
        self.file("secret", SECRET.hex())
        for name in ("seed1", "seed2", "seed3", "seed4"):
            with open(self.path(name), "wb") as out:
                out.write(os.urandom(32))

    def path(self, name):
        return os.path.join(self.folder, name)

    def file(self, name, text):
        with open(self.path(name), "w") as out:
            out.write(text)

    def start(self, program, *words):
        process = subprocess.Popen([os.path.join(self.programs, program), *words], stdout=subprocess.DEVNULL)
        self.started.append(process)
        return process

    def controller(self):
        return self.start("nt_controller", "serve", "--listen", f"127.0.0.1:{self.port}", "--name", "PDC", "--table", self.path("table"),
                          "--seed", self.path("seed1"), "--boot", "1")

    def trusted_controller(self):
        return self.start("nt_controller", "serve", "--listen", f"127.0.0.1:{self.trusted_port}", "--name", "RDC", "--table",
                          self.path("trusted"), "--seed", self.path("seed4"), "--boot", "1")

    def member(self, controller, port, boot):
        return self.start("nt_member", "serve", "--listen", f"127.0.0.1:{port}", "--computer", "M0", "--domain", "CORP", "--secret",
                          self.path("secret"), "--controller", f"127.0.0.1:{controller}", "--seed", self.path("seed2"), "--boot", str(boot))

    def log_on(self, port, boot):
        words = ["logon", "--server", f"127.0.0.1:{port}", "--domain", "CORP", "--user", "ann", "--workstation", "WS", "--hash", self.path("hash"),
                 "--level", "connect", "--auth", "v2", "--echo", "0", "--seed", self.path("seed3"), "--boot", str(boot)]
        return subprocess.Popen([os.path.join(self.programs, "nt_logon"), *words], stdout=subprocess.PIPE)

    def stop(self):
        for process in self.started:
            process.kill()
            process.wait()


def logon(domain, boot, member):
    """Milliseconds from the start of nt_logon to its line `in`, and microseconds of the processors of the member server
    and of the controller until it has ended."""
    servers = member, domain.server
    begun, used = time.perf_counter(), list(map(processor, servers))
    process = domain.log_on(domain.member_port, boot)
    line = process.stdout.readline()
    passed = (time.perf_counter() - begun) * 1e3
    process.communicate(timeout=LIMIT)
    assert line.startswith(b"in "), line
    # the servers take the end of the link behind it
    time.sleep(0.02)
    return passed, *((processor(it) - before) * 1e6 for it, before in zip(servers, used))


def logons(domains):
    """Prints what whole logons take at each domain."""
    taken = [[] for _ in domains]
    members = []
    for domain in domains:
        # a port that was found long before may be some link's by now
        domain.member_port = free_port()
        members.append(domain.member(domain.port, domain.member_port, 1))
        connect(domain.member_port).close()
    for boot in range(1, LOGONS + 1):
        for each, domain, member in zip(taken, domains, members):
            each.append(logon(domain, boot, member))
    for each, domain in zip(taken, domains):
        times, at_member, at_controller = map(sorted, zip(*each))
        print(f"nt_logon from start to in{domain.name}: {times[0]:.1f} ms at best, median {times[LOGONS // 2]:.1f}, worst {times[-1]:.1f}; "
              f"processor at the member {at_member[0]:.0f} us at best, median {at_member[LOGONS // 2]:.0f}, at the controller "
              f"{at_controller[0]:.0f} and {at_controller[LOGONS // 2]:.0f}", flush=True)


def hanging_dial(domain):
    """Seconds that a peer of a member server waits for the answer to its bind, while the server dials a place that
    never answers."""
    with socket.socket() as place:
        place.bind(("127.0.0.1", 0))
        place.listen(0)
        port, queue = place.getsockname()[1], []
        for _ in range(8):
            link = socket.socket()
            link.setblocking(False)
            link.connect_ex(("127.0.0.1", port))
            queue.append(link)
        time.sleep(0.2)
        member_port = free_port()
        domain.member(port, member_port, 2)
        peer = connect(member_port)
        logon = domain.log_on(member_port, 1000)
        time.sleep(0.5)
        begun = time.perf_counter()
        peer.sendall(write_unit(bind()))
        unit_from(peer)
        passed = time.perf_counter() - begun
        print(f"a bind while a dial hangs: {passed:.2f} s behind, begun 0.5 s after it; nt_logon ends with {logon.wait(LIMIT)}")
        for link in queue:
            link.close()


def many_links(domain):
    """Prints what takes more than one link, or a trust."""
    trusted, server = domain.trusted_controller(), domain.server
    connect(domain.trusted_port).close()
    first, sam = Member(domain.port, 0), {"domain": utf16("ROAM"), "user": utf16("sam")}
    best("one that is handed on, under way", (domain.name, [server, trusted], [first], 1, 1000), **sam)
    first.link.close()
    members = [Member(domain.port, number) for number in range(MANY)]
    best(f"{MANY} links, one under way on each", (domain.name, [server], members, 1, 300))
    silent = [connect(domain.port) for _ in range(SILENT - MANY - 10)]
    best(f"one link beside {len(silent) + MANY} silent ones", (domain.name, [server], members[:1], 1, 10000))
    for link in silent + [member.link for member in members]:
        link.close()


def main():
    alone = sys.argv[-1] == "one"
    folders = sys.argv[1:-1] if alone else sys.argv[1:]
    with tempfile.TemporaryDirectory() as folder:
        domains = []
        try:
            for number, programs in enumerate(folders):
                os.mkdir(place := os.path.join(folder, str(number)))
                domains.append(Domain(programs, place, not alone))
                domains[-1].name = f", {programs}" if folders[1:] else ""
                domains[-1].server = domains[-1].controller()
            firsts = [Member(domain.port, 0) for domain in domains]
            bare, bare_port = bare_loop(folder)
            if bare:
                domains[0].started.append(bare)
                loop = Exchanges(bare_port)
            for depth, count in ((1, 10000), (16, 30000)):
                what = f"{depth} under way"
                least = [(f"bare loop, {what}", [bare], [loop], depth, count)] if bare else []
                best("", *least, *((f"one link, {what}{domain.name}", [domain.server], [first], depth, count)
                                   for domain, first in zip(domains, firsts)))
            for first in firsts:
                first.link.close()
            for domain in domains if not alone else ():
                many_links(domain)
            logons(domains)
            for domain in domains if not alone else ():
                hanging_dial(domain)
        finally:
            for domain in domains:
                domain.stop()


main()
