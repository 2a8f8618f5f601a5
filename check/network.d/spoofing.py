"""False replies (RFC 5452): floods of wrong ids from the server's address, and of right ids from other addresses, and whether the
id and the port of a question can be guessed.

A proxy between the program and the name server holds each reply back for some milliseconds. Meanwhile it sends wrong ids itself,
and the right id from a socket at another port, and from one at another address. Besides, a process floods each port that is
connected to the proxy, which it finds in /proc/net/udp, with every id in turn.
"""
import collections
import contextlib
import os
import random
import socket
import struct
import subprocess
import sys
import threading
import time
from pathlib import Path
from typing import Dict, Iterator, List, Sequence, Tuple

from asking import Resolver
from given import Given
from nameserver import NameServer
from report import Report
from transport import Address, ask_datagram

ORIGIN = "s.test."
LOOKUPS, QUICK_LOOKUPS = 1000, 200
# The address of no record of the zone.
FALSE = bytes([6, 6, 6, 6])
# How long each reply is held back, in seconds, and how many false ones are sent of each kind meanwhile.
HELD, FALSE_REPLIES = 0.004, 12
OTHER_ADDRESS = "127.0.0.66"
# How long the flood lasts at most, in seconds.
FLOOD_SECONDS = 300
# How long the process that floods pauses between looks at the ports, in seconds, so that others have their turn.
PAUSE = 0.0005
# By how many standard deviations a number may differ from what is to be expected of random ones.
DEVIATIONS = 6


def zone_text(count: int) -> str:
    lines = [f"{ORIGIN} 60 IN SOA ns.{ORIGIN} h.{ORIGIN} 1 3600 600 86400 30"]
    return "\n".join(lines + [f"n{at}.{ORIGIN} 60 IN A 10.{at >> 8}.{at & 255}.1" for at in range(count)]) + "\n"


def false_reply(request: bytes, number: int) -> bytes:
    """A reply to a question, with an id and a false address."""
    end = request.index(b"\0", 12) + 5
    head = struct.pack("!6H", number, 0x8580, 1, 1, 0, 0)
    return head + request[12:end] + b"\xc0\x0c" + struct.pack("!2HIH", 1, 1, 600, 4) + FALSE


class Proxy:
    """A server that passes questions on, holds replies back, and sends false ones meanwhile, inside a `with` block."""

    def __init__(self, server: Address):
        self.server, self.random, self.false, self.questions = server, random.Random(1), collections.Counter(), 0

    def __enter__(self) -> "Proxy":
        sockets = [socket.socket(socket.AF_INET, socket.SOCK_DGRAM) for _ in range(3)]
        self.socket, self.other_port, self.other_address = sockets
        self.socket.bind(("127.0.0.1", 0))
        self.socket.settimeout(0.2)
        self.other_port.bind(("127.0.0.1", 0))
        # The same port at another address.
        self.other_address.bind((OTHER_ADDRESS, self.address[1]))
        self.is_closed = False
        self.thread = threading.Thread(target=self.serve, daemon=True)
        self.thread.start()
        return self

    def __exit__(self, *_) -> None:
        self.is_closed = True
        self.thread.join(10)
        for it in (self.socket, self.other_port, self.other_address):
            it.close()

    @property
    def address(self) -> Address:
        return self.socket.getsockname()

    def serve(self) -> None:
        while not self.is_closed:
            with contextlib.suppress(OSError):
                request, peer = self.socket.recvfrom(65535)
                self.answer(request, peer)

    def answer(self, request: bytes, peer: Address) -> None:
        self.questions += 1
        end = time.monotonic() + HELD
        reply, number = ask_datagram(self.server, request), int.from_bytes(request[:2], "big")
        for _ in range(FALSE_REPLIES):
            wrong = (number + self.random.randrange(1, 65536)) % 65536
            self.send("wrong id", self.socket, false_reply(request, wrong), peer)
            self.send("right id, other port", self.other_port, false_reply(request, number), peer)
            self.send("right id, other address", self.other_address, false_reply(request, number), peer)
            self.send("right id, other question", self.socket, false_reply(other_question(request), number), peer)
        time.sleep(max(0.0, end - time.monotonic()))
        if reply is not None:
            self.socket.sendto(reply, peer)
        # The late ones are for the next question.
        self.send("late", self.socket, false_reply(request, number), peer)

    def send(self, kind: str, sender: socket.socket, data: bytes, peer: Address) -> None:
        # Where nobody listens, the system may say so with the next call.
        for _ in range(2):
            with contextlib.suppress(ConnectionError):
                sender.sendto(data, peer)
                self.false[kind] += 1
                return


def other_question(request: bytes) -> bytes:
    """The request with another first letter."""
    return request[:13] + bytes([request[13] ^ 3]) + request[14:]


# ---- the process that floods


def connected_ports(server: Address) -> List[int]:
    """The ports of the local host that are connected to a server (proc(5))."""
    host = struct.unpack("<I", socket.inet_aton(server[0]))[0]
    remote = f"{host:08X}:{server[1]:04X}"
    found = []
    for line in Path("/proc/net/udp").read_text(encoding="ascii").splitlines()[1:]:
        fields = line.split()
        if fields[2] == remote:
            found.append(int(fields[1].rpartition(":")[2], 16))
    return found


def flood(port: int) -> None:
    """Sends false replies to all ports that are connected to a server, from another address, with each id in turn."""
    sender = socket.socket(socket.AF_INET, socket.SOCK_DGRAM)
    sender.bind((OTHER_ADDRESS, 0))
    end, number, sent, told = time.monotonic() + FLOOD_SECONDS, 0, 0, 0
    question = struct.pack("!6H", 0, 0, 1, 0, 0, 0) + b"\x02n0\x01s\x04test\0" + struct.pack("!2H", 1, 1)
    parent = os.getppid()
    while time.monotonic() < end and os.getppid() == parent:
        for target in connected_ports(("127.0.0.1", port)):
            for _ in range(20):
                number, sent = (number + 1) % 65536, sent + 1
                with contextlib.suppress(OSError):
                    sender.sendto(false_reply(question, number), ("127.0.0.1", target))
        time.sleep(PAUSE)
        # The count so far: the parent reads the last one.
        if sent >= told + 100:
            print(sent, flush=True)
            told = sent


@contextlib.contextmanager
def flooding(port: int) -> Iterator[subprocess.Popen]:
    environment = {**os.environ, "PYTHONPATH": ":".join(it for it in sys.path if it), "PYTHONDONTWRITEBYTECODE": "1"}
    words = [sys.executable, os.path.abspath(__file__), str(port)]
    process = subprocess.Popen(words, env=environment, stdin=subprocess.DEVNULL, stdout=subprocess.PIPE)
    try:
        yield process
    finally:
        process.kill()
        process.wait()
        process.stdout.close()


# ---- what is tried


def try_floods(report: Report, given: Given) -> None:
    """Lookups under floods find the records of the zone, with one question each."""
    count = QUICK_LOOKUPS if given.is_quick else LOOKUPS
    names = [f"n{at}.{ORIGIN}" for at in range(count)]
    with contextlib.ExitStack() as started:
        server = started.enter_context(NameServer(zone_text(count), program=given.nameserver, seconds=60))
        proxy = started.enter_context(Proxy((server.address, server.port)))
        flooder = started.enter_context(flooding(proxy.address[1]))
        resolver = started.enter_context(Resolver(given.program, [proxy.address], ["--strategy", "ipv4"]))
        run = resolver.run("-", "--json", lines=names)
        outcomes = run.outcomes()
        flooder.kill()
        counts = flooder.stdout.read().split()
    sent = {**proxy.false, "all ids in turn": int(counts[-1]) if counts else 0}
    report.check("outcomes", count, len(outcomes))
    for at, outcome in enumerate(outcomes):
        wanted = ("found", [bytes([10, at >> 8, at & 255, 1])])
        report.check(f"{outcome.name} under a flood", wanted, (outcome.status, [it.data[0] for it in outcome.records]))
    report.check("a false address is printed", False, "6.6.6.6" in run.output)
    # A machine that is busy may let a time-out pass, so that a question is asked again.
    report.check(f"{proxy.questions} questions", True, count <= proxy.questions <= count * 1.05 + 2)
    for kind, number in sent.items():
        report.check(f"false replies sent, {kind}: {number}", True, number >= count)
    print("false replies: " + ", ".join(f"{number:,} with {kind}" for kind, number in sent.items()), flush=True)


class Notes:
    """A server that answers each question, and notes its id and from which port it came, inside a `with` block."""

    def __init__(self) -> None:
        self.seen: List[Tuple[int, int]] = []

    def __enter__(self) -> "Notes":
        self.socket = socket.socket(socket.AF_INET, socket.SOCK_DGRAM)
        self.socket.bind(("127.0.0.1", 0))
        self.socket.settimeout(0.2)
        self.is_closed = False
        self.thread = threading.Thread(target=self.serve, daemon=True)
        self.thread.start()
        return self

    def __exit__(self, *_) -> None:
        self.is_closed = True
        self.thread.join(10)
        self.socket.close()

    def serve(self) -> None:
        while not self.is_closed:
            with contextlib.suppress(OSError):
                request, peer = self.socket.recvfrom(65535)
                number = int.from_bytes(request[:2], "big")
                self.seen.append((number, peer[1]))
                self.socket.sendto(false_reply(request, number), peer)

    def take(self) -> List[Tuple[int, int]]:
        found, self.seen = self.seen, []
        return found


def expected_distinct(count: int, size: int) -> Tuple[float, float]:
    """How many different numbers are to be expected of so many random ones below a size, and how much fewer there may be."""
    different = size * (1 - (1 - 1 / size) ** count)
    return different, DEVIATIONS * max(1.0, (count - different) ** 0.5)


def faults_of_numbers(numbers: Sequence[int], least: int, size: int, are_bits_free: bool) -> Dict[str, object]:
    """What random numbers from `least` on would not show."""
    count, found = len(numbers), {}
    different, margin = expected_distinct(count, size)
    if not different - margin <= len(set(numbers)):
        found["different ones"] = (len(set(numbers)), different)
    steps = collections.Counter((after - before) % 65536 for before, after in zip(numbers, numbers[1:]))
    step, times = steps.most_common(1)[0]
    # The same step thrice or more among a thousand has a chance of less than one to a hundred.
    if times > 5:
        found["a sequence"] = (step, times)
    if any(not least <= it < least + size for it in numbers):
        found["out of range"] = (min(numbers), max(numbers))
    tenths = collections.Counter((it - least) * 10 // size for it in numbers)
    spread = DEVIATIONS * (count * 0.1 * 0.9) ** 0.5
    if any(abs(tenths[it] - count / 10) > spread for it in range(10)):
        found["tenths of the range"] = dict(tenths)
    if are_bits_free:
        ones = [sum(it >> bit & 1 for it in numbers) for bit in range(16)]
        if any(abs(it - count / 2) > DEVIATIONS * count**0.5 / 2 for it in ones):
            found["bits"] = ones
    return found


def port_range() -> Tuple[int, int]:
    """The first of the ports that the system draws from, and their number (ip(7))."""
    first, last = (int(it) for it in Path("/proc/sys/net/ipv4/ip_local_port_range").read_text(encoding="ascii").split())
    return first, last - first + 1


def try_numbers(report: Report, given: Given) -> None:
    """Ids and ports of 1,000 questions of a process, and of processes of their own, are spread as random ones."""
    with Notes() as notes, Resolver(given.program, [notes.socket.getsockname()], ["--strategy", "ipv4"]) as resolver:
        outcomes = resolver.ask([f"n{at}.{ORIGIN}" for at in range(LOOKUPS)])
        report.check("lookups of which ids are noted", LOOKUPS, sum(it.status == "found" for it in outcomes))
        seen = notes.take()
        report.check("questions of which ids are noted", True, LOOKUPS <= len(seen) <= LOOKUPS + 5)
        ids, ports = [it[0] for it in seen], [it[1] for it in seen]
        first, size = port_range()
        report.check("ids", {}, faults_of_numbers(ids, 0, 65536, True))
        report.check("ports", {}, faults_of_numbers(ports, first, size, False))
        pairs = len(set(seen))
        report.check("pairs of an id and a port", len(seen), pairs)
        print(
            f"{len(seen):,} questions: {len(set(ids)):,} ids (expected {expected_distinct(len(seen), 65536)[0]:,.0f}), "
            f"{len(set(ports)):,} ports (expected {expected_distinct(len(seen), size)[0]:,.0f})",
            flush=True,
        )
        processes = 40
        for at in range(processes):
            resolver.run("--json", f"n{at}.{ORIGIN}")
        firsts = [it[0] for it in notes.take()]
        report.check("first ids of processes", True, len(set(firsts)) >= processes - 2 and len(firsts) >= processes)
        steps = collections.Counter((after - before) % 65536 for before, after in zip(firsts, firsts[1:]))
        report.check("steps between first ids of processes", True, steps.most_common(1)[0][1] <= 2)
        runs = []
        for _ in range(2):
            resolver.ask([f"n{at}.{ORIGIN}" for at in range(20)])
            runs.append([it[0] for it in notes.take()])
        report.check("the ids of two processes differ", True, runs[0] != runs[1] and len(set(runs[0]) & set(runs[1])) <= 2)


def try_spoofer(report: Report, given: Given) -> None:
    for title, work in (("false replies", try_floods), ("ids and ports", try_numbers)):
        report.begin()
        report.attempt(title, work, given)
        report.end(title)


if __name__ == "__main__":
    flood(int(sys.argv[1]))
