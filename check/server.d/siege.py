"""A server under attack: it is asked all the time and afterwards, and its memory is looked at."""
import contextlib
import os
import subprocess
import threading
import time
from typing import List, Optional

from messages import query
from nameserver import NameServer
from packages import find
from processes import processor_time, status_of
from replies import Server
from report import Report
from transport import ask_datagram, ask_stream
from zones import zone_of

ZONE = "\n".join(
    [
        "t. 60 IN SOA ns.t. h.t. 1 3600 600 86400 30",
        "t. 60 IN NS ns.t.",
        "ns.t. 60 IN A 10.0.0.53",
        "a.t. 60 IN A 10.0.0.1",
        "a.t. 60 IN A 10.0.0.2",
        'a.t. 60 IN TXT "one" "two"',
        "c.t. 60 IN CNAME a.t.",
        "x.y.t. 60 IN MX 10 a.t.",
        "good.t. 60 IN A 10.0.0.99",
        *(f"many.t. 60 IN A 10.{at >> 8}.{at & 255}.1" for at in range(4000)),
    ]
)
GOOD = "good.t."
# The memory that a server may take beyond what it has after loading, in kB: 256 connections, of each the longest frame and the
# replies that wait (65,537 and 131,074 bytes), in buffers that may be twice as long; and 28 MB for all else.
MEMORY_BOUND = 128_000
# The most processor time of a second in which nobody asks, in seconds.
IDLE_TIME = 0.1
# How long one try of a question waits, how many tries it has, and how long all of them may take: as long as dig waits once.
SECONDS, TRIES, SLOWEST = 2.0, 5, 5.0


class Asker(threading.Thread):
    """Asks a server a good question by turns over UDP and TCP, until it is told to stop."""

    def __init__(self, siege: "Siege", over_stream: bool):
        super().__init__(daemon=True)
        self.siege, self.over_stream = siege, over_stream
        self.stopped = threading.Event()
        self.asked, self.failures, self.slowest, self.wrong = 0, 0, 0.0, []

    def run(self) -> None:
        self.ask()
        while not self.stopped.wait(0.1):
            self.ask()

    def ask(self) -> None:
        """Asks until there is a reply, a few times at most."""
        is_stream = self.over_stream and self.asked % 2 == 1
        start, reply = time.monotonic(), None
        for number in range(TRIES):
            request = query(GOOD, id=(self.asked * TRIES + number) % 65536)
            reply = ask_once(self.siege.address, request, is_stream)
            if reply is not None:
                break
        self.asked += 1
        self.failures += reply is None
        self.slowest = max(self.slowest, time.monotonic() - start)
        if reply is not None and reply[2:] != self.siege.good_reply[2:]:
            self.wrong.append(reply)


def ask_once(address, request: bytes, is_stream: bool) -> Optional[bytes]:
    try:
        return ask_stream(address, [request], SECONDS)[0] if is_stream else ask_datagram(address, request, SECONDS)
    except OSError:
        return None


class Siege:
    """A server under attack, inside a `with` block."""

    def __init__(self, report: Report, program: str, title: str, options=(), over_stream: bool = True, zone: str = ZONE):
        self.report, self.title, self.over_stream = report, title, over_stream
        self.server = NameServer(zone, program=program, options=options, seconds=120, log=False)
        self.model = Server([zone_of(zone)])
        self.good_reply = self.model.reply(query(GOOD))
        self.detail = ""

    def __enter__(self) -> "Siege":
        self.report.begin()
        self.server.start()
        self.start_memory = status_of(self.server.process.pid, "VmHWM")
        self.start_files = self.files()
        self.asker = Asker(self, self.over_stream)
        self.asker.start()
        self.started = time.monotonic()
        return self

    def __exit__(self, kind, *_) -> None:
        try:
            self.asker.stopped.set()
            self.asker.join(60)
            if kind is None:
                self.compare()
        finally:
            self.server.stop()

    @property
    def address(self):
        return self.server.address, self.server.port

    def files(self) -> int:
        """How many files the server has open."""
        return len(os.listdir(f"/proc/{self.server.process.pid}/fd"))

    def idle_time(self, seconds: float = 1.0) -> float:
        """The processor time that the server takes while nobody asks, in seconds."""
        before = processor_time(self.server.process.pid)
        time.sleep(seconds)
        return processor_time(self.server.process.pid) - before

    @property
    def is_running(self) -> bool:
        return self.server.process.poll() is None

    def files_at_last(self) -> int:
        """How many files the server has open once it has taken note of what its peers have closed, for at most ten seconds."""
        end = time.monotonic() + 10
        while self.files() > self.start_files and time.monotonic() < end:
            time.sleep(0.05)
        return self.files()

    def compare(self) -> None:
        """What has to hold afterwards."""
        report, title, took = self.report, self.title, time.monotonic() - self.started
        if report.check(f"{title}: the server runs", None, self.server.process.poll()):
            used = status_of(self.server.process.pid, "VmHWM") - self.start_memory
            report.check(f"{title}: it takes {used} kB more, at most {MEMORY_BOUND}", True, used <= MEMORY_BOUND)
            for is_stream in (False, True):
                reply = ask_once(self.address, query(GOOD), is_stream)
                report.check(f"{title}: afterwards, {'TCP' if is_stream else 'UDP'}", self.good_reply, reply)
            if find("dig"):
                words = ["dig", "-r", f"@{self.address[0]}", "-p", str(self.address[1]), "+short", GOOD]
                report.check(f"{title}: dig", "10.0.0.99\n", subprocess.run(words, capture_output=True, text=True).stdout)
            report.check(f"{title}: files that stay open", self.start_files, self.files_at_last())
            report.check(f"{title}: processor time while nobody asks", True, self.idle_time() <= IDLE_TIME)
            self.detail += f", {used} kB more"
        report.check(f"{title}: questions meanwhile", True, self.asker.asked > 0)
        report.check(f"{title}: questions without a reply", 0, self.asker.failures)
        report.check(f"{title}: wrong replies", [], self.asker.wrong)
        slowest = self.asker.slowest
        report.check(f"{title}: the slowest reply after {slowest:.2f} s", True, slowest <= SLOWEST)
        said = self.server.standard_error().splitlines()
        report.check(f"{title}: lines of standard error", 1, len(said))
        asked = f"{self.asker.asked} questions meanwhile, the slowest {slowest:.2f} s"
        report.end(title, f"{self.detail}, {asked}, {took:.0f} s")


@contextlib.contextmanager
def few_files(program: str, folder: str, count: int):
    """A program that starts another one with so many files at most."""
    path = os.path.join(folder, "few_files")
    with open(path, "w", encoding="ascii") as file:
        file.write(f'#!/bin/sh\nulimit -n {count}\nexec "{program}" "$@"\n')
    os.chmod(path, 0o755)
    yield path


def with_requests(siege: Siege, requests: List[bytes], is_stream: bool) -> None:
    """Asks requests, and compares each reply with that of the model."""
    for request in requests:
        wanted = siege.model.reply(request, is_stream)
        siege.report.check(
            f"{siege.title}: reply to {request[:100].hex()}", wanted, ask_once(siege.address, request, is_stream)
        )
