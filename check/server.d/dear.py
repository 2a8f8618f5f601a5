"""The requests that cost the most for their bytes, and a log on a full disk."""
import socket
import subprocess
import tempfile
import time
from pathlib import Path
from struct import pack
from typing import Callable, Dict, List, Optional

from messages import query
from report import Report
from samples import at, header, question, record, wire
from siege import ZONE, Siege
from transport import ask_datagram, connect, frame, read_frame

MOST = 65535
# How long the requests of one shape may take together, how long one is waited for, and how long one may take, in seconds.
SHAPE_SECONDS, WAIT_SECONDS, REQUEST_SECONDS = 180.0, 20.0, 1.0
OWNER = ".".join(["n" * 63, "n" * 63, "n" * 63, "n" * 59, "t"])
ZONE_SECTION = question(wire("t."), 6)


def changes(prerequisites: List[bytes], additions: List[bytes]) -> bytes:
    """An update of the zone t., whose sections are cut where the message would be too long."""
    body, counts = bytearray(), [0, 0]
    for which, records in enumerate((prerequisites, additions)):
        for it in records:
            if 12 + len(ZONE_SECTION) + len(body) + len(it) > MOST:
                break
            body += it
            counts[which] += 1
    return header((1, counts[0], counts[1], 0), 0x2800) + ZONE_SECTION + bytes(body)


def pointers() -> bytes:
    """Questions whose names are the last of a chain of pointers as long as pointers reach."""
    body, target, count = bytearray(b"\0" + pack(">2H", 1, 1)), 12, 1
    while 12 + len(body) + 6 <= MOST:
        place = 12 + len(body)
        body += at(target) + pack(">2H", 1, 1)
        target, count = place if place < 0x3FFF else target, count + 1
    return header((count, 0, 0, 0)) + bytes(body)


def owners() -> bytes:
    """Records of a query, whose owners are pointers through a chain of labels that ends in one of 255 octets."""
    name = wire(".".join("a" * 127))
    head = header((1, 0, 0, 0)) + question(name)
    count = (MOST - len(head)) // 16
    return header((1, count, 0, 0)) + question(name) + record(at(12), 1, bytes(4)) * count


NAME = b"\1m" + at(12)
NOTHING = record(NAME, 255, b"", 0, 255)


def of_types(count: int) -> List[bytes]:
    return [record(NAME, 1000 + it, b"x") for it in range(count)]


def emptied() -> bytes:
    """As many types added to a name as deletions of the name follow."""
    return changes([], of_types(2400) + [NOTHING] * 2400)


def replaced() -> bytes:
    """Types added to a name, the name deleted once, and then aliases added to it."""
    return changes([], of_types(2300) + [NOTHING] + [record(NAME, 5, at(12))] * 2300 + [NOTHING])


def by_turns() -> bytes:
    """One type that comes and goes at a name with many others."""
    turn = record(NAME, 900, b"x") + record(NAME, 900, b"", 0, 255) + NOTHING
    count = 1100
    body = b"".join(of_types(count)) + turn * count
    return header((1, 0, 4 * count, 0), 0x2800) + ZONE_SECTION + body


def addresses() -> bytes:
    """Addresses added to one set, one after another, and deleted one after another."""
    data = [pack(">I", it) for it in range(2000)]
    added, gone = [record(NAME, 1, it) for it in data], [record(NAME, 1, it, 0, 254) for it in reversed(data)]
    return changes([], added + gone)


def swapped() -> bytes:
    """Addresses of a large set, each deleted and added again as the last of its set."""
    data = [pack(">I", it) for it in range(2000)]
    return changes([], [record(NAME, 1, it, *how) for it in data for how in ((0, 254), ())])


def repeated() -> bytes:
    """Additions of addresses that a large set has already."""
    return changes([], [record(NAME, 1, pack(">I", it)) for it in range(4000)])


def required() -> bytes:
    """Prerequisites that list a large set, at a name of 254 bytes."""
    first = record(wire(OWNER), 1, pack(">I", 0), 0)
    place = at(12 + len(ZONE_SECTION))
    return changes([first] + [record(place, 1, pack(">I", it), 0) for it in range(1, 4000)], [])


def large_set(owner: bytes) -> List[bytes]:
    """Updates that make a set of 4,000 addresses."""
    found = []
    for start in range(0, 4000, 1000):
        first = record(owner, 1, pack(">I", start))
        place = at(12 + len(ZONE_SECTION))
        found.append(changes([], [first] + [record(place, 1, pack(">I", start + it)) for it in range(1, 1000)]))
    return found


# The owners of the large sets that requests of a shape are about.
OWNERS: Dict[Callable[[], bytes], bytes] = {required: wire(OWNER), swapped: NAME, repeated: NAME}


SHAPES: Dict[str, Callable[[], bytes]] = {
    "questions by a chain of pointers": pointers,
    "owners of 255 bytes by pointers": owners,
    "additions of types and deletions of their name": emptied,
    "additions of types, a deletion, additions of aliases": replaced,
    "a type that comes and goes at a name of many": by_turns,
    "additions to one set and deletions from it": addresses,
    "deletions from a large set and additions to it": swapped,
    "additions of what a large set has": repeated,
    "prerequisites of a large set at a long name": required,
    "a question for 4,000 addresses": lambda: query("many.t."),
}


def try_dear(report: Report, program: str, given) -> None:
    """A part of the requests for each shape, over one stream. The first is timed by itself and compared with the model."""
    for title, make in SHAPES.items():
        count = max(1, given.requests // len(SHAPES))
        with Siege(report, program, f"{count:,} times {title}") as siege:
            before = large_set(OWNERS[make]) if make in OWNERS else []
            request = make()
            with connect(siege.address, WAIT_SECONDS) as stream:
                for it in before:
                    report.check(f"{title}: the set", siege.model.reply(it, True), exchange(stream, it))
                siege.detail = f", {len(request):,} bytes" + ask_often(siege, stream, request, title, count)


def exchange(stream: socket.socket, request: bytes) -> Optional[bytes]:
    """The reply to a request over a stream, if it comes in time."""
    try:
        stream.sendall(frame(request))
        return read_frame(stream)
    except OSError:
        return None


def ask_often(siege: Siege, stream: socket.socket, request: bytes, title: str, count: int) -> str:
    """Asks one request many times, as long as there is time, and returns how long they took."""
    started, times, replies = time.monotonic(), [], set()
    for _ in range(count):
        start = time.monotonic()
        replies.add(exchange(stream, request))
        times.append(time.monotonic() - start)
        if None in replies or time.monotonic() - started > SHAPE_SECONDS or not siege.is_running:
            break
    median = sorted(times)[len(times) // 2]
    siege.report.check(f"{title}: reply", {siege.model.reply(request, True)}, replies)
    siege.report.check(f"{title}: requests in time", count, len(times))
    siege.report.check(f"{title}: {median * 1000:.1f} ms each", True, median <= REQUEST_SECONDS)
    return f", {len(times):,} requests of {median * 1000:.1f} ms"


def try_full_disk(report: Report, program: str, given) -> None:
    """A log on a full disk is told once, whatever is asked."""
    title = "a log on a full disk"
    report.begin()
    with tempfile.TemporaryDirectory() as folder:
        Path(folder, "zone").write_text(ZONE)
        words = [program, f"{folder}/zone", "--listen", "127.0.0.1:0", "--log", "/dev/full"]
        process = subprocess.Popen(words, stdin=subprocess.DEVNULL, stdout=subprocess.PIPE, stderr=subprocess.PIPE)
        try:
            address = ("127.0.0.1", int(process.stdout.readline().rsplit(b":", 1)[1]))
            replies = {ask_datagram(address, query("good.t.")) for _ in range(10_000)}
            report.check(f"{title}: replies", 1, len(replies - {None}))
            report.check(f"{title}: no reply", False, None in replies)
        finally:
            process.terminate()
            errors = process.communicate()[1].decode()
        report.check(f"{title}: lines of standard error {errors!r}", 2, len(errors.splitlines()))
    report.end(title)
