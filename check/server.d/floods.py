"""Four clients that send as much as they are answered, beside an honest one: it loses no question, and the server takes little memory.

The server answers by the whole of RFC 1034, as it does by default, alone, with a journal, and with a journal and a key. None of the
four may update."""
import multiprocessing
import socket
import tempfile
import time
from pathlib import Path
from struct import pack
from typing import List

from growth import HEAD, ZONE_SECTION, update_of
from messages import query
from nameserver import NameServer
from processes import processor_time, status_of
from report import Report
from samples import at, record, wire
from transport import ask_datagram, connect, datagram_socket, frame, read_frame

# How long the server is flooded, how long the honest client waits for a reply and between two questions, in seconds.
SECONDS, WAIT, PAUSE = 5.0, 2.0, 0.01
# How many requests of a flooding client wait for their replies, and the memory that they may take, in kB.
WINDOW, MEMORY = 16, 64_000
RECORDS = 4_000
NAME = b"\1m" + at(12)
KEY = 'key "k." { algorithm hmac-sha256; secret "c2VjcmV0c2VjcmV0c2VjcmV0"; };\n'
ZONE = (
    HEAD
    + "good.t. 60 IN A 10.0.0.99\n"
    + "".join(f"m.t. 60 IN A 10.1.{it >> 8}.{it & 255}\n" for it in range(RECORDS))
    + "".join(f"s.t. 60 IN SRV 1 {it} 80 h{it}.t.\nh{it}.t. 60 IN A 10.2.{it >> 8}.{it & 255}\n" for it in range(RECORDS))
)


def deletions() -> bytes:
    """The deletion of each record of a set."""
    return update_of([], [record(NAME, 1, pack(">I", 0x0A010000 + it), 0, 254) for it in range(RECORDS)])


def required() -> bytes:
    """Prerequisites, the names in whose data share 120 labels."""
    shared = wire("n." + "a." * 120 + "t.")
    place = 12 + len(ZONE_SECTION) + len(NAME) + 10 + 2
    others = [record(NAME, 2, bytes([len(str(it))]) + str(it).encode() + at(place), 0) for it in range(6_000)]
    return update_of([record(NAME, 2, shared, 0)] + others, [])


# What each of the four asks, and whether over a stream.
FLOODS = [(deletions, True), (required, True), (lambda: query("s.t.", "SRV"), False), (lambda: query("x." * 118 + "t."), False)]
OPTIONS = {
    "alone": ["--no-updates"],
    "with a journal": ["--no-updates", "--journal", "{folder}/journal"],
    "with a journal and a key": ["--no-updates", "--journal", "{folder}/journal", "--key", "{folder}/key", "--grant", "k. t."],
}


def flood(address, request: bytes, over_stream: bool, end: float, counted) -> None:
    """Sends a request again and again until a moment, with a window of those that are not answered."""
    count = 0
    with connect(address, WAIT) if over_stream else datagram_socket(address, WAIT) as it:
        message = frame(request) if over_stream else request
        waiting = 0
        while time.monotonic() < end:
            while waiting < (1 if over_stream else WINDOW):
                it.sendall(message)
                waiting += 1
            try:
                is_answered = read_frame(it) is not None if over_stream else bool(it.recv(65535))
            except socket.timeout:
                # A datagram of the window was lost, as the socket of the server was full.
                waiting = 0
                continue
            if not is_answered:
                break
            waiting -= 1
            count += 1
    counted.value = count


def try_floods(report: Report, _program: str, given) -> None:
    """Floods the program itself, without `--plain`."""
    for title, options in OPTIONS.items():
        report.begin()
        with tempfile.TemporaryDirectory() as folder:
            path = Path(folder, "key")
            path.write_text(KEY)
            path.chmod(0o600)
            words = [it.format(folder=folder) for it in options]
            with NameServer(ZONE, program=given.program, options=words, seconds=120, log=False) as server:
                try_flood(report, f"four floods, {title}", server)


def try_flood(report: Report, title: str, server: NameServer) -> None:
    """Floods a server, and asks it meanwhile."""
    address, process = (server.address, server.port), server.process
    Path(f"/proc/{process.pid}/clear_refs").write_text("5")
    memory, took = status_of(process.pid, "VmHWM"), processor_time(process.pid)
    end, context = time.monotonic() + SECONDS, multiprocessing.get_context("fork")
    counts = [context.Value("l", 0) for _ in FLOODS]
    floods = [context.Process(target=flood, args=(address, make(), how, end, it)) for (make, how), it in zip(FLOODS, counts)]
    for it in floods:
        it.start()
    asked, lost, slowest = 0, 0, 0.0
    while time.monotonic() < end:
        start = time.monotonic()
        reply = ask_datagram(address, query("good.t.", id=asked & 0xFFFF), WAIT)
        asked, lost, slowest = asked + 1, lost + (reply is None or reply[3] & 15 != 0), max(slowest, time.monotonic() - start)
        time.sleep(PAUSE)
    for it in floods:
        it.join(60)
    used = status_of(process.pid, "VmHWM") - memory
    report.check(f"{title}: the server runs", None, process.poll())
    report.check(f"{title}: of {asked} questions, lost", 0, lost)
    report.check(f"{title}: it takes {used} kB more, at most {MEMORY}", True, used <= MEMORY)
    report.check(f"{title}: each flood is answered", True, all(it.value > 0 for it in counts))
    answered = " and ".join(f"{it.value:,}" for it in counts)
    detail = f"{used:,} kB more, {asked} questions meanwhile, the slowest {slowest * 1000:.0f} ms, floods of {answered}"
    report.end(title, f", {detail}, {processor_time(process.pid) - took:.1f} s of processor time")
