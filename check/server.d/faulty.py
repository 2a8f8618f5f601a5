"""Each fault of the table over sockets, to the byte."""
import os
import select
import socket
import subprocess
import tempfile
import time
from pathlib import Path
from typing import List, Optional

import faults
from logs import logged
from messages import query, update
from nameserver import NameServer
from relay import Exchange
from replies import Server, read_request
from report import Report
from transport import ask_datagram, connect, datagram_socket, frame, read_frame
from wire import Cursor
from zones import record_of, zone_of

ZONE = "\n".join(
    [
        "t. 60 IN SOA ns.t. h.t. 1 3600 600 86400 30",
        "a.t. 60 IN A 10.0.0.1",
        "b.t. 60 IN A 10.0.0.2",
        "x.t. 60 IN A 10.0.0.3",
        "sub.t. 60 IN A 10.0.0.4",
        "a.sub.t. 60 IN A 10.0.0.5",
        *(f"many.t. 60 IN A 10.1.0.{at}" for at in range(100)),
    ]
)
# How long nothing may come, to show that nothing does, in seconds.
SILENCE = 0.5
# The clock of the server shows milliseconds, so a reply may come so many seconds before its delay is over.
TICK = 0.001


class Tried:
    """A server with a fault table, beside the model of its zone."""

    def __init__(self, report: Report, program: str, table: str):
        self.report, self.table = report, table
        self.model = Server([zone_of(ZONE)])
        self.server = NameServer(ZONE, faults=table, program=program, seconds=60)
        self.logged: List[dict] = []

    def __enter__(self) -> "Tried":
        self.server.start()
        return self

    def __exit__(self, kind, *_) -> None:
        if kind is None:
            self.compare_log()
        self.server.stop()

    @property
    def address(self):
        return self.server.address, self.server.port

    def compare_log(self) -> None:
        """Compares the log with what was noted, line by line. The fields of a reply that does not decode are not compared."""
        lines = [it.fields for it in self.server.wait_for_requests(len(self.logged))]
        self.report.check(f"{self.table!r}: lines of the log", len(self.logged), len(lines))
        for wanted, line in zip(self.logged, lines):
            self.report.check(f"{self.table!r}: log", wanted, {key: line[key] for key in wanted})

    def note(self, request: bytes, reply: Optional[bytes], is_stream: bool, rule: Optional[int]) -> None:
        """Notes what the log has to say. Of a reply without a whole header only the size is compared."""
        is_update = len(request) > 2 and request[2] >> 3 & 15 == 5
        fields = logged(Exchange(is_stream, request, reply), rule, is_update and self.model.has_changed)
        if reply is not None and (len(reply) < 12 or b"\xff\xff\xff\xff" in reply):
            kept = ("transport", "id", "question", "request_bytes", "reply_bytes", "fault", "updated")
            fields = {key: fields[key] for key in kept}
        self.logged.append(fields)

    def datagram(
        self, request: bytes, wanted: Optional[bytes], rule: Optional[int], copies: int = 1, delay: float = 0
    ) -> None:
        """Sends a datagram, and compares all that comes back."""
        name = f"{self.table!r}: {request.hex()}"
        with datagram_socket(self.address, 10 if wanted is not None else SILENCE) as sender:
            start = time.monotonic()
            sender.send(request)
            found = []
            for _ in range(copies if wanted is not None else 1):
                found.append(next_datagram(sender))
            took = time.monotonic() - start
            if copies > 1 or wanted is None:
                sender.settimeout(SILENCE)
                found.append(next_datagram(sender))
                self.report.check(
                    f"{name}: copies", [wanted] * copies + [None] if wanted is not None else [None, None], found
                )
            else:
                self.report.check(name, wanted, found[0])
        self.report.check(f"{name}: {took:.3f} s", True, took >= delay - TICK or wanted is None)
        self.note(request, wanted, False, rule)

    def stream(self, request: bytes, wanted: Optional[bytes], rule: Optional[int], delay: float = 0) -> None:
        """Sends a frame, and compares the next one that comes."""
        name = f"{self.table!r}: stream {request.hex()}"
        with connect(self.address, 10 if wanted is not None else SILENCE) as stream:
            start = time.monotonic()
            stream.sendall(frame(request))
            try:
                reply = read_frame(stream)
            except socket.timeout:
                reply = None
            took = time.monotonic() - start
        self.report.check(name, wanted, reply)
        self.report.check(f"{name}: {took:.3f} s", True, took >= delay - TICK or wanted is None)
        self.note(request, wanted, True, rule)

    def both(self, request: bytes, wanted: Optional[bytes], rule: Optional[int]) -> None:
        """The same over both transports."""
        self.datagram(request, wanted, rule)
        self.stream(request, wanted, rule)

    def plain(self, request: bytes) -> None:
        """The reply of a server without faults, over both transports."""
        self.datagram(request, self.model.reply(request), None)
        self.stream(request, self.model.reply(request, True), None)


def next_datagram(sender: socket.socket) -> Optional[bytes]:
    try:
        return sender.recv(65535)
    except socket.timeout:
        return None


def coded(request: bytes, number: int) -> bytes:
    """The reply with a response code."""
    at = Cursor(request, 12)
    for _ in read_request(request).questions:
        at.name(), at.take(4)
    return faults.coded(read_request(request), number, request[12 : at.at])


def try_matching(report: Report, program: str) -> None:
    """Names, types, wildcards, and the first rule that matches and is not used up."""
    a, b, sub, below, origin = query("a.t."), query("b.t."), query("sub.t."), query("A.Sub.T."), query("t.", "SOA")
    with Tried(report, program, "a.t. A code 2\nA.T. * code 3\n*.sub.t. * code 4\n* SOA code 5") as tried:
        for request, code, rule in (
            (a, 2, 1),
            (query("a.t.", "TXT"), 3, 2),
            (query("A.t."), 2, 1),
            (below, 4, 3),
            (origin, 5, 4),
        ):
            tried.both(request, coded(request, code), rule)
        for request in (b, sub, query("no.t."), query("xsub.t.", "A"), query("aa.t.")):
            tried.plain(request)
    with Tried(
        report, program, "# first\n\n  a.t. A code SERVFAIL times 2\t\na.t. * code refused times 1\n* * code 3841 times 1"
    ) as tried:
        for code, rule in ((2, 3), (2, 3), (5, 4)):
            tried.datagram(a, coded(a, code), rule)
        tried.stream(query("a.t.", payload=1232), coded(query("a.t.", payload=1232), 3841), 5)
        tried.plain(a)


def try_actions(report: Report, program: str) -> None:
    """Each action by itself, over both transports where it applies to both."""
    a, edns, many = (
        query("a.t.", id=0x1234),
        query("a.t.", id=0xFFFF, payload=1232, flags=0x0110),
        query("many.t.", payload=1232),
    )
    with Tried(report, program, "a.t. * drop\nx.t. * wrong-question\nt. * wrong-question") as tried:
        tried.both(a, None, 1)
        for request in (query("x.t."), query("X.T.", payload=1232), query("t.", "SOA")):
            tried.datagram(request, faults.with_wrong_question(tried.model.reply(request)), 2 if request[13] in b"xX" else 3)
        tried.plain(query("b.t."))
    with Tried(report, program, "* * wrong-id") as tried:
        for request in (a, edns, query("no.t.", id=0), query("u.")):
            tried.both(request, faults.with_wrong_id(tried.model.reply(request)), 1)
    for name, number in (("NOERROR", 0), ("FORMERR", 1), ("servfail", 2), ("BADVERS", 16), ("4095", 4095)):
        with Tried(report, program, f"* * code {name}") as tried:
            for request in (a, edns):
                tried.both(request, coded(request, number), 1)
    for size in (1, 2, 3, 11, 12, 40, 512):
        with Tried(report, program, f"* A garbage {size}") as tried:
            tried.both(a, faults.garbage(0x1234, size), 1)
    with Tried(report, program, "* * truncate") as tried:
        for request in (a, edns, many, query("no.t.", payload=512)):
            at = Cursor(request, 12)
            at.name()
            tried.datagram(request, faults.truncated(tried.model.reply(request), at.at + 4), 1)
            tried.stream(request, tried.model.reply(request, True), None)
    with Tried(report, program, "* * duplicate") as tried:
        tried.datagram(a, tried.model.reply(a), 1, copies=2)
        tried.stream(a, tried.model.reply(a, True), None)
    with Tried(report, program, "a.t. * delay 700\nb.t. * delay 300 duplicate") as tried:
        tried.datagram(a, tried.model.reply(a), 1, delay=0.7)
        tried.stream(a, tried.model.reply(a, True), 1, delay=0.7)
        tried.datagram(query("b.t."), tried.model.reply(query("b.t.")), 2, copies=2, delay=0.3)


def try_delays(report: Report, program: str) -> None:
    """A delayed reply holds up no other, and replies come by their moments."""
    late, soon, plain = query("a.t.", id=1), query("b.t.", id=2), query("x.t.", id=3)
    with Tried(report, program, "a.t. * delay 900\nb.t. * delay 450") as tried:
        with datagram_socket(tried.address, 10) as sender:
            start = time.monotonic()
            for request in (late, soon, plain):
                sender.send(request)
            found = [sender.recv(65535) for _ in range(3)]
        report.check("order of delayed replies", [tried.model.reply(it) for it in (plain, soon, late)], found)
        report.check("the delay of the last", True, 0.9 <= time.monotonic() - start < 5)
        for request, rule in ((late, 1), (soon, 2), (plain, None)):
            tried.note(request, tried.model.reply(request), False, rule)


def try_closing(report: Report, program: str) -> None:
    """Streams that end after the first bytes of the frame. In a datagram the rule does not apply."""
    a = query("a.t.")
    whole = frame(Server([zone_of(ZONE)]).reply(a, True))
    for count in (None, 0, 1, 2, 3, len(whole) - 1, len(whole), 1000):
        # A name may lack its last dot, and `close` its number.
        with Tried(report, program, f"a.t. A close {count}" if count is not None else "A.t a close") as tried:
            with connect(tried.address, 10) as stream:
                stream.sendall(frame(a))
                found = stream.makefile("rb").read()
            report.check(f"close {count}", whole[: count or 0], found)
            tried.note(a, whole[2:], True, 1)
            tried.datagram(a, tried.model.reply(a), None)


def try_stale(report: Report, program: str) -> None:
    """Answers by the rows before the last update, which is made all the same."""
    a = query("a.t.")
    with Tried(report, program, "a.t. A stale times 4") as tried:
        tried.datagram(a, tried.model.reply(a), 1)
        for number in range(2):
            request = update("t.", [], [record_of(f"a.t. 60 IN A 10.9.0.{number}")])
            before = tried.model.reply(a)
            tried.datagram(request, tried.model.reply(request), None)
            tried.datagram(a, before, 1)
        failed = update("t.", [], [record_of("a.u. 60 IN A 10.9.0.3")])
        tried.datagram(failed, tried.model.reply(failed), None)
        tried.datagram(a, before, 1)
        tried.plain(a)


def try_stale_pipe(report: Report, program: str) -> None:
    """A zone file is read once, as one from a pipe can be, also if a rule asks for the zone from before the last update. That is the
    one that changed records: an update without effect changes nothing of it."""
    with tempfile.TemporaryDirectory() as folder:
        pipe = os.path.join(folder, "zone")
        os.mkfifo(pipe)
        Path(folder, "faults").write_text("n.t. A stale\n")
        words = [program, pipe, "--faults", f"{folder}/faults", "--listen", "127.0.0.1:0"]
        process = subprocess.Popen(words, stdin=subprocess.DEVNULL, stdout=subprocess.PIPE, stderr=subprocess.DEVNULL)
        try:
            Path(pipe).write_text(ZONE)
            is_ready, _, _ = select.select([process.stdout], [], [], 10)
            if not report.check("a zone file from a pipe, and a rule with stale: the server listens", True, bool(is_ready)):
                return
            address = ("127.0.0.1", int(process.stdout.readline().rsplit(b":", 1)[1]))
            model, former = Server([zone_of(ZONE)]), Server([zone_of(ZONE)])
            added = update("t.", [], [record_of("n.t. 60 IN A 10.9.0.1")])
            for request in (added, added):
                report.check("an update beside stale answers", model.reply(request), ask_datagram(address, request))
                report.check("a stale answer", former.reply(query("n.t.")), ask_datagram(address, query("n.t.")))
            report.check("a current answer", model.reply(query("n.t.", "TXT")), ask_datagram(address, query("n.t.", "TXT")))
        finally:
            process.kill()
            process.wait()
            process.stdout.close()


def try_updates(report: Report, program: str) -> None:
    """Faults of updates, which have the name of the zone and the type SOA: which of them are made."""
    for table, is_made, make in (
        ("t. SOA drop", False, lambda request, reply: None),
        ("t. SOA code SERVFAIL", False, lambda request, reply: coded(request, 2)),
        ("t. SOA wrong-id", True, lambda request, reply: faults.with_wrong_id(reply)),
        ("t. SOA garbage 20", True, lambda request, reply: faults.garbage(1, 20)),
    ):
        request, asked = update("t.", [], [record_of("n.t. 60 IN A 10.9.0.1")]), query("n.t.")
        with Tried(report, program, table) as tried:
            reply = tried.model.reply(request) if is_made else None
            wanted = make(request, reply)
            tried.datagram(request, wanted, 1)
            tried.plain(asked)


def try_tables(report: Report, program: str) -> None:
    """Tables that are refused, with the line and the status 1."""
    from program import run

    for text, line in (("a.t. A", 1), ("\na.t. A nothing", 2), ("a.t. A delay", 1), ("* * drop\n* * code 4096", 2), ("a.t. BAD drop", 1),
                       ("a..t. A drop", 1), ("* * drop times x", 1), ("* * drop drop", 1), ("* * drop delay 5", 1)):  # fmt: skip
        status, output, errors = run(
            program, {"zone": ZONE, "faults": text}, ["zone", "--faults", "faults", "--listen", "127.0.0.1:0"]
        )
        report.check(
            f"table {text!r}", (1, "", True), (status, output, f"line {line}" in errors or f"faults:{line}" in errors)
        )


def try_faults(report: Report, program: str, _missing: List[str]) -> None:
    for title, work in (
        ("rules that match", try_matching), ("each action", try_actions), ("delays", try_delays), ("closed streams", try_closing),
        ("stale answers", try_stale), ("stale answers from a pipe", try_stale_pipe), ("faults of updates", try_updates), ("tables that are refused", try_tables),
    ):  # fmt: skip
        report.begin()
        report.attempt(title, work, program)
        report.end(title)
