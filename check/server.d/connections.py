"""Streams of hostile peers: silent, slow, deaf and greedy ones, and more than the server has room for."""
import contextlib
import selectors
import socket
import tempfile
import time
from typing import Callable, Dict, List

from messages import query
from report import Report
from siege import GOOD, IDLE_TIME, Siege, few_files, with_requests
from transport import frame

# How many streams of a kind are open at once: more than the server takes, but no more of those that fill its buffers.
OPEN, FILLING = 500, 250
# How long each kind goes on after its last stream was opened, in seconds, and how long those do that fill buffers.
LAST, LAST_FILLING = 5.0, 20.0
HALF_A_FRAME = frame(query("a.t."))[:-9]
LARGE_QUESTIONS = frame(query("many.t.")) * 50
LARGEST_FRAMES = (b"\xff\xff" + b"\xff" * 65535) * 4
LARGEST_QUESTION = frame(query("a.t.") + bytes(65535 - len(query("a.t."))))


class Crowd:
    """Streams that are open at the same time, of which the oldest are closed first."""

    def __init__(self, address, most: int):
        self.address, self.most = address, most
        self.streams: List[socket.socket] = []
        self.opened = 0

    def __enter__(self) -> "Crowd":
        return self

    def __exit__(self, *_) -> None:
        for it in self.streams:
            it.close()

    def open(self) -> socket.socket:
        """Opens a stream that does not wait."""
        if len(self.streams) >= self.most:
            self.streams.pop(0).close()
        stream = socket.socket(socket.AF_INET, socket.SOCK_STREAM)
        stream.setblocking(False)
        # The system takes little for a stream that does not read, so that the server soon has to wait.
        stream.setsockopt(socket.SOL_SOCKET, socket.SO_RCVBUF, 4096)
        with contextlib.suppress(BlockingIOError):
            stream.connect(self.address)
        self.streams.append(stream)
        self.opened += 1
        return stream


def send_some(stream: socket.socket, data: bytes) -> int:
    """Sends what a stream takes at once, and returns how much that was, 0 too if the stream has ended."""
    try:
        return stream.send(data)
    except OSError:
        return 0


def silent(crowd: Crowd, stream: socket.socket) -> None:
    """Sends nothing."""


def half(crowd: Crowd, stream: socket.socket) -> None:
    """Sends half a frame, as soon as it is connected."""
    wait_for_connection(stream)
    send_some(stream, HALF_A_FRAME)


def slow(crowd: Crowd, stream: socket.socket) -> None:
    """Sends the first byte of a frame. The others follow, one a second."""
    wait_for_connection(stream)
    send_some(stream, HALF_A_FRAME[:1])


def deaf(crowd: Crowd, stream: socket.socket) -> None:
    """Asks for large replies again and again, and never reads."""
    wait_for_connection(stream)
    send_some(stream, LARGE_QUESTIONS)


def greedy(crowd: Crowd, stream: socket.socket) -> None:
    """Sends frames of 65,535 bytes."""
    wait_for_connection(stream)
    send_some(stream, LARGEST_FRAMES if crowd.opened % 2 else LARGEST_QUESTION)


def wait_for_connection(stream: socket.socket) -> None:
    """Waits a moment until a stream is connected."""
    with selectors.DefaultSelector() as selector, contextlib.suppress(ValueError):
        selector.register(stream, selectors.EVENT_WRITE)
        selector.select(0.2)


KINDS: Dict[str, Callable] = {
    "that send nothing": silent,
    "of half a frame": half,
    "of a byte a second": slow,
    "that never read": deaf,
    "of frames of 65,535 bytes": greedy,
}


def go_on(kind: str, crowd: Crowd, siege: Siege) -> None:
    """What the open streams do at the end: the slow ones send a byte a second, the deaf and the greedy ones all they can."""
    end = time.monotonic() + (LAST_FILLING if crowd.most == FILLING else LAST)
    sent = 1
    while time.monotonic() < end and siege.is_running:
        for stream in crowd.streams:
            if kind == "of a byte a second":
                send_some(stream, HALF_A_FRAME[sent : sent + 1])
            elif kind == "that never read":
                send_some(stream, LARGE_QUESTIONS)
            elif kind == "of frames of 65,535 bytes":
                send_some(stream, LARGEST_FRAMES)
        sent += 1
        time.sleep(1 if kind == "of a byte a second" else 0.01)


def try_streams(report: Report, program: str, given) -> None:
    """A fifth of the streams for each kind."""
    for kind, work in KINDS.items():
        count = max(1, given.streams // len(KINDS))
        most = FILLING if work in (deaf, greedy) else OPEN
        with Siege(report, program, f"{count:,} streams {kind}") as siege, Crowd(siege.address, most) as crowd:
            for _ in range(count):
                work(crowd, crowd.open())
                if not siege.is_running:
                    break
            go_on(kind, crowd, siege)


def try_many_connections(report: Report, program: str, given) -> None:
    """Connections at once, more than the server may have files. It answers over UDP meanwhile, and over TCP afterwards."""
    count = given.connections
    with tempfile.TemporaryDirectory() as folder, few_files(program, folder, 256) as limited:
        title = f"{count:,} connections at once with 256 files"
        with Siege(report, limited, title, over_stream=False) as siege:
            with Crowd(siege.address, count) as crowd:
                for _ in range(count):
                    crowd.open()
                end = time.monotonic() + LAST
                while time.monotonic() < end:
                    with_requests(siege, [query("a.t."), query("no.t.")], False)
                    time.sleep(0.2)
                files = siege.files()
                report.check(f"{title}: {files} files", True, files <= 256)
                siege.asker.stopped.set()
                siege.asker.join(60)
                report.check(f"{title}: processor time while connections wait", True, siege.idle_time() <= 3 * IDLE_TIME)
                siege.detail = f", {files} files"
            time.sleep(0.5)


def try_idle(report: Report, program: str, given) -> None:
    """A silent connection is closed after ten seconds; one that is used stays."""
    title = "idle connections"
    with Siege(report, program, title) as siege, Crowd(siege.address, 10) as crowd:
        idle, used = crowd.open(), crowd.open()
        half(crowd, crowd.open())
        for stream in (idle, used):
            stream.setblocking(True)
            stream.settimeout(15)
        started = time.monotonic()
        while time.monotonic() - started < 14:
            with contextlib.suppress(OSError):
                used.sendall(frame(query(GOOD)))
                used.recv(65535)
            time.sleep(2)
        report.check(f"{title}: closed", b"", rest_of(idle))
        used.sendall(frame(query(GOOD)))
        report.check(f"{title}: one that is used stays", frame(siege.model.reply(query(GOOD), True)), used.recv(65535))


def rest_of(stream: socket.socket) -> bytes:
    """What a stream has: nothing if its peer has closed it."""
    stream.settimeout(1)
    try:
        return stream.recv(1)
    except ConnectionResetError:
        return b""
    except socket.timeout:
        return b"still open"


def try_turns(report: Report, program: str, given) -> None:
    """300 connections, all of which ask by turns: at most 256 stay, and these are answered."""
    title = "300 connections that ask by turns"
    with Siege(report, program, title) as siege, Crowd(siege.address, 300) as crowd:
        for _ in range(300):
            crowd.open()
        time.sleep(1)
        answered = 0
        for stream in crowd.streams:
            stream.setblocking(True)
            stream.settimeout(10)
            with contextlib.suppress(OSError):
                stream.sendall(frame(query("a.t.")))
                answered += stream.recv(65535) == frame(siege.model.reply(query("a.t."), True))
        report.check(f"{title}: {answered} are answered", True, 200 <= answered <= 256)
        siege.detail = f", {answered} answered"
