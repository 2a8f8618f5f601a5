"""Servers that do what no fault table has: they send much, or slowly."""
import contextlib
import socket
import threading
import time

from relay import open_pair
from transport import Address, ask_stream, frame, read_frame

# A flag of the header: the reply is truncated.
TRUNCATED = 0x02


class Chatter:
    """A server that answers each question with wrong ids, again and again, inside a `with` block."""

    def __init__(self, every: float, seconds: float):
        self.every, self.seconds, self.count = every, seconds, 0

    def __enter__(self) -> "Chatter":
        self.socket = socket.socket(socket.AF_INET, socket.SOCK_DGRAM)
        self.socket.bind(("127.0.0.1", 0))
        self.socket.settimeout(0.2)
        self.is_closed = False
        self.thread = threading.Thread(target=self.chat, daemon=True)
        self.thread.start()
        return self

    def __exit__(self, *_) -> None:
        self.is_closed = True
        self.thread.join(self.seconds + 5)
        self.socket.close()

    @property
    def address(self) -> Address:
        return self.socket.getsockname()

    def chat(self) -> None:
        while not self.is_closed:
            with contextlib.suppress(OSError):
                request, peer = self.socket.recvfrom(65535)
                end = time.monotonic() + self.seconds
                while time.monotonic() < end and not self.is_closed:
                    number = (int.from_bytes(request[:2], "big") + 1 + self.count % 1000) % 65536
                    self.socket.sendto(number.to_bytes(2, "big") + b"\x81\x80" + request[4:], peer)
                    self.count += 1
                    time.sleep(self.every)


class Dribbler:
    """A server whose datagrams are truncated, and whose streams come byte by byte, inside a `with` block."""

    def __init__(self, server: Address, every: float):
        self.server, self.every = server, every

    def __enter__(self) -> "Dribbler":
        self.listener, self.datagrams = open_pair("127.0.0.1")
        for it in (self.listener, self.datagrams):
            it.settimeout(0.2)
        self.is_closed = False
        self.threads = [threading.Thread(target=it, daemon=True) for it in (self.truncate, self.dribble)]
        for it in self.threads:
            it.start()
        return self

    def __exit__(self, *_) -> None:
        self.is_closed = True
        for it in self.threads:
            it.join(10)
        for it in (self.listener, self.datagrams):
            it.close()

    @property
    def address(self) -> Address:
        return self.listener.getsockname()

    def truncate(self) -> None:
        while not self.is_closed:
            with contextlib.suppress(OSError):
                request, peer = self.datagrams.recvfrom(65535)
                head = request[:2] + bytes([0x81 | TRUNCATED, 0x80, 0, 1, 0, 0, 0, 0, 0, 0])
                self.datagrams.sendto(head + request[12 : request.index(b"\0", 12) + 5], peer)

    def dribble(self) -> None:
        while not self.is_closed:
            with contextlib.suppress(OSError):
                stream, _ = self.listener.accept()
                with stream:
                    stream.settimeout(5)
                    stream.setsockopt(socket.IPPROTO_TCP, socket.TCP_NODELAY, 1)
                    request = read_frame(stream)
                    if request is not None:
                        self.send_slowly(stream, frame(ask_stream(self.server, [request])[0] or b""))

    def send_slowly(self, stream: socket.socket, data: bytes) -> None:
        for at in range(len(data)):
            if self.is_closed:
                return
            stream.sendall(data[at : at + 1])
            time.sleep(self.every)
