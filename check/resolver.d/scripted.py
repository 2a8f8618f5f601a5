"""A name server that replies as it is told, and notes what it is asked."""
import contextlib
import socket
import threading
from collections import deque
from typing import Callable, List

from reply_texts import Question, question_of

# How often the thread of a server looks whether it is to end, in seconds.
EACH = 0.05
# What a server does with a request: the datagrams that it sends.
Replies = Callable[[bytes], List[bytes]]


class Scripted:
    """A server over datagrams or streams on a loopback address, inside a `with` block."""

    def __init__(self, replies: Replies, is_stream: bool = False):
        self.replies, self.is_stream, self.requests = replies, is_stream, []

    def __enter__(self) -> "Scripted":
        self.socket = socket.socket(socket.AF_INET, socket.SOCK_STREAM if self.is_stream else socket.SOCK_DGRAM)
        self.socket.bind(("127.0.0.1", 0))
        self.socket.settimeout(EACH)
        if self.is_stream:
            self.socket.listen()
        self.is_closed = False
        self.thread = threading.Thread(target=self.serve, daemon=True)
        self.thread.start()
        return self

    def __exit__(self, *_) -> None:
        self.is_closed = True
        self.thread.join(10)
        self.socket.close()

    @property
    def place(self) -> str:
        """The address and the port."""
        return "{}:{}".format(*self.socket.getsockname())

    def serve(self) -> None:
        while not self.is_closed:
            with contextlib.suppress(socket.timeout):
                self.serve_stream() if self.is_stream else self.serve_datagram()

    def serve_datagram(self) -> None:
        """Replies to a datagram."""
        request, peer = self.socket.recvfrom(65535)
        self.requests.append(request)
        for reply in self.replies(request):
            self.socket.sendto(reply, peer)

    def serve_stream(self) -> None:
        """Replies to the message of a connection (RFC 1035 section 4.2.2)."""
        connection, _ = self.socket.accept()
        with connection, connection.makefile("rb") as incoming:
            request = incoming.read(int.from_bytes(incoming.read(2), "big"))
            self.requests.append(request)
            for reply in self.replies(request):
                connection.sendall(len(reply).to_bytes(2, "big") + reply)

    def questions(self) -> List[Question]:
        """What was asked, in order."""
        return [question_of(it) for it in self.requests]


class Listed:
    """Replies of a list, one for each request, whatever it asks; behind the last one there is none."""

    def __init__(self, make: Callable[[bytes, str], List[bytes]], texts: List[str]):
        self.make, self.left = make, deque(texts)

    def __call__(self, request: bytes) -> List[bytes]:
        return self.make(request, self.left.popleft()) if self.left else []
