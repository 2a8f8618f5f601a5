"""Stands between clients and a server on the loopback interface, and notes the bytes of each request and of its reply."""
import contextlib
import socket
import threading
from typing import List, NamedTuple, Optional

from transport import Address, ask_datagram, connect, frame, read_frame

# How long a server may take for a reply, in seconds.
SECONDS = 5.0
BACKLOG = 128


class Exchange(NamedTuple):
    """A request and its reply."""

    is_stream: bool
    request: bytes
    reply: Optional[bytes]


class Relay:
    """A relay to a server, inside a `with` block. Requests are passed on one after another, so their order is known."""

    def __init__(self, server: Address, host: str = "127.0.0.1"):
        self.server, self.host, self.port = server, host, 0
        self.exchanges: List[Exchange] = []
        self.one_at_a_time = threading.Lock()
        self.is_closed = False

    def __enter__(self) -> "Relay":
        self.listener, self.datagrams = open_pair(self.host)
        self.port = self.listener.getsockname()[1]
        for work in (self.pass_datagrams, self.accept):
            threading.Thread(target=work, daemon=True).start()
        return self

    def __exit__(self, *_) -> None:
        self.is_closed = True
        for it in (self.listener, self.datagrams):
            with contextlib.suppress(OSError):
                it.shutdown(socket.SHUT_RDWR)
            it.close()

    @property
    def address(self) -> Address:
        return self.host, self.port

    def take(self) -> List[Exchange]:
        """The exchanges since the last call."""
        with self.one_at_a_time:
            found, self.exchanges = self.exchanges, []
        return found

    def pass_datagrams(self) -> None:
        while not self.is_closed:
            try:
                request, peer = self.datagrams.recvfrom(65535)
            except OSError:
                return
            with self.one_at_a_time:
                reply = ask_datagram(self.server, request, SECONDS)
                self.exchanges.append(Exchange(False, request, reply))
            if reply is not None:
                with contextlib.suppress(OSError):
                    self.datagrams.sendto(reply, peer)

    def accept(self) -> None:
        while not self.is_closed:
            try:
                stream, _ = self.listener.accept()
            except OSError:
                return
            threading.Thread(target=self.pass_stream, args=(stream,), daemon=True).start()

    def pass_stream(self, client: socket.socket) -> None:
        """Passes the frames of a connection on over another one."""
        with client, contextlib.suppress(OSError), connect(self.server, SECONDS) as server:
            while True:
                request = read_frame(client)
                if request is None:
                    return
                with self.one_at_a_time:
                    server.sendall(frame(request))
                    reply = read_frame(server)
                    self.exchanges.append(Exchange(True, request, reply))
                if reply is None:
                    return
                client.sendall(frame(reply))


def open_pair(host: str):
    """A listener and a datagram socket at the same port."""
    for _ in range(100):
        listener = socket.socket(socket.AF_INET, socket.SOCK_STREAM)
        listener.setsockopt(socket.SOL_SOCKET, socket.SO_REUSEADDR, 1)
        listener.bind((host, 0))
        datagrams = socket.socket(socket.AF_INET, socket.SOCK_DGRAM)
        try:
            datagrams.bind(listener.getsockname())
        except OSError:
            listener.close()
            datagrams.close()
            continue
        listener.listen(BACKLOG)
        return listener, datagrams
    raise OSError("no port that is free for both")
