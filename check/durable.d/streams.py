"""Updates that are sent over a stream without waiting for their replies."""
import socket
import struct


class Replies:
    """The replies that arrive on a stream."""

    def __init__(self, stream):
        self.stream, self.rest = stream, b""

    def next(self):
        """The next replies, at least one, or none if the stream is at its end."""
        while True:
            found, at = [], 0
            while len(self.rest) - at >= 2:
                end = at + 2 + struct.unpack_from(">H", self.rest, at)[0]
                if end > len(self.rest):
                    break
                found.append(self.rest[at + 2 : end])
                at = end
            self.rest = self.rest[at:]
            if found:
                return found
            try:
                more = self.stream.recv(65536)
            except OSError:
                return []
            if not more:
                return []
            self.rest += more


def framed(message):
    """A message with its length in front of it."""
    return struct.pack(">H", len(message)) + message


def connected(port):
    """A stream to a server."""
    stream = socket.create_connection(("127.0.0.1", port), timeout=20)
    stream.setsockopt(socket.IPPROTO_TCP, socket.TCP_NODELAY, 1)
    return stream
