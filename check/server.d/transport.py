"""Requests over sockets, as bytes."""
import socket
from typing import Iterable, List, Optional, Tuple

Address = Tuple[str, int]
SECONDS = 5.0


def family(address: Address) -> int:
    return socket.AF_INET6 if ":" in address[0] else socket.AF_INET


def datagram_socket(address: Address, seconds: float = SECONDS) -> socket.socket:
    """A socket that sends to an address, and receives from it alone."""
    found = socket.socket(family(address), socket.SOCK_DGRAM)
    found.settimeout(seconds)
    found.connect(address)
    return found


def receive(sender: socket.socket) -> Optional[bytes]:
    """The next datagram, or `None` if none comes in time."""
    try:
        return sender.recv(65535)
    except (socket.timeout, ConnectionRefusedError):
        return None


def ask_datagram(address: Address, request: bytes, seconds: float = SECONDS) -> Optional[bytes]:
    """The reply to a datagram."""
    with datagram_socket(address, seconds) as sender:
        sender.send(request)
        return receive(sender)


def frame(message: bytes) -> bytes:
    """A message of a stream (RFC 1035 section 4.2.2)."""
    return len(message).to_bytes(2, "big") + message


def read_exactly(stream: socket.socket, count: int) -> bytes:
    """The next bytes, fewer if the stream ends."""
    found = bytearray()
    while len(found) < count:
        more = stream.recv(count - len(found))
        if not more:
            break
        found += more
    return bytes(found)


def read_frame(stream: socket.socket) -> Optional[bytes]:
    """The next message of a stream, or `None` if it ends first."""
    head = read_exactly(stream, 2)
    message = read_exactly(stream, int.from_bytes(head, "big")) if len(head) == 2 else b""
    return message if len(head) == 2 and len(message) == int.from_bytes(head, "big") else None


def connect(address: Address, seconds: float = SECONDS) -> socket.socket:
    return socket.create_connection(address, seconds)


def ask_stream(address: Address, requests: Iterable[bytes], seconds: float = SECONDS) -> List[Optional[bytes]]:
    """The replies to requests over one stream, one after another."""
    with connect(address, seconds) as stream:
        replies = []
        for request in requests:
            stream.sendall(frame(request))
            try:
                replies.append(read_frame(stream))
            except socket.timeout:
                replies.append(None)
        return replies
