"""A small resolver, as the code that the example tests: it asks one server for the addresses of a name."""
import random
import socket
import struct


class LookupFailed(Exception):
    """The server answered with a code other than NoError, or not at all."""


def look_up(name, address, port, timeout=1, tries=3):
    """The IPv4 addresses of a name, in order."""
    for _ in range(tries):
        query = encode_query(name)
        try:
            reply = ask_by_datagram(query, address, port, timeout)
            if is_truncated(reply):
                reply = ask_by_stream(query, address, port, timeout)
            return decode_addresses(reply)
        except (OSError, struct.error, IndexError):
            continue
    raise LookupFailed(f"{name}: no reply")


def encode_query(name):
    """A question for the IPv4 addresses of a name (RFC 1035 section 4.1)."""
    header = struct.pack(">6H", random.randrange(65536), 0x0100, 1, 0, 0, 0)
    labels = b"".join(bytes([len(it)]) + it for it in name.rstrip(".").encode().split(b"."))
    return header + labels + b"\0" + struct.pack(">2H", 1, 1)


def ask_by_datagram(query, address, port, timeout):
    """The first datagram that has the id and the question of the query (RFC 5452 section 9.1)."""
    with socket.socket(socket.AF_INET, socket.SOCK_DGRAM) as server:
        server.settimeout(timeout)
        server.connect((address, port))
        server.send(query)
        while True:
            reply = server.recv(65535)
            if reply[:2] == query[:2] and reply[12 : len(query)] == query[12:]:
                return reply


def ask_by_stream(query, address, port, timeout):
    """The reply over a stream, where each message follows its length (RFC 1035 section 4.2.2)."""
    with socket.create_connection((address, port), timeout) as server:
        server.sendall(struct.pack(">H", len(query)) + query)
        with server.makefile("rb") as stream:
            (size,) = struct.unpack(">H", stream.read(2))
            reply = stream.read(size)
    if len(reply) < size:
        raise OSError("the stream ended early")
    return reply


def is_truncated(reply):
    """Whether TC is set."""
    return bool(reply[2] & 0x02)


def decode_addresses(reply):
    """The data of the A records of the answer section."""
    code, count = reply[3] & 15, struct.unpack_from(">H", reply, 6)[0]
    if code:
        raise LookupFailed(f"code {code}")
    found, at = [], skip_name(reply, 12) + 4
    for _ in range(count):
        at = skip_name(reply, at)
        rtype, _, _, size = struct.unpack_from(">2HLH", reply, at)
        if rtype == 1:
            found.append(socket.inet_ntoa(reply[at + 10 : at + 14]))
        at += 10 + size
    return found


def skip_name(reply, at):
    """The place after a name."""
    while reply[at]:
        if reply[at] >= 0xC0:
            return at + 2
        at += 1 + reply[at]
    return at + 1
