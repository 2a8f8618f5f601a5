"""What the examples in Python leave to their readers: a resolver to be tested, and a question."""
import socket
import struct

text = "$TTL 60\n@ SOA ns h 1 3600 600 86400 30\nwww A 10.0.0.1\n"


def query(name, number):
    """A question for the addresses of a name (RFC 1035 section 4.1)."""
    labels = b"".join(bytes([len(it)]) + it.encode() for it in name.rstrip(".").split("."))
    return struct.pack(">6H", number, 0x100, 1, 0, 0, 0) + labels + b"\0" + struct.pack(">2H", 1, 1)


request = query("www.example.com.", 4711)


def look_up(name, address, port, attempts=4, seconds=0.5):
    """The IPv4 addresses of a name, asked for again where no reply comes: just enough of a resolver."""
    for number in range(1, attempts + 1):
        with socket.socket(socket.AF_INET, socket.SOCK_DGRAM) as ends:
            ends.settimeout(seconds)
            ends.sendto(query(name, number), (address, port))
            try:
                reply = ends.recv(65535)
            except socket.timeout:
                continue
        count, at = struct.unpack(">H", reply[6:8])[0], len(query(name, number))
        found = []
        for _ in range(count):
            # The owner is a compression pointer, and then come ten bytes before the data.
            length = struct.unpack(">H", reply[at + 10 : at + 12])[0]
            found.append(socket.inet_ntoa(reply[at + 12 : at + 12 + length]))
            at += 12 + length
        return found
    raise OSError(f"no reply for {name}")
