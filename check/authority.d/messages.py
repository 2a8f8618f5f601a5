"""Questions as bytes, and responses as texts of their records, without compression."""
import socket
import struct

TYPES = {
    "A": 1, "NS": 2, "CNAME": 5, "SOA": 6, "PTR": 12, "MX": 15, "TXT": 16, "AAAA": 28, "SRV": 33, "DNAME": 39, "DS": 43, "RRSIG": 46,
    "NSEC": 47, "ANY": 255,
}
NAMES = {number: name for name, number in TYPES.items()}
CODES = {0: "NoError", 1: "FormErr", 2: "ServFail", 3: "NXDomain", 4: "NotImp", 5: "Refused", 6: "YXDomain", 9: "NotAuth"}


def encoded_name(name: str) -> bytes:
    """A name without escapes, encoded without compression."""
    labels = [label for label in name.split(".") if label]
    return b"".join(bytes([len(label)]) + label.encode() for label in labels) + b"\0"


def question(name: str, kind: str, number: int) -> bytes:
    """A query with one question, without recursion and EDNS."""
    return struct.pack("!6H", number, 0, 1, 0, 0, 0) + encoded_name(name) + struct.pack("!2H", TYPES[kind], 1)


def name_at(message: bytes, place: int) -> tuple[str, int]:
    """The name at a place, and its end."""
    labels, end = [], None
    while True:
        length = message[place]
        if length >= 192:
            end = end or place + 2
            place = (length - 192) * 256 + message[place + 1]
        elif length == 0:
            return ".".join(labels) + ".", end or place + 1
        else:
            labels.append(message[place + 1 : place + 1 + length].decode("latin-1"))
            place += 1 + length


def data_at(message: bytes, kind: int, place: int, length: int) -> str:
    """The text of record data."""
    if kind in (2, 5, 12, 39):
        return name_at(message, place)[0]
    if kind == 15:
        return f"{struct.unpack_from('!H', message, place)[0]} {name_at(message, place + 2)[0]}"
    if kind == 33:
        numbers = struct.unpack_from("!3H", message, place)
        return " ".join(map(str, numbers)) + " " + name_at(message, place + 6)[0]
    if kind == 6:
        first, place = name_at(message, place)
        second, place = name_at(message, place)
        return f"{first} {second} " + " ".join(map(str, struct.unpack_from("!5I", message, place)))
    if kind == 1:
        return ".".join(map(str, message[place : place + 4]))
    if kind == 28:
        return socket.inet_ntop(socket.AF_INET6, message[place : place + 16])
    return message[place : place + length].hex()


def records_at(message: bytes, place: int, count: int) -> tuple[list[tuple], int]:
    """Records as tuples of owner, type, TTL and data, in lower case, and their end."""
    found = []
    for _ in range(count):
        owner, place = name_at(message, place)
        kind, _, ttl, length = struct.unpack_from("!2HIH", message, place)
        place += 10
        found.append((owner.lower(), NAMES.get(kind, str(kind)), ttl, data_at(message, kind, place, length).lower()))
        place += length
    return found, place


def response(message: bytes) -> tuple:
    """Code, AA, and the three sections of a response."""
    _, flags, questions, *counts = struct.unpack_from("!6H", message, 0)
    place = 12
    for _ in range(questions):
        place = name_at(message, place)[1] + 4
    sections = []
    for count in counts:
        section, place = records_at(message, place, count)
        sections.append(section)
    code = CODES.get(flags & 15, str(flags & 15))
    return code, bool(flags & 0x400), sections


def ask(port: int, message: bytes) -> tuple:
    """The response of a server on the loopback interface, over TCP, or None."""
    received = ask_stream(port, message)
    return received and response(received)


def ask_datagram(port: int, message: bytes) -> bytes | None:
    """The bytes of the response of a server on the loopback interface, over UDP, or None."""
    with socket.socket(socket.AF_INET, socket.SOCK_DGRAM) as datagrams:
        datagrams.settimeout(5)
        datagrams.connect(("127.0.0.1", port))
        datagrams.send(message)
        try:
            return datagrams.recv(65536)
        except OSError:
            return None


def is_truncated(message: bytes) -> bool:
    """Whether TC is set."""
    return bool(message[2] & 2)


def ask_stream(port: int, message: bytes) -> bytes | None:
    """The bytes of the response of a server on the loopback interface, over TCP, or None."""
    try:
        with socket.create_connection(("127.0.0.1", port), timeout=5) as stream:
            stream.sendall(struct.pack("!H", len(message)) + message)
            received = b""
            while len(received) < 2 or len(received) < 2 + struct.unpack("!H", received[:2])[0]:
                more = stream.recv(65536)
                if not more:
                    return None
                received += more
            return received[2:]
    except OSError:
        return None
