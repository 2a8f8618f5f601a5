"""Replies and requests as bytes (RFC 1035 section 4.1)."""
import re
import socket
import struct
from typing import List, NamedTuple, Tuple

CLASSES = {"IN": 1, "CH": 3}
TYPES = {"A": 1, "NS": 2, "CNAME": 5, "SOA": 6, "PTR": 12, "MX": 15, "TXT": 16, "AAAA": 28, "SRV": 33, "CERT": 37, "DS": 43, "RRSIG": 46,
         "NSEC": 47, "TLSA": 52, "SMIMEA": 53, "ANY": 255}  # fmt: skip
NAMES = {number: name for name, number in TYPES.items()}
# The numbers of the data of a type, as the module struct writes them: behind the names of SOA records, before those of others.
NUMBERS = {"SOA": "!5I", "MX": "!H", "SRV": "!3H"}
# Bits of the second word of a header: QR, TC and the opcode.
RESPONSE, TRUNCATED, OPCODE = 0x8000, 0x0200, 0x7800


class Question(NamedTuple):
    """What a request asks, and its bytes."""

    name: str
    kind: str
    wire: bytes

    @property
    def text(self) -> str:
        return f"{self.name} {self.kind}"


def name_bytes(name: str) -> bytes:
    """A fully qualified name."""
    return b"".join(bytes([len(it)]) + it.encode() for it in name.split(".") if it) + b"\0"


def data_bytes(kind: str, text: str) -> bytes:
    """The data of a type, as in a zone file with fully qualified names, or in the generic form of RFC 3597 section 5."""
    words = text.split()
    if words[0] == "\\#":
        return bytes.fromhex("".join(words[2:]))
    if kind in ("A", "AAAA"):
        return socket.inet_pton(socket.AF_INET if kind == "A" else socket.AF_INET6, text)
    if kind == "TXT":
        strings = [it.strip('"').encode() for it in re.findall(r'"[^"]*"|[^ "]+', text)]
        return b"".join(bytes([len(it)]) + it for it in strings)
    numbers = struct.pack(NUMBERS[kind], *(int(it) for it in words if it.isdigit())) if kind in NUMBERS else b""
    names = b"".join(name_bytes(it) for it in words if not it.isdigit())
    return names + numbers if kind == "SOA" else numbers + names


def record_bytes(text: str) -> bytes:
    """A record: its owner, TTL, class, type and data."""
    owner, ttl, rclass, kind, data = text.split(" ", 4)
    rdata = data_bytes(kind, data)
    return name_bytes(owner) + struct.pack("!HHIH", TYPES[kind], CLASSES[rclass], int(ttl), len(rdata)) + rdata


def reply_bytes(request: bytes, text: str) -> bytes:
    """The reply of a text `CODE FLAGS | ANSWERS | AUTHORITIES | ADDITIONALS` to a request, whose id and question it has.

    The code is a number, the only flag `tc`, and commas part the records of a section; the end may be left out.
    """
    head, *sections = [it.strip() for it in text.split("|")]
    code, *flags = head.split()
    records: List[List[str]] = [[it for it in section.split(", ") if it] for section in sections]
    records += [[]] * (3 - len(records))
    bits = RESPONSE | int(code) | (TRUNCATED if flags == ["tc"] else 0) | int.from_bytes(request[2:4], "big") & OPCODE
    question = question_of(request)
    header = request[:2] + struct.pack("!5H", bits, 1, *(len(it) for it in records))
    return header + question.wire + b"".join(record_bytes(it) for section in records for it in section)


def question_of(request: bytes) -> Question:
    """The question of a request."""
    labels, at = labels_at(request, 12)
    number, _ = struct.unpack_from("!HH", request, at)
    return Question("".join(f"{it}." for it in labels) or ".", NAMES.get(number, f"TYPE{number}"), request[12 : at + 4])


def labels_at(message: bytes, at: int) -> Tuple[List[str], int]:
    """The labels of a name without pointers, and where it ends."""
    labels = []
    while message[at]:
        end = at + 1 + message[at]
        labels.append(message[at + 1 : end].decode("latin-1"))
        at = end
    return labels, at + 1
