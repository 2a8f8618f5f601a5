"""Messages of DNS that are written and read by hand: updates that add a record, and questions for addresses."""
import struct


def wire_name(name):
    """A name on the wire."""
    return b"".join(bytes([len(part)]) + part.encode() for part in name.rstrip(".").split(".") if part) + b"\0"


def update(message_id, zone, name, address):
    """An update that adds an address to a name."""
    head = struct.pack(">HHHHHH", message_id, 0x2800, 1, 0, 1, 0)
    section = wire_name(zone) + struct.pack(">HH", 6, 1)
    record = wire_name(name) + struct.pack(">HHIH", 1, 1, 60, 4) + bytes(map(int, address.split(".")))
    return head + section + record


def query(message_id, name, kind=1):
    """A question for the records of a type."""
    return struct.pack(">HHHHHH", message_id, 0, 1, 0, 0, 0) + wire_name(name) + struct.pack(">HH", kind, 1)


def code_of(reply):
    """The response code of a reply."""
    return reply[3] & 15


def answers_of(reply):
    """The number of answers of a reply."""
    return struct.unpack(">H", reply[6:8])[0]
