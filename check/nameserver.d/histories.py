"""The limits of the differences that a server keeps of a zone for incremental transfers (RFC 1995 section 5): their number, and the octets
of their records without compression, by which the deletion of a large set is just kept or not.

A difference has the SOA records before and after it, of 44 octets each, and an A record has 19.
"""
import socket

from sockets import serving

ZONE = "t. 60 IN SOA ns.t. h.t. 1 3600 600 86400 30\n"
SOA = 44
# The data of each record of a large set, in octets, and what a record has beside its data. How long is waited for a reply, in seconds.
DATA, HEAD, WAIT = 60_000, 15, 200
UPDATE = bytes.fromhex("0001 2800 0001 0000 0001 0000 0174 00 0006 0001")
ADDITION = bytes.fromhex("0161 c00c 0001 0001 0000003c 0004")
DELETION = bytes.fromhex("0162 c00c 0010 00ff 00000000 0000")


def texts_of(octets, front):
    """The character-strings of data of so many octets, which begin with a text."""
    words, left = [f'"{front}"'], octets - len(front) - 1
    while left:
        size = min(left - 1, 255)
        words.append('"' + "x" * size + '"')
        left -= 1 + size
    return " ".join(words)


def large_zone(octets):
    """A zone with a set whose deletion is a difference of so many octets."""
    left, lines = octets - 2 * SOA, []
    while left:
        data = min(left - HEAD, DATA) if left > 2 * DATA else left - HEAD if left <= DATA else left // 2
        lines.append(f"b.t. 60 IN TXT {texts_of(data, f'{len(lines):04}')}\n")
        left -= data + HEAD
    return (ZONE + "".join(lines)).encode()


def update(address, change):
    """Makes a change."""
    with socket.socket(socket.AF_INET, socket.SOCK_DGRAM) as asking:
        asking.settimeout(WAIT)
        asking.sendto(UPDATE + change, address)
        if asking.recv(512)[3] & 15:
            raise OSError("an update that is refused")


def is_known(address, serial):
    """Whether the differences since a version are known: an incremental transfer has its SOA record behind the current one."""
    question = bytes.fromhex("0002 0000 0001 0000 0001 0000 0174 00 00fb 0001")
    start = bytes.fromhex("c00c 0006 0001 00000000 0016 0000") + serial.to_bytes(4, "big") + bytes(16)
    message = question + start
    with socket.create_connection(address, timeout=WAIT) as stream, stream.makefile("rb") as reader:
        stream.sendall(len(message).to_bytes(2, "big") + message)
        reply = reader.read(int.from_bytes(reader.read(2), "big"))
    second = record_end(reply, 12 + 7 * int.from_bytes(reply[4:6], "big"))
    end = record_end(reply, second)
    return reply[end - 20 : end - 16] == serial.to_bytes(4, "big")


def record_end(message, place):
    """Where a record ends whose owner is the origin of the zone, or a pointer to it, or to a host."""
    while 0 < message[place] < 192:
        place += 1 + message[place]
    place += 12 if message[place] else 11
    return place + int.from_bytes(message[place - 2 : place], "big")


def add(address, number):
    """Adds an address with a number to a name."""
    update(address, ADDITION + number.to_bytes(4, "big"))


def known_of(address, serials):
    """Those of some serial numbers since which the differences are known."""
    return " ".join(str(it) for it in serials if is_known(address, it)) or "none"


def known_by_octets(program, octets):
    """The serial numbers since which the differences are known, after one of 107 octets and one of so many."""
    with serving(program, {"zone": large_zone(octets)}, "--differences", "100000") as address:
        add(address, 1)
        update(address, DELETION)
        return known_of(address, (1, 2))


def known_by_number(program, count):
    """Those of the first three serial numbers since which the differences are known, after so many differences."""
    with serving(program, {"zone": ZONE.encode()}, "--differences", "100000") as address:
        for number in range(count):
            add(address, number)
        return known_of(address, (1, 2, 3))
