"""Random data of each type, as bytes, by the layouts of the RFCs."""
import random
import struct
from collections.abc import Callable
from dataclasses import dataclass

# Characters that mean nothing to the notation of rows.
PLAIN = bytes(c for c in range(33, 127) if c not in b'{}>#')


@dataclass
class Type:
    """A type: its number, its word in rows, and random data of it."""

    number: int
    word: str
    data: Callable[[random.Random], bytes]


def octets(chance: random.Random, least: int, most: int) -> bytes:
    """Random bytes."""
    return chance.randbytes(chance.randint(least, most))


def name(chance: random.Random) -> bytes:
    """An uncompressed name, of up to five labels. All tools escape its other octets, as `dns_names` requires."""
    out = b""
    for _ in range(chance.randint(0, 5)):
        length = chance.randint(1, 12)
        if chance.random() < 0.8:
            label = bytes(chance.choice(b"abcXYZ0189_") for _ in range(length))
        else:
            label = bytes(chance.choice(b"\0\x07\n \x7f\x80\xe9\xffa") for _ in range(length))
        out += bytes([length]) + label
    return out + b"\0"


def string(chance: random.Random) -> bytes:
    """A character string."""
    text = octets(chance, 0, 20) if chance.random() < 0.3 else bytes(chance.choice(PLAIN) for _ in range(chance.randint(0, 20)))
    return bytes([len(text)]) + text


def tag(chance: random.Random) -> bytes:
    """A tag of a CAA record."""
    text = bytes(chance.choice(b"abcdefxyz0189") for _ in range(chance.randint(1, 15)))
    return bytes([len(text)]) + text


def numbers(form: str) -> Callable[[random.Random], bytes]:
    """Numbers of a layout of `struct`."""
    return lambda chance: struct.pack(">" + form, *(chance.randrange(256 ** struct.calcsize(">" + it)) for it in form))


def fields(*parts: Callable[[random.Random], bytes]) -> Callable[[random.Random], bytes]:
    """Fields one after another."""
    return lambda chance: b"".join(part(chance) for part in parts)


def some(least: int, most: int) -> Callable[[random.Random], bytes]:
    """Bytes to the end."""
    return lambda chance: octets(chance, least, most)


def sized(size: int) -> Callable[[random.Random], bytes]:
    """A number of bytes."""
    return lambda chance: chance.randbytes(size)


def constant(data: bytes) -> Callable[[random.Random], bytes]:
    """The same bytes each time."""
    return lambda chance: data


def text(chance: random.Random) -> bytes:
    """A text of printable characters without a length, not empty. dnspython does not escape that of a URI record."""
    return bytes(chance.choice(PLAIN) for _ in range(chance.randint(1, 20))).replace(b"\\", b"/").replace(b'"', b"/")


def value(chance: random.Random) -> bytes:
    """The value of a CAA record, not empty: ldns writes no token for an empty one."""
    return string(chance)[1:] or b";"


def salt(chance: random.Random) -> bytes:
    """A salt after its length."""
    data = octets(chance, 0, 12)
    return bytes([len(data)]) + data


def time(chance: random.Random) -> bytes:
    """A time between 1990 and 2050: ldns and BIND write others as dates before 1970 or after 2106 (RFC 4034 section 3.1.5)."""
    return struct.pack(">I", chance.randint(631152000, 2524608000))


# Types that all tools know by name. ldns reads AVC as type 0.
NAMED = [1, 2, 5, 6, 12, 13, 15, 16, 17, 18, 20, 24, 25, 28, 29, 33, 35, 36, 37, 39, 42, 43, 44, 45, 46, 47, 48, 49, 50, 51, 52, 53, 55, 59, 60, 61, 62, 63, 64, 65, 99, 104, 105, 106, 107, 108, 109, 256, 257]


def covered(chance: random.Random) -> bytes:
    """A type that all tools know by name, or a number without a name."""
    return struct.pack(">H", chance.choice(NAMED) if chance.random() < 0.7 else chance.randint(1000, 30000))


def types(chance: random.Random, least: int = 0) -> bytes:
    """The bitmap of some types (RFC 4034 section 4.1.2)."""
    chosen = set(chance.sample(NAMED, chance.randint(least, 12)))
    chosen |= {chance.randint(1000, 65279) for _ in range(chance.choice([0, 0, 1, 3]))}
    out = b""
    for window in sorted({number >> 8 for number in chosen}):
        bits = [number & 255 for number in chosen if number >> 8 == window]
        octets = bytearray(max(bits) // 8 + 1)
        for bit in bits:
            octets[bit // 8] |= 0x80 >> bit % 8
        out += bytes([window, len(octets)]) + octets
    return out


def some_types(chance: random.Random) -> bytes:
    """The bitmap of at least one type."""
    return types(chance, 1)


def next_hash(chance: random.Random) -> bytes:
    """A hash of SHA-1 after its length."""
    return b"\x14" + chance.randbytes(20)


def algorithm(chance: random.Random) -> bytes:
    """An algorithm that all tools know, by its mnemonic or its number."""
    return bytes([chance.choice([1, 3, 5, 6, 7, 8, 10, 12, 13, 14, 15, 16, 253, 254])])


def certificate_type(chance: random.Random) -> bytes:
    """A type of certificates, with or without a mnemonic."""
    return struct.pack(">H", chance.choice([1, 2, 3, 4, 5, 6, 7, 8, 253, 254, chance.randint(1000, 60000)]))


def parameter(key: int, data: bytes) -> bytes:
    """A parameter of a service binding (RFC 9460 section 2.2)."""
    return struct.pack(">HH", key, len(data)) + data


def identifier(chance: random.Random) -> bytes:
    """An identifier of a protocol after its length. ldns doesn't read its own text of one with a comma, a backslash or a quote."""
    plain = bytes(c for c in PLAIN if c not in b',\\"')
    data = bytes(chance.choice(plain + b" \0\xff") for _ in range(chance.randint(1, 10)))
    return bytes([len(data)]) + data


def parameters(chance: random.Random) -> bytes:
    """Parameters of a service binding that belong together, in the order of their keys (RFC 9460 sections 7 and 8)."""
    values = {
        1: lambda: b"".join(identifier(chance) for _ in range(chance.randint(1, 4))),
        3: lambda: chance.randbytes(2),
        4: lambda: chance.randbytes(4 * chance.randint(1, 3)),
        5: lambda: octets(chance, 1, 40),
        6: lambda: bytes(chance.choice(b"\0\0\x01\xfe") for _ in range(16 * chance.randint(1, 2))),
    }
    chosen = {key: make() for key, make in values.items() if chance.random() < 0.4}
    if 1 in chosen and chance.random() < 0.3:
        chosen[2] = b""
    for _ in range(chance.choice([0, 0, 1, 2])):
        chosen[chance.randint(1000, 65000)] = octets(chance, 0, 20) if chance.random() < 0.5 else bytes(chance.choice(PLAIN) for _ in range(chance.randint(0, 20)))
    if chosen and chance.random() < 0.3:
        some_keys = sorted(chance.sample(sorted(chosen), chance.randint(1, len(chosen))))
        chosen[0] = struct.pack(f">{len(some_keys)}H", *some_keys)
    return b"".join(parameter(key, chosen[key]) for key in sorted(chosen))


def priority(chance: random.Random) -> bytes:
    """The priority of a service that is no alias: an alias has no parameters (RFC 9460 section 2.4.2)."""
    return struct.pack(">H", chance.randint(1, 65535))


def angle(most: int) -> Callable[[random.Random], bytes]:
    """An angle of at most some degrees, in thousandths of a second from 2 ** 31 (RFC 1876 section 2)."""
    limit = most * 3600000
    return lambda chance: struct.pack(">I", 2**31 + (chance.choice([-limit, limit, 0]) if chance.random() < 0.1 else chance.randint(-limit, limit)))


def size(chance: random.Random) -> bytes:
    """A size: a digit and a power of ten, in centimeters (RFC 1876 section 2)."""
    return bytes([16 * chance.randint(1, 9) + chance.randint(0, 9)]) if chance.random() < 0.9 else b"\0"


def expression(chance: random.Random) -> bytes:
    """A substitution expression of NAPTR records, or a string that is none: BIND refuses such (RFC 3402 section 3.2)."""
    text = chance.choice([b"", b"!^.*$!sip:info@example.com!", b"/(.*)/\\1.t/i"])
    return bytes([len(text)]) + text if chance.random() < 0.8 else string(chance)


TYPES = {
    "HINFO": Type(13, "HINFO", fields(string, string)),
    "RP": Type(17, "TYPE17", fields(name, name)),
    "AFSDB": Type(18, "TYPE18", fields(numbers("H"), name)),
    "RT": Type(21, "TYPE21", fields(numbers("H"), name)),
    "LOC": Type(29, "TYPE29", fields(constant(b"\0"), size, size, size, angle(90), angle(180), numbers("I"))),
    "NAPTR": Type(35, "NAPTR", fields(numbers("HH"), string, string, expression, name)),
    "CERT": Type(37, "CERT", fields(certificate_type, numbers("H"), algorithm, some(1, 60))),
    "KX": Type(36, "TYPE36", fields(numbers("H"), name)),
    "DNAME": Type(39, "DNAME", name),
    "DS": Type(43, "DS", fields(numbers("H"), algorithm, constant(b"\x02"), sized(32))),
    "SSHFP": Type(44, "SSHFP", fields(constant(b"\x01\x02"), sized(32))),
    "RRSIG": Type(46, "RRSIG", fields(covered, algorithm, constant(b"\x03"), numbers("I"), time, time, numbers("H"), name, some(1, 80))),
    "NSEC": Type(47, "NSEC", fields(name, some_types)),
    "DNSKEY": Type(48, "DNSKEY", fields(numbers("H"), constant(b"\x03"), algorithm, some(4, 80))),
    "DHCID": Type(49, "TYPE49", some(3, 60)),
    "NSEC3": Type(50, "NSEC3", fields(constant(b"\x01\x00"), numbers("H"), salt, next_hash, types)),
    "NSEC3PARAM": Type(51, "NSEC3PARAM", fields(constant(b"\x01\x00"), numbers("H"), salt)),
    "TLSA": Type(52, "TLSA", fields(constant(b"\x03\x01\x01"), sized(32))),
    "SMIMEA": Type(53, "SMIMEA", fields(constant(b"\x03\x01\x01"), sized(32))),
    "CDS": Type(59, "CDS", fields(numbers("H"), algorithm, constant(b"\x02"), sized(32))),
    "CDNSKEY": Type(60, "CDNSKEY", fields(numbers("H"), constant(b"\x03"), algorithm, some(4, 80))),
    "OPENPGPKEY": Type(61, "OPENPGPKEY", some(1, 80)),
    "CSYNC": Type(62, "CSYNC", fields(numbers("I"), constant(b"\x00\x03"), types)),
    "ZONEMD": Type(63, "TYPE63", fields(numbers("I"), constant(b"\x01\x01"), sized(48))),
    "SVCB": Type(64, "SVCB", fields(priority, name, parameters)),
    "HTTPS": Type(65, "HTTPS", fields(priority, name, parameters)),
    "URI": Type(256, "TYPE256", fields(numbers("HH"), text)),
    "CAA": Type(257, "CAA", fields(numbers("B"), tag, value)),
}


def random_data(chance: random.Random, kind: str) -> bytes:
    """Random data of a type."""
    return TYPES[kind].data(chance)
