"""Zones and what becomes of them: records as text and as data, and the changes of updates (RFC 1035 section 5.1, RFC 2136
section 3.4.2). Written from the RFCs and docs/RFC.md, apart from the program, whose replies are compared with it."""
import ipaddress
import re
from dataclasses import dataclass, field
from typing import Dict, List, Optional, Tuple

from wire import lower

A, NS, CNAME, SOA, PTR, MX, TXT, AAAA, SRV = 1, 2, 5, 6, 12, 15, 16, 28, 33
SIG, OPT, AXFR, MAILA, MAILB, ANY = 24, 41, 252, 254, 253, 255
IN, CLASS_NONE, CLASS_ANY = 1, 254, 255
TYPES = {"A": A, "NS": NS, "CNAME": CNAME, "SOA": SOA, "PTR": PTR, "MX": MX, "TXT": TXT, "AAAA": AAAA, "SRV": SRV}
TYPES.update({"NULL": 10, "HINFO": 13, "SIG": SIG, "KEY": 25, "NAPTR": 35, "CERT": 37, "DNAME": 39, "OPT": OPT, "DS": 43})
TYPES.update({"SSHFP": 44, "RRSIG": 46, "NSEC": 47, "DNSKEY": 48, "NSEC3": 50, "NSEC3PARAM": 51, "TLSA": 52, "SMIMEA": 53})
TYPES.update({"CDS": 59, "CDNSKEY": 60, "OPENPGPKEY": 61, "CSYNC": 62, "SVCB": 64, "HTTPS": 65, "TSIG": 250, "IXFR": 251})
TYPES.update({"AXFR": AXFR, "MAILB": MAILB, "MAILA": MAILA, "ANY": ANY, "URI": 256, "CAA": 257})
TYPE_NAMES = {number: text for text, number in TYPES.items()}

# A character of text, or an escape (RFC 1035 section 5.1).
OCTET = re.compile(r"\\(\d{3})|\\(.)|(.)", re.S)

Name = Tuple[bytes, ...]
# Fields of data: names are tuples of labels, all else is bytes as they are sent.
Data = Tuple


def name_of(text: str) -> Name:
    """The name that a text spells, with or without a dot at its end. A backslash begins an escape (RFC 1035 section 5.1)."""
    labels, label = [], bytearray()
    for digits, escaped, dot, plain in re.findall(r"\\(\d{3})|\\(.)|(\.)|([^\\.])", text):
        if dot:
            labels.append(bytes(label))
            label = bytearray()
        else:
            label += bytes([int(digits)]) if digits else (escaped or plain).encode()
    if label:
        labels.append(bytes(label))
    return tuple(it for it in labels if it)


def name_text(name: Name) -> str:
    """A name with a dot at its end. Octets other than letters, digits, `-`, `_` and `*` are escaped."""
    plain = b"abcdefghijklmnopqrstuvwxyzABCDEFGHIJKLMNOPQRSTUVWXYZ0123456789-_*"
    labels = ("".join(chr(it) if it in plain else f"\\{it:03}" for it in label) for label in name)
    return "".join(label + "." for label in labels) or "."


def is_at_or_below(name: Name, origin: Name) -> bool:
    """Whether a name is an origin or below it, without regard to case (RFC 4343)."""
    return len(name) >= len(origin) and lower(name[len(name) - len(origin) :]) == lower(origin)


def type_of(text: str) -> int:
    """The number of a type by its text (RFC 3597 section 5)."""
    return TYPES[text] if text in TYPES else int(text[len("TYPE") :])


def type_text(number: int) -> str:
    return TYPE_NAMES.get(number, f"TYPE{number}")


@dataclass(frozen=True)
class Record:
    owner: Name
    ttl: int
    rtype: int
    data: Optional[Data]
    rclass: int = IN


@dataclass(frozen=True)
class Row:
    """What is stored of a record at its owner and type."""

    ttl: int
    data: Data


def number(text: str, size: int) -> bytes:
    return int(text).to_bytes(size, "big")


def strings_of(text: str) -> bytes:
    """Character strings in quotes, or without them, each with its length."""
    found = [quoted or word for quoted, word in re.findall(r'"((?:[^"\\]|\\.)*)"|([^\s"]+)', text)]
    strings = [
        b"".join(bytes([int(it[1])]) if it[1] else (it[2] or it[3]).encode() for it in OCTET.finditer(word))
        for word in found
    ]
    return b"".join(bytes([len(it)]) + it for it in strings)


def data_of(rtype: int, text: str) -> Data:
    """The data that a text spells, in which names are fully qualified."""
    words = text.split()
    if rtype in (A, AAAA):
        return (ipaddress.ip_address(text).packed,)
    if rtype == TXT:
        return (strings_of(text),)
    if rtype == SOA:
        return (name_of(words[0]), name_of(words[1]), *(number(it, 4) for it in words[2:]))
    if rtype in (NS, CNAME, PTR):
        return (name_of(text),)
    if rtype in (MX, SRV):
        return (*(number(it, 2) for it in words[:-1]), name_of(words[-1]))
    size, _, digits = text[len("\\# ") :].partition(" ")
    data = bytes.fromhex(digits)
    assert len(data) == int(size)
    return (data,)


def record_of(line: str) -> Record:
    """The record of a line: owner, TTL, class, type and data, all of them."""
    owner, ttl, rclass, rtype, text = line.split(None, 4)
    assert rclass == "IN"
    return Record(name_of(owner), int(ttl), type_of(rtype), data_of(type_of(rtype), text))


def comparable(data: Optional[Data]) -> Optional[Data]:
    """What is compared of data: names without regard to case, all else as it is (RFC 2136 section 1.1.1)."""
    return data and tuple(lower(it) if isinstance(it, tuple) else it for it in data)


# The rows of a set, in their order, by what is compared of their data.
Rows = Dict[Optional[Data], Row]


@dataclass
class Zone:
    """A zone: its origin as it is spelled, and its sets by owner, in lower case, and type."""

    origin: Name
    sets: Dict[Tuple[Name, int], Rows] = field(default_factory=dict)
    # The types at each name, and how many sets are at or below it.
    types: Dict[Name, set] = field(default_factory=dict)
    below: Dict[Name, int] = field(default_factory=dict)

    def records(self) -> dict:
        """The TTL of each record, by its set and what is compared of its data: what tells whether an update has changed the zone."""
        return {key: {data: row.ttl for data, row in rows.items()} for key, rows in self.sets.items()}

    def at(self, name: Name, rtype: int) -> List[Row]:
        return list(self.sets.get((lower(name), rtype), {}).values())

    def has_below(self, name: Name) -> bool:
        """Whether a name or one below it has rows."""
        return self.below.get(lower(name), 0) > 0

    def types_at(self, name: Name) -> set:
        return set(self.types.get(lower(name), ()))

    def put(self, name: Name, rtype: int, row: Row) -> None:
        """Adds a row to a set, in place of one with equal data or at the end."""
        key = (lower(name), rtype)
        if key not in self.sets:
            self.sets[key] = {}
            self.types.setdefault(key[0], set()).add(rtype)
            self.count(key[0], 1)
        self.sets[key][comparable(row.data)] = row

    def drop_set(self, name: Name, rtype: int) -> None:
        """Deletes a set, if it is there."""
        key = (lower(name), rtype)
        if self.sets.pop(key, None) is not None:
            self.types[key[0]].remove(rtype)
            self.count(key[0], -1)

    def count(self, name: Name, change: int) -> None:
        for at in range(len(name) + 1):
            self.below[name[at:]] = self.below.get(name[at:], 0) + change

    def load(self, record: Record) -> None:
        """Adds a record of a zone file: of equal data the first stays, of aliases the last (RFC 2181 sections 5 and 10.1)."""
        if record.rtype == CNAME:
            self.drop_set(record.owner, CNAME)
        if comparable(record.data) not in self.sets.get((lower(record.owner), record.rtype), {}):
            self.put(record.owner, record.rtype, Row(record.ttl, record.data))

    def change(self, record: Record) -> None:
        """Makes one change of an update (RFC 2136 section 3.4.2)."""
        if record.rclass == IN:
            self.add(record)
        elif record.rclass == CLASS_ANY:
            kept = {SOA, NS} if lower(record.owner) == lower(self.origin) else set()
            types = self.types_at(record.owner) if record.rtype == ANY else {record.rtype}
            for rtype in types - kept:
                self.drop_set(record.owner, rtype)
        else:
            self.delete(record)

    def add(self, record: Record) -> None:
        """Adds a record: an alias and other data exclude each other, and equal data is replaced (section 3.4.2.2)."""
        types, row = self.types_at(record.owner), Row(record.ttl, record.data)
        if record.rtype == CNAME and types - {CNAME} or record.rtype != CNAME and CNAME in types:
            return
        if record.rtype == SOA:
            present = self.at(record.owner, SOA)
            if not present or not is_later(record.data[2], present[0].data[2]):
                return
        if record.rtype in (CNAME, SOA):
            self.drop_set(record.owner, record.rtype)
        self.put(record.owner, record.rtype, row)

    def delete(self, record: Record) -> None:
        """Deletes the records with some data, but for an SOA and the last NS at the origin (section 3.4.2.4)."""
        present = self.sets.get((lower(record.owner), record.rtype), {})
        is_apex = lower(record.owner) == lower(self.origin)
        if record.rtype == SOA or (record.rtype == NS and is_apex and len(present) == 1):
            return
        present.pop(comparable(record.data), None)
        if not present:
            self.drop_set(record.owner, record.rtype)


def is_later(new: bytes, old: bytes) -> bool:
    """Whether a serial number follows another (RFC 1982 section 3.2)."""
    return 0 < (int.from_bytes(new, "big") - int.from_bytes(old, "big")) % 2**32 < 2**31


def zone_of(text: str) -> Zone:
    """The zone of lines with whole records, the first of which is the SOA."""
    records = [record_of(line) for line in text.split("\n") if line.strip()]
    zone = Zone(records[0].owner)
    for record in records:
        zone.load(record)
    return zone
