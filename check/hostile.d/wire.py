"""Names, messages and streams on the wire: RFC 1035 sections 4.1 and 4.2.2, RFC 2136 section 2.4, RFC 6891 section 6.1 and
RFC 8945 section 5.1. A refusal is named like the error of the library `dns_wire`."""
from dataclasses import dataclass, field

A, NS, CNAME, SOA, PTR, MX, TXT, AAAA, SRV, OPT, TSIG = 1, 2, 5, 6, 12, 15, 16, 28, 33, 41, 250
UPDATE = 5


class Refusal(Exception):
    """Why bytes do not decode or a text cannot be read, by its word; of a text the word at fault, if there is one, the line, and the
    type whose data is at fault."""

    def __init__(self, reason: str, word: bytes | None = None, line: int | None = None):
        super().__init__(reason)
        self.word, self.line, self.rtype = word, line, None


@dataclass
class Record:
    owner: tuple[bytes, ...]
    rtype: int
    rclass: int
    ttl: int
    data: tuple | None


@dataclass
class Message:
    flags: int
    questions: list = field(default_factory=list)
    sections: list = field(default_factory=list)
    payload: int = 512

    @property
    def is_response(self) -> bool:
        return self.flags >= 0x8000

    @property
    def opcode(self) -> int:
        return self.flags >> 11 & 15


class Cursor:
    """A place in bytes."""

    def __init__(self, data: bytes, at: int = 0):
        self.data, self.at = data, at

    def take(self, count: int) -> bytes:
        if self.at + count > len(self.data):
            raise Refusal("InsufficientBytes")
        self.at += count
        return self.data[self.at - count : self.at]

    def number(self, count: int) -> int:
        return int.from_bytes(self.take(count), "big")

    def name(self) -> tuple[bytes, ...]:
        """A name. Each pointer must lead before the labels that it ends (RFC 1035 section 4.1.4)."""
        labels: list[bytes] = []
        size, segment, end = 1, self.at, None
        while True:
            code = self.number(1)
            if code == 0:
                break
            if code >= 0xC0:
                target = (code & 0x3F) << 8 | self.number(1)
                if target >= segment:
                    raise Refusal("PointerNotPriorToLabel")
                end = self.at if end is None else end
                self.at = segment = target
            elif code >= 0x40:
                raise Refusal("UnrecognizedLabelCode")
            else:
                label = self.take(code)
                size += code + 1
                if size > 255:
                    raise Refusal("DomainNameTooLong")
                labels.append(label)
        self.at = self.at if end is None else end
        return tuple(labels)


def lower(name: tuple[bytes, ...]) -> tuple[bytes, ...]:
    """A name in lower case, by which names are compared (RFC 4343)."""
    return tuple(label.lower() for label in name)


def read_data(at: Cursor, rtype: int, size: int) -> tuple:
    """The fields of data, names in lower case. They must take exactly their length."""
    end = at.at + size
    names = lambda: (lower(at.name()),)
    numbers = lambda count, each: tuple(at.number(each) for _ in range(count))
    if rtype in (A, AAAA):
        data = (at.take(4 if rtype == A else 16),)
    elif rtype in (NS, CNAME, PTR):
        data = names()
    elif rtype == MX:
        data = numbers(1, 2) + names()
    elif rtype == SRV:
        data = numbers(3, 2) + names()
    elif rtype == SOA:
        data = names() + names() + numbers(5, 4)
    elif rtype in (TXT, OPT):
        items = []
        while at.at < end:
            items.append(at.take(at.number(1)) if rtype == TXT else (at.number(2), at.take(at.number(2))))
        data = tuple(items)
    else:
        data = (at.take(size),)
    if at.at != end:
        raise Refusal("IncorrectRDataLengthRead")
    return data


def place_fault(record_type: int, owner, size: int, is_update: bool, where: tuple[bool, bool, bool]) -> str | None:
    """The fault of a record in its place: whether that is the additional section, after an OPT record, and its end."""
    is_additional, has_opt, is_last = where
    if record_type == OPT:
        if not is_additional:
            return "RecordNotInAdditionalSection"
        if has_opt:
            return "DuplicateEdns"
        return "EdnsNameNotRoot" if owner else None
    if size == 0:
        return None if is_update else "InvalidEmptyRecord"
    if record_type == TSIG and not (is_additional and is_last):
        return "RecordNotInAdditionalSection"
    return None


def read_section(at: Cursor, count: int, is_update: bool, is_additional: bool) -> list[Record]:
    records: list[Record] = []
    has_opt = False
    for nth in range(count):
        owner, rtype, rclass, ttl, size = at.name(), at.number(2), at.number(2), at.number(4), at.number(2)
        fault = place_fault(rtype, owner, size, is_update, (is_additional, has_opt, nth == count - 1))
        if fault:
            raise Refusal(fault)
        data = read_data(at, rtype, size) if size or rtype == OPT else None
        has_opt |= rtype == OPT
        records.append(Record(lower(owner), rtype, rclass, ttl, data))
    return records


def read_message(data: bytes) -> Message:
    """The message that bytes begin with. Bytes after it are ignored."""
    if len(data) < 12:
        raise Refusal("InsufficientBytes")
    at = Cursor(data, 2)
    message = Message(at.number(2))
    counts = [at.number(2) for _ in range(4)]
    for _ in range(counts[0]):
        message.questions.append((lower(at.name()), at.number(2), at.number(2)))
    is_update = message.opcode == UPDATE
    for section, count in enumerate(counts[1:]):
        message.sections.append(read_section(at, count, is_update, section == 2))
    for record in message.sections[2]:
        if record.rtype == OPT:
            message.payload = max(512, record.rclass)
    return message
