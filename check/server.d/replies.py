"""The reply of a server to the bytes of a request, to the byte (RFC 1034 section 4.3.2, RFC 1035 section 4.1, RFC 2136 section
3, RFC 6891 section 6). Where the RFCs leave a choice, docs/RFC.md and docs/REPLAY.md say what it is."""
from dataclasses import dataclass, field
from typing import List, NamedTuple, Optional, Tuple

from wire import UPDATE, Cursor, Refusal, lower, place_fault

from zones import (
    A, AAAA, ANY, AXFR, CLASS_ANY, CLASS_NONE, CNAME, IN, MAILA, MAILB, MX, NS, OPT, PTR, SIG, SOA, SRV, TXT,
    Name, Record, Row, Zone, comparable, is_at_or_below,
)  # fmt: skip

NO_ERROR, FORM_ERR, NX_DOMAIN, NOT_IMP, REFUSED, YX_DOMAIN, YX_RRSET, NX_RRSET, NOT_AUTH, NOT_ZONE = (
    0,
    1,
    3,
    4,
    5,
    6,
    7,
    8,
    9,
    10,
)
CODES = {
    0: "NoError", 1: "FormErr", 2: "ServFail", 3: "NXDomain", 4: "NotImp", 5: "Refused", 6: "YXDomain", 7: "YXRRSet",
    8: "NXRRSet", 9: "NotAuth", 10: "NotZone",
}  # fmt: skip
STREAM_LIMIT, OWN_PAYLOAD, MOST_ALIASES = 65535, 1232, 7
# The type of signatures, and the error of a key that is not known (RFC 8945 sections 4.2 and 3).
TSIG, BAD_KEY = 250, 17
# What the encoder does at most: names that it compresses, suffixes that it remembers, and the offset below which it does.
MOST_NAMES, MOST_SUFFIXES, SUFFIX_END = 120, 64, 0x3FFF
LOOPBACK = [(b"localhost",), (b"127", b"in-addr", b"arpa"), (b"1", *(b"0",) * 31, b"ip6", b"arpa")]
NONEXISTENT = [(b"invalid",), (b"onion",)]


class Question(NamedTuple):
    name: Name
    rtype: int
    rclass: int


@dataclass
class Request:
    """A request as it was read, its names as they were spelled."""

    id: int
    flags: int
    questions: List[Question] = field(default_factory=list)
    sections: List[List[Record]] = field(default_factory=list)
    # The class and the flags of the OPT record, if there is one.
    edns: Optional[Tuple[int, int]] = None

    @property
    def opcode(self) -> int:
        return self.flags >> 11 & 15


@dataclass
class Answer:
    code: int
    answers: List[Record] = field(default_factory=list)
    authorities: List[Record] = field(default_factory=list)


# ---- reading


class Reader(Cursor):
    """A place in bytes that follows each chain of pointers once."""

    def __init__(self, data: bytes, at: int = 0):
        super().__init__(data, at)
        # The names to which pointers have led, by their places.
        self.known: dict = {}

    def name(self) -> Name:
        """A name. Each pointer must lead before the labels that it ends (RFC 1035 section 4.1.4)."""
        labels, target = self.segment()
        behind, chain = self.at, []
        while target is not None and target not in self.known:
            self.at = target
            part, further = self.segment()
            chain.append((target, part))
            target = further
        rest = self.known[target] if target is not None else ()
        for place, part in reversed(chain):
            rest = self.known[place] = part + rest
        self.at = behind
        if sum(len(it) + 1 for it in labels + rest) + 1 > 255:
            raise Refusal("DomainNameTooLong")
        return labels + rest

    def segment(self) -> Tuple[Name, Optional[int]]:
        """Labels up to the end of a name, or up to a pointer, and the place where it leads."""
        labels, start = [], self.at
        while True:
            code = self.number(1)
            if code == 0:
                return tuple(labels), None
            if code >= 0xC0:
                target = (code & 0x3F) << 8 | self.number(1)
                if target >= start:
                    raise Refusal("PointerNotPriorToLabel")
                return tuple(labels), target
            if code >= 0x40:
                raise Refusal("UnrecognizedLabelCode")
            labels.append(self.take(code))


def read_data(at: Cursor, rtype: int, size: int) -> Tuple:
    """The fields of data, which take exactly their length."""
    end = at.at + size
    names = {NS: 1, CNAME: 1, PTR: 1, SOA: 2, MX: 1, SRV: 1}.get(rtype, 0)
    front = {MX: 1, SRV: 3}.get(rtype, 0)
    if rtype in (A, AAAA):
        fields = (at.take(4 if rtype == A else 16),)
    elif names:
        numbers = tuple(at.take(2) for _ in range(front))
        fields = (*numbers, *(at.name() for _ in range(names)), *(at.take(4) for _ in range(5 if rtype == SOA else 0)))
    elif rtype in (TXT, OPT):
        start = at.at
        while at.at < end:
            at.take(at.number(1) if rtype == TXT else (at.number(2), at.number(2))[1])
        fields = (at.data[start : at.at],)
    else:
        fields = (at.take(size),)
    if at.at != end:
        raise Refusal("IncorrectRDataLengthRead")
    return fields


def read_section(at: Cursor, count: int, is_update: bool, is_additional: bool) -> List[Record]:
    records: List[Record] = []
    has_opt = False
    for nth in range(count):
        owner, rtype, rclass, ttl, size = at.name(), at.number(2), at.number(2), at.number(4), at.number(2)
        if place_fault(rtype, owner, size, is_update, (is_additional, has_opt, nth == count - 1)):
            raise Refusal("a record in a wrong place")
        data = read_data(at, rtype, size) if size or rtype == OPT else None
        has_opt |= rtype == OPT
        records.append(Record(owner, ttl, rtype, data, rclass))
    return records


def read_request(data: bytes) -> Request:
    """The request that bytes begin with. Bytes after it are ignored. Raises a `Refusal` if they do not decode."""
    if len(data) < 12:
        raise Refusal("InsufficientBytes")
    at = Reader(data)
    request = Request(at.number(2), at.number(2))
    counts = [at.number(2) for _ in range(4)]
    for _ in range(counts[0]):
        request.questions.append(Question(at.name(), at.number(2), at.number(2)))
    for section, count in enumerate(counts[1:]):
        request.sections.append(read_section(at, count, request.opcode == UPDATE, section == 2))
    for record in request.sections[2]:
        if record.rtype == OPT:
            request.edns = (record.rclass, record.ttl & 0xFFFF)
    return request


# ---- answers


def is_meta(rtype: int) -> bool:
    """Types that no row can have (RFC 6895 section 3.1)."""
    return rtype in (0, SIG, OPT) or 128 <= rtype <= 255


def with_owner(owner: Name, rtype: int, rows: List[Row]) -> List[Record]:
    return [Record(owner, row.ttl, rtype, row.data) for row in rows]


def authority(zone: Zone) -> List[Record]:
    """The SOA record of a negative answer, with the lesser of its TTL and its minimum (RFC 2308 section 3)."""
    rows = zone.at(zone.origin, SOA)
    return [Record(zone.origin, min(it.ttl, int.from_bytes(it.data[6], "big")), SOA, it.data) for it in rows]


def is_followed(zone: Zone, name: Name) -> bool:
    """Whether an alias is followed to a name: in the zone, and without a special use."""
    return is_at_or_below(name, zone.origin) and not any(is_at_or_below(name, it) for it in LOOPBACK + NONEXISTENT)


def answer_to(zone: Zone, question: Question) -> Answer:
    """The answer of a zone to a question."""
    name, rtype, rclass = question
    if is_meta(rtype):
        return Answer(NOT_IMP)
    if rclass != IN or not is_at_or_below(name, zone.origin):
        return Answer(REFUSED)
    answers: List[Record] = []
    for links in range(MOST_ALIASES + 1):
        found, aliases = zone.at(name, rtype), zone.at(name, CNAME)
        if found:
            return Answer(NO_ERROR, answers + with_owner(name, rtype, found))
        if not aliases:
            return Answer(NO_ERROR if zone.has_below(name) else NX_DOMAIN, answers, authority(zone))
        if links < MOST_ALIASES:
            answers += with_owner(name, CNAME, aliases[:1])
            name = aliases[0].data[0]
            if not is_followed(zone, name):
                break
    return Answer(NO_ERROR, answers)


# ---- updates


def prerequisite_code(zone: Zone, record: Record) -> int:
    """The code of one prerequisite (RFC 2136 section 3.2)."""
    if record.ttl:
        return FORM_ERR
    if not is_at_or_below(record.owner, zone.origin):
        return NOT_ZONE
    if record.rclass == IN:
        return NO_ERROR
    if record.rclass not in (CLASS_ANY, CLASS_NONE) or record.data is not None:
        return FORM_ERR
    is_there = bool(zone.types_at(record.owner) if record.rtype == ANY else zone.at(record.owner, record.rtype))
    if record.rclass == CLASS_ANY:
        return NO_ERROR if is_there else NX_DOMAIN if record.rtype == ANY else NX_RRSET
    return NO_ERROR if not is_there else YX_DOMAIN if record.rtype == ANY else YX_RRSET


def sets_code(zone: Zone, records: List[Record]) -> int:
    """Whether the zone has exactly the sets of data that are required (RFC 2136 section 3.2.3)."""
    wanted: dict = {}
    for record in records:
        if record.rclass == IN:
            wanted.setdefault((lower(record.owner), record.rtype), set()).add(comparable(record.data))
    is_there = all({comparable(row.data) for row in zone.at(*key)} == data for key, data in wanted.items())
    return NO_ERROR if is_there else NX_RRSET


def prescan_code(zone: Zone, record: Record) -> int:
    """The code of one change before any is made (RFC 2136 section 3.4.1)."""
    rtype, is_transfer = record.rtype, record.rtype in (AXFR, MAILA, MAILB)
    if not is_at_or_below(record.owner, zone.origin):
        return NOT_ZONE
    malformed = {
        IN: is_meta(rtype) or record.data is None,
        CLASS_ANY: bool(record.ttl) or record.data is not None or is_transfer,
        CLASS_NONE: bool(record.ttl) or rtype == ANY or is_transfer,
    }
    return FORM_ERR if malformed.get(record.rclass, True) else NO_ERROR


def update_code(zone: Zone, request: Request) -> int:
    """The code of an update: that of its first fault."""
    if len(request.questions) != 1 or request.questions[0].rtype != SOA:
        return FORM_ERR
    if lower(request.questions[0].name) != lower(zone.origin) or request.questions[0].rclass != IN:
        return NOT_AUTH
    codes = [prerequisite_code(zone, it) for it in request.sections[0]]
    codes += [sets_code(zone, request.sections[0])] + [prescan_code(zone, it) for it in request.sections[1]]
    return next((code for code in codes if code), NO_ERROR)


# ---- writing


class Encoder:
    """Writes names with compression (RFC 1035 section 4.1.4), and takes back what passes the limit."""

    def __init__(self, limit: int):
        self.data, self.limit = bytearray(12), limit
        # The place of each suffix, by its bytes.
        self.suffixes: dict = {}
        self.attempts = 0
        self.is_full = False

    def put(self, data: bytes) -> None:
        self.reach(len(self.data) + len(data))
        self.data += data

    def reach(self, end: int) -> None:
        self.is_full |= end > self.limit

    def name(self, name: Name) -> None:
        """Writes a name, compressed as far as a suffix is remembered. Its labels have to fit without that."""
        if self.attempts >= MOST_NAMES:
            self.put(whole_form(name))
            return
        self.attempts += 1
        self.reach(len(self.data) + len(whole_form(name)) - 1)
        for at in range(len(name)):
            suffix = whole_form(name[at:])[:-1]
            if suffix in self.suffixes:
                self.put((0xC000 | self.suffixes[suffix]).to_bytes(2, "big"))
                return
            if len(self.data) < SUFFIX_END and len(self.suffixes) < MOST_SUFFIXES:
                self.suffixes[suffix] = len(self.data)
            self.data += bytes([len(name[at])]) + name[at]
        self.put(b"\0")

    def record(self, record: Record) -> bool:
        """Writes a record, if it fits."""
        start, suffixes, self.is_full = len(self.data), dict(self.suffixes), False
        for part in self.parts_of(record):
            part()
            if self.is_full:
                del self.data[start:]
                self.suffixes = suffixes
                return False
        size_at = self.size_at
        self.data[size_at - 2 : size_at] = (len(self.data) - size_at).to_bytes(2, "big")
        return True

    def parts_of(self, record: Record):
        """What is written for a record, one after another: each may be the one that does not fit."""
        head = record.rtype.to_bytes(2, "big") + record.rclass.to_bytes(2, "big") + record.ttl.to_bytes(4, "big") + b"\0\0"
        yield lambda: self.name(record.owner)
        yield lambda: self.put(head)
        self.size_at = len(self.data)
        for it in record.data or ():
            if not isinstance(it, tuple):
                yield lambda it=it: self.put(it)
            elif record.rtype == SRV:
                yield lambda it=it: self.put(whole_form(it))
            else:
                yield lambda it=it: self.name(it)

    def section(self, records: List[Record]) -> int:
        """Writes records up to the first that does not fit, and returns how many are written."""
        for count, record in enumerate(records):
            if not self.record(record):
                return count
        return len(records)


def whole_form(name: Name) -> bytes:
    return b"".join(bytes([len(label)]) + label for label in name) + b"\0"


def encoded(request: Request, question: Optional[Question], answer: Answer, limit: int) -> bytes:
    """A reply under a limit: the records that fit, and TC if one does not (RFC 2181 section 9)."""
    out = Encoder(limit)
    if question:
        out.name(question.name)
        out.put(question.rtype.to_bytes(2, "big") + question.rclass.to_bytes(2, "big"))
    opt = []
    if request.edns:
        opt = [Record((), request.edns[1] & 0x8000, OPT, (), OWN_PAYLOAD)]
    sections = [answer.answers, answer.authorities, opt]
    counts = [out.section(it) for it in sections]
    is_cut = any(count < len(it) for count, it in zip(counts, sections))
    has_authority = request.opcode == 0 and answer.code in (NO_ERROR, NX_DOMAIN)
    flags = 0x8000 | request.flags & 0x7910 | has_authority << 10 | is_cut << 9 | answer.code
    numbers = [request.id, flags, int(bool(question)), *counts]
    out.data[:12] = b"".join(it.to_bytes(2, "big") for it in numbers)
    return bytes(out.data)


def signature_code(request: Request) -> int:
    """What a server without keys makes of the TSIG records of a request (RFC 8945 sections 5.1 and 5.2), as BIND does."""
    records = [it for section in request.sections for it in section]
    signatures = [it for it in records if it.rtype == TSIG]
    if not signatures:
        return NO_ERROR
    if len(signatures) > 1 or records[-1] is not signatures[0] or not request.sections[2] or not signatures[0].data:
        return FORM_ERR
    return NOT_AUTH


def with_bad_key(request: Request, reply: bytes) -> bytes:
    """A reply with the TSIG record that says that the key of the request is not known: with its name, algorithm, time and fudge."""
    record = request.sections[2][-1]
    at = Reader(record.data[0])
    algorithm, time, fudge = at.name(), at.take(6), at.take(2)
    data = whole_form(lower(algorithm)) + time + fudge + bytes(2) + reply[:2] + BAD_KEY.to_bytes(2, "big") + bytes(2)
    count = int.from_bytes(reply[10:12], "big") + 1
    fields = TSIG.to_bytes(2, "big") + ANY.to_bytes(2, "big") + bytes(4) + len(data).to_bytes(2, "big")
    return reply[:10] + count.to_bytes(2, "big") + reply[12:] + whole_form(lower(record.owner)) + fields + data


class Server:
    """Zones, and how the program was told to serve them. It has no keys."""

    def __init__(self, zones: List[Zone], limit: int = OWN_PAYLOAD, takes_updates: bool = True):
        self.zones, self.limit, self.takes_updates = zones, limit, takes_updates
        # Whether the last request has changed records.
        self.has_changed = False

    def zone_for(self, name: Name) -> Optional[Zone]:
        """The zone with the closest origin at or above a name (RFC 1034 section 4.3.2)."""
        found = [it for it in self.zones if is_at_or_below(name, it.origin)]
        return max(found, key=lambda it: len(it.origin), default=None)

    def reply(self, data: bytes, is_stream: bool = False) -> Optional[bytes]:
        """The reply to the bytes of a request, if there is one, after which its update has been made."""
        self.has_changed = False
        try:
            request = read_request(data)
        except Refusal:
            return None
        if request.flags & 0x8000:
            return None
        limit = STREAM_LIMIT if is_stream else min(self.limit, max(512, request.edns[0] if request.edns else 0))
        code = signature_code(request)
        if code:
            only = request.questions[0] if request.opcode == 0 and len(request.questions) == 1 else None
            reply = encoded(request, only, Answer(code), limit)
            return with_bad_key(request, reply) if code == NOT_AUTH else reply
        question, answer = self.answer(request)
        return encoded(request, question, answer, limit)

    def answer(self, request: Request) -> Tuple[Optional[Question], Answer]:
        """The question that is repeated in the reply, and the answer."""
        if request.opcode == UPDATE:
            return None, Answer(self.update(request))
        if request.opcode:
            return None, Answer(NOT_IMP)
        if len(request.questions) != 1:
            return None, Answer(FORM_ERR)
        question = request.questions[0]
        zone = self.zone_for(question.name)
        return question, answer_to(zone, question) if zone else Answer(REFUSED)

    def update(self, request: Request) -> int:
        """The code of an update, whose changes are made if it is `NoError`. The zone closest to its name decides."""
        if not self.takes_updates:
            return REFUSED
        if len(request.questions) != 1:
            return FORM_ERR
        zone = self.zone_for(request.questions[0].name)
        code = update_code(zone, request) if zone else REFUSED
        if code == NO_ERROR:
            before = zone.records()
            for record in request.sections[1]:
                zone.change(record)
            self.has_changed = zone.records() != before
        return code
