#!/usr/bin/env python3
"""Makes a script of `stub` from what was asked: a capture of port 53, a list of questions, or a log; or one for
`nameserver --replay` from a capture.

usage: scripts/capture_to_script.py [--port N] [--losses | --replay] [FILE..]

Each FILE, or standard input, is one of these, and the script goes to standard output:

    a capture      as `tcpdump -w FILE port 53` writes it (pcap; tcpdump -r also converts pcapng). Its questions and updates,
                   over UDP, and over TCP if a message is in one segment
    a list         a question a line, as dig reads them: [MOMENT] [@SERVER] [+OPTION..] [-t] NAME [IN] [TYPE]. TYPE is A
                   unless given, and `-x ADDRESS` is the question for the name of an address. '#' and ';' begin comments
    a log          of BIND's queries, or of `nameserver --log`

Moments are whole seconds from the first message on; those of a list are its own, or else that of the line before, and those of
`nameserver --log` begin with the server. N is the port of the servers, 53 unless given. With --losses, a question of a capture
to which no reply came is lost in the script, too. With --replay, the script is one for `nameserver --replay`: the requests of a
capture as they were, at moments in milliseconds, and the replies that came as its expectations, as far as their data has a text
here; without a reply, there is no expectation.
What a script cannot say becomes a comment, such as a question of another class, or an update with several prerequisites.

The status is 0, 1 if a file cannot be read or has no question, and 2 for wrong arguments.
"""
import argparse
import contextlib
import ipaddress
import json
import re
import sys
from datetime import datetime
from typing import NamedTuple, Optional

TYPES = {1: "A", 2: "NS", 5: "CNAME", 6: "SOA", 12: "PTR", 15: "MX", 16: "TXT", 28: "AAAA", 33: "SRV"}
TYPE = re.compile(r"TYPE\d+|[A-Z][A-Z0-9-]*")
IN, NONE, ANY = 1, 254, 255
QUERY, UPDATE = 0, 5
UDP, TCP = 17, 6
# How many bytes precede the packet, by the type of the link, and where their end says which protocol follows, if it does.
LINKS = {0: 4, 1: 14, 12: 0, 101: 0, 108: 4, 113: 16, 276: 20}
# How a capture begins.
CAPTURES = (b"\xd4\xc3\xb2\xa1", b"\xa1\xb2\xc3\xd4", b"\x4d\x3c\xb2\xa1", b"\xa1\xb2\x3c\x4d")
VLAN = (b"\x81\x00", b"\x88\xa8")
# The codes of a header's second and third bytes.
REPLY = 0x80
BIND = re.compile(r"^(?:(\S+ \S+) )?.*?\bquery: (\S+) (\S+) (\S+) ")
BIND_TIME = "%d-%b-%Y %H:%M:%S.%f"


class Unreadable(Exception):
    """Why a file or a message is not one that can be read."""


class Event(NamedTuple):
    """An event: its moment, in seconds, its words, and which question it is, if it came from a capture."""

    moment: float
    words: str
    key: Optional[tuple] = None


def name_text(labels):
    """A name as a zone file has it (RFC 1035 section 5.1)."""
    return "".join(f"{label_text(it)}." for it in labels) or "."


def label_text(label):
    """A label, in which what is neither a letter nor a digit is escaped, but for '-' and '_', and for '*' in front."""
    plain = b"ABCDEFGHIJKLMNOPQRSTUVWXYZabcdefghijklmnopqrstuvwxyz0123456789_"
    return "".join(
        chr(it) if it in plain or it == 0x2D and at or it == 0x2A and not at else f"\\{it:03}" for at, it in enumerate(label)
    )


def type_text(number):
    return TYPES.get(number, f"TYPE{number}")


class Reader:
    """Reads a message from its start (RFC 1035 section 4.1)."""

    def __init__(self, message):
        self.message, self.at = message, 0

    def take(self, count):
        """The next bytes."""
        self.at += count
        if self.at > len(self.message):
            raise Unreadable("it is cut short")
        return self.message[self.at - count : self.at]

    def number(self, count):
        return int.from_bytes(self.take(count), "big")

    def name(self):
        """The labels of a name. Each pointer leads back (section 4.1.4)."""
        labels, end, least = [], None, self.at
        while True:
            length = self.number(1)
            if length >= 0xC0:
                to = (length & 0x3F) << 8 | self.number(1)
                end = self.at if end is None else end
                if to >= least:
                    raise Unreadable("a compression pointer does not lead back")
                self.at = least = to
            elif length > 63:
                raise Unreadable("a label has a reserved type")
            elif length:
                labels.append(self.take(length))
            else:
                self.at = self.at if end is None else end
                return labels

    def record(self):
        """A record: its owner, type, class, TTL, and the text of its data."""
        owner, rtype, rclass, ttl = self.name(), self.number(2), self.number(2), self.number(4)
        end = self.number(2) + self.at
        data = self.data(rtype, end) if end > self.at else ""
        self.at = end
        return name_text(owner), rtype, rclass, ttl, data

    def data(self, rtype, end):
        """The text of data, or nothing for a type that has none here."""
        if rtype in (1, 28):
            return str(ipaddress.ip_address(self.take(end - self.at)))
        if rtype in (2, 5, 12):
            return name_text(self.name())
        if rtype == 15:
            return f"{self.number(2)} {name_text(self.name())}"
        if rtype == 33:
            return f"{self.number(2)} {self.number(2)} {self.number(2)} {name_text(self.name())}"
        if rtype == 6:
            names = f"{name_text(self.name())} {name_text(self.name())}"
            return " ".join([names, *(str(self.number(4)) for _ in range(5))])
        if rtype == 16:
            strings = []
            while self.at < end:
                strings.append("".join(string_character(it) for it in self.take(self.number(1))))
            return " ".join(f'"{it}"' for it in strings)
        return None


def string_character(byte):
    """A byte of a quoted string."""
    return f"\\{byte:03}" if byte in b'"\\' or not 32 <= byte < 127 else chr(byte)


def message_words(message):
    """The words of the events of a request, each without its moment, and the key of its question."""
    reader = Reader(message)
    number, flags, counts = reader.number(2), reader.number(2), [reader.number(2) for _ in range(4)]
    opcode = flags >> 11 & 15
    if opcode not in (QUERY, UPDATE) or counts[0] != 1:
        return [f"# a request with opcode {opcode} and {counts[0]} questions"], None
    name, rtype, rclass = name_text(reader.name()), reader.number(2), reader.number(2)
    if opcode == QUERY:
        words = f"lookup {name} {type_text(rtype)}"
        return [words if rclass == IN else f"# {words} of class {rclass}"], (number, name.lower(), rtype)
    prerequisites, changes = ([reader.record() for _ in range(it)] for it in counts[1:3])
    return update_words(prerequisites, changes), None


def update_words(prerequisites, changes):
    """The events of an update: one for each change (RFC 2136 sections 2.4 and 2.5)."""
    creates = len(changes) == 1 and prerequisites == [(changes[0][0], changes[0][1], NONE, 0, "")]
    if prerequisites and not creates:
        return ["# an update with prerequisites that no event has: " + "; ".join(change_words(it, "append") for it in changes)]
    return [change_words(it, "create" if creates else "append") for it in changes]


def change_words(change, adding):
    """The words of a change."""
    owner, rtype, rclass, ttl, data = change
    if data is None:
        return f"# an update of {owner} {type_text(rtype)}, whose data has no text here"
    if rclass == ANY:
        return f"update delete-name {owner}" if rtype == ANY else f"update delete-set {owner} {type_text(rtype)}"
    if rclass == NONE:
        return f"update delete-record {owner} {type_text(rtype)} {data}"
    return f"update {adding} {owner} {ttl} {type_text(rtype)} {data}"


def packets(content):
    """The packets of a capture: the moment of each, and its bytes from the IP header on."""
    orders = {b"\xd4\xc3\xb2\xa1": ("little", 1e-6), b"\x4d\x3c\xb2\xa1": ("little", 1e-9)}
    orders.update({key[::-1]: ("big", unit) for key, (_, unit) in [*orders.items()]})
    order, unit = orders[content[:4]]
    link = int.from_bytes(content[20:24], order) & 0xFFFF
    if link not in LINKS:
        raise Unreadable(f"its packets are of the unknown link type {link}")
    at = 24
    while at + 16 <= len(content):
        seconds, fraction, length = (int.from_bytes(content[at + it : at + it + 4], order) for it in (0, 4, 8))
        yield seconds + fraction * unit, without_link(content[at + 16 : at + 16 + length], link)
        at += 16 + length


def without_link(frame, link):
    """A frame without the header of its link."""
    start = LINKS[link]
    while link == 1 and frame[start - 2 : start] in VLAN:
        start += 4
    return frame[start:]


def transported(packet):
    """The transport, the addresses with ports of source and destination, and the payload of a packet, or nothing."""
    version = packet[0] >> 4 if packet else 0
    if version == 4 and len(packet) >= 20 and not int.from_bytes(packet[6:8], "big") & 0x1FFF:
        kind, ends, rest = packet[9], (packet[12:16], packet[16:20]), packet[(packet[0] & 15) * 4 : int.from_bytes(packet[2:4], "big")]
    elif version == 6 and len(packet) >= 40:
        kind, ends, rest = packet[6], (packet[8:24], packet[24:40]), packet[40 : 40 + int.from_bytes(packet[4:6], "big")]
    else:
        return None
    if kind not in (UDP, TCP) or len(rest) < 20 - 12 * (kind == UDP):
        return None
    source, target = ((it, int.from_bytes(rest[at : at + 2], "big")) for at, it in zip((0, 2), ends))
    return kind, source, target, rest[8:] if kind == UDP else rest[(rest[12] >> 4) * 4 :]


def exchanged(content, port):
    """The messages of a capture from and to a port: the moment, the transport, the two ends, and the bytes of each."""
    for moment, packet in packets(content):
        found = transported(packet)
        if not found:
            continue
        kind, source, target, message = found
        if kind == TCP:
            # A message is preceded by its length (RFC 1035 section 4.2.2).
            message = message[2:] if len(message) > 2 and int.from_bytes(message[:2], "big") == len(message) - 2 else b""
        if len(message) >= 12 and port in (source[1], target[1]):
            yield moment, kind, source, target, message


def captured(content, port, has_losses):
    """The events of a capture."""
    events, replied = [], set()
    for moment, kind, source, target, message in exchanged(content, port):
        is_reply = bool(message[2] & REPLY)
        try:
            words, key = message_words(message)
        except (Unreadable, ValueError) as error:
            words, key = [f"# {len(message)} bytes that do not decode: {error}"], None
        if is_reply:
            replied.add((target, key))
        elif target[1] == port:
            events += [Event(moment, it, (source, key) if key else None) for it in words]
    if has_losses:
        events = [it if it.key is None or it.key in replied else it._replace(words=f"{it.words} ; quiet") for it in events]
    return events


class Exchange(NamedTuple):
    """A request of a capture, and the reply to it, if one came."""

    moment: float
    transport: int
    peer: tuple
    request: bytes
    reply: Optional[bytes]


def exchanges(content, port):
    """The requests of a capture, with the first reply to each."""
    found, places = [], {}
    for moment, kind, source, target, message in exchanged(content, port):
        is_reply = bool(message[2] & REPLY)
        if not is_reply and target[1] == port:
            places[source, message[:2]] = len(found)
            found.append(Exchange(moment, kind, source, message, None))
        elif is_reply and (target, message[:2]) in places:
            at = places.pop((target, message[:2]))
            found[at] = found[at]._replace(reply=message)
    return found


CODES = "NoError FormErr ServFail NXDomain NotImp Refused YXDomain YXRRSet NXRRSet NotAuth NotZone".split()
FLAGS = {0x400: "aa", 0x200: "tc", 0x100: "rd", 0x80: "ra", 0x20: "ad", 0x10: "cd"}
OPT, TSIG = 41, 250


def reply_lines(message):
    """What `nameserver --replay` prints of a reply after the line of its request, or nothing if some data has no text here."""
    reader = Reader(message)
    reader.take(2)
    flags, counts = reader.number(2), [reader.number(2) for _ in range(4)]
    code = flags & 15
    names = [name for bit, name in FLAGS.items() if flags & bit]
    lines = [" ".join([CODES[code] if code < len(CODES) else f"CODE{code}", *names])]
    for _ in range(counts[0]):
        name, rtype, _rclass = name_text(reader.name()), reader.number(2), reader.number(2)
        lines.append(f"  question {name} {type_text(rtype)}")
    last = []
    for section, count in zip(("answer", "authority", "additional"), counts[1:]):
        for _ in range(count):
            owner, rtype, rclass, ttl, data = reader.record()
            if rtype == OPT:
                last.append(f"  edns size={rclass}{' do' if ttl & 0x8000 else ''}")
            elif rtype == TSIG:
                last.append("  signed")
            elif data is None:
                return None
            else:
                lines.append(f"  {section} {owner} {ttl} IN {type_text(rtype)} {data}")
    return lines + last


def replay_lines(found):
    """The lines of a script for `nameserver --replay`."""
    start = found[0].moment
    yield f"# To answer them: server at {int(start)} ZONE.."
    for it in found:
        host = str(ipaddress.ip_address(it.peer[0]))
        peer = f"[{host}]:{it.peer[1]}" if ":" in host else f"{host}:{it.peer[1]}"
        with contextlib.suppress(Unreadable, ValueError):
            yield from (f"# {words}" for words in message_words(it.request)[0])
        line = f"{int((it.moment - start) * 1000)} {peer} {'udp' if it.transport == UDP else 'tcp'} message {it.request.hex()}"
        yield line
        lines = None
        with contextlib.suppress(Unreadable, ValueError):
            lines = reply_lines(it.reply) if it.reply else None
        if lines:
            yield f"#> {line}: {lines[0]}"
            yield from (f"#> {rest}" for rest in lines[1:])


def listed(line, former):
    """The event of a line of a list or a log, at the moment of the former one unless it says another, or nothing."""
    if line.startswith("{"):
        fields = json.loads(line)
        question = fields.get("question")
        is_question = question and fields.get("opcode") == QUERY
        other = "an update, whose changes a log does not have" if fields.get("opcode") == UPDATE else "a request that is no question"
        words = f"lookup {question['name']} {question['type']}" if is_question else f"# {other}"
        return Event(fields["moment"] / 1000, words)
    found = BIND.match(line)
    if found:
        words = f"lookup {full(found[2])} {found[4]}"
        return Event(logged_moment(found[1], former), words if found[3] == "IN" else f"# {words} of class {found[3]}")
    words = re.split(r"[#;]", line)[0].split()
    words = [it for it in words if it[0] not in "@+" and it.upper() not in ("IN", "-T", "-Q")]
    moment = former
    if len(words) > 1 and words[0].isdigit():
        moment = int(words.pop(0))
    if not words:
        return None
    if words[0] == "-x" and len(words) == 2:
        return Event(moment, f"lookup {ipaddress.ip_address(words[1]).reverse_pointer}. PTR")
    # dig takes the type before the name, too.
    words.sort(key=lambda it: bool(TYPE.fullmatch(it.upper())) and it.upper() in KNOWN)
    if len(words) > 2 or words[0].startswith("-"):
        raise Unreadable(f"this is no question: {line.strip()}")
    return Event(moment, f"lookup {full(words[0])} {(words + ['A'])[1].upper()}")


def logged_moment(text, former):
    """The moment at which a line of a log begins, or the former one if the log has no times."""
    try:
        return datetime.strptime(text or "", BIND_TIME).timestamp()
    except ValueError:
        return former


# The types by whose names a question may be told, those of `stub` and others that captures often have.
KNOWN = {*TYPES.values(), "ANY", "CAA", "DNSKEY", "DS", "HTTPS", "NAPTR", "SSHFP", "SVCB", "TLSA"}


def full(name):
    """A name with the dot at its end."""
    return name if name.endswith(".") else f"{name}."


def events_of(content, given):
    """The events of a file."""
    if content[:4] in CAPTURES:
        return captured(content, given.port, given.losses)
    if content[:4] == b"\x0a\x0d\x0d\x0a":
        raise Unreadable("it is pcapng: convert it by tcpdump -r FILE -w FILE.pcap")
    events, moment = [], 0
    for number, line in enumerate(content.decode(errors="replace").splitlines(), 1):
        try:
            event = listed(line, moment)
        except (Unreadable, ValueError, KeyError) as error:
            raise Unreadable(f"line {number}: {error}") from None
        if event:
            moment = event.moment
            events.append(event)
    return events


def exchanges_of(content, given):
    """The exchanges of a capture."""
    if content[:4] not in CAPTURES:
        raise Unreadable("it is no capture: --replay takes captures alone")
    return exchanges(content, given.port)


def script_lines(events):
    """The lines of a script, in the order of the moments."""
    events = sorted(events, key=lambda it: it.moment)
    # Moments of a day of a log or a capture are counted from the first; those of a list are small already.
    start = events[0].moment if events and events[0].moment > 1e6 else 0
    for it in events:
        moment = int(it.moment - start)
        yield f"# {moment} {it.words[2:]}" if it.words.startswith("# ") else f"{moment} {it.words}"


def main():
    parser = argparse.ArgumentParser(description=__doc__, formatter_class=argparse.RawDescriptionHelpFormatter)
    parser.add_argument("--port", type=int, default=53)
    kinds = parser.add_mutually_exclusive_group()
    kinds.add_argument("--losses", action="store_true")
    kinds.add_argument("--replay", action="store_true")
    parser.add_argument("files", nargs="*", metavar="FILE")
    given = parser.parse_args()
    events = []
    for file in given.files or ["-"]:
        try:
            content = sys.stdin.buffer.read() if file == "-" else open(file, "rb").read()
            events += exchanges_of(content, given) if given.replay else events_of(content, given)
        except (Unreadable, OSError) as error:
            print(f"capture_to_script: {file}: {getattr(error, 'strerror', None) or error}", file=sys.stderr)
            return 1
    if not events:
        files = ", ".join(given.files or ["-"])
        print(f"capture_to_script: {files}: there is no question to port {given.port}, see --port", file=sys.stderr)
        return 1
    lines = replay_lines(events) if given.replay else script_lines(events)
    print("".join(f"{it}\n" for it in lines), end="")
    return 0


if __name__ == "__main__":
    sys.exit(main())
