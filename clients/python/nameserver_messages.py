"""The messages that `nameserver.py` exchanges with its server: updates, their signatures, and transfers of a zone.

An update is text in the words of `nsupdate`, or in those of `lookup --update`:

    prereq yxdomain www.example.com.
    update add mail.example.com. 60 MX 10 www.example.com.
    update delete old.example.com. A

    swap www.example.com. 60 A 10.0.0.1 -> 10.0.0.2

Names and data are encoded and decoded by RFC 1035 section 3, and data that has no form here by RFC 3597 section 5. Plain Python 3.8
without dependencies.
"""
import base64
import binascii
import hashlib
import hmac
import os
import re
import socket
import struct
import time
from collections import namedtuple
from pathlib import Path

# The names of the codes that have four bits (RFC 6895 section 2.3).
CODES = dict(enumerate("NOERROR FORMERR SERVFAIL NXDOMAIN NOTIMP REFUSED YXDOMAIN YXRRSET NXRRSET NOTAUTH NOTZONE".split()))
# The errors of a signature (RFC 8945 section 3).
SIGNATURE_ERRORS = {16: "BADSIG", 17: "BADKEY", 18: "BADTIME", 22: "BADTRUNC"}
# The numbers of the types that have names here, and the fields of their data: `4` and `6` are addresses, `n` is a name, `B`, `H` and `I`
# are numbers of 8, 16 and 32 bits, `s` is a string, `w` one that is written without quotes, `t` are strings, `q` is a string without its
# length, and `x` are octets. The last three extend to the end of the data.
TYPES = {
    "A": (1, "4"),
    "NS": (2, "n"),
    "CNAME": (5, "n"),
    "SOA": (6, "nnIIIII"),
    "PTR": (12, "n"),
    "HINFO": (13, "ss"),
    "MX": (15, "Hn"),
    "TXT": (16, "t"),
    "AAAA": (28, "6"),
    "SRV": (33, "HHHn"),
    "NAPTR": (35, "HHsssn"),
    "DNAME": (39, "n"),
    "DS": (43, "HBBx"),
    "SSHFP": (44, "BBx"),
    "TLSA": (52, "BBBx"),
    "SVCB": (64, None),
    "HTTPS": (65, None),
    "SPF": (99, "t"),
    "TSIG": (250, None),
    "AXFR": (252, None),
    "ANY": (255, None),
    "CAA": (257, "Bwq"),
}
NAMES_OF_TYPES = {number: name for name, (number, _) in TYPES.items()}
IN, NONE, ANY = 1, 254, 255
# The algorithms of signatures (RFC 8945 section 6).
ALGORITHMS = {
    "hmac-md5": ("hmac-md5.sig-alg.reg.int.", hashlib.md5),
    "hmac-sha1": ("hmac-sha1.", hashlib.sha1),
    "hmac-sha224": ("hmac-sha224.", hashlib.sha224),
    "hmac-sha256": ("hmac-sha256.", hashlib.sha256),
    "hmac-sha384": ("hmac-sha384.", hashlib.sha384),
    "hmac-sha512": ("hmac-sha512.", hashlib.sha512),
}
# How far the clocks of the signers may be apart, in seconds.
FUDGE = 300
# The lines of an update, by their actions: those of `lookup --update`, and of `nsupdate`.
LOOKUP_FORMS = {
    "create": "NAME TTL TYPE DATA",
    "append": "NAME TTL TYPE DATA",
    "swap": "NAME TTL TYPE DATA -> DATA",
    "delete-record": "NAME TYPE DATA",
    "delete-set": "NAME TYPE",
    "delete-name": "NAME",
}
FORMS = {
    **LOOKUP_FORMS,
    "add": "NAME TTL TYPE DATA",
    "delete": "NAME [TYPE [DATA]]",
    "prereq nxdomain": "NAME",
    "prereq yxdomain": "NAME",
    "prereq nxrrset": "NAME TYPE",
    "prereq yxrrset": "NAME TYPE [DATA]",
    "zone": "NAME",
}
LABEL = r"(?:\\\d{3}|\\\D|[^\\.])+"
WORD = re.compile(r'"(?:\\.|[^"\\])*"|(?:\\.|[^\s"\\])+')
ESCAPE = re.compile(rb"\\(?:(\d{3})|(.))", re.DOTALL)

Record = namedtuple("Record", "name type rclass ttl data start raw")
Message = namedtuple("Message", "id code answers additionals")
Signature = namedtuple("Signature", "key algorithm moment fudge mac original_id error other")


class MessageError(Exception):
    """A message that does not decode, or a signature that is not right."""


# Words, names and data


def words_of(text):
    """The words of a text. A string in double quotes is a word, with its quotes."""
    if WORD.sub("", text).strip():
        raise ValueError("a quote that is not closed, or a backslash at the end")
    return WORD.findall(text)


def whole_name(text, zone=None):
    """A name with a dot at its end: the zone, if there is one, completes a name that neither has one nor is in the zone."""
    if zone is None or re.fullmatch(rf"\.|(?:{LABEL}\.)+", text):
        return text
    if text == "@":
        return zone
    return text if is_in(text, zone) else f"{text}.{zone}"


def labels_of(name):
    """The labels of a name as they are encoded, in lower case."""
    return [it.lower() for it in re.findall(LABEL, name)]


def is_in(name, zone):
    """Whether a name is that of a zone, or below it."""
    labels, origin = labels_of(name), labels_of(zone)
    return labels[len(labels) - len(origin) :] == origin


def unescaped(text):
    """The octets of a text in which `\\DDD` is an octet, and a backslash before another character is that character."""
    return ESCAPE.sub(lambda it: bytes([int(it[1])]) if it[1] else it[2], text.encode())


def encode_name(text):
    """A name as it is encoded (RFC 1035 section 3.1), with or without a dot at its end."""
    if not re.fullmatch(rf"\.|{LABEL}(?:\.{LABEL})*\.?", text):
        raise ValueError(f"{text!r} is no name")
    if not text.isascii():
        raise ValueError(f"{text!r} is no name: write it in its ASCII form, which begins with xn--")
    labels = [unescaped(it) for it in re.findall(LABEL, text)]
    if any(len(it) > 63 for it in labels) or sum(len(it) + 1 for it in labels) > 254:
        raise ValueError(f"{text!r} is no name: it is too long")
    return b"".join(bytes([len(it)]) + it for it in labels) + b"\0"


def encode_string(word):
    """A character string (RFC 1035 section 3.3), from a word with or without quotes."""
    text = octets_of(word)
    if len(text) > 255:
        raise ValueError(f"a string has at most 255 octets, not {len(text)}")
    return bytes([len(text)]) + text


def octets_of(word):
    """The octets of a word, with or without quotes."""
    return unescaped(word[1:-1] if word.startswith('"') else word)


def encode_field(field, words, zone):
    """A field of the data of a record, from its word, or from all words that are left."""
    if field in "46":
        return socket.inet_pton(socket.AF_INET if field == "4" else socket.AF_INET6, words[0])
    if field in "BHI":
        return struct.pack(f">{field}", int(words[0]))
    if field == "n":
        return encode_name(whole_name(words[0], zone))
    if field == "x":
        return bytes.fromhex("".join(words))
    return octets_of(words[0]) if field == "q" else b"".join(map(encode_string, words))


def encode_data(kind, words, zone=None):
    """The data of a record, from the words of its text. A name in it is completed by the zone, if there is one."""
    text = " ".join(words)
    if words[:1] == ["\\#"]:
        data = bytes.fromhex("".join(words[2:]))
        if words[1:2] != [str(len(data))]:
            raise ValueError(f"{text!r} has {len(data)} octets")
        return data
    fields = TYPES.get(kind, (None, None))[1]
    if fields is None:
        raise ValueError(f"data of type {kind} is written as \\# LENGTH HEX, not as {text!r}")
    is_open = fields[-1] in "tx"
    if len(words) < len(fields) or len(words) > len(fields) and not is_open:
        raise ValueError(f"{text!r} is no data of type {kind}: it has {len(words)} words")
    parts = [words[at:] if is_open and at == len(fields) - 1 else [words[at]] for at in range(len(fields))]
    try:
        return b"".join(encode_field(field, part, zone) for field, part in zip(fields, parts))
    except (OSError, ValueError, struct.error) as error:
        raise ValueError(f"{text!r} is no data of type {kind}: {error}") from None


def decode_name(message, at):
    """The text of a name, and the place after it (RFC 1035 section 4.1.4)."""
    labels, end, limit = [], None, at
    while message[at]:
        if message[at] >= 0xC0:
            end = at + 2 if end is None else end
            at = (message[at] & 0x3F) << 8 | message[at + 1]
            if at >= limit:
                raise MessageError("a name that points forward")
            limit = at
        elif message[at] > 63:
            raise MessageError("a label of an unknown kind")
        else:
            label = message[at + 1 : at + 1 + message[at]]
            labels.append("".join(escaped(it, '.\\"();@$ ') for it in label))
            at += 1 + message[at]
    return "".join(f"{it}." for it in labels) or ".", at + 1 if end is None else end


def escaped(octet, special):
    """An octet as zone files have it."""
    if not 32 <= octet < 127 or octet == 32 and " " in special:
        return f"\\{octet:03}"
    return f"\\{chr(octet)}" if chr(octet) in special else chr(octet)


def quoted(octets):
    """Octets as a string in double quotes."""
    return '"' + "".join(escaped(it, '"\\') for it in octets) + '"'


def decode_field(field, message, at, end):
    """The text of a field of the data of a record, and the place after it."""
    if field in "46":
        size = 4 if field == "4" else 16
        return socket.inet_ntop(socket.AF_INET if size == 4 else socket.AF_INET6, message[at : at + size]), at + size
    if field in "BHI":
        return str(struct.unpack_from(f">{field}", message, at)[0]), at + struct.calcsize(field)
    if field == "n":
        return decode_name(message, at)
    if field in "sw":
        text = message[at + 1 : at + 1 + message[at]]
        return quoted(text) if field == "s" else quoted(text)[1:-1], at + 1 + message[at]
    if field == "t":
        texts = []
        while at < end:
            text, at = decode_field("s", message, at, end)
            texts.append(text)
        return " ".join(texts), at
    octets = message[at:end]
    return quoted(octets) if field == "q" else octets.hex().upper(), end


def decode_data(number, message, at, end):
    """The text of the data of a record, whose names have dots at their ends."""
    fields, texts, place = TYPES.get(NAMES_OF_TYPES.get(number), (None, None))[1], [], at
    try:
        for field in fields or "":
            text, place = decode_field(field, message, place, end)
            texts.append(text)
    except (IndexError, ValueError, struct.error):
        place = None
    return " ".join(texts) if texts and place == end else f"\\# {end - at} {message[at:end].hex().upper()}".rstrip()


def normal_data(kind, text):
    """The text of data as it is decoded, to be compared, in which names are in lower case."""
    data = encode_data(kind, words_of(text))
    return with_lower_names(kind, decode_data(type_number(kind), data, 0, len(data)))


def with_lower_names(kind, text):
    """Data whose names are in lower case, as they are compared (RFC 4343)."""
    fields = TYPES.get(kind, (None, None))[1] or ""
    words = WORD.findall(text)
    if "n" not in fields or len(words) != len(fields):
        return text
    return " ".join(word.lower() if field == "n" else word for field, word in zip(fields, words))


def type_number(kind):
    """The number of a type, from its name or from `TYPE` and a number."""
    if kind in TYPES:
        return TYPES[kind][0]
    if re.fullmatch(r"TYPE\d{1,5}", kind):
        return int(kind[4:])
    raise ValueError(f"{kind!r} is no type that is known here: write TYPE and its number")


def type_name(number):
    """The name of a type, or `TYPE` and its number."""
    return NAMES_OF_TYPES.get(number, f"TYPE{number}")


# Messages


def encode_record(name, kind, rclass, ttl, data=b""):
    """A record, or one without data that names a set."""
    return encode_name(name) + struct.pack(">2HIH", type_number(kind), rclass, ttl, len(data)) + data


def decode_message(message):
    """A message: its answers, and the records of its last section."""
    try:
        id, flags, questions, *counts = struct.unpack_from(">6H", message)
        at = 12
        for _ in range(questions):
            at = decode_name(message, at)[1] + 4
        sections = []
        for count in counts:
            records = []
            for _ in range(count):
                record, at = decode_record(message, at)
                records.append(record)
            sections.append(records)
    except (IndexError, struct.error):
        raise MessageError("a reply that does not decode") from None
    return Message(id, flags & 15, sections[0], sections[2])


def decode_record(message, start):
    """A record of a message, and the place after it."""
    name, at = decode_name(message, start)
    number, rclass, ttl, size = struct.unpack_from(">2HIH", message, at)
    at += 10
    if at + size > len(message):
        raise MessageError("a record that is longer than its message")
    data = decode_data(number, message, at, at + size)
    return Record(name, type_name(number), rclass, ttl, data, start, message[at : at + size]), at + size


class Stream:
    """A connection to a server, on which each message follows its length (RFC 1035 section 4.2.2)."""

    def __init__(self, address, port, seconds):
        self.socket = socket.create_connection((address, port), seconds)
        self.file = self.socket.makefile("rb")

    def __enter__(self):
        return self

    def __exit__(self, *_):
        self.file.close()
        self.socket.close()

    def send(self, message):
        self.socket.sendall(struct.pack(">H", len(message)) + message)

    def receive(self):
        """The next message."""
        return self.read(struct.unpack(">H", self.read(2))[0])

    def read(self, size):
        found = self.file.read(size)
        if len(found) < size:
            raise MessageError("the connection ended before the reply")
        return found


def transfer(stream, zone):
    """The records of a zone, as the server transfers them (RFC 5936 section 2.2), or the code of its refusal."""
    stream.send(struct.pack(">6H", 0x5555, 0, 1, 0, 0, 0) + encode_name(zone) + struct.pack(">2H", TYPES["AXFR"][0], IN))
    records = []
    while sum(it.type == "SOA" for it in records) < 2:
        reply = decode_message(stream.receive())
        if reply.code or not reply.answers:
            return None, CODES.get(reply.code, str(reply.code))
        records += reply.answers
    return records[:-1], "NOERROR"


# Updates


class Update:
    """An update (RFC 2136) of a zone, from its text: `zone` is its zone unless a line says otherwise."""

    def __init__(self, text, zone):
        self.zone, self.prerequisites, self.changes = zone, [], []
        for line in text.splitlines():
            if line.strip() not in ("", "send") and line.strip()[0] not in ";#":
                try:
                    self.add_line(*fields_of_line(words_of(line)))
                except ValueError as error:
                    raise ValueError(f"{line.strip()!r}: {error}") from None
        if not self.prerequisites and not self.changes:
            raise ValueError(f"{text!r} is no update: it has no changes")

    def add_line(self, action, name, ttl, kind, data):
        """Adds what a line says (RFC 2136 sections 2.4 and 2.5)."""
        # Names are whole for `nsupdate`, and completed by `lookup --update`.
        zone = self.zone if action in LOOKUP_FORMS else None
        name = whole_name(name, zone)
        if action == "zone":
            self.zone = name if name.endswith(".") else f"{name}."
        elif action == "swap":
            old, new = (encode_data(kind, it, zone) for it in split_at_arrow(data))
            self.prerequisites.append(encode_record(name, kind, IN, 0, old))
            self.changes += [encode_record(name, kind, NONE, 0, old), encode_record(name, kind, IN, ttl, new)]
        elif action.startswith("prereq"):
            rclass = IN if data else NONE if action.startswith("prereq nx") else ANY
            self.prerequisites.append(encode_record(name, kind, rclass, 0, encode_data(kind, data) if data else b""))
        else:
            if action == "create":
                self.prerequisites.append(encode_record(name, kind, NONE, 0))
            rclass = IN if "TTL" in FORMS[action] else NONE if data else ANY
            self.changes.append(encode_record(name, kind, rclass, ttl, encode_data(kind, data, zone) if data else b""))

    def to_wire(self, id):
        """The message."""
        header = struct.pack(">6H", id, 0x2800, 1, len(self.prerequisites), len(self.changes), 0)
        zone = encode_name(self.zone) + struct.pack(">2H", TYPES["SOA"][0], IN)
        return header + zone + b"".join(self.prerequisites + self.changes)


def fields_of_line(words):
    """The action of a line of an update, its name, its TTL or 0, its type or ANY, and its data."""
    action, *words = words[1:] if words[0] == "update" and len(words) > 1 else words
    if action == "prereq" and words:
        action, *words = f"prereq {words[0]}", *words[1:]
    action = "delete" if action == "del" else action
    if action not in FORMS:
        raise ValueError(f"{action!r} is none of {', '.join(FORMS)}")
    form = FORMS[action].split()
    if action not in LOOKUP_FORMS:
        words = without_class(action, words)
    least = sum(not it.startswith("[") and it != "->" for it in form)
    if len(words) < least or len(words) > len(form) and "DATA" not in form[-1]:
        raise ValueError(f"the form is {action} {FORMS[action]}")
    name, *words = words
    ttl = read_ttl(words.pop(0)) if "TTL" in form else 0
    kind, *data = words or ["ANY"]
    return action, name, ttl, kind.upper(), data


def without_class(action, words):
    """The words of `nsupdate` without a class, and without the TTL of a deletion, both of which may be left out."""
    at = 2 if action == "add" else 1
    if action == "delete" and words[1:] and words[1].isdigit():
        del words[1]
    return words[:at] + words[at + 1 :] if words[at:] and words[at].upper() == "IN" else words


def read_ttl(word):
    """A TTL in seconds (RFC 2181 section 8)."""
    if not word.isdigit() or int(word) >= 1 << 31:
        raise ValueError(f"{word!r} is no TTL, which is a number of seconds")
    return int(word)


def split_at_arrow(words):
    """The words before `->`, and those after it."""
    if words.count("->") != 1:
        raise ValueError(f"the form is swap {FORMS['swap']}")
    at = words.index("->")
    return words[:at], words[at + 1 :]


# Signatures


class Key:
    """A key that signs messages (TSIG, RFC 8945)."""

    def __init__(self, name, secret, algorithm="hmac-sha256"):
        if algorithm.lower() not in ALGORITHMS:
            raise ValueError(f"{algorithm!r} is none of the algorithms {', '.join(ALGORITHMS)}")
        self.name, self.secret = encode_name(name).lower(), secret
        algorithm, self.digest = ALGORITHMS[algorithm.lower()]
        self.algorithm = encode_name(algorithm)

    @classmethod
    def read(cls, given):
        """The first key of a text as `tsig-keygen` prints it, or of a file with such a text."""
        if isinstance(given, Key):
            return given
        text = given if isinstance(given, str) and "{" in given else Path(os.fspath(given)).read_text(encoding="ascii")
        found = re.search(r'key\s+"?([^"\s{]+)"?\s*\{([^}]*)\}', text)
        fields = dict(re.findall(r'(algorithm|secret)\s+"?([^";]+?)"?\s*;', found[2])) if found else {}
        if len(fields) < 2:
            raise ValueError('no key of the form key "NAME" { algorithm hmac-sha256; secret ".."; };')
        try:
            return cls(found[1], base64.b64decode(fields["secret"], validate=True), fields["algorithm"])
        except binascii.Error as error:
            raise ValueError(f"the secret of the key {found[1]} is not in base64: {error}") from None

    def mac(self, message, signed, former=b""):
        """The signature of a message without its TSIG record, perhaps of the reply to one (RFC 8945 section 4.3)."""
        moment = struct.pack(">Q", signed.moment)[2:]
        variables = self.name + struct.pack(">HI", ANY, 0) + self.algorithm + moment
        variables += struct.pack(">3H", signed.fudge, signed.error, len(signed.other)) + signed.other
        return hmac.new(self.secret, former + message + variables, self.digest).digest()

    def sign(self, message):
        """The message with its TSIG record, and its signature."""
        id, additionals = struct.unpack_from(">H8xH", message)
        signed = Signature(self.name, self.algorithm, int(time.time()), FUDGE, b"", id, 0, b"")
        mac = self.mac(message, signed)
        moment = struct.pack(">Q", signed.moment)[2:]
        data = self.algorithm + moment + struct.pack(">2H", FUDGE, len(mac)) + mac + struct.pack(">3H", id, 0, 0)
        record = self.name + struct.pack(">2HIH", TYPES["TSIG"][0], ANY, 0, len(data)) + data
        return message[:10] + struct.pack(">H", additionals + 1) + message[12:] + record, mac

    def verify(self, reply, mac):
        """Checks the signature of the reply to a message that has a signature, and returns its error, or None."""
        last = (decode_message(reply).additionals or [None])[-1]
        if last is None or last.type != "TSIG":
            raise MessageError("a reply that is not signed")
        signed = decode_signature(last)
        error = SIGNATURE_ERRORS.get(signed.error, str(signed.error)) if signed.error else None
        if error in ("BADSIG", "BADKEY"):
            # No server can sign a reply that says so (RFC 8945 section 5.3.2).
            return error
        count = struct.unpack_from(">H", reply, 10)[0] - 1
        bare = struct.pack(">H", signed.original_id) + reply[2:10] + struct.pack(">H", count) + reply[12 : last.start]
        wanted = self.mac(bare, signed, struct.pack(">H", len(mac)) + mac)
        if (signed.key, signed.algorithm) != (self.name, self.algorithm) or not hmac.compare_digest(wanted, signed.mac):
            raise MessageError("a reply whose signature is wrong")
        # After BADTIME, the moment is that of the request (RFC 8945 section 5.2.3).
        if abs(time.time() - signed.moment) > signed.fudge:
            raise MessageError("a reply that was signed too early or too late")
        return error


def decode_signature(record):
    """The fields of a TSIG record (RFC 8945 section 4.2). Its names are not compressed."""
    try:
        algorithm, at = decode_name(record.raw, 0)
        high, low, fudge, size = struct.unpack_from(">HI2H", record.raw, at)
        mac = record.raw[at + 10 : at + 10 + size]
        id, error, length = struct.unpack_from(">3H", record.raw, at + 10 + size)
        other = record.raw[at + 16 + size : at + 16 + size + length]
    except (IndexError, struct.error):
        raise MessageError("a TSIG record that does not decode") from None
    names = encode_name(record.name).lower(), encode_name(algorithm).lower()
    return Signature(*names, high << 32 | low, fudge, mac, id, error, other)
