"""Zone files: RFC 1035 section 5.1 and RFC 2308 section 4, as docs/REPLAY.md describes them. A refusal is named like
the fault of the libraries `dns_text`, `dns_zone_file` and `dns_data`."""
from text import address, name, number, octets, record_type, time
from wire import Refusal

NUMBER16, NUMBER32, TIME, ADDRESS4, ADDRESS6, NAME = range(6)
FIELDS = {
    1: [ADDRESS4], 28: [ADDRESS6], 2: [NAME], 5: [NAME], 12: [NAME], 15: [NUMBER16, NAME],
    33: [NUMBER16, NUMBER16, NUMBER16, NAME], 6: [NAME, NAME, NUMBER32, TIME, TIME, TIME, TIME],
}
SOA, TXT = 6, 16
BLANK = ("blank", b"")


def line_end(text: bytes, at: int) -> int:
    """How many characters end a line at a place."""
    return 1 if text[at : at + 1] == b"\n" else 2 if text[at : at + 2] == b"\r\n" else 0


def line_of(text: bytes, at: int) -> int:
    """The number of the line of a place."""
    return text.count(b"\n", 0, at) + 1


def run(text: bytes, at: int, stops: bytes) -> int:
    """The end of a word or a quoted string: the line's end, or an unescaped character that stops it."""
    while at < len(text) and not line_end(text, at) and text[at] not in stops:
        escaped = text[at] == 0x5C
        at += 1
        if escaped:
            if at >= len(text) or line_end(text, at):
                raise Refusal("LoneBackslash", line=line_of(text, at - 1))
            at += 1
    return at


class Entries:
    """The entries of a text, each as a list of tokens: a kind and a text."""

    def __init__(self, text: bytes):
        self.text, self.at, self.is_open = text, 0, False
        # Where the entry begins.
        self.start = 0

    def __iter__(self):
        while self.at < len(self.text):
            self.start = self.at
            yield self.entry()

    def refusal(self, reason: str) -> Refusal:
        """A fault of the text at this place."""
        return Refusal(reason, line=line_of(self.text, self.at))

    def entry(self) -> list[tuple[str, bytes]]:
        tokens, self.is_front = [], True
        while self.at < len(self.text):
            ending = line_end(self.text, self.at)
            if ending:
                self.at += ending
                if not self.is_open:
                    return tokens
                continue
            token = self.token()
            if token:
                tokens.append(token)
        if self.is_open:
            raise Refusal("UnclosedList")
        return tokens

    def token(self) -> tuple[str, bytes] | None:
        character = self.text[self.at : self.at + 1]
        is_front = self.is_front
        if character == b";":
            while self.at < len(self.text) and not line_end(self.text, self.at):
                self.at += 1
            return None
        self.is_front = False
        if character in b" \t":
            self.at += 1
            return BLANK if is_front else None
        if character in b"()":
            if (character == b"(") == self.is_open:
                raise self.refusal("NestedList" if self.is_open else "UnopenedList")
            self.is_open, self.at = not self.is_open, self.at + 1
            return None
        return self.quoted() if character == b'"' else self.word(is_front)

    def quoted(self) -> tuple[str, bytes]:
        start = self.at + 1
        end = run(self.text, start, b'"')
        if self.text[end : end + 1] != b'"':
            raise self.refusal("UnclosedQuotedString")
        self.at = end + 1
        return "quoted", self.text[start:end]

    def word(self, is_front: bool) -> tuple[str, bytes]:
        start, self.at = self.at, run(self.text, self.at, b' \t;"()')
        word = self.text[start : self.at]
        if word == b"@":
            return "at", word
        if is_front and word in (b"$INCLUDE", b"$ORIGIN", b"$TTL"):
            return word.decode(), word
        return "word", word


def field_value(kind: int, token: tuple[str, bytes], origin):
    form, text = token
    if kind == NAME:
        if form == "at":
            return origin
        if form != "word":
            raise Refusal("InvalidToken", text)
        value = name(text, origin)
        if value is None:
            raise Refusal("InvalidName", text)
        return value
    readers = {
        NUMBER16: lambda: number(text, 2**16 - 1), NUMBER32: lambda: number(text, 2**32 - 1), TIME: lambda: time(text),
        ADDRESS4: lambda: address(text, 4), ADDRESS6: lambda: address(text, 6),
    }
    value = readers[kind]() if form == "word" else None
    if value is None:
        raise Refusal("InvalidToken", text)
    return value


def strings(tokens: list) -> tuple:
    if not tokens:
        raise Refusal("MissingToken")
    found = []
    for form, text in tokens:
        value = octets(text) if form in ("word", "quoted", "at") else None
        if value is None:
            raise Refusal("InvalidToken", text)
        if len(value) > 255:
            raise Refusal("CharacterDataTooLong", text)
        found.append(value)
    return tuple(found)


def data_of(rtype: int, tokens: list, origin) -> tuple:
    """The data of a type, by all of its tokens."""
    if rtype == TXT:
        return strings(tokens)
    if rtype not in FIELDS:
        raise Refusal("UnsupportedRecordType")
    found = []
    for place, kind in enumerate(FIELDS[rtype]):
        if place >= len(tokens):
            raise Refusal("MissingToken")
        found.append(field_value(kind, tokens[place], origin))
    if len(tokens) > len(found):
        raise Refusal("UnexpectedToken", tokens[len(found)][1])
    return tuple(found)


class Zone:
    """What the entries so far determine, and their records. With an apex, each record must be one of a zone with that origin."""

    def __init__(self, includes: dict[bytes, bytes], apex: tuple[bytes, ...] | None = None):
        self.includes, self.apex = includes, apex
        self.origin, self.owner, self.default, self.stated, self.minimum = apex or (), None, None, None, None
        self.sets: dict = {}

    def read(self, text: bytes, depth: int = 0) -> None:
        entries = Entries(text)
        try:
            for tokens in entries:
                self.entry(tokens, depth)
        except Refusal as refusal:
            refusal.line = refusal.line or line_of(text, entries.start)
            raise

    def entry(self, tokens: list, depth: int) -> None:
        if not tokens or tokens == [BLANK]:
            return
        (kind, word), *arguments = tokens
        try:
            if kind == "$INCLUDE":
                self.include(arguments, depth)
            elif kind == "$ORIGIN":
                self.origin = self.directive_name(arguments)
            elif kind == "$TTL":
                self.default = self.directive_time(arguments)
            else:
                self.record(tokens)
        except Refusal as refusal:
            if str(refusal) == "InvalidDirective":
                refusal.word = word
            raise

    def directive_name(self, arguments: list):
        token = arguments[0] if len(arguments) == 1 else ("none", b"")
        found = self.origin if token[0] == "at" else name(token[1], self.origin) if token[0] == "word" else None
        if found is None:
            raise Refusal("InvalidDirective")
        return found

    def directive_time(self, arguments: list) -> int:
        found = time(arguments[0][1]) if len(arguments) == 1 and arguments[0][0] == "word" else None
        if found is None:
            raise Refusal("InvalidDirective")
        return found

    def include(self, arguments: list, depth: int) -> None:
        if not 1 <= len(arguments) <= 2 or arguments[0][0] not in ("word", "quoted", "at") or not arguments[0][1].isascii():
            raise Refusal("InvalidDirective")
        origin = self.directive_name(arguments[1:]) if arguments[1:] else self.origin
        if depth >= 16:
            raise Refusal("TooManyIncludes")
        if arguments[0][1] not in self.includes:
            raise Refusal("IncludeNotFound")
        saved = self.origin, self.owner, self.default, self.stated
        self.origin = origin
        self.read(self.includes[arguments[0][1]], depth + 1)
        self.origin, self.owner, self.default, self.stated = saved

    def owner_of(self, token: tuple[str, bytes]):
        if token == BLANK:
            if self.owner is None:
                raise Refusal("NoOwner")
            return self.owner
        found = self.origin if token[0] == "at" else name(token[1], self.origin) if token[0] == "word" else None
        if found is None:
            raise Refusal("InvalidOwner", token[1])
        return found

    def record(self, tokens: list) -> None:
        owner = self.owner_of(tokens[0])
        ttl, rclass, rtype, rest = fields_of(tokens[1:])
        try:
            data = data_of(rtype, rest, self.origin)
        except Refusal as refusal:
            if str(refusal) == "UnsupportedRecordType":
                refusal.word = tokens[-1 - len(rest)][1]
            refusal.rtype = rtype
            raise
        minimum = data[6] if rtype == 6 and self.minimum is None else self.minimum
        own_minimum = data[6] if rtype == 6 else minimum
        if all(it is None for it in (ttl, self.default, self.stated, own_minimum)):
            raise Refusal("NoTtl")
        rows = self.sets.setdefault((owner, rtype), (rclass or b"IN", []))
        if rows[0] != (rclass or b"IN"):
            raise Refusal("ClassMismatch")
        self.check_place(owner, rclass, rtype)
        self.minimum, self.owner = minimum, owner
        self.stated = self.stated if ttl is None else ttl
        if rtype in (5, 6):
            rows[1][:] = [data]
        elif data not in rows[1]:
            rows[1].append(data)


    def check_place(self, owner, rclass, rtype: int) -> None:
        """Whether a record may be one of the zone: docs/REPLAY.md, the faults Z2, Z3 and Z5."""
        if self.apex is None:
            return
        if rclass not in (None, b"IN"):
            raise Refusal("NotInternet")
        if owner[len(owner) - len(self.apex) :] != self.apex:
            raise Refusal("OutsideOrigin")
        if rtype == SOA and owner != self.apex:
            raise Refusal("OriginTwice" if owner[-2 * len(self.apex) :] == 2 * self.apex else "SoaElsewhere")


def fields_of(tokens: list):
    """TTL and class, each at most once and in either order, and the type; and the tokens after them."""
    ttl = rclass = None
    for place, (form, text) in enumerate(tokens):
        if form != "word":
            raise Refusal("UnknownType", text)
        if text[:1].isdigit():
            seconds = time(text)
            if seconds is None:
                raise Refusal("InvalidTtl", text)
            if ttl is not None:
                raise Refusal("RepeatedField", text)
            ttl = seconds
        elif text.upper() in (b"IN", b"CH", b"HS"):
            if rclass is not None:
                raise Refusal("RepeatedField", text)
            rclass = text.upper()
        else:
            rtype = record_type(text)
            if rtype is None:
                raise Refusal("UnknownType", text)
            return ttl, rclass, rtype, tokens[place + 1 :]
    raise Refusal("MissingType")


def is_utf8(data: bytes) -> bool:
    try:
        data.decode()
    except UnicodeDecodeError:
        return False
    return True
