"""Zone files for the program `zonecheck`: the first fault of each, its line and its word, by the model."""
import contextlib
import re
from collections import Counter
from pathlib import Path

from inputs import Input
from folder_runs import parts_of, run
from wire import Refusal
from zone_text import Zone, is_utf8

# The origin of each file is that of its name. A file is read together with an SOA record at its end, unless it has one or is a front.
APEX, NAME = (b"t",), "t.zone"
SOA = b"\nt. 60 SOA ns.t. h.t. 1 3600 600 86400 30\n"
# The good input that includes a text, and this text. It is read as a file of all types, since one of nine includes nothing.
INCLUDING, INCLUDED = "an included text", {b"inc": b"i 60 A 10.0.0.9\n"}
# How many files a process has.
FILES = 2000
# What the program says of each fault. Which one it is, is what the model determines.
SENTENCES = {
    "UnclosedQuotedString": "a quoted string that does not end on its line",
    "UnclosedList": "a parenthesis that is not closed",
    "NestedList": "a parenthesis inside another",
    "UnopenedList": "a closing parenthesis without an opening one",
    "LoneBackslash": "a backslash at the end of a line",
    "NoOwner": "a blank at the start of the line, and no record above to take the owner from",
    "InvalidOwner": "an owner that is not a name",
    "InvalidTtl": "a word that begins with a digit and is not a time",
    "RepeatedField": "a second TTL or class",
    "MissingType": "an entry that ends before its type",
    "UnknownType": "not a type that is known here",
    "NoTtl": "the TTL is missing, and no default applies",
    "ClassMismatch": "another class than the records above of this owner and type",
    "InvalidDirective": "a directive with a missing or invalid argument",
    "IncludeNotFound": "a file to include that cannot be read",
    "UnsupportedRecordType": "a type whose data cannot be written here",
    "MissingToken": "data that ends before its last value",
    "InvalidToken": "an invalid value for this type",
    "UnexpectedToken": "a word after the last value",
    "CharacterDataTooLong": "a string of more than 255 bytes",
    "InvalidName": "not a name",
    "NotInternet": "a record whose class is not IN",
    "OutsideOrigin": "an owner outside the zone's origin",
    "SoaElsewhere": "an SOA record elsewhere than at the zone's origin",
    "OriginTwice": "a name that ends in the origin twice",
    "NoSoa": "no SOA record at the zone's origin",
    "not UTF-8": "a byte that is not UTF-8",
    "byte-order mark": "a byte-order mark at the start of the file",
}
A, MX, SRV = 1, 15, 33
# How many characters of a word at fault the program shows.
MAX_WORD = 60
# A finding is in a file or in one that it includes.
FINDING = re.compile(r"(\d+)/(?:t\.zone|inc)(?::(\d+))?: (fault|warning|zone)(?::? (.*))?\Z", re.S)


def special_sentence(refusal: Refusal) -> str | None:
    """What the program says of a frequent mistake, by the word at fault."""
    reason, word = str(refusal), refusal.word or b""
    if reason == "InvalidName" and re.fullmatch(rb"[0-9A-Fa-f.]*:[0-9A-Fa-f.:]*", word):
        return "an address where a name belongs"
    if reason == "InvalidName" and b"@" in word:
        return "a mail address, which a zone file writes as a name"
    if reason in ("InvalidOwner", "InvalidName") and word[:1] == b"-":
        return "a name that begins with a hyphen"
    if reason in ("InvalidOwner", "InvalidName", "UnknownType", "UnexpectedToken", "InvalidToken") and word[:1] in (b"#", b"$"):
        return "not the start of a comment" if word[:1] == b"#" else "not a directive here"
    if reason != "InvalidToken":
        return None
    if refusal.rtype in (MX, SRV) and word.isdigit() and int(word) > 65535:
        return "a number above 65,535"
    if refusal.rtype == MX and not word.isdigit():
        return "an MX record without its preference"
    if refusal.rtype == A and re.fullmatch(rb"[0-9]*(\.[0-9]*){3}", word) and any(int(it or 0) > 255 for it in word.split(b".")):
        return "an address with a number above 255"
    return None


def text_of(given: Input) -> bytes:
    """The file of an input."""
    return given.data if given.is_front or b"SOA" in given.data else given.data + SOA


def refusal_of(text: bytes, includes: dict[bytes, bytes]) -> tuple[Zone, Refusal | None]:
    """The zone of a file, and its first fault."""
    zone = Zone(includes, APEX)
    try:
        text.decode()
    except UnicodeDecodeError as error:
        return zone, Refusal("not UTF-8", line=text.count(b"\n", 0, error.start) + 1)
    if text.startswith(b"\xef\xbb\xbf"):
        return zone, Refusal("byte-order mark", line=1)
    try:
        zone.read(text)
    except Refusal as refusal:
        # An SOA record elsewhere is what the zone lacks, if there is none at the origin.
        return zone, Refusal("NoSoa", line=refusal.line) if str(refusal) == "SoaElsewhere" and not has_start(text, includes) else refusal
    return zone, None if (APEX, 6) in zone.sets else Refusal("NoSoa")


def has_start(text: bytes, includes: dict[bytes, bytes]) -> bool:
    """Whether a file has an SOA record at its origin, wherever else it has one."""
    zone = Zone(includes)
    zone.origin = APEX
    with contextlib.suppress(Refusal):
        zone.read(text)
    return (APEX, 6) in zone.sets


def sentence_of(refusal: Refusal) -> str:
    """What the program says of a fault, but for the word."""
    return special_sentence(refusal) or SENTENCES[str(refusal)]


def finding_of(refusal: Refusal) -> tuple[int | None, str]:
    """The line of a fault, and what is said of it. A word with other characters than printable ones may be shown otherwise."""
    said = sentence_of(refusal)
    if refusal.word is not None:
        word = refusal.word.decode()
        said += f": `{word if len(word) <= MAX_WORD else word[:MAX_WORD] + '...'}`"
    return refusal.line, said


def difference(given: Input, found: list[tuple[int | None, str, str]]) -> str | None:
    """Where the findings on a file differ from what the model says."""
    text = text_of(given)
    zone, refusal = refusal_of(text, INCLUDED if given.title == INCLUDING else {})
    faults = [(line, said) for line, kind, said in found if kind == "fault"]
    if refusal is None:
        count = sum(len(rows) for _, rows in zone.sets.values())
        summaries = [said for _, kind, said in found if kind == "zone"]
        is_met = not faults and all(it.startswith(f"t., {count} records, ") for it in summaries)
        return None if is_met and found else f"wanted no fault and {count} records, got {found}"
    line, said = finding_of(refusal)
    is_plain = said.isascii() and said.isprintable()
    got = faults[0] if faults else (None, "")
    is_met = got == (line, said) if is_plain else got[0] == line and got[1].startswith(sentence_of(refusal))
    return None if is_met else f"wanted {(line, said)}, got {faults[:2]}"


def is_told(given: Input) -> bool:
    """Whether the model tells how a file is read: a string in a file of all types may go on over lines."""
    return given.title != INCLUDING or str(refusal_of(text_of(given), INCLUDED)[1]) != "UnclosedQuotedString"


def outcome_of(given: Input) -> str:
    _, refusal = refusal_of(text_of(given), INCLUDED if given.title == INCLUDING else {})
    return "read" if refusal is None else str(refusal)


def findings(program: Path, inputs: list[Input], options: list[str]) -> list[list]:
    """The findings on each of several files."""
    files = {f"{nth}/{NAME}": text_of(it) for nth, it in enumerate(inputs)}
    included = {f"{nth}/{name.decode()}": text for nth, it in enumerate(inputs) if it.title == INCLUDING for name, text in INCLUDED.items()}
    done = run(program, [*options, "--origin-of-file", *files], {**files, **included})
    found: list[list] = [[] for _ in inputs]
    for line in done.stdout.decode().split("\n"):
        if match := FINDING.match(line):
            found[int(match[1])].append((match[2] and int(match[2]), match[3], match[4]))
    return found


def tried(program: Path, inputs: list[Input], counts: Counter) -> list[str]:
    """Tries inputs, and counts their outcomes. The result is what differs."""
    faults = []
    nine = [it for it in inputs if it.title != INCLUDING]
    all_types = [it for it in inputs if it.title == INCLUDING and is_told(it)]
    runs = [(part, ["--nine"]) for part in parts_of(nine, FILES)] + [(part, []) for part in parts_of(all_types, FILES)]
    for part, options in runs:
        for given, found in zip(part, findings(program, part, options)):
            counts[outcome_of(given)] += 1
            if said := difference(given, found):
                faults.append(f"zone file {text_of(given)!r}\n  {said}")
    return faults
