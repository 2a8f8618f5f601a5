"""Readers of zone files: other programs, and ours. A record is its owner, TTL, type and data, as bytes."""
import re
import subprocess

import dns.exception
import dns.name
import dns.rdata
import dns.rdataclass
import dns.rdatatype

SECONDS = 60
# A line of a zone that is printed in full.
LINE = re.compile(r"^(\S+)\s+(\d+)\s+(?:IN\s+)?(\S+)\s+(.*)$")


class Unread(Exception):
    """A line that a program printed is not understood."""


def record_of(line):
    """The record of a line."""
    found = LINE.match(line)
    if not found:
        raise Unread(line)
    owner, ttl, kind, data = found.groups()
    try:
        number = dns.rdatatype.from_text(kind)
        rdata = dns.rdata.from_text(dns.rdataclass.IN, number, data, relativize=False)
        wire = rdata.to_wire(origin=dns.name.root)
        name = dns.name.from_text(owner).canonicalize().to_wire()
    except (dns.exception.DNSException, ValueError, TypeError, AttributeError) as error:
        raise Unread(f"{line}: {error}") from error
    return name, int(ttl), int(number), wire


def records_of(text):
    """The records that a program printed, and the lines that are not understood."""
    found, unread = set(), []
    for line in joined(text).split("\n"):
        if not line.strip() or line.startswith(";"):
            continue
        try:
            found.add(record_of(line))
        except Unread as error:
            unread.append(str(error))
    return found, unread


def joined(text):
    """A text without comments outside of strings and without parentheses."""
    return "\n".join(line.rstrip() for line in text.split("\n"))


class Records(set):
    """The records of a file, and what of them is not understood."""

    def __init__(self, found, unread):
        super().__init__(found)
        self.unread = unread


class Bind:
    """BIND's named-compilezone, without its checks."""

    name = "named-compilezone"
    flags = "-q -k ignore -n ignore -r ignore -m ignore -i none -M ignore -S ignore -T ignore -W ignore -F text -s full -o -".split()

    def __init__(self, command):
        self.command = command

    def read(self, file, origin):
        """The records of a file, or nothing if it is refused."""
        done = subprocess.run([self.command, *self.flags, origin, file.name], cwd=file.parent, capture_output=True, timeout=SECONDS, check=False)
        if done.returncode:
            return None
        return Records(*records_of(done.stdout.decode("latin-1")))


class Ldns:
    """ldns-read-zone, which takes no origin: it is stated in front of the text."""

    name = "ldns-read-zone"

    def __init__(self, command):
        self.command = command

    def read(self, file, origin):
        """The records of a file, or nothing if it is refused."""
        text = f"$ORIGIN {origin.rstrip('.')}.\n".encode() + file.read_bytes()
        done = subprocess.run([self.command, "-"], input=text, cwd=file.parent, capture_output=True, timeout=SECONDS, check=False)
        if done.returncode or not done.stdout.strip():
            done = self.from_file(file, text)
        if done.returncode or not done.stdout.strip():
            return None
        return Records(*records_of(done.stdout.decode("latin-1")))

    def from_file(self, file, text):
        """The same, by a file of its own."""
        copy = file.with_name(f".{file.name}.read")
        copy.write_bytes(text)
        try:
            return subprocess.run([self.command, copy.name], cwd=file.parent, capture_output=True, timeout=SECONDS, check=False)
        finally:
            copy.unlink()


class Cause:
    """Why a reading differs."""

    def __init__(self, kind, text, is_known=False):
        self.kind, self.text, self.is_known = kind, text, is_known

    def __str__(self):
        return f"{self.kind}: {self.text}"


# Why a file that a peer reads is refused, by what `zonecheck` says first: the kind, the rule, and docs/DECISIONS.md has each.
KNOWN = (
    ("no SOA record at the origin", re.compile(r"SOA record"), "RFC 1034 section 4.2.1: a zone has one SOA record at its origin"),
    ("an owner outside the origin", re.compile(r"an owner outside the zone's origin"), "RFC 1034 section 4.2: a zone's data is at and below its origin"),
    ("a type without a format", re.compile(r"a type whose data cannot be written here"), "RFC 3597 section 5: such data is written as bytes"),
    ("a type without a mnemonic", re.compile(r"not a type that is known here: `[A-Z0-9-]+`"), "RFC 3597 section 5: such a type is written TYPE and its number"),
    ("a character that a name escapes", re.compile(r"(not a name|an owner that is not a name|an address where a name belongs|a mail address|begins with a hyphen|^zonecheck: invalid value)"), "RFC 1035 sections 2.3.1 and 5.1: such characters are written as \\DDD"),
    ("data of no bytes", re.compile(r"data of no bytes"), "RFC 3597 section 5: a record of a zone has data here"),
    ("a padded hash", re.compile(r"not base32hex: `[A-Z0-9]+=+`"), "RFC 5155 section 3.3: the hash of a next owner has no padding"),
    ("a negative number of a $GENERATE", re.compile(r"a number of a \$GENERATE below 0"), "an extension of BIND: its numbers are from 0 to 2^31 - 1 here"),
    ("a directive of BIND", re.compile(r"not a directive here: `\$DATE`"), "an extension of BIND, which RFC 1035 section 5.1 does not have"),
    ("a TTL that is missing", re.compile(r"the TTL is missing"), "RFC 2308 section 4: no TTL was stated, and $TTL is not there"),
    ("an owner that is missing", re.compile(r"no record above to take the owner from"), "RFC 1035 section 5.1: a blank stands for the last stated owner"),
    ("data of another length", re.compile(r"bytes that are not data of this type: `[0-9A-Fa-f]+(\.\.\.)?`"), "RFC 3597 section 5: the bytes are data of the type"),
    ("another class", re.compile(r"a record whose class is not IN"), "RFC 1035 section 5.2: a file has one class, which is IN here"),
)
# TTLs that a file omits (RFC 1035 section 5.1: the last one stated; RFC 2308 section 4: that of $TTL).
OMITTED = "a TTL that is omitted"


def omits_ttls(file):
    """Whether a record of a file states no TTL, and no $TTL is at its start."""
    text = file.read_text(encoding="latin-1")
    start = re.search(r"^(\$TTL\s|[^;\s$])", text, re.M)
    return bool(start) and not start[1].startswith("$TTL")


def without_ttls(records):
    """The records of a file but for their TTLs."""
    return {(owner, number, data) for owner, _ttl, number, data in records}


class Ours:
    """The program `zonecheck`, which prints the zone as it was read."""

    name = "zonecheck"

    def __init__(self, command):
        self.command = command

    def run(self, file, origin):
        """What the program prints of a file."""
        words = [self.command, "--print", "--origin", origin.rstrip(".") + ".", file.name]
        return subprocess.run(words, cwd=file.parent, capture_output=True, timeout=SECONDS, check=False)

    def difference(self, file, origin, theirs, peer):
        """Why this reading differs from that of a peer, or nothing."""
        done = self.run(file, origin)
        if done.returncode:
            said = done.stdout.decode("utf-8", "replace") + done.stderr.decode("utf-8", "replace")
            first = said.strip().split("\n")[0][:200]
            for kind, pattern, _rule in KNOWN:
                if pattern.search(first):
                    return Cause(kind, first, True)
            return Cause("refused", first)
        found, unread = records_of(done.stdout.decode("utf-8", "replace"))
        missing, extra = theirs - found, found - theirs
        if not missing and not extra and not unread:
            return None
        if theirs.unread or unread:
            return Cause("not understood", (theirs.unread + unread)[0][:200], True)
        if peer.name == Ldns.name and without_ttls(theirs) == without_ttls(found) and all(ttl == 0 for _owner, ttl, _number, _data in extra):
            return Cause("a $TTL of 0", f"{sorted(missing)[:1]} as {sorted(extra)[:1]}", True)
        if without_ttls(theirs) == without_ttls(found):
            return Cause(OMITTED, f"{sorted(missing)[:1]} as {sorted(extra)[:1]}", omits_ttls(file))
        aliases = {owner for owner, _ttl, number, _data in theirs if number == dns.rdatatype.CNAME}
        if missing and not extra and all(owner in aliases for owner, *_rest in missing):
            return Cause("a second alias of its owner", str(sorted(missing)[:1]), True)
        if peer.name == Ldns.name and all(number == dns.rdatatype.TXT for _owner, _ttl, number, _data in missing | extra):
            return Cause("words on further lines", str(sorted(missing)[:1])[:200], True)
        if peer.name == Ldns.name and any(owner.endswith(b"\x01@\0") for owner, *_rest in missing):
            return Cause("an @ after $ORIGIN", str(sorted(missing)[:1]), True)
        return Cause("other records", f"missing {sorted(missing)[:1]}, extra {sorted(extra)[:1]}")
