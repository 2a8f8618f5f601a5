"""Records: types by number, data as values that are equal if the data is (names up to case), and their texts."""
import ipaddress
import random
import re
from collections.abc import Callable
from dataclasses import dataclass
from functools import lru_cache

from names import Name, name_of, name_text

A, NS, CNAME, SOA, PTR, MX, TXT, AAAA, SRV = 1, 2, 5, 6, 12, 15, 16, 28, 33
ZERO, SIG, OPT, TSIG, AXFR, MAILB, MAILA, ANY = 0, 24, 41, 250, 252, 253, 254, 255

TYPE_NAMES = {
    A: "A", NS: "NS", CNAME: "CNAME", SOA: "SOA", PTR: "PTR", MX: "MX", TXT: "TXT", AAAA: "AAAA", SRV: "SRV",
    ZERO: "ZERO", 10: "NULL", 13: "HINFO", SIG: "SIG", 35: "NAPTR", OPT: "OPT", 46: "RRSIG", 64: "SVCB",
    TSIG: "TSIG", 251: "IXFR", AXFR: "AXFR", ANY: "ANY", 257: "CAA",
}  # fmt: skip
TYPE_NUMBERS = {text: number for number, text in TYPE_NAMES.items()}

# Data as a tuple of its fields: packed addresses, numbers, names, and strings of octets.
Data = tuple


@dataclass(frozen=True)
class Record:
    """A record of class IN."""

    owner: Name
    ttl: int
    rtype: int
    data: Data

    def content(self) -> tuple[Name, int, Data]:
        """What is compared of a record: all but its TTL."""
        return self.owner, self.rtype, self.data


def type_text(rtype: int) -> str:
    """The name of a type, or `TYPE` and its number (RFC 3597 section 5)."""
    return TYPE_NAMES.get(rtype, f"TYPE{rtype}")


def type_of(text: str) -> int:
    """The number of a type that is printed."""
    return TYPE_NUMBERS[text] if text in TYPE_NUMBERS else int(text.removeprefix("TYPE"))


def is_data_type(rtype: int) -> bool:
    """Whether a zone can have records of a type: of data types (RFC 6895 section 3.1) but SIG and OPT."""
    return (1 <= rtype <= 127 or rtype > 255) and rtype not in (SIG, OPT)


def is_plain(rtype: int) -> bool:
    """Whether a lookup of a type follows aliases, and nothing else, in every reply: of data types but CNAME, SOA and SRV."""
    return is_data_type(rtype) and rtype not in (CNAME, SOA, SRV)


@lru_cache(maxsize=4096)
def data_of(rtype: int, text: str) -> Data:
    """The data that a text spells, in which names are fully qualified."""
    words = text.split(" ")
    if rtype in (A, AAAA):
        return (ipaddress.ip_address(text).packed,)
    if rtype == TXT:
        return tuple(string_of(quoted) for quoted in re.findall(r'"((?:[^"\\]|\\.)*)"', text))
    if rtype == SOA:
        return (name_of(words[0])[0], name_of(words[1])[0], *map(int, words[2:]))
    return (*map(int, words[:-1]), name_of(words[-1])[0])


def string_of(text: str) -> bytes:
    """The octets of a character string without its quotes (RFC 1035 section 5.1)."""
    octet = re.compile(r"\\(\d{3})|\\(.)|(.)", re.S)
    return bytes(int(it[1]) if it[1] else ord(it[2] or it[3]) for it in octet.finditer(text))


def data_text(rtype: int, data: Data, spell: Callable[[Name], str] = name_text) -> str:
    """The text of data, with its names spelled by `spell`."""
    if rtype in (A, AAAA):
        return str(ipaddress.ip_address(data[0]))
    if rtype == TXT:
        return " ".join(string_text(octets) for octets in data)
    return " ".join(str(field) if isinstance(field, int) else spell(field) for field in data)


def string_text(octets: bytes) -> str:
    """A character string in quotes."""
    texts = {octet: chr(octet) for octet in range(32, 127)} | {ord('"'): '\\"', ord("\\"): "\\\\"}
    return '"' + "".join(texts.get(octet, f"\\{octet:03}") for octet in octets) + '"'


def random_address(rtype: int, rng: random.Random) -> Data:
    """One of a few addresses, so that the same one often has several names."""
    last = rng.randrange(12)
    spellings = ("10.0.0.%d",) if rtype == A else ("2001:db8::%x", "2001:db8::%x:0:0", "::ffff:10.0.0.%d")
    return (ipaddress.ip_address(rng.choice(spellings) % last).packed,)
