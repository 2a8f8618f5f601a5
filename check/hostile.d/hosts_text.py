"""Hosts files, as docs/REPLAY.md describes them."""
import re

from text import address, name
from zone_text import is_utf8

MARK = b"\xef\xbb\xbf"
# The characters with the property White_Space of Unicode.
WHITE_SPACE = re.compile("[\t-\r \x85\xa0\u1680\u2000-\u200a\u2028\u2029\u202f\u205f\u3000]+")


def hosts_of_line(line: str) -> list[tuple[tuple[bytes, ...], bytes]]:
    """The names of a line, each with the octets of its address."""
    words = [it.encode() for it in WHITE_SPACE.split(line.split("#")[0]) if it]
    for version in (4, 6):
        packed = address(words[0], version) if words else None
        if packed:
            return [(found, packed) for found in map(name, words[1:]) if found is not None]
    return []


def read_hosts(data: bytes) -> dict[tuple[bytes, ...], list[bytes]] | None:
    """The addresses of each name in their order, or `None` if a line is not UTF-8."""
    found: dict = {}
    for line in data.removeprefix(MARK).split(b"\n"):
        if not is_utf8(line):
            return None
        for host, packed in hosts_of_line(line.decode()):
            found.setdefault(host, []).append(packed)
    return found
