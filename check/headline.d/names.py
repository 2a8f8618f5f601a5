"""Domain names (RFC 1035 sections 2.3.1 and 5.1): tuples of labels in lower case, as case is ignored (RFC 4343)."""
import ipaddress
import random
from functools import lru_cache

Name = tuple[bytes, ...]
Address = ipaddress.IPv4Address | ipaddress.IPv6Address

ROOT: Name = ()
LETTERS = frozenset(b"abcdefghijklmnopqrstuvwxyz0123456789_")


class BadName(ValueError):
    """A text that is not a name."""


@lru_cache(maxsize=4096)
def name_of(text: str) -> tuple[Name, bool]:
    """The name that a text spells, and whether a dot at its end makes it fully qualified."""
    if text == ".":
        return ROOT, True
    labels, label, at = [], bytearray(), 0
    while at < len(text):
        if text[at] == ".":
            labels.append(bytes(label).lower())
            label, at = bytearray(), at + 1
        elif text[at] != "\\":
            label += text[at].encode()
            at += 1
        elif text[at + 1 : at + 4].isdecimal():
            label.append(int(text[at + 1 : at + 4]))
            at += 4
        else:
            label += text[at + 1 : at + 2].encode()
            at += 2
    if label:
        labels.append(bytes(label).lower())
    if not all(labels) or not labels:
        raise BadName(text)
    return tuple(labels), not label


def label_text(label: bytes) -> str:
    """A label as it is spelled: octets other than letters, digits, `_`, inner `-` and a first `*` are escaped."""
    spelled = ""
    for at, octet in enumerate(label):
        is_plain = octet in LETTERS or (octet == ord("-") and at > 0) or (octet == ord("*") and at == 0)
        spelled += chr(octet) if is_plain else f"\\{octet:03}"
    return spelled


def name_text(name: Name) -> str:
    """A name with a dot at its end."""
    return "".join(label_text(label) + "." for label in name) or "."


def random_case(text: str, rng: random.Random) -> str:
    """A text whose letters sometimes are in upper case."""
    return "".join(rng.choice((char, char.upper())) for char in text) if rng.random() < 0.15 else text


def is_at_or_below(name: Name, origin: Name) -> bool:
    """Whether a name is the origin or a name below it."""
    return len(name) >= len(origin) and name[len(name) - len(origin) :] == origin


def reverse_name(address: Address) -> Name:
    """The name under which the names of an address are looked up (RFC 1035 section 3.5, RFC 3596 section 2.5)."""
    return name_of(address.reverse_pointer + ".")[0]


def reverse_address(name: Name) -> Address | None:
    """The address that a reverse name denotes, whose last octets or nibbles are zeros if labels are missing."""
    for zone, most, base, size in ((("in-addr", "arpa"), 4, 10, 8), (("ip6", "arpa"), 32, 16, 4)):
        suffix = tuple(label.encode() for label in zone)
        numbers = [label.decode("latin-1") for label in reversed(name[: len(name) - 2])]
        if name[-2:] != suffix or not 1 <= len(numbers) <= most:
            continue
        digits = "0123456789" if base == 10 else "0123456789abcdef"
        if not all(set(number) <= set(digits) and (base == 10 or len(number) == 1) for number in numbers):
            return None
        values = [int(number, base) for number in numbers]
        if max(values) >> size:
            return None
        bits = sum(value << size * (most - 1 - at) for at, value in enumerate(values))
        return ipaddress.IPv4Address(bits) if base == 10 else ipaddress.IPv6Address(bits)
    return None
