"""What zone files, hosts and scripts share: numbers, types, names, addresses and character strings in text (RFC 1035 section
5.1, RFC 3597 section 5, RFC 4291 section 2.2), as docs/REPLAY.md describes them."""
import ipaddress
import re

TYPES = {
    "A": 1, "NS": 2, "CNAME": 5, "SOA": 6, "NULL": 10, "PTR": 12, "HINFO": 13, "MX": 15, "TXT": 16, "SIG": 24, "KEY": 25,
    "AAAA": 28, "SRV": 33, "NAPTR": 35, "CERT": 37, "DNAME": 39, "OPT": 41, "DS": 43, "SSHFP": 44, "RRSIG": 46, "NSEC": 47,
    "DNSKEY": 48, "NSEC3": 50, "NSEC3PARAM": 51, "TLSA": 52, "SMIMEA": 53, "CDS": 59, "CDNSKEY": 60, "OPENPGPKEY": 61,
    "CSYNC": 62, "SVCB": 64, "HTTPS": 65, "TSIG": 250, "IXFR": 251, "AXFR": 252, "ANY": 255, "CAA": 257, "ZERO": 0,
}
DIGITS = re.compile(rb"[0-9]+\Z")
UNITS = {b"s": 1, b"m": 60, b"h": 3600, b"d": 86400, b"w": 604800}


def number(text: bytes, greatest: int) -> int | None:
    """A decimal number without a sign."""
    if not DIGITS.match(text) or len(text.lstrip(b"0")) > 20:
        return None
    return int(text) if int(text) <= greatest else None


def record_type(text: bytes) -> int | None:
    """The name of a type in any case, or `TYPE` and a number."""
    upper = text.upper()
    if upper.decode("latin-1") in TYPES and text.isascii():
        return TYPES[upper.decode()]
    return number(text[4:], 65535) if upper[:4] == b"TYPE" else None


def time(text: bytes) -> int | None:
    """A number of seconds, or a sum of numbers with units."""
    if not re.match(rb"([0-9]+[smhdw])*([0-9]+)?\Z", text, re.I) or not text:
        return None
    runs = re.findall(rb"([0-9]+)([smhdw]?)", text, re.I)
    total = sum(int(digits) * UNITS[unit.lower() or b"s"] for digits, unit in runs)
    return total if total < 2**32 else None


def octets(text: bytes) -> bytes | None:
    """The octets of a text in which a backslash escapes three digits or a printable character."""
    out, at = bytearray(), 0
    while at < len(text):
        length, octet = octet_at(text, at)
        if octet is None:
            return None
        out.append(octet)
        at += length
    return bytes(out)


def octet_at(text: bytes, at: int) -> tuple[int, int | None]:
    """The octet that a text has at a place, and how many characters it takes."""
    if text[at] != 0x5C:
        return 1, text[at]
    code = text[at + 1 : at + 4]
    if code[:1].isdigit():
        return 4, int(code) if len(code) == 3 and code.isdigit() and int(code) < 256 else None
    return 2, code[0] if code and 0x20 <= code[0] <= 0x7E else None


def labels(text: bytes) -> tuple[tuple[bytes, ...], bool] | None:
    """The labels of a name in text, and whether it is fully qualified."""
    if text in (b"", b"."):
        return (), text == b"."
    found, label, at = [], bytearray(), 0
    while at < len(text):
        if text[at] == 0x2E:
            found.append(bytes(label))
            label, at = bytearray(), at + 1
            continue
        length, octet = octet_at(text, at)
        if octet is None or length == 1 and not is_plain(text[at], not label):
            return None
        label.append(octet)
        at += length
    is_fqdn = not label
    found += [bytes(label)] if label else []
    good = all(0 < len(it) < 64 for it in found) and sum(len(it) + 1 for it in found) < 255
    return (tuple(found), is_fqdn) if good else None


def name_text(found: tuple[bytes, ...]) -> str:
    """The text of a name, with a dot at its end. An octet that needs an escape has three digits."""
    written = ("".join(chr(it) if is_plain(it, not at) else f"\\{it:03}" for at, it in enumerate(label)) for label in found)
    return "".join(f"{it}." for it in written) or "."


def is_plain(octet: int, is_first: bool) -> bool:
    """Whether a character of a label needs no escape."""
    character = chr(octet)
    if character == "-":
        return not is_first
    if character == "*":
        return is_first
    return character == "_" or character.isascii() and character.isalnum()


def name(text: bytes, origin: tuple[bytes, ...] = ()) -> tuple[bytes, ...] | None:
    """A name, in lower case, which the origin completes if it is relative."""
    found = labels(text)
    if found is None:
        return None
    whole = found[0] if found[1] else found[0] + origin
    return tuple(it.lower() for it in whole) if sum(len(it) + 1 for it in whole) < 255 else None


def address(text: bytes, version: int) -> bytes | None:
    """A literal address of a version."""
    if not re.match(rb"[0-9a-fA-F:.]+\Z", text):
        return None
    try:
        found = ipaddress.ip_address(text.decode())
    except ValueError:
        return None
    return found.packed if found.version == version else None
