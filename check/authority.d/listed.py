"""Questions that the random zones are not asked, and which of the three servers answer them otherwise, as docs/DECISIONS.md lists."""
import struct
from pathlib import Path
from typing import NamedTuple

from messages import ask_stream, question, response

LONG = "x" * 63
# A signature and a key by nobody: no server verifies what it loads.
SIGNED = "13 2 60 20991231000000 20200101000000 1 signed.listed. " + "A" * 86 + "=="
KEY = "256 3 13 " + "A" * 86 + "=="
TOP = "{0} 3600 IN SOA ns.{0} h.{0} 1 3600 600 86400 300\n{0} 3600 IN NS ns.{0}\nns.{0} 60 IN A 192.0.2.1\n"
# The records of each zone, beside those of its origin.
ZONES = {
    "listed.": f"""alias.listed. 60 IN CNAME a.listed.
a.listed. 60 IN A 192.0.2.2
child.listed. 60 IN NS ns.child.listed.
child.listed. 60 IN DS 1 13 2 {"0" * 64}
ns.child.listed. 60 IN A 192.0.2.3
tochild.listed. 60 IN CNAME child.listed.
long.listed. 60 IN DNAME {LONG}.{LONG}.{LONG}.listed.
*.wild.listed. 60 IN DNAME target.listed.
a.target.listed. 60 IN A 192.0.2.4
""",
    "child.listed.": "",
    "lone.example.": "",
    "under.listed.": "",
    "cuts.example.": "*.w.cuts.example. 60 IN NS ns.other.example.\n",
    "signed.listed.": f"""signed.listed. 3600 IN DNSKEY {KEY}
signed.listed. 300 IN NSEC a.signed.listed. NS SOA RRSIG NSEC DNSKEY
a.signed.listed. 60 IN A 192.0.2.5
a.signed.listed. 300 IN NSEC ns.signed.listed. A RRSIG NSEC
ns.signed.listed. 300 IN NSEC signed.listed. A RRSIG NSEC
"""
    + "".join(f"signed.listed. 3600 IN RRSIG {it} {SIGNED}\n" for it in ("SOA", "NS", "DNSKEY", "NSEC"))
    + "".join(f"{it}.signed.listed. 60 IN RRSIG {kind} {SIGNED}\n" for it in ("a", "ns") for kind in ("A", "NSEC")),
}


class Case(NamedTuple):
    """A question, what we answer, and who answers otherwise."""

    title: str
    name: str
    kind: str
    # The code, and the types of the answers and, after a slash, of the authority records, by their owners.
    ours: tuple[str, str]
    others: str = ""
    has_do: bool = False


CASES = [
    Case("NS at a name that a wildcard covers", "a.w.cuts.example.", "NS", ("NoError", "NS /"), "BIND Knot"),
    Case("an address where a wildcard has NS", "a.w.cuts.example.", "A", ("NoError", "/ SOA"), "BIND Knot"),
    Case("NS at a wildcard itself", "*.w.cuts.example.", "NS", ("NoError", "NS /"), "BIND Knot NSD"),
    Case("NSEC at an alias that has none", "alias.listed.", "NSEC", ("NoError", "CNAME / SOA"), "BIND Knot"),
    Case("DS whose alias leads to the origin of a child", "tochild.listed.", "DS", ("NoError", "DS CNAME /")),
    Case("DS at an origin whose parent is elsewhere", "lone.example.", "DS", ("NoError", "/ SOA")),
    Case("DS at an origin that its parent does not delegate", "under.listed.", "DS", ("NXDomain", "/ SOA"), "NSD"),
    Case("SOA at a name that does not exist", "no.listed.", "SOA", ("NXDomain", "/ SOA")),
    Case("a name that becomes too long", f"{LONG}.long.listed.", "A", ("YXDomain", "DNAME /"), "Knot"),
    Case("DNAME at a name that a wildcard covers", "b.wild.listed.", "DNAME", ("NoError", "DNAME /")),
    Case("a name below one that a DNAME of a wildcard covers", "a.b.wild.listed.", "A", ("NoError", "/ SOA")),
    Case("a signed address, with DO", "a.signed.listed.", "A", ("NoError", "A /"), "BIND Knot NSD", True),
    Case("no records in a signed zone, with DO", "a.signed.listed.", "TXT", ("NoError", "/ SOA"), "BIND Knot NSD", True),
    Case("a signed address, without DO", "a.signed.listed.", "A", ("NoError", "A /")),
]


def write_listed(folder: Path) -> list[str]:
    """Writes the zones, and returns their origins."""
    for origin, records in ZONES.items():
        (folder / f"{origin}zone").write_text(TOP.format(origin) + records)
    return list(ZONES)


def listed_failures(ports: dict[str, int], port: int) -> int:
    """Asks each question, prints who answers otherwise, and counts the cases in which our answer or that is not as listed."""
    failures = 0
    for case in CASES:
        request = question(case.name, case.kind, 7)
        if case.has_do:
            request = request[:11] + b"\1" + request[12:] + struct.pack("!BHHIH", 0, 41, 4096, 0x8000, 0)
        ours = told(ask_stream(port, request))
        others = " ".join(server for server, it in ports.items() if told(ask_stream(it, request)) != ours)
        kinds = " / ".join(" ".join(it[1] for it in section) for section in ours[2:4]).strip()
        is_listed = (ours[0], kinds) == case.ours and others == case.others
        failures += not is_listed
        print(f"{case.title}: {ours[0]}, {kinds}; {others or 'nobody'} otherwise{'' if is_listed else ': NOT AS LISTED'}")
    return failures


def told(message: bytes | None) -> tuple:
    """Code, AA, answers, and the authority records but NS and their signatures, which some servers add to each answer."""
    if message is None:
        return ("none", False, [], [])
    code, authority, (answers, authorities, _) = response(message)
    return code, authority, sorted(answers), sorted(it for it in authorities if it[1] != "NS" and not it[3].startswith("0002"))
