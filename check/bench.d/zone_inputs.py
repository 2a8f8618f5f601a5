"""Zone files of so many owners, requests for them, and hosts files of so many lines."""
from collections import namedtuple

HEAD = "$ORIGIN example.com.\n$TTL 3600\n@ SOA ns host 1 3600 600 86400 300\n"
# Seven aliases, each of which leads to the next, and an address at the end.
CHAIN = "".join(f"e{link} CNAME e{link + 1}\n" for link in range(7)) + "e7 A 14.0.0.1\n"
# A delegation with glue, and the addresses of all names below `w`.
CUTS = "s NS ns.s\nns.s A 10.0.0.1\n*.w A 10.0.0.2\n"
# The headers of a query, of an update of one record, and of one of two records with a prerequisite (RFC 1035 section 4.1, RFC 2136
# section 2.2).
QUERY, CHANGE, SWAP = "000701000001000000000000", "000728000001000000010000", "000728000001000100020000"
ORIGIN = b"\x07example\x03com\x00".hex()
# The end of a question: the type A and the class IN; that of the zone section: the type SOA; the numbers of the classes.
A_IN, SOA_IN, IN, NONE = "00010001", "00060001", 1, 254

# What is asked of a zone: the names of two requests by turns. `%` in them is the number of the last group of owners.
Question = namedtuple("Question", "even odd")
QUESTIONS = {
    "serve-a": Question(["a0"], ["a%"]),
    "serve-cname": Question(["c0"], ["c%"]),
    "serve-chain": Question(["e0"], ["e0"]),
    "serve-nxdomain": Question(["n0"], ["n%"]),
    "answer-a": Question(["a0"], ["a%"]),
    "answer-referral": Question(["www", "s"], ["mail", "s"]),
    "answer-wildcard": Question(["www", "w"], ["mail", "w"]),
}


def groups_of(owners):
    """How many groups of four owners a zone has, beside the eight of its chain."""
    return owners // 4


def zone_text(owners, cuts=""):
    """A zone file, in which each group of four owners has eight records."""
    parts = [HEAD]
    for group in range(groups_of(owners)):
        high, middle, low = group // 65_536, group // 256 % 256, group % 256
        number = f"{high}.{middle}.{low}"
        parts.append(f"a{group} A 10.{number}\n A 11.{number}\nb{group} A 12.{number}\n AAAA 2001:db8::{high:x}:{middle:x}:{low:x}\n")
        parts.append(f"c{group} CNAME a{group}\nd{group} A 13.{number}\n MX 10 a{group}\n TXT \"text {group}\"\n")
    return "".join([*parts, CHAIN, cuts])


def label(text):
    """A label, in hexadecimal digits."""
    return f"{len(text):02x}{text.encode().hex()}"


def question(labels):
    """A request for the addresses of a name of these labels below the origin."""
    return QUERY + "".join(label(it) for it in labels) + ORIGIN + A_IN


def address(owner, kind, ttl, number):
    """A record of type A, whose owner is a label below the name at offset 12, and its class IN or NONE."""
    return f"{label(owner)}c00c0001{kind:04x}{ttl:08x}00040a0400{number:02x}"


def exchange(current, new):
    """An update that replaces an address of an owner, which has that one alone, by another."""
    return SWAP + ORIGIN + SOA_IN + address("e7", IN, 0, current) + address("e7", NONE, 0, current) + address("e7", IN, 60, new)


def requests(what, owners):
    """Two requests, in hexadecimal digits."""
    if what == "update-add":
        return [CHANGE + ORIGIN + SOA_IN + address("x0", kind, ttl, 1) for kind, ttl in ((IN, 60), (NONE, 0))]
    if what == "update-swap":
        return [exchange(1, 2), exchange(2, 1)]
    last = str(groups_of(owners) - 1)
    return [question([it.replace("%", last) for it in labels]) for labels in QUESTIONS[what]]


def hosts_text(what, lines):
    """A hosts file of so many names with an address each, of one name with so many addresses, or of one address with so many names."""
    return "".join(host_line(0 if what == "hosts-read-names" else i, 0 if what == "hosts-read-addresses" else i) for i in range(lines))


def host_line(number, name):
    """A line of an address and a name, both by their numbers."""
    return f"10.{number // 65_536 % 256}.{number // 256 % 256}.{number % 256} {name}.example.com\n"
