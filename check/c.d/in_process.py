"""A zone served in process replies as the program `nameserver` does, and its text is the one that dnspython reads.

The program refuses requests that none of its zones is for, before a zone sees them. A zone in process sees every request, so
these are counted apart.

usage: in_process.py PROGRAM COUNT
"""
import random
import socket
import subprocess
import sys
import time

import dns.flags
import dns.message
import dns.name
import dns.rcode
import dns.rdata
import dns.rdataclass
import dns.rdatatype
import dns.update
import dns.zone
from nameserver import NameServer
from rumstrait import Message, Refusal, RumstraitError, Transport, Update, Zone

ORIGIN = "example.com."
TEXT = """\
$ORIGIN example.com.
$TTL 60
@ SOA ns hostmaster ( 1 3600 600 86400 30 )
@ NS ns
ns A 10.0.0.53
www A 10.0.0.1
www AAAA 2001:db8::1
alias CNAME www
far CNAME www.example.net.
@ MX 10 mail
mail A 10.0.0.25
text TXT "a text" "and another"
_sip._tcp SRV 1 2 5060 www
"""
NAMES = "@ ns www alias far mail text _sip._tcp none a.b.www new0 new1 new2".split()
TYPES = "A AAAA NS CNAME MX TXT SRV SOA PTR ANY".split()


def request(draw):
    """A random query or update, as bytes."""
    owner = draw.choice(NAMES)
    if draw.random() < 0.15:
        return update(draw, owner).to_wire()
    name = dns.name.from_text(owner, dns.name.from_text(ORIGIN))
    message = dns.message.make_query(name, draw.choice(TYPES), use_edns=draw.choice([None, 0]), payload=draw.choice([512, 1232, 4096]))
    message.id = draw.randrange(65536)
    message.flags ^= draw.choice([0, dns.flags.RD, dns.flags.CD])
    wire = bytearray(message.to_wire())
    for _ in range(draw.choice([0, 0, 0, 1, 2])):
        wire[draw.randrange(len(wire))] = draw.randrange(256)
    return bytes(wire)


def update(draw, owner):
    """A random update."""
    message = dns.update.Update(ORIGIN)
    message.id = draw.randrange(65536)
    address = f"10.1.0.{draw.randrange(4)}"
    if draw.random() < 0.3:
        message.present(owner) if draw.random() < 0.5 else message.absent(owner, "A")
    draw.choice([
        lambda: message.add(owner, 60, "A", address),
        lambda: message.delete(owner, "A", address),
        lambda: message.delete(owner, "A"),
        lambda: message.replace(owner, 30, "A", address),
    ])()
    return message


def reply_of(asked, link, address):
    """The reply of the program to a request, or nothing if none comes before that to a query after it."""
    after = dns.message.make_query(f"after.{ORIGIN}", "A")
    last = after.to_wire()
    link.sendto(asked, address)
    link.sendto(last, address)
    found = None
    while True:
        reply = link.recv(65535)
        if reply[:2] == last[:2] and b"\x05after" in reply:
            return found
        found = reply


def plain_options(program):
    """The options with which the program answers as a zone does, without wildcards and referrals."""
    said = subprocess.run([program, "--help"], capture_output=True, text=True, timeout=900).stdout
    return ["--plain"] if "--plain" in said else []


def same_replies(program, count):
    """The number of requests whose replies are equal, which are all."""
    draw, refused = random.Random(58), 0
    with NameServer(TEXT, program=program, options=plain_options(program)) as server, Zone.from_text(TEXT, ORIGIN) as zone:
        with socket.socket(socket.AF_INET, socket.SOCK_DGRAM) as link:
            link.settimeout(10)
            address = (server.address, server.port)
            for number in range(count):
                asked = request(draw)
                wanted, got = reply_of(asked, link, address), zone.serve(asked)
                if wanted and wanted[3] & 15 == dns.rcode.REFUSED:
                    refused += 1
                elif wanted != got:
                    raise SystemExit(f"request {number}: {asked.hex()}: {wanted and wanted.hex()} of the program, {got and got.hex()} in process")
    print(f"in process: {count - refused} replies as those of the program, {refused} requests that are for no zone of it")


def same_zone():
    """The text of a zone is one that dnspython reads to the same records."""
    with Zone.from_text(TEXT, ORIGIN) as zone:
        ours = dns.zone.from_text(zone.text(), origin=ORIGIN, relativize=False)
    theirs = dns.zone.from_text(TEXT, origin=ORIGIN, relativize=False)
    assert ours == theirs
    print(f"dnspython: {len(theirs.nodes)} names of a zone's text")


def refusals():
    """Errors by name."""
    for text, origin, wanted in (("www A 1.2.3.4", ORIGIN, Refusal.INVALID_ZONE), (TEXT, "a..b", Refusal.INVALID_NAME), (b"\xff", ORIGIN, Refusal.INVALID_ENCODING)):
        try:
            Zone.from_text(text, origin)
        except RumstraitError as error:
            assert error.refusal == wanted
        else:
            raise SystemExit(f"{wanted!r} is not raised")


# The bit of a header that is reserved and must be 0 (RFC 1035 section 4.1.1). It is not kept.
RESERVED = 0x40


def sections(message):
    """What a message of dnspython says."""
    head = (message.id, message.flags & ~RESERVED, message.edns, message.ednsflags, message.payload)
    return head, [[it.to_text() for it in section] for section in message.sections]


def shown(text):
    """The lines of each section of a message as text: its questions, and its records, without the OPT record."""
    found, lines = [[], [], [], []], None
    for line in text.splitlines():
        if line.startswith(";; ") and line.endswith(" SECTION:"):
            title = line.split()[1]
            place = [("QUESTION", "ZONE"), ("ANSWER", "PREREQUISITE"), ("AUTHORITY", "UPDATE"), ("ADDITIONAL",)]
            lines = found[next(number for number, titles in enumerate(place) if title in titles)]
        elif line.startswith(";; ") or not line:
            lines = None
        elif lines is not None:
            lines.append(line.removeprefix(";"))
    return found


def type_of(word):
    """The type with a name: 0 has one, of hickory's, that dnspython does not know."""
    return 0 if word == "ZERO" else dns.rdatatype.from_text(word)


def record_of(line):
    """The record that dnspython reads in a line; of one without data, which only updates have, no data."""
    owner, ttl, rdclass, kind, data = line.split(" ", 4)
    key = (dns.name.from_text(owner), int(ttl), dns.rdataclass.from_text(rdclass), type_of(kind))
    read_as = dns.rdataclass.IN if key[2] in (dns.rdataclass.NONE, dns.rdataclass.ANY) else key[2]
    return key + (None if data == "\\# 0" else dns.rdata.from_text(read_as, key[3], data, relativize=False),)


def question_of(line):
    """The question that dnspython reads in a line."""
    owner, rdclass, kind = line.split(" ")
    return dns.name.from_text(owner), dns.rdataclass.from_text(rdclass), type_of(kind)


def same_text(text, theirs):
    """Whether the text of a message has the questions and the records that dnspython decodes, in their order."""
    lines = shown(text)
    if [question_of(it) for it in lines[0]] != [(it.name, it.rdclass, it.rdtype) for it in theirs.sections[0]]:
        return False
    for number in (1, 2, 3):
        wanted = []
        for it in theirs.sections[number]:
            rdclass = it.deleting if it.deleting is not None else it.rdclass
            wanted.append((it.name, it.ttl, rdclass, it.rdtype, it[0] if it else None))
        if [record_of(it) for it in lines[number]] != wanted:
            return False
    return True


def same_messages(count):
    """Messages that are encoded again are the ones that dnspython decodes, and their text has the same questions and records."""
    draw = random.Random(1035)
    with Zone.from_text(TEXT, ORIGIN) as zone:
        compared = refused = 0
        while compared < count:
            asked = request(draw)
            for wire in (asked, zone.serve(asked)):
                try:
                    theirs = dns.message.from_wire(wire, ignore_trailing=True, one_rr_per_rrset=True) if wire else None
                except Exception:
                    theirs = None
                try:
                    ours = Message(wire) if wire else None
                except RumstraitError:
                    ours = None
                if not theirs or not ours:
                    refused += 1
                    continue
                again = dns.message.from_wire(ours.encoded(), one_rr_per_rrset=True)
                if sections(again) != sections(theirs):
                    raise SystemExit(f"message {wire.hex()}: encoded again as {ours.encoded().hex()}")
                if not same_text(str(ours), theirs):
                    raise SystemExit(f"message {wire.hex()}: dnspython shows\n{theirs}\nand its text is\n{ours}")
                compared += 1
    print(f"messages: {compared} decoded and shown as by dnspython, {refused} refused by one of both")


# Data of some types: what a dynamic update may have.
DATA = [("A", "10.0.0.9"), ("AAAA", "2001:db8::9"), ("MX", "5 mail"), ("TXT", '"a b" c'), ("SRV", "1 2 53 www"), ("CNAME", "www"),
        ("CAA", '0 issue "ca.test"'), ("SSHFP", "1 1 0123456789abcdef0123456789abcdef01234567"), ("TYPE65280", "\\# 2 abcd")]


def add_item(draw, ours, theirs):
    """Adds the same item to an update of ours and to one of dnspython."""
    owner, ttl = draw.choice(NAMES), draw.randrange(1 << 31)
    name = ORIGIN if owner == "@" else f"{owner}.{ORIGIN}"
    kind, data = draw.choice(DATA)
    draw.choice([
        lambda: (ours.require_name(name), theirs.present(owner)),
        lambda: (ours.forbid_name(name), theirs.absent(owner)),
        lambda: (ours.require_set(name, kind), theirs.present(owner, kind)),
        lambda: (ours.forbid_set(name, kind), theirs.absent(owner, kind)),
        lambda: (ours.require_record(name, kind, data), theirs.present(owner, kind, data)),
        lambda: (ours.add(name, ttl, kind, data), theirs.add(owner, ttl, kind, data)),
        lambda: (ours.delete_record(name, kind, data), theirs.delete(owner, kind, data)),
        lambda: (ours.delete_set(name, kind), theirs.delete(owner, kind)),
        lambda: (ours.delete_name(name), theirs.delete(owner)),
    ])()


def same_updates(count):
    """Updates of any items are those that dnspython makes of them: the same records in the same order."""
    draw = random.Random(2136)
    for _ in range(count):
        ours, theirs = Update(ORIGIN), dns.update.Update(ORIGIN)
        theirs.id = draw.randrange(65536)
        for _ in range(draw.randrange(6)):
            add_item(draw, ours, theirs)
        made = ours.message(id=theirs.id)
        found, wanted = (dns.message.from_wire(it, one_rr_per_rrset=True) for it in (made.to_wire(), theirs.to_wire()))
        if sections(found) != sections(wanted):
            raise SystemExit(f"update {made.to_wire().hex()}: dnspython makes {theirs.to_wire().hex()}")
    print(f"updates: {count} as by dnspython")


def speed():
    """How many requests are served in a second."""
    asked = dns.message.make_query(f"www.{ORIGIN}", "A").to_wire()
    with Zone.from_text(TEXT, ORIGIN) as zone:
        started, count = time.process_time(), 200_000
        for _ in range(count):
            zone.serve(asked, Transport.DATAGRAM)
        print(f"python: {count / (time.process_time() - started):,.0f} requests in a second of processor time")


def main(program, count):
    refusals()
    same_zone()
    same_replies(program, int(count))
    same_messages(5000)
    same_updates(5000)
    speed()


main(*sys.argv[1:])
