"""Which records of a reply are taken (RFC 1034 section 3.6.2, RFC 2181 section 10.1): those to which the question leads.

A server of this file answers each question with the records of a case, whatever they are. What the program prints is to be what a
resolver may believe: it asked this server for one name, and the server says something of others.
"""
import contextlib
import socket
import struct
import threading
from typing import List, NamedTuple, Sequence

from asking import Resolver
from given import Given
from report import Report
from transport import Address

TYPES = {"A": 1, "NS": 2, "CNAME": 5, "SOA": 6, "MX": 15, "TXT": 16, "AAAA": 28, "SRV": 33, "DNAME": 39, "ANY": 255}
CLASSES = {"IN": 1, "CH": 3}
TTL = 60
# The name that each case asks for, and the address that none may give.
NAME, FALSE = "victim.x.", "6.6.6.6"


class Case(NamedTuple):
    """A question, the sections of the reply, each a list of lines, the response code, and the status and lines that are wanted."""

    title: str
    kind: str
    answers: Sequence[str]
    wanted: Sequence[str]
    authorities: Sequence[str] = ()
    additionals: Sequence[str] = ()
    code: int = 0
    status: int = 0
    name: str = NAME


def chain(count: int) -> List[str]:
    """So many aliases, from the name on, and an address at their end."""
    names = [NAME] + [f"c{at}.x." for at in range(1, count + 1)]
    return [f"{one} CNAME {other}" for one, other in zip(names, names[1:])] + [f"{names[-1]} A 10.0.0.1"]


def own(address: str = "10.0.0.1", name: str = NAME) -> str:
    """A record as the program prints it."""
    return f"{name} {TTL} IN A {address}"


CASES = [
    Case("another name alone", "A", ["bank.y. A 6.6.6.6"], [], status=1),
    Case("another name beside", "A", [f"{NAME} A 10.0.0.1", "bank.y. A 6.6.6.6"], [own()]),
    Case("another name before", "A", ["bank.y. A 6.6.6.6", f"{NAME} A 10.0.0.1"], [own()]),
    Case("a name below", "A", [f"www.{NAME} A 6.6.6.6", f"{NAME} A 10.0.0.1"], [own()]),
    Case("the name above", "A", ["x. A 6.6.6.6", f"{NAME} A 10.0.0.1"], [own()]),
    Case("the case of letters", "A", ["VICTIM.x. A 10.0.0.1"], [own(name="VICTIM.x.")]),
    Case("an alias, its target and another name", "A", [*chain(1), "bank.y. A 6.6.6.6"], [own(name="c1.x.")]),
    Case("the target before the alias", "A", list(reversed(chain(1))), [own(name="c1.x.")]),
    Case("three aliases in another order", "A", [chain(3)[at] for at in (2, 0, 3, 1)], [own(name="c3.x.")]),
    Case("seven aliases", "A", chain(7), [own(name="c7.x.")]),
    Case("an alias and other data at one name", "A", [f"{NAME} A 6.6.6.6", *chain(1)], [own(name="c1.x.")]),
    Case("two aliases at one name", "A", [*chain(1), f"{NAME} CNAME bank.y.", "bank.y. A 6.6.6.6"], [own(name="c1.x.")]),
    Case("an alias of another name", "A", ["bank.y. CNAME victim.x.", "bank.y. A 6.6.6.6"], [], status=1),
    Case("a target that no alias names", "A", [f"{NAME} CNAME c1.x.", "c2.x. A 6.6.6.6"], [], ["x. SOA"], status=1),
    Case("a loop of aliases", "A", [f"{NAME} CNAME c1.x.", f"c1.x. CNAME {NAME}"], [], ["x. SOA"], status=1),
    Case("an address in the additional section", "A", [], [], additionals=[f"{NAME} A 6.6.6.6"], status=1),
    Case("an address in the authority section", "A", [], [], [f"{NAME} A 6.6.6.6"], status=1),
    Case("name servers of a referral", "NS", [], [], [f"{NAME} NS ns.bank.y."], ["ns.bank.y. A 6.6.6.6"], status=1),
    Case("another type at the name", "AAAA", [f"{NAME} A 6.6.6.6"], [], status=1),
    Case("another class", "A", [f"{NAME} CH A 6.6.6.6", f"{NAME} A 10.0.0.1"], [own()]),
    Case("all types", "ANY", [f"{NAME} A 10.0.0.1", "bank.y. A 6.6.6.6"], [own()]),
    Case("an alias that is asked for", "CNAME", chain(1), [f"{NAME} {TTL} IN CNAME c1.x."]),
    Case("a DNAME record and its alias", "A", ["x. DNAME y.", f"{NAME} CNAME victim.y.", "victim.y. A 10.0.0.1"],
         [own(name="victim.y.")]),
    Case("an SOA record of another zone", "A", [], [], ["bank.y. SOA"], status=1),
    Case("a name that does not exist, and another", "A", ["bank.y. A 6.6.6.6"], [], ["x. SOA"], code=3, status=1),
]


def wire(name: str) -> bytes:
    return b"".join(bytes([len(it)]) + it.encode() for it in name.strip(".").split(".") if it) + b"\0"


def data(kind: str, text: str) -> bytes:
    """The data of a record."""
    if kind == "A":
        return socket.inet_aton(text)
    if kind == "SOA":
        return wire("ns.x.") + wire("h.x.") + struct.pack("!5I", 1, 3600, 600, 86400, 30)
    return wire(text)


def record(line: str) -> bytes:
    """A record of a line: owner, class unless that is IN, type and data."""
    owner, *words = line.split()
    kept = CLASSES[words.pop(0)] if words[0] in CLASSES else 1
    kind, text = words[0], " ".join(words[1:])
    rest = data(kind, text)
    return wire(owner) + struct.pack("!2HIH", TYPES[kind], kept, TTL, len(rest)) + rest


def reply_to(request: bytes, case: Case) -> bytes:
    """The reply of a case to the question for its name. To any other question there is a reply without records."""
    end = request.index(b"\0", 12) + 5
    asked = request[12:end]
    is_case = asked[:-4].lower() == wire(case.name) and asked[-4:-2] == struct.pack("!H", TYPES[case.kind])
    sections = (case.answers, case.authorities, case.additionals) if is_case else ((), ("x. SOA",), ())
    code = case.code if is_case else 0
    head = request[:2] + struct.pack("!5H", 0x8180 | code, 1, *map(len, sections))
    return head + asked + b"".join(record(line) for lines in sections for line in lines)


class Server:
    """A name server that answers with the records of a case, inside a `with` block."""

    def __init__(self):
        self.case, self.is_closed = None, False

    def __enter__(self) -> "Server":
        self.socket = socket.socket(socket.AF_INET, socket.SOCK_DGRAM)
        self.socket.bind(("127.0.0.1", 0))
        self.socket.settimeout(0.2)
        self.thread = threading.Thread(target=self.serve, daemon=True)
        self.thread.start()
        return self

    def __exit__(self, *_) -> None:
        self.is_closed = True
        self.thread.join(10)
        self.socket.close()

    @property
    def address(self) -> Address:
        return self.socket.getsockname()

    def serve(self) -> None:
        while not self.is_closed:
            with contextlib.suppress(OSError):
                request, peer = self.socket.recvfrom(65535)
                self.socket.sendto(reply_to(request, self.case), peer)


def try_answers(report: Report, given: Given) -> None:
    """Tries each case, with and without the cache."""
    report.begin()
    with Server() as server:
        for case in CASES:
            server.case = case
            with Resolver(given.program, [server.address], ["--timeout", 2, "--attempts", 1]) as resolver:
                run = resolver.run(case.name, "-t", case.kind)
                found = (run.status, sorted(run.output.splitlines()))
                report.check(f"{case.title}: {case.name} {case.kind}", (case.status, sorted(case.wanted)), found)
                report.check(f"{case.title}: the false address", False, FALSE in run.output)
    report.end("records that the question leads to")
