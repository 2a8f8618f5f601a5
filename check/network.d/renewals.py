"""Updates by the program, and lookups of what they made."""
import contextlib
from typing import List, NamedTuple

from asked import ORIGIN, Asked, addresses_of
from asking import Resolver
from given import Given
from processes import free_port
from report import Report


class Change(NamedTuple):
    """An update, its status and code, what the zone then has at a name, by type, and whether records have changed."""

    text: str
    status: int
    code: str
    name: str
    rtype: str
    data: List[str]
    has_effect: bool = True


CHANGES = [
    Change("append new 60 A 10.5.0.1", 0, "NoError", "new", "A", ["10.5.0.1"]),
    Change("append new 60 A 10.5.0.2", 0, "NoError", "new", "A", ["10.5.0.1", "10.5.0.2"]),
    Change("append NEW.o.test. 60 A 10.5.0.2", 0, "NoError", "new", "A", ["10.5.0.1", "10.5.0.2"], False),
    Change("create new 60 A 10.5.0.3", 1, "YXRRSet", "new", "A", ["10.5.0.1", "10.5.0.2"]),
    Change("create made 60 A 10.5.0.4", 0, "NoError", "made", "A", ["10.5.0.4"]),
    Change("create made 60 A 10.5.0.4", 1, "YXRRSet", "made", "A", ["10.5.0.4"]),
    Change("swap made 30 A 10.5.0.4 -> 10.5.0.5", 0, "NoError", "made", "A", ["10.5.0.5"]),
    Change("swap made 30 A 10.5.0.4 -> 10.5.0.6", 1, "NXRRSet", "made", "A", ["10.5.0.5"]),
    Change("swap new 30 A 10.5.0.1 -> 10.5.0.6", 1, "NXRRSet", "new", "A", ["10.5.0.1", "10.5.0.2"]),
    Change('append new 60 TXT "two words" one', 0, "NoError", "new", "TXT", ['"two words" "one"']),
    Change("append new 60 MX 10 made", 0, "NoError", "new", "MX", ["10 made.o.test."]),
    Change("delete-record new A 10.5.0.1", 0, "NoError", "new", "A", ["10.5.0.2"]),
    Change("delete-record new A 10.5.0.9", 0, "NoError", "new", "A", ["10.5.0.2"], False),
    Change("delete-set new A", 0, "NoError", "new", "A", []),
    Change("delete-set new A", 0, "NoError", "new", "MX", ["10 made.o.test."], False),
    Change("delete-name new", 0, "NoError", "new", "MX", []),
    Change("delete-name new", 0, "NoError", "new", "TXT", [], False),
    Change("append o.test. 60 TXT apex", 0, "NoError", "", "TXT", ['"apex"']),
    Change("append o.test. 60 MX 5 @", 0, "NoError", "", "MX", [f"5 {ORIGIN}"]),
    # The last NS record of an origin stays (RFC 2136 section 3.4.2.4).
    Change("delete-set o.test. NS", 0, "NoError", "", "NS", [f"ns.{ORIGIN}"], False),
    Change("append al 60 CNAME made", 0, "NoError", "al", "CNAME", [f"made.{ORIGIN}"]),
    Change("append al 60 A 10.5.0.7", 0, "NoError", "al", "CNAME", [f"made.{ORIGIN}"], False),
]


def try_updates(report: Report, given: Given) -> None:
    """Each form of an update, over UDP and TCP, and lookups of what it made."""
    for options in ([], ["--tcp"]):
        with Asked(given, options=options) as asked:
            for change in CHANGES:
                run = asked.resolver.run("--update", change.text, "--zone", ORIGIN)
                title = f"{' '.join(options)} {change.text}"
                report.check(title, (change.status, True), (run.status, change.code in run.output + run.errors))
                (request,) = asked.requests(1)
                wanted = (5, ORIGIN, "tcp" if options else "udp", change.code == "NoError" and change.has_effect)
                got = (request.opcode, request.name.lower(), request.transport, request.updated)
                report.check(f"{title}: request", wanted, got)
                name = f"{change.name}.{ORIGIN}".lstrip(".")
                run = asked.resolver.run(name, "-t", change.rtype)
                found = [line.split(None, 4) for line in run.output.splitlines()]
                report.check(f"{title}: then", change.data, [it[4] for it in found if it[3] == change.rtype])
                asked.requests(1)
            (outcome,) = asked.resolver.ask([f"al.{ORIGIN} A"])
            report.check("an alias that an update made", ["10.5.0.5"], addresses_of(outcome))
    try_failing_updates(report, given)


def try_failing_updates(report: Report, given: Given) -> None:
    """Updates that are refused, that go on to the next server, and that no server answers."""
    update = ["--update", "append u 60 A 10.5.1.1", "--zone", ORIGIN]
    with Asked(given, options=["--timeout", "0.3"]) as asked:
        run = asked.resolver.run("--update", "append u.elsewhere. 60 A 10.5.1.1", "--zone", ORIGIN)
        report.check("an update of a name outside of its zone", (True, 0), (run.status != 0, len(asked.server.requests())))
        run = asked.resolver.run("--update", "append u 60 A 10.5.1.1", "--zone", "elsewhere.example.")
        report.check("an update of no zone of the server", True, run.status != 0 and "NotAuth" in run.output + run.errors)
    with contextlib.ExitStack() as started:
        silent = started.enter_context(Asked(given, faults="* SOA drop\n"))
        good = started.enter_context(Asked(given))
        servers = [(it.server.address, it.server.port) for it in (silent, good)]
        resolver = started.enter_context(Resolver(given.program, servers, ["--timeout", "0.3"]))
        run = resolver.run(*update)
        report.check("an update by the next server", (0, True), (run.status, 0.3 <= run.seconds < 0.6))
        report.check("its requests", [1, 1], [len(it.requests(1)) for it in (silent, good)])
    with Resolver(given.program, [("127.0.0.1", free_port())], ["--timeout", "0.3"]) as resolver:
        run = resolver.run(*update)
        report.check("an update that no server answers", (3, True), (run.status, bool(run.errors)))
