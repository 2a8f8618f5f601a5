"""Options of the program: transports, search lists, the hosts file, and traces."""
import re
from typing import List, Optional, Tuple

from asked import ORIGIN, ROOT, ZONE, Asked, addresses_of, attempted, found_in_root, why_not_bound
from given import Given
from report import Report
from zones import name_text

def try_transports(report: Report, given: Given) -> None:
    """UDP and TCP, IPv6, with EDNS and without."""
    for options, transport, has_edns in (([], "udp", True), (["--tcp"], "tcp", True), (["--no-edns"], "udp", False)):
        with Asked(given, options=options) as asked:
            outcomes = asked.resolver.ask([f"a.{ORIGIN} A", f"no.{ORIGIN} A", f"mail.{ORIGIN} MX"])
            report.check(f"{options}: found", ["found", "nothing", "found"], [it.status for it in outcomes])
            requests = asked.requests(3)
            report.check(f"{options}: transports", [transport] * 3, [it.transport for it in requests])
            # A reply has an OPT record exactly if the request has one, and that of mail servers has their addresses. The question of
            # `a.o.test.` takes 10 and 4 bytes.
            edns = int(has_edns)
            report.check(f"{options}: EDNS", [edns, edns, edns + 2], [it.additionals for it in requests])
            size = 12 + len(f".a.{ORIGIN}") + 4 + (11 if has_edns else 0)
            report.check(f"{options}: bytes", size, requests[0].request_bytes)
            report.check(f"{options}: opcode and class", [(0, "IN")] * 3, [(it.opcode, it.rclass) for it in requests])
    # A reply with 2,000 addresses has about 50,000 bytes, which only a stream has room for.
    large = [f"10.{at >> 8}.{at & 255}.9" for at in range(2000)]
    zone = ZONE + "".join(f"\nlarge.{ORIGIN} 60 IN A {it}" for it in large)
    with Asked(given, zone) as asked:
        (outcome,) = asked.resolver.ask([f"large.{ORIGIN} A"])
        report.check("a reply of 50,000 bytes", (large, 2), (addresses_of(outcome), outcome.questions))
        report.check("its requests", ["udp", "tcp"], [it.transport for it in asked.requests(2)])
    reason = why_not_bound("::1", 0)
    if reason:
        report.skip("a server with an IPv6 address", reason)
        return
    with Asked(given, address="::1") as asked:
        (outcome,) = asked.resolver.ask([f"a.{ORIGIN} A"])
        report.check("a server with an IPv6 address", ["10.0.0.1"], addresses_of(outcome))
        (outcome,) = asked.resolver.ask([f"a.{ORIGIN} A"], "--tcp")
        report.check("a server with an IPv6 address, over TCP", ["10.0.0.1"], addresses_of(outcome))
        report.check("its requests", ["udp", "tcp"], [it.transport for it in asked.requests(2)])


# Records of further types, as a zone file and the program write them.
TYPES = [
    'c.o.test. 60 IN CAA 0 issue "ca.example"',
    "h.o.test. 60 IN HTTPS 1 . alpn=h2,h3 port=8443",
    "t.o.test. 60 IN TLSA 3 1 1 0011223344556677889900112233445566778899001122334455667788990011",
    "r.o.test. 60 IN RP host.o.test. .",
    "u.o.test. 60 IN TYPE65280 \\# 2 abcd",
]


def try_types(report: Report, given: Given) -> None:
    """Data by the fields of its type, and updates with it."""
    with Asked(given, ZONE + "".join(f"\n{it}" for it in TYPES)) as asked:
        for line in TYPES:
            name, _ttl, _class, kind, *_data = line.split()
            run = asked.resolver.run(name, "-t", kind)
            report.check(f"types: {kind}", (f"{line}\n", 0), (run.output, run.status))
        run = asked.resolver.run("--update", 'append n 60 CAA 0 iodef "mailto:x"', "--zone", ORIGIN)
        report.check("types: an update", ("NoError\n", 0), (run.output, run.status))
        run = asked.resolver.run(f"n.{ORIGIN}", "-t", "CAA")
        report.check("types: what it adds", (f'n.{ORIGIN} 60 IN CAA 0 iodef "mailto:x"\n', 0), (run.output, run.status))


BOTH = ["one.test.", "two.test."]
# A name, the value of `--ndots`, and the search list.
SEARCHES: List[Tuple[str, Optional[int], List[str]]] = [
    ("www", None, BOTH),
    ("www", None, ["two.test", "one.test"]),
    ("www", None, ["one.test.", "one.test."]),
    ("www", None, []),
    ("www", 0, ["one.test."]),
    ("www.", None, ["one.test."]),
    ("host", None, BOTH),
    ("host", 0, ["one.test."]),
    ("x.host", None, BOTH),
    ("x.host", 2, BOTH),
    ("a.b", None, ["c.one.test."]),
    ("a.b", 2, ["c.one.test."]),
    ("a.b", 3, ["x.one.test.", "c.one.test."]),
    ("a.b.c", 15, ["one.test."]),
    ("mx", None, BOTH),
    ("none", None, BOTH),
]
# A hosts file: comments, aliases, both types, and an address with a zone index.
HOSTS = """\
# comment
10.9.0.1 named.o.test Alias # more
2001:db8:9::1\tnamed.o.test
10.9.0.2 named.o.test
fe80::1%lo bad
10.9.0.3 a.o.test
"""


def try_search(report: Report, given: Given) -> None:
    """The search list and `--ndots`: which names are asked for, in which order."""
    with Asked(given, ROOT, ["--strategy", "ipv4"]) as asked:
        for name, ndots, search in SEARCHES:
            words = [word for it in search for word in ("--search", it)] + ([] if ndots is None else ["--ndots", ndots])
            names, addresses = found_in_root(attempted(name, 1 if ndots is None else ndots, search))
            run = asked.resolver.run("--json", name, *words)
            (outcome,) = run.outcomes()
            title = f"{name} {words}"
            report.check(title, (addresses, len(names)), (addresses_of(outcome), outcome.questions))
            report.check(f"{title}: names", names, [it.name for it in asked.requests(len(names))])
            report.check(f"{title}: name", name, outcome.name)


def try_local(report: Report, given: Given) -> None:
    """The hosts file, literal addresses, and names of special use: what asks nothing."""
    with Asked(given, hosts=HOSTS) as asked:
        for line, addresses, questions in (
            ("named.o.test.", ["2001:db8:9::1", "10.9.0.1", "10.9.0.2"], 0),
            ("NAMED.o.test", ["2001:db8:9::1", "10.9.0.1", "10.9.0.2"], 0),
            ("named.o.test. A", ["10.9.0.1", "10.9.0.2"], 0),
            ("named.o.test. AAAA", ["2001:db8:9::1"], 0),
            ("alias", ["10.9.0.1"], None),
            ("a.o.test. A", ["10.9.0.3"], 0),
            ("a.o.test. AAAA", ["2001:db8::1"], 1),
            ("b.o.test. A", ["10.0.0.2"], 1),
            ("10.2.3.4", ["10.2.3.4"], 0),
            ("2001:db8::77", ["2001:db8::77"], 0),
            ("localhost. A", ["127.0.0.1"], 0),
            ("x.localhost. AAAA", ["::1"], 0),
        ):
            (outcome,) = asked.resolver.ask([line])
            got = (addresses_of(outcome), None if questions is None else outcome.questions)
            report.check(f"hosts: {line}", (addresses, questions), got)
        # The file has the target of the alias, and the zone hasn't.
        for line, code in (("to-hosts.o.test. A", "NXDomain"), ("x.invalid. A", "NXDomain"), ("x.onion. A", "NXDomain")):
            (outcome,) = asked.resolver.ask([line])
            report.check(f"hosts: {line}", ("nothing", code), (outcome.status, outcome.code))
        (outcome,) = asked.resolver.ask(["1.0.9.10.in-addr.arpa. PTR"])
        names = [name_text(it.data[0]).lower() for it in outcome.records]
        report.check("hosts: the names of an address", ({"named.o.test.", "alias."}, 0), (set(names), outcome.questions))
        (outcome,) = asked.resolver.run("--json", "-x", "10.9.0.1").outcomes()
        names = [name_text(it.data[0]).lower() for it in outcome.records]
        report.check("hosts: the names of an address by -x", ({"named.o.test.", "alias."}, 0), (set(names), outcome.questions))
        run = asked.resolver.run("-x", "10.9.0.3")
        report.check("a reverse name by -x", ("3.0.9.10.in-addr.arpa. 86400 IN PTR a.o.test.\n", 0), (run.output.lower().replace(" in ptr ", " IN PTR "), run.status))
        (outcome,) = asked.resolver.run("--json", "named.o.test.", "--hosts", "/nonexistent/hosts").outcomes()
        report.check("no hosts file", ("nothing", "NXDomain"), (outcome.status, outcome.code))


def try_trace(report: Report, given: Given) -> None:
    """The lines of `--trace`, which have the ids and sizes of the server's log."""
    faults = f"silent.{ORIGIN} * drop\nb.{ORIGIN} * truncate\ncut.{ORIGIN} * truncate close 1\n"
    options = ["--timeout", "0.2", "--attempts", "1"]
    with Asked(given, options=options, hosts=HOSTS, faults=faults) as asked:
        where = re.escape(f"127.0.0.1:{asked.server.port}")
        lines = [f"{it}.{ORIGIN} A" for it in ("ns", "b", "ns", "named", "silent", "cut")]
        run = asked.resolver.run("-", "--json", "--trace", lines=lines)
        report.check("a trace leaves the output as it is", len(lines), len(run.outcomes()))
        requests = asked.requests(6)
        first, plain, stream, silent, cut, _ = requests
        patterns = [
            rf"\d+ ms question {re.escape(f'ns.{ORIGIN}')} A",
            sent("udp", where, first),
            received("udp", where, first),
            rf"\d+ ms reply to {re.escape(f'ns.{ORIGIN}')} A: NoError, records in the answer: 1",
            sent("udp", where, plain),
            received("udp", where, plain),
            rf"\d+ ms tcp {where} .*\b{stream.request_bytes} bytes.*",
            rf"\d+ ms tcp {where} .*received {stream.reply_bytes} bytes.*",
            r"\d+ ms .*answered from the cache.*",
            r"\d+ ms .*answered from the hosts.*",
            sent("udp", where, silent),
            rf"\d+ ms udp {where} nothing by the deadline.*",
            sent("udp", where, cut),
            received("udp", where, cut),
            rf"\d+ ms tcp {where} .*failed.*",
        ]
        rest = run.errors.splitlines()
        for pattern in patterns:
            at = next((at for at, line in enumerate(rest) if re.fullmatch(pattern, line)), None)
            report.check(f"a line {pattern}", True, at is not None or rest)
            rest = rest[at + 1 :] if at is not None else rest
        moments = [re.match(r"(\d+) ms ", line) for line in run.errors.splitlines()]
        report.check("each line begins with its moment", [], [it for it in moments if it is None])
        numbers = [int(it[1]) for it in moments if it]
        report.check("moments rise", sorted(numbers), numbers)
        report.check("two ids are not the same", True, first.id != plain.id and plain.id == stream.id)
        report.check("no trace unless it is asked for", "", asked.resolver.run("-", "--json", lines=lines[:1]).errors)
    # The reply of `nameserver` to an update has no sections, as RFC 2136 section 3.8 allows.
    for options, transport in (([], "udp"), (["--tcp"], "tcp")):
        with Asked(given, options=options) as asked:
            for words, question, reply in (
                ([f"ns.{ORIGIN}", "-t", "A"], f"question ns.{ORIGIN} A", f"reply to ns.{ORIGIN} A: NoError, records in the answer: 1"),
                ([f"no.{ORIGIN}", "-t", "A"], f"question no.{ORIGIN} A", f"reply to no.{ORIGIN} A: NXDomain, records in the answer: 0"),
                (["--update", "append u 60 A 10.5.0.1", "--zone", ORIGIN], f"update of {ORIGIN}", "reply to update: NoError"),
                (["--update", "create u 60 A 10.5.0.1", "--zone", ORIGIN], f"update of {ORIGIN}", "reply to update: YXRRSet"),
            ):
                run = asked.resolver.run("--trace", *words)
                (request,) = asked.requests(1)
                where = f"{transport} 127.0.0.1:{asked.server.port}"
                wanted = [
                    question,
                    f"{where} sent {request.request_bytes} bytes, id {request.id}",
                    f"{where} received {request.reply_bytes} bytes, id {request.id}",
                    reply,
                ]
                got = [re.sub(r"^\d+ ms ", "", it) for it in run.errors.splitlines() if re.match(r"\d+ ms ", it)]
                report.check(f"the lines of {words} over {transport}", wanted, got)


def sent(transport: str, where: str, request) -> str:
    return rf"\d+ ms {transport} {where} sent {request.request_bytes} bytes, id {request.id}"


def received(transport: str, where: str, request) -> str:
    return rf"\d+ ms {transport} {where} received {request.reply_bytes} bytes, id {request.id}"
