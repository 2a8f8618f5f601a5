"""Lookups by resolv.conf(5), which names servers at port 53."""
import contextlib
import socket
import time
from typing import Dict, List, Sequence

from asked import ROOT, addresses_of, attempted, found_in_root, why_not_bound
from asking import Resolver, Run
from given import Given
from nameserver import NameServer
from report import Report

SYSTEM_ADDRESSES = [f"127.53.0.{at}" for at in range(1, 5)]
PORT = 53


class System:
    """Servers at port 53, and lookups with a resolv.conf that names some of them, inside a `with` block."""

    def __init__(self, given: Given):
        self.given, self.stack = given, contextlib.ExitStack()
        self.servers: Dict[str, NameServer] = {}

    def __enter__(self) -> "System":
        return self

    def __exit__(self, *given) -> None:
        self.stack.__exit__(*given)

    def start(self, address: str, faults: str = "", zone: str = ROOT) -> None:
        server = NameServer(zone, faults=faults, address=address, port=PORT, program=self.given.nameserver, seconds=60)
        self.servers[address] = self.stack.enter_context(server)

    def look_up(self, text: str, lines: Sequence[str], *options: object) -> Run:
        """Lookups with the text of a resolv.conf."""
        with Resolver(self.given.program, (), ["--strategy", "ipv4"]) as resolver:
            file = resolver.write("system.conf", text)
            return resolver.run("-", "--json", "--resolv-conf", file, *options, lines=lines, seconds=60)


def try_system(report: Report, given: Given) -> None:
    """resolv.conf(5): servers, their number, the search list, and options."""
    reason = next(filter(None, (why_not_bound(it, PORT) for it in SYSTEM_ADDRESSES)), None)
    if reason:
        report.skip("resolv.conf", reason)
        return
    one, two, three, four = SYSTEM_ADDRESSES
    names = [f"{it}.test." for it in ("www.one", "www.two", "mx.two")]
    found = [["10.1.0.1"], ["10.1.0.2"], ["10.1.0.7"]]
    with System(given) as system:
        for address in (one, two, three):
            system.start(address)
        outcomes = system.look_up(f"nameserver {one}\n", names).outcomes()
        report.check("a file with a server", found, [addresses_of(it) for it in outcomes])
        for title, work in (
            ("servers", try_system_servers),
            ("options", try_system_options),
            ("search", try_system_search),
        ):
            report.attempt(f"resolv.conf: {title}", work, system, (one, two, three, four))


def counts(system: System) -> List[int]:
    return [len(it.requests()) for it in system.servers.values()]


def try_system_servers(report: Report, system: System, addresses: Sequence[str]) -> None:
    one, two, three, four = addresses
    names = [f"n{at}.test." for at in range(6)]
    for title, text, wanted in (
        ("comments and unknown lines", f"# first\n; second\nnameserver {two}\nsortlist 10.0.0.0\nfamily inet6\n", [0, 6, 0]),
        ("tabs and what follows", f"nameserver\t{two}  # not used\n", [0, 6, 0]),
        ("the first that works", f"nameserver {four}\nnameserver {three}\nnameserver {one}\n", [0, 0, 6]),
        ("a scope", f"nameserver fe80::1%lo\nnameserver {two}\n", [0, 6, 0]),
        ("no address", f"nameserver here\nnameserver {two}\n", [0, 6, 0]),
        ("in turn", f"nameserver {one}\nnameserver {two}\nnameserver {three}\noptions rotate\n", [2, 2, 2]),
        ("in turn, of two", f"options rotate\nnameserver {three}\nnameserver {two}\n", [0, 3, 3]),
        ("in their order", f"nameserver {one}\nnameserver {two}\nnameserver {three}\n", [6, 0, 0]),
    ):
        before = counts(system)
        outcomes = system.look_up(text, names).outcomes()
        report.check(f"{title}: outcomes", ["nothing"] * 6, [it.status for it in outcomes])
        after = settled(system, [old + new for old, new in zip(before, wanted)])
        report.check(f"{title}: requests", wanted, [new - old for old, new in zip(before, after)])
    # Of four servers the fourth is not asked (MAXNS): the others here are places without a server.
    nowhere = [f"127.53.1.{at}" for at in (1, 2, 3)]
    text = "".join(f"nameserver {it}\n" for it in [*nowhere, one])
    run = system.look_up(text, names[:1])
    report.check("four servers", (3, "failed"), (run.status, run.outcomes()[0].status))
    text = "".join(f"nameserver {it}\n" for it in [*nowhere[:2], one])
    run = system.look_up(text, names[:1])
    report.check("three servers", (1, "nothing", 3), (run.status, run.outcomes()[0].status, run.outcomes()[0].questions))
    before = counts(system)
    with Resolver(system.given.program, [(two, PORT)], ["--strategy", "ipv4"]) as resolver:
        file = resolver.write("system.conf", f"nameserver {one}\n")
        resolver.run("-", "--json", "--resolv-conf", file, lines=names)
        # An address without a port is at port 53.
        resolver.servers = ["--server", three]
        resolver.run("-", "--json", "--resolv-conf", file, lines=names)
    after = settled(system, [old + new for old, new in zip(before, [0, 6, 6])])
    report.check("--server in place of the file", [0, 6, 6], [new - old for old, new in zip(before, after)])
    reason = why_not_bound("::1", PORT)
    if reason:
        report.skip("resolv.conf with an IPv6 address", reason)
        return
    system.start("::1")
    outcomes = system.look_up("nameserver ::1\n", ["www.one.test."]).outcomes()
    report.check("an IPv6 address", [["10.1.0.1"]], [addresses_of(it) for it in outcomes])
    report.check("its request", 1, len(system.servers["::1"].wait_for_requests(1)))


def settled(system: System, wanted: Sequence[int]) -> List[int]:
    """The counts of requests, as soon as they are what is wanted, or after a second."""
    end = time.monotonic() + 1
    while counts(system)[: len(wanted)] != list(wanted) and time.monotonic() < end:
        time.sleep(0.01)
    return counts(system)


def try_system_options(report: Report, system: System, addresses: Sequence[str]) -> None:
    """Times, attempts and transports."""
    one, four = addresses[0], addresses[3]
    with socket.socket(socket.AF_INET, socket.SOCK_DGRAM) as silent:
        silent.bind((four, PORT))
        for text, options, questions, seconds in (
            ("options timeout:1 attempts:1\n", [], 1, 1),
            ("options timeout:1 attempts:3\n", [], 3, 3),
            ("options timeout:1\n", [], 2, 2),
            ("options attempts:2 debug timeout:1 unknown\n", [], 2, 2),
            ("options timeout:7\noptions timeout:1 attempts:1\n", [], 1, 1),
            ("options timeout:5 attempts:5\n", ["--timeout", "0.3", "--attempts", "2"], 2, 0.6),
        ):
            (outcome,) = system.look_up(f"nameserver {four}\n{text}", ["www.one.test."], *options).outcomes()
            title = f"{text.strip()} {options}: {outcome.milliseconds} ms"
            got = (outcome.status, outcome.code, outcome.questions)
            report.check(f"{title}: questions", ("failed", None, questions), got)
            report.check(title, True, seconds - 0.005 <= outcome.milliseconds / 1000 <= seconds + 0.3)
        text = f"nameserver {four}\nnameserver {one}\noptions timeout:1\n"
        (outcome,) = system.look_up(text, ["www.one.test."]).outcomes()
        report.check("a silent first server", (["10.1.0.1"], 2), (addresses_of(outcome), outcome.questions))
        report.check(f"it costs a time-out: {outcome.milliseconds} ms", True, 0.995 <= outcome.milliseconds / 1000 <= 1.3)
    seen = counts(system)[0]
    for text, transport in (("options use-vc\n", "tcp"), ("", "udp"), ("options edns0 use-vc\n", "tcp")):
        outcomes = system.look_up(f"nameserver {one}\n{text}", ["www.one.test.", "none.test."]).outcomes()
        report.check(f"{text!r}: outcomes", ["found", "nothing"], [it.status for it in outcomes])
        requests = system.servers[one].wait_for_requests(seen + 2)[seen:]
        seen += len(requests)
        report.check(f"{text!r}: transports", [transport] * 2, [it.transport for it in requests])
    for text, words, additionals in (("options edns0\n", [], 1), ("options edns0\n", ["--no-edns"], 0)):
        system.look_up(f"nameserver {one}\n{text}", ["www.one.test."], *words)
        requests = system.servers[one].wait_for_requests(seen + 1)[seen:]
        seen += len(requests)
        report.check(f"{text!r} {words}: EDNS", [additionals], [it.additionals for it in requests])


def try_system_search(report: Report, system: System, addresses: Sequence[str]) -> None:
    """`search`, `domain` and `ndots`: which names are asked for, in which order."""
    server = system.servers[addresses[0]]
    for text, name, ndots, search in (
        ("search one.test two.test\n", "www", 1, ["one.test", "two.test"]),
        ("search two.test one.test\n", "www", 1, ["two.test", "one.test"]),
        ("domain two.test\n", "www", 1, ["two.test"]),
        ("domain two.test\nsearch one.test\n", "www", 1, ["one.test"]),
        ("search one.test\ndomain two.test\n", "www", 1, ["two.test"]),
        ("search one.test\nsearch two.test\n", "www", 1, ["two.test"]),
        ("search one.test two.test\noptions ndots:2\n", "x.host", 2, ["one.test", "two.test"]),
        ("search one.test two.test\n", "x.host", 1, ["one.test", "two.test"]),
        ("search one.test\noptions ndots:0\n", "host", 0, ["one.test"]),
        ("search one.test two.test\n", "none", 1, ["one.test", "two.test"]),
        ("search one.test two.test\n", "www.", 1, ["one.test", "two.test"]),
        ("", "host", 1, []),
    ):
        seen = len(server.requests())
        names, found = found_in_root(attempted(name, ndots, search))
        (outcome,) = system.look_up(f"nameserver {addresses[0]}\n{text}", [name]).outcomes()
        report.check(f"{text!r} {name}", (found, len(names)), (addresses_of(outcome), outcome.questions))
        requests = server.wait_for_requests(seen + len(names))[seen:]
        report.check(f"{text!r} {name}: names", names, [it.name for it in requests])
    # Options replace what the file has.
    seen = len(server.requests())
    text = f"nameserver {addresses[0]}\nsearch one.test\noptions ndots:5\n"
    (outcome,) = system.look_up(text, ["x.host"], "--search", "two.test", "--ndots", "2").outcomes()
    report.check("--search and --ndots in place of the file", (["10.1.0.4"], 1), (addresses_of(outcome), outcome.questions))
