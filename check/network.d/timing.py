"""How long lookups take, what a silent server costs, and the statuses of the program."""
import contextlib
import socket
import statistics
from typing import List

from asking import Resolver
from given import Given
from nameserver import NameServer
from processes import free_port
from report import Report

ORIGIN = "p.test."
# The goal for one lookup from start to end, in seconds, and for the lookups of one process a second. As a machine may be busy,
# only what misses a goal by a factor is a failure.
START_GOAL, RATE_GOAL, BUSY = 0.010, 5000, 10
STARTS, NAMES, QUICK_NAMES = 50, 10_000, 2000
# The time-out of lookups with a silent server, and what they may take in all, in seconds.
TIMEOUT, MOST = 0.5, 0.65
SILENT_RUNS = 5


def zone_text(count: int) -> str:
    lines = [f"{ORIGIN} 3600 IN SOA ns.{ORIGIN} h.{ORIGIN} 1 3600 600 86400 300"]
    return "\n".join(lines + [f"n{at}.{ORIGIN} 3600 IN A 10.{at >> 8}.{at & 255}.1" for at in range(count)]) + "\n"


def try_start(report: Report, given: Given, server: NameServer) -> None:
    """One lookup, from the start of the process to its end."""
    with Resolver(given.program, [(server.address, server.port)]) as resolver:
        runs = [resolver.run(f"n{at}.{ORIGIN}", "-t", "A") for at in range(STARTS)]
        report.check("lookups that are measured", {(0, "")}, {(it.status, it.errors) for it in runs})
        seconds = [it.seconds for it in runs]
        median = statistics.median(seconds)
        print(
            f"a lookup from start to end: median {median * 1e3:.2f} ms, least {min(seconds) * 1e3:.2f} ms "
            f"(goal: {START_GOAL * 1e3:g} ms)",
            flush=True,
        )
        report.check(f"a lookup takes {median * 1e3:.2f} ms", True, median <= START_GOAL * BUSY)


def try_rate(report: Report, given: Given, server: NameServer, count: int) -> None:
    """Different names of one process, and then the same names from its cache."""
    names = [f"n{at}.{ORIGIN} A" for at in range(count)]
    with Resolver(given.program, [(server.address, server.port)]) as resolver:
        once, twice = resolver.run("-", "--json", lines=names), resolver.run("-", "--json", lines=[*names, *names])
        outcomes = once.outcomes()
        found = [[it.data[0] for it in outcome.records] for outcome in outcomes]
        report.check("what many lookups find", [[bytes([10, at >> 8, at & 255, 1])] for at in range(count)], found)
        report.check("questions of many lookups", {1}, {it.questions for it in outcomes})
        again = twice.outcomes()[count:]
        report.check("what many lookups find again", found, [[it.data[0] for it in outcome.records] for outcome in again])
    rate = count / once.seconds
    print(f"{count:,} names of one process: {rate:,.0f} a second (goal: {RATE_GOAL:,})", flush=True)
    report.check(f"{rate:,.0f} lookups a second", True, rate >= RATE_GOAL / BUSY)


def try_silence(report: Report, given: Given, server: NameServer) -> None:
    """A silent first server costs one time-out, once."""
    with contextlib.ExitStack() as started:
        silent = started.enter_context(socket.socket(socket.AF_INET, socket.SOCK_DGRAM))
        silent.bind(("127.0.0.1", 0))
        servers = [silent.getsockname(), (server.address, server.port)]
        resolver = started.enter_context(Resolver(given.program, servers, ["--timeout", TIMEOUT, "--strategy", "ipv4"]))
        took: List[float] = []
        for _ in range(SILENT_RUNS):
            run = resolver.run("-", "--json", lines=[f"n0.{ORIGIN}", f"n1.{ORIGIN}"])
            first, second = run.outcomes()
            got = [(it.status, it.questions) for it in (first, second)]
            report.check("with a silent server", [("found", 2), ("found", 1)], got)
            report.check(f"at least a time-out: {first.milliseconds} ms", True, first.milliseconds >= TIMEOUT * 1000 - 2)
            report.check(f"no time-out: {second.milliseconds} ms", True, second.milliseconds < TIMEOUT * 1000 / 2)
            report.check(f"the whole run: {run.seconds:.3f} s", True, TIMEOUT <= run.seconds < TIMEOUT * 2)
            took.append(run.seconds)
        median = statistics.median(took)
        print(f"with a silent first server: median {median:.3f} s, time-out {TIMEOUT:g} s", flush=True)
        report.check(f"exactly one time-out: {median:.3f} s", True, TIMEOUT <= median <= MOST)


def try_statuses(report: Report, given: Given, server: NameServer) -> None:
    """Each status, and the worst of several lookups."""
    address, nowhere = (server.address, server.port), ("127.0.0.1", free_port())
    good, bad = f"n0.{ORIGIN}", f"no.{ORIGIN}"
    for servers, words, status in (
        ([address], [good], 0),
        ([address], [good, f"n1.{ORIGIN}"], 0),
        ([address], [good, "-t", "TXT"], 1),
        ([address], [bad], 1),
        ([address], [good, bad, good], 1),
        ([nowhere], [good], 3),
        ([nowhere, address], [good], 0),
        ([address], [good, "outside.example."], 3),
        ([address], ["outside.example.", bad], 3),
        ([address], ["a..b"], 2),
        ([address], [good, "-t", "NOTYPE"], 2),
        ([address], [good, "--unknown"], 2),
        ([address], [], 2),
    ):
        with Resolver(given.program, servers, ["--timeout", "1"]) as resolver:
            for is_json in (False, True):
                run = resolver.run(*words, *(["--json"] if is_json else []))
                report.check(f"status of {words} of {len(servers)} servers: {run.errors.strip()[:300]}", status, run.status)


def try_times(report: Report, given: Given) -> None:
    report.begin()
    count = QUICK_NAMES if given.is_quick else NAMES
    with NameServer(zone_text(count), program=given.nameserver, seconds=60, log=False) as server:
        report.attempt("start", try_start, given, server)
        report.attempt("rate", try_rate, given, server, count)
        report.attempt("silence", try_silence, given, server)
        report.attempt("statuses", try_statuses, given, server)
    report.end("times")
