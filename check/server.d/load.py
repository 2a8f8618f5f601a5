"""The load that dnsperf can put on `nameserver`, BIND, Knot and NSD, which are asked the same questions one after another."""
import contextlib
import statistics
import tempfile
from pathlib import Path
from typing import Dict, List, NamedTuple

from peers import PROGRAMS, Peer, other_server, own_server
from performing import dnsperf
from processes import memory, processor_time
from queries import big_zone, write_questions
from report import Report

OWN = "nameserver"
# dnsperf as four clients with 100 questions under way.
CLIENTS = ["-c", "4", "-q", "100"]
# How long the latencies of all questions are noted, in seconds.
LATENCY_SECONDS = 2


class Load(NamedTuple):
    """What was measured of a server in a round."""

    rate: float
    # Processor time a question, user and system, in microseconds.
    processor: float
    # The latency that 99 of 100 questions don't exceed, in milliseconds.
    latency: float
    # Memory, in MB, what processes share counted once.
    memory: float
    lost: float


def measure(peer: Peer, questions: Path, seconds: float) -> Load:
    """Lets dnsperf ask one server, first for the rate and then for latencies."""
    before = processor_time(peer.process_id)
    found = dnsperf(peer.port, questions, seconds, False, *CLIENTS)
    used = processor_time(peer.process_id) - before
    noted = dnsperf(peer.port, questions, min(seconds, LATENCY_SECONDS), True, *CLIENTS)
    completed = max(1.0, found.numbers["completed"])
    latencies = sorted(noted.latencies) or [float("nan")]
    return Load(
        rate=found.numbers["rate"],
        processor=used / completed * 1e6,
        latency=latencies[len(latencies) * 99 // 100] * 1e3,
        memory=memory(peer.process_id) / 1e3,
        lost=found.numbers["lost"] + noted.numbers["lost"],
    )


def print_row(title: str, load: Load) -> None:
    print(
        f"{title:<24}{load.rate:>12,.0f}{load.processor:>14.2f}{load.latency:>14.3f}{load.memory:>12.1f}{load.lost:>8.0f}",
        flush=True,
    )


def print_head() -> None:
    columns = ("questions/s", "CPU us each", "99th pc ms", "memory MB", "lost")
    print(f"{'':<24}{columns[0]:>12}{columns[1]:>14}{columns[2]:>14}{columns[3]:>12}{columns[4]:>8}")


def summary(name: str, loads: List[Load]) -> Load:
    """The medians of the rounds."""
    return Load(*(statistics.median(values) for values in zip(*loads)))


def run_rounds(program: str, names: List[str], given) -> Dict[str, List[Load]]:
    """Measures each server in each round, in another order each time."""
    zone, loads = big_zone(given.records), {name: [] for name in names}
    with tempfile.TemporaryDirectory() as folder, contextlib.ExitStack() as started:
        questions = Path(folder, "questions")
        write_questions(questions, given.questions, given.records)
        peers = {}
        for name in names:
            peers[name] = started.enter_context(own_server(program, zone) if name == OWN else other_server(name, zone))
        print_head()
        for number in range(given.rounds):
            for name in names[number % len(names) :] + names[: number % len(names)]:
                loads[name].append(measure(peers[name], questions, given.seconds))
                print_row(f"{number + 1}. {name}", loads[name][-1])
    return loads


def try_load(report: Report, program: str, missing: List[str], given) -> None:
    """Prints a table of all rounds, their medians, and how the program compares."""
    if "dnsperf" in missing:
        report.skip("load", "dnsperf cannot be installed")
        return
    names = [OWN]
    for name, needed in PROGRAMS.items():
        if needed in missing:
            report.skip(name, "cannot be installed")
        else:
            names.append(name)
    report.begin()
    loads = run_rounds(program, names, given)
    print("medians")
    medians = {name: summary(name, it) for name, it in loads.items()}
    for name, it in medians.items():
        print_row(name, it)
        report.check(f"questions that {name} lost", 0, sum(load.lost for load in loads[name]))
    if "BIND" in loads:
        above = sum(own.rate > other.rate for own, other in zip(loads[OWN], loads["BIND"]))
        report.check("rounds with more questions a second than BIND", given.rounds, above)
    if "NSD" in loads:
        ratio = medians[OWN].processor / medians["NSD"].processor
        report.check(f"processor time a question, {ratio:.2f} times that of NSD, is at most 1.3 times", True, ratio <= 1.3)
    report.end(f"load: {given.records:,} records, {given.rounds} rounds of {given.seconds:g} s")
