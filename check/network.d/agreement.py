"""Random lookups by each server, compared with a walk of the zone."""
import random
from typing import List, Optional, Sequence, Set, Tuple

from asking import Outcome, Resolver, Run
from given import Given
from report import Report
from sample import Question, Sample
from servers import SERVERS, Server
from walk import STRATEGIES, Walk, got_of, keys, most_ttls, walk, walk_addresses, wanted_of
from wire import lower
from zones import Name, Record, type_of

# How many processes have many lookups, so that there are two for each strategy, and how many lookups there are for each process
# that starts for one to three names.
BATCHES, FRESH_SHARE = 10, 20
DEFAULT_STRATEGY = "both"
# By how many seconds a TTL may be lower than that of the zone, where the server has the zone itself.
AGE = 10
# How many requests a lookup of two types sends at most: eight questions for each, over both transports, in two rounds.
MOST_QUESTIONS = 2 * 8 * 2 * 2
# The types whose records the resolver does not always find at the end of aliases (docs/NETWORK.md).
NOT_BY_ALIAS = ("SOA", "SRV")
NOT_FOUND = {"NXDomain": "no such name", "NoError": "no records of the type"}


class Comparison:
    """The lookups of a server, which are compared."""

    def __init__(self, report: Report, title: str, server: Server, sample: Sample, resolver: Resolver):
        self.report, self.title, self.server, self.sample, self.resolver = report, title, server, sample, resolver
        self.drawn = random.Random(title)

    def wanted(self, question: Question, strategy: str) -> Walk:
        if question.rtype is None:
            return walk_addresses(self.sample.zone, question.name, strategy)
        return walk(self.sample.zone, question.name, type_of(question.rtype))

    # ---- many lookups of a process

    def try_batch(self, number: int, count: int) -> None:
        """Lookups of one process, which has a cache."""
        strategy = list(STRATEGIES)[number % len(STRATEGIES)]
        options = ["--strategy", strategy]
        options += ["--tcp"] if number % 4 == 3 else ["--no-edns"] if number % 4 == 2 else []
        questions = [self.sample.question(self.server.has_zone) for _ in range(count)]
        run = self.resolver.run("-", "--json", *options, lines=[it.line for it in questions])
        title = f"{self.title} {' '.join(options)}"
        outcomes = run.outcomes()
        if not self.report.check(f"{title}: outcomes ({run.errors[:500]})", count, len(outcomes)):
            return
        known: Set[tuple] = set()
        for question, outcome in zip(questions, outcomes):
            wanted = self.wanted(question, strategy)
            self.compare(f"{title}: {question.line}", question, wanted, outcome)
            self.compare_cache(f"{title}: {question.line}", question, wanted, outcome, known)
        self.report.check(f"{title}: status", status_of(outcomes), run.status)

    def compare(self, title: str, question: Question, wanted: Walk, outcome: Outcome) -> None:
        spelling = question.line.split()[0]
        self.report.check(f"{title}: name and type", (spelling, question.rtype or "ADDRESSES"), (outcome.name, outcome.type))
        if wanted.is_loop:
            got = (outcome.status in ("nothing", "failed"), outcome.records, outcome.questions <= MOST_QUESTIONS)
            self.report.check(f"{title}: a loop", (True, (), True), got)
            return
        if question.rtype in NOT_BY_ALIAS and wanted.aliases:
            return
        if not self.report.check(title, wanted_of(wanted), got_of(outcome)):
            return
        self.report.check(f"{title}: error", bool(outcome.error), outcome.status != "found")
        self.report.check(f"{title}: TTLs", [], self.wrong_ttls(wanted, outcome.records))

    def wrong_ttls(self, wanted: Walk, records: Sequence[Record]) -> List[Record]:
        """The records whose TTL is greater than that of the zone, or, where the server has the zone, too small."""
        most = most_ttls(wanted)
        # A TTL may be lowered to those of the aliases on the way.
        least = min(most.values(), default=0) - AGE if self.server.has_zone else 0
        return [it for it in records if not max(0, least) <= it.ttl <= most[keys([it])[0]]]

    def compare_cache(self, title: str, question: Question, wanted: Walk, outcome: Outcome, known: Set[tuple]) -> None:
        """A lookup that the process has done before asks nothing, where the lifetimes of a server's answers are known."""
        name, rtype = lower(question.name), question.rtype
        if not self.server.has_zone or wanted.is_loop or outcome.status == "failed":
            return
        if (name, rtype) in known:
            self.report.check(f"{title}: questions, after the same lookup", 0, outcome.questions)
        elif not known & related(name, rtype) and name not in self.sample.targets:
            self.report.check(f"{title}: questions", True, outcome.questions > 0)
        known.add((name, rtype))

    # ---- processes of their own

    def try_fresh(self, is_plain: bool) -> None:
        """A process for one to three names of a type."""
        first = self.sample.question()
        others = (self.sample.question() for _ in range(100))
        questions = [first, *[it for it in others if it.rtype == first.rtype][: self.drawn.randint(0, 2)]]
        names = [it.line.split()[0] for it in questions]
        options = [*names, *([] if first.rtype is None else ["-t", first.rtype])]
        walks = [self.wanted(it, DEFAULT_STRATEGY) for it in questions]
        title = f"{self.title} {' '.join(options)}"
        if not is_plain:
            run = self.resolver.run("--json", *options)
            outcomes = run.outcomes()
            self.report.check(f"{title}: outcomes", len(questions), len(outcomes))
            for question, wanted, outcome in zip(questions, walks, outcomes):
                self.compare(title, question, wanted, outcome)
            self.report.check(f"{title}: status", status_of(outcomes), run.status)
        elif not any(it.is_loop or (first.rtype in NOT_BY_ALIAS and it.aliases) for it in walks):
            self.compare_plain(title, names, first.rtype, walks, self.resolver.run(*options))

    def compare_plain(self, title: str, names: List[str], rtype: Optional[str], walks: List[Walk], run: Run) -> None:
        """The lines of records, those that say what was not found, and the status."""
        groups = groups_of(run.output, names)
        for number, (name, wanted) in enumerate(zip(names, walks)):
            records = run_records(groups[number])
            self.report.check(f"{title}: records of {name}", wanted_of(wanted)[2], keys(records))
            if not wanted.records:
                said = f"{name} {rtype or 'ADDRESSES'}: {NOT_FOUND[wanted.code]}"
                self.report.check(f"{title}: standard error", (said, True), (said, said in run.errors.splitlines()))
        missing = [it for it in walks if not it.records]
        self.report.check(f"{title}: standard error", len(missing), len(run.errors.splitlines()))
        self.report.check(f"{title}: status", 1 if missing else 0, run.status)


def related(name: Name, rtype: Optional[str]) -> Set[tuple]:
    """The lookups of other types after which the cache may answer."""
    return {(name, "A"), (name, "AAAA")} if rtype is None else {(name, None)} if rtype in ("A", "AAAA") else set()


def groups_of(output: str, names: List[str]) -> List[List[str]]:
    """The lines of each name: all lines of the only one, or those after the line with the name."""
    if len(names) == 1:
        return [output.splitlines()]
    groups: List[List[str]] = [[] for _ in names]
    at = -1
    for line in output.splitlines():
        if line.startswith("; "):
            at = names.index(line.split()[1], at + 1)
        else:
            groups[at].append(line)
    return groups


def run_records(lines: List[str]) -> List[Record]:
    return Run(0, "\n".join(lines), "", 0).records()


def status_of(outcomes: Sequence[Outcome]) -> int:
    """The status of a process by what its lookups led to."""
    statuses = {it.status for it in outcomes}
    return 3 if "failed" in statuses else 1 if "nothing" in statuses else 0


def try_server(report: Report, title: str, server: Server, given: Given) -> None:
    sample = Sample(given.seed)
    # The zone is the same for all servers, and the lookups are not.
    sample.random.seed(f"{given.seed} {title}")
    with server.start(given, sample.text) as address, Resolver(given.program, [address]) as resolver:
        asked = Comparison(report, title, server, sample, resolver)
        fresh = given.lookups // FRESH_SHARE
        many = given.lookups - fresh
        for number in range(BATCHES):
            asked.try_batch(number, many // BATCHES + (number < many % BATCHES))
        for number in range(fresh):
            asked.try_fresh(is_plain=number % 2 == 0)


def try_servers(report: Report, given: Given) -> None:
    for title, server in SERVERS.items():
        missing = [it for it in server.programs if it in given.missing]
        if missing:
            report.skip(title, f"{', '.join(missing)} cannot be installed")
            continue
        report.begin()
        report.attempt(title, try_server, title, server, given)
        report.end(title, f", {given.lookups:,} lookups")
