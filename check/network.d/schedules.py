"""Servers with faults, and the model of the schedule: which server answers, what each is asked, and what is found."""
import contextlib
import copy
import random
import time
from concurrent.futures import ThreadPoolExecutor
from dataclasses import dataclass
from typing import Dict, Iterator, List, Optional, Sequence, Set, Tuple

from asking import Outcome, Resolver
from given import Given
from nameserver import NameServer, NameServerError
from processes import free_port
from report import Report
from schedule import MEMORY, NO_ERROR, NX_DOMAIN, Data, Rule, Schedule, Server
from schedule import Outcome as Wanted
from slow_servers import Chatter, Dribbler
from transport import Address
from zones import name_text

ORIGIN = "f.test."
SOA = f"{ORIGIN} 60 IN SOA ns.{ORIGIN} h.{ORIGIN} 1 3600 600 86400 30"
NAMES, LARGE = 6, 100
# The time-out, and what a lookup may take longer than the schedule, for each question and once, in seconds.
TIMEOUT, SLACK, SLACK_ONCE = 0.4, 0.1, 0.1
# How many scenarios run at once, and how many there are.
AT_ONCE, SCENARIOS, QUICK_SCENARIOS = 4, 160, 30


def data_of(place: int) -> Dict[str, Data]:
    """What a server has: addresses that no other server has, and names that others have and it hasn't."""
    found = {f"n{at}.{ORIGIN}": Data(NO_ERROR, (f"10.{place}.0.{at}",)) for at in range(NAMES)}
    found[f"large.{ORIGIN}"] = Data(NO_ERROR, tuple(f"10.{place}.1.{at}" for at in range(LARGE)), True)
    found[f"text.{ORIGIN}"] = Data(NO_ERROR)
    # The first server has nothing here, and the others have.
    found[f"later.{ORIGIN}"] = Data(NX_DOMAIN) if place == 0 else Data(NO_ERROR, (f"10.{place}.2.1",))
    return {name: data for name, data in found.items() if data.code == NO_ERROR}


def zone_text(place: int) -> str:
    lines = [SOA, f'text.{ORIGIN} 60 IN TXT "no address"']
    for name, data in data_of(place).items():
        lines += [f"{name} 60 IN A {it}" for it in data.records]
    return "\n".join(lines) + "\n"


@dataclass
class Scenario:
    """Servers with their rules, how they are asked, and the names that one process looks up."""

    title: str
    rules: Sequence[List[Rule]]
    names: Sequence[str]
    attempts: int = 2
    rotates: bool = False
    streams_alone: bool = False
    # The places of servers that aren't there.
    absent: Sequence[int] = ()
    # Where by hand: the server that answers each lookup, and the number of its questions.
    by_hand: Sequence[Tuple[Optional[int], int]] = ()

    def options(self, timeout: float) -> List[object]:
        words = ["--timeout", timeout, "--attempts", self.attempts, "--strategy", "ipv4"]
        return [*words, *(["--rotate"] if self.rotates else []), *(["--tcp"] if self.streams_alone else [])]

    def slowed(self, factor: int) -> "Scenario":
        """The same with all times longer."""
        found = copy.deepcopy(self)
        for rule in (rule for rules in found.rules for rule in rules):
            if "delay" in rule.actions:
                rule.actions["delay"] *= factor
        return found

    def run(self, given: Given, timeout: float) -> List[Tuple[str, object, object]]:
        """Runs the program and the model, and returns the comparisons."""
        # The texts of the rules come first, since the model uses the rules up.
        tables = ["\n".join(rule.text for rule in rules) + "\n" if rules else "" for rules in self.rules]
        servers = [Server(data_of(at), list(rules), at not in self.absent) for at, rules in enumerate(self.rules)]
        schedule = Schedule(servers, timeout, self.attempts, self.rotates, self.streams_alone)
        wanted = [schedule.look_up(name) for name in self.names]
        with contextlib.ExitStack() as started:
            running, addresses = start_servers(started, given, tables, self.absent)
            with Resolver(given.program, addresses, self.options(timeout)) as resolver:
                outcomes = resolver.ask(self.names)
            found = [("outcomes", len(wanted), len(outcomes))]
            for number, (name, one, other) in enumerate(zip(self.names, wanted, outcomes)):
                slack = (SLACK * one.questions + SLACK_ONCE) * timeout / TIMEOUT
                found += compare(f"{number} {name}", one, other, known_addresses(servers, name), slack)
            for number, (place, questions) in enumerate(self.by_hand):
                one = wanted[number]
                found.append((f"{number}: the model, by hand", (place, questions), (one.place, one.questions)))
            for place, server in running.items():
                found.append((f"requests of server {place}", servers[place].requests, requests_of(server, servers[place])))
        return found


def start_servers(started: contextlib.ExitStack, given: Given, tables: Sequence[str], absent: Sequence[int]):
    """Starts the servers that are there, and returns them by their places, and the addresses of all."""
    running, addresses = {}, []
    for place, table in enumerate(tables):
        if place in absent:
            addresses.append(("127.0.0.1", free_port()))
            continue
        server = NameServer(zone_text(place), faults=table, program=given.nameserver, seconds=60)
        running[place] = started.enter_context(server)
        addresses.append((server.address, server.port))
    return running, addresses


def requests_of(server: NameServer, model: Server) -> List[tuple]:
    """The requests of a server, as the model notes them."""
    with contextlib.suppress(NameServerError):
        server.wait_for_requests(len(model.requests))
    return [(it.transport, (it.name or "").lower(), it.fault) for it in server.requests()]


def addresses_of(outcome: Outcome) -> List[str]:
    return sorted(".".join(str(it) for it in record.data[0]) for record in outcome.records)


def known_addresses(servers: Sequence[Server], name: str) -> Set[str]:
    """What some server has for a name."""
    return {it for server in servers for it in server.data.get(name, Data(NX_DOMAIN)).records}


# What a comparison is called that no busy machine excuses.
NEVER = "no wrong record"


def compare(
    title: str, wanted: Wanted, outcome: Outcome, known: Set[str], slack: float
) -> Iterator[Tuple[str, object, object]]:
    """What is compared of a lookup, which takes as long as the schedule, or longer by no more than the slack."""
    addresses = addresses_of(outcome)
    owners = {name_text(it.owner).lower() for it in outcome.records} - {outcome.name.lower()}
    yield f"{title}: {NEVER}", (set(), set()), (owners, set(addresses) - known)
    yield (
        f"{title}: outcome",
        (wanted.status, wanted.code, sorted(wanted.records), wanted.questions),
        (outcome.status, outcome.code, addresses, outcome.questions),
    )
    took, most = outcome.milliseconds / 1000, wanted.seconds + slack
    is_in_time = wanted.seconds - 0.005 <= took <= most
    yield f"{title}: {took:.3f} s of {wanted.seconds:.3f} to {most:.3f}", True, is_in_time


# ---- scenarios by hand


def named(*labels: str) -> List[str]:
    return [f"{it}.{ORIGIN}" for it in labels]


def by_hand() -> List[Scenario]:
    """Each fault at the first server of two, with the server that answers and the number of questions, by hand."""
    late, soon = int(TIMEOUT * 1500), int(TIMEOUT * 500)
    found = []
    for title, actions, answers in (
        ("no fault", {}, [(0, 1), (0, 1)]),
        ("drop", {"drop": None}, [(1, 2), (1, 1)]),
        ("in time", {"delay": soon}, [(0, 1), (0, 1)]),
        ("too late", {"delay": late}, [(1, 2), (1, 1)]),
        ("wrong id", {"wrong-id": None}, [(1, 2), (1, 1)]),
        ("wrong id, twice", {"wrong-id": None, "duplicate": None}, [(1, 2), (1, 1)]),
        ("wrong question", {"wrong-question": None}, [(1, 2), (1, 1)]),
        ("garbage", {"garbage": 40}, [(1, 2), (1, 1)]),
        ("a byte", {"garbage": 1}, [(1, 2), (1, 1)]),
        ("ServFail", {"code": 2}, [(1, 2), (1, 1)]),
        ("Refused", {"code": 5}, [(1, 2), (1, 1)]),
        ("NotImp", {"code": 4}, [(1, 2), (1, 1)]),
        ("FormErr", {"code": 1}, [(0, 1), (0, 1)]),
        ("NXDomain", {"code": 3}, [(0, 1), (0, 1)]),
        ("NoError without records", {"code": 0}, [(0, 1), (0, 1)]),
        ("late ServFail", {"code": 2, "delay": soon}, [(1, 2), (1, 1)]),
        ("duplicate", {"duplicate": None}, [(0, 1), (0, 1)]),
        ("truncated", {"truncate": None}, [(0, 2), (0, 2)]),
        ("truncated, and the stream closed", {"truncate": None, "close": 0}, [(1, 3), (1, 1)]),
        ("truncated, and half a reply", {"truncate": None, "close": 30}, [(1, 3), (1, 1)]),
        ("truncated, and a wrong id", {"truncate": None, "wrong-id": None}, [(1, 2), (1, 1)]),
    ):
        rules = [[Rule("*", dict(actions))] if actions else [], []]
        found.append(Scenario(title, rules, named("n0", "n1"), by_hand=answers))
    once, six = Rule("*", {"truncate": None}), named(*(f"n{it}" for it in range(NAMES)))
    for title, actions, answers in (
        ("a stream without a reply", {"drop": None}, [(1, 3), (1, 1)]),
        ("a stream with a wrong id", {"wrong-id": None}, [(1, 3), (1, 1)]),
        ("a stream with garbage", {"garbage": 20}, [(1, 3), (1, 1)]),
        ("a stream with ServFail", {"code": 2}, [(1, 3), (1, 1)]),
        ("a late stream", {"delay": late}, [(1, 3), (1, 1)]),
        ("a slow stream", {"delay": soon}, [(0, 2), (0, 2)]),
    ):
        # What the second rule does befalls streams alone, since the first one has the datagrams.
        found.append(Scenario(title, [[copy.copy(once), Rule("*", actions)], []], named("n0", "n1"), by_hand=answers))
    found += [
        Scenario("large sets", [[], []], named("large", "n0"), by_hand=[(0, 2), (0, 1)]),
        Scenario("the next server after NXDomain", [[], []], named("later", "text"), by_hand=[(0, 1), (0, 1)]),
        Scenario("one try too few", [[Rule("*", {"drop": None}, 1)]], named("n0", "n1"), by_hand=[(0, 2), (0, 1)]),
        Scenario("three attempts", [[Rule("*", {"drop": None}, 2)]], named("n0"), attempts=3, by_hand=[(0, 3)]),
        Scenario("no attempt is left", [[Rule("*", {"drop": None})]], named("n0"), by_hand=[(None, 2)]),
        Scenario("one attempt", [[Rule("*", {"drop": None})]], named("n0"), attempts=1, by_hand=[(None, 1)]),
        Scenario("failures from all", [[Rule("*", {"code": 2})], [Rule("*", {"code": 5})]], named("n0"),
                 by_hand=[(None, 4)]),
        Scenario("ServFail, then silence", [[Rule("*", {"code": 2})], [Rule("*", {"drop": None})]], named("n0"), attempts=1,
                 by_hand=[(None, 2)]),
        Scenario("a server that is not there", [[], []], named("n0", "n1"), absent=[0], by_hand=[(1, 2), (1, 1)]),
        Scenario("no server is there", [[], []], named("n0"), absent=[0, 1], by_hand=[(None, 4)]),
        Scenario("streams alone", [[], []], named("n0", "large"), streams_alone=True, by_hand=[(0, 1), (0, 1)]),
        Scenario("streams alone, closed", [[Rule("*", {"close": 5})], []], named("n0", "n1"), streams_alone=True,
                 by_hand=[(1, 2), (1, 1)]),
        Scenario("streams alone, not there", [[], []], named("n0", "n1"), streams_alone=True, absent=[0],
                 by_hand=[(1, 2), (1, 1)]),
        Scenario("a failed server answers, and is the first again", [[Rule("*", {"drop": None}, 1)],
                 [Rule(f"n1.{ORIGIN}", {"code": 2})]], named("n0", "n1", "n2"), by_hand=[(1, 2), (0, 2), (0, 1)]),
        Scenario("in turn", [[], [], []], six, rotates=True, by_hand=[(it % 3, 1) for it in range(NAMES)]),
        Scenario("in turn, one silent", [[], [Rule("*", {"drop": None})], []], six, rotates=True,
                 by_hand=[(0, 1), (2, 2), (2, 1), (0, 1), (2, 1), (2, 1)]),
    ]  # fmt: skip
    return found


# ---- random scenarios


def random_rule(drawn: random.Random, name: str) -> Rule:
    """A rule for a name: most often one that costs no time."""
    left = drawn.choice([1, 1, 2, None])
    draw = drawn.random()
    if draw < 0.3:
        actions: Dict[str, Optional[int]] = {"code": drawn.choice([2, 4, 5, 2, 5, 1, 3, 0])}
    elif draw < 0.5:
        actions = {drawn.choice(["drop", "wrong-id", "wrong-question"]): None}
    elif draw < 0.6:
        actions = {"garbage": drawn.choice([1, 2, 11, 12, 40, 500])}
    elif draw < 0.75:
        actions = {"delay": int(drawn.choice([0.2, 0.5, 1.5, 2]) * TIMEOUT * 1000)}
    elif draw < 0.9:
        actions = {"truncate": None}
        if drawn.random() < 0.6:
            actions["close"] = drawn.choice([0, 1, 2, 14, 40])
    else:
        actions = {"close": drawn.choice([0, 2, 20])}
    if "drop" not in actions and "close" not in actions and drawn.random() < 0.2:
        actions["duplicate"] = None
    return Rule(name, actions, left)


def random_scenario(seed: int) -> Scenario:
    """One to three servers, some of which have rules for some of the names."""
    drawn = random.Random(seed)
    labels = [*(f"n{it}" for it in range(NAMES)), "large", "text", "later", "nowhere"]
    names = named(*drawn.sample(labels, drawn.randint(2, 4)))
    rules = []
    for _ in range(drawn.randint(1, 3)):
        of_server = [random_rule(drawn, name) for name in names for _ in range(drawn.choice([0, 0, 1, 1, 2]))]
        drawn.shuffle(of_server)
        rules.append(of_server)
    absent = [it for it in range(len(rules)) if drawn.random() < 0.08]
    return Scenario(
        f"random {seed}", rules, names, drawn.randint(1, 3), drawn.random() < 0.3, drawn.random() < 0.15, absent
    )


# ---- running


def run_scenario(scenario: Scenario, given: Given) -> Tuple[Scenario, List[Tuple[str, object, object]], bool]:
    """Runs a scenario, and again with longer times if only times or what follows from them differ on a busy machine."""
    first = scenario.slowed(1).run(given, TIMEOUT)
    if all(wanted == got for _, wanted, got in first):
        return scenario, first, False
    never = [it for it in first if NEVER in it[0]]
    return scenario, never + scenario.slowed(3).run(given, TIMEOUT * 3), True


def try_scenarios(report: Report, given: Given, scenarios: Sequence[Scenario]) -> int:
    """Runs scenarios, some at once, and returns how many had to be run again."""
    again = 0
    with ThreadPoolExecutor(AT_ONCE) as pool:
        for scenario, found, was_slow in pool.map(lambda it: run_scenario(it, given), scenarios):
            again += was_slow
            for title, wanted, got in found:
                report.check(f"{scenario.title}: {title}", wanted, got)
    return again


def try_memory(report: Report, given: Given) -> None:
    """A server that failed is the last for 30 seconds, and then the first again."""
    rules = [[Rule("*", {"code": 2}, 1)], []]
    with contextlib.ExitStack() as started:
        running, addresses = start_servers(started, given, ["\n".join(it.text for it in of_one) for of_one in rules], [])
        resolver = started.enter_context(Resolver(given.program, addresses, ["--timeout", 1, "--strategy", "ipv4"]))
        conversation = started.enter_context(resolver.interactive())
        start = time.monotonic()
        for label, moment, place, questions in (
            ("n0", 0, 1, 2),
            ("n1", 0, 1, 1),
            ("n2", MEMORY - 2, 1, 1),
            ("n3", MEMORY + 1, 0, 1),
        ):
            time.sleep(max(0.0, start + moment - time.monotonic()))
            outcome = conversation.ask(f"{label}.{ORIGIN}")
            wanted = (list(data_of(place)[f"{label}.{ORIGIN}"].records), questions)
            got = (addresses_of(outcome), outcome.questions)
            report.check(f"{label} after {moment:g} s", wanted, got)
        report.check("requests", [2, 3], [len(it.requests()) for it in running.values()])


def ask_two(given: Given, first: Address, second: str) -> Outcome:
    """A lookup by a server and, after it, by one with a fault table."""
    with contextlib.ExitStack() as started:
        _, addresses = start_servers(started, given, ["", second], [0])
        options = ["--timeout", TIMEOUT, "--strategy", "ipv4"]
        resolver = started.enter_context(Resolver(given.program, [first, addresses[1]], options))
        (outcome,) = resolver.ask([f"n0.{ORIGIN}"])
    return outcome


def is_one_timeout(outcome: Outcome) -> bool:
    return TIMEOUT - 0.005 <= outcome.milliseconds / 1000 <= TIMEOUT + 0.3


def try_slow_servers(report: Report, given: Given) -> None:
    """Neither datagrams that aren't the reply nor pieces of a stream prolong the time-out."""
    for every in (0.05, 0.0005):
        with Chatter(every, TIMEOUT * 4) as chatter:
            outcome = ask_two(given, chatter.address, "")
        title = f"wrong ids each {every * 1000:g} ms"
        report.check(title, (["10.1.0.0"], 2), (addresses_of(outcome), outcome.questions))
        report.check(f"{title}: one time-out, {outcome.milliseconds} ms", True, is_one_timeout(outcome))
        report.check(f"{title}: they were sent", True, chatter.count >= 5)
    with NameServer(zone_text(0), program=given.nameserver, seconds=60, log=False) as server:
        for every, place in ((0, 0), (0.002, 0), (0.05, 1)):
            with Dribbler((server.address, server.port), every) as dribbler:
                outcome = ask_two(given, dribbler.address, "")
            title = f"a byte of a stream each {every * 1000:g} ms"
            report.check(title, ([f"10.{place}.0.0"], 2 + place), (addresses_of(outcome), outcome.questions))
            if place:
                report.check(f"{title}: one time-out, {outcome.milliseconds} ms", True, is_one_timeout(outcome))


def try_faults(report: Report, given: Given) -> None:
    report.begin()
    again = try_scenarios(report, given, by_hand())
    report.end("faults, by hand", f", {again} of {len(by_hand())} scenarios again with longer times")
    report.begin()
    report.attempt("slow servers", try_slow_servers, given)
    report.end("servers that send much, or slowly")
    report.begin()
    count = QUICK_SCENARIOS if given.is_quick else SCENARIOS
    again = try_scenarios(report, given, [random_scenario(given.seed * 10_000 + it) for it in range(count)])
    report.end("faults, at random", f", {again} of {count} scenarios again with longer times")
    report.begin()
    report.attempt("30 seconds", try_memory, given)
    report.end("servers that failed, for 30 seconds")
