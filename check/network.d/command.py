"""The program itself: its arguments, its output, and lines of standard input."""
import time
from typing import List, Tuple

from asked import ORIGIN, ZONE, Asked, addresses_of
from asking import Outcome, Resolver
from configured import try_system
from given import Given
from options import try_local, try_search, try_trace, try_transports, try_types
from renewals import try_updates
from report import Report
from zones import name_text

WRONG: List[List[str]] = [
    [], ["--unknown", "a.test."], ["a.test.", "-t"], ["a.test.", "-t", "NOTHING"], ["a.test.", "--server", "here"],
    ["a.test.", "--server", "127.0.0.1:65536"], ["a.test.", "--server", "[::1"], ["a.test.", "--timeout", "x"],
    ["a.test.", "--timeout", "-1"], ["a.test.", "--attempts", "x"], ["a.test.", "--attempts", "-1"],
    ["a.test.", "--ndots", "x"], ["a.test.", "--strategy", "all"], ["a..b."], ["a.test.", "--search", "a..b"],
    ["a.test.", "--resolv-conf"],
    ["--update", "append a 60 A 10.0.0.1", "--server", "127.0.0.1:1"], ["--zone", "t."], ["--key", "me.key"],
    ["--update", "append a 60 A 10.0.0.1", "--zone", "a..b"],
    ["--update", "append a 60 A 10.0.0.1", "--zone", "t.", "--key-name", "me."],
]  # fmt: skip
NO_UPDATE = "lookup: --zone names the zone of an update, and there is no --update\n"
MISSING_UPDATE = "error: the following required arguments were not provided:\n  --zone <NAME>\n  --update <WORDS>\n"
# Options that are for updates alone, and how what is said of them beside a name begins.
WITHOUT_UPDATE: List[Tuple[List[str], str]] = [
    (["--zone", "t."], NO_UPDATE),
    (["--zone", "t.", "--key", "me.key"], NO_UPDATE),
    (["--key", "me.key"], MISSING_UPDATE),
    (["--key", "me.key", "--key-name", "me."], MISSING_UPDATE),
]
# Options that are for lookups alone.
WITH_UPDATE: List[List[str]] = [
    ["--type", "A"], ["-t", "A"], ["--reverse"], ["-x"], ["--search", "t."], ["--ndots", "2"], ["--strategy", "ipv4"], ["--no-edns"],
    ["--no-cache"],
]  # fmt: skip


def try_arguments(report: Report, given: Given) -> None:
    """`--help`, `--version`, wrong arguments, and files that aren't there."""
    with Resolver(given.program) as resolver:
        for words in (["--help"], ["-h"], ["--version"], ["-V"]):
            run = resolver.run(*words)
            wanted = "lookup " if words[0] in ("--version", "-V") else "Usage"
            report.check(f"{words}", (0, "", True), (run.status, run.errors, wanted in run.output))
        for words in WRONG:
            run = resolver.run(*words, seconds=60)
            report.check(f"{words}", (2, "", True), (run.status, run.output, bool(run.errors)))
        for words, said in WITHOUT_UPDATE:
            run = resolver.run("a.test.", *words)
            report.check(f"{words}: {run.errors!r}", (2, "", True), (run.status, run.output, run.errors.startswith(said)))
        for words in WITH_UPDATE:
            run = resolver.run("--update", "append a 60 A 10.0.0.1", "--zone", "t.", *words)
            said = run.errors.startswith("error: the argument '--") and "cannot be used with '--" in run.errors.splitlines()[0]
            report.check(f"--update and {words}: {run.errors!r}", (2, "", True), (run.status, run.output, said))
        run = resolver.run("a.test.", "--resolv-conf", "/nonexistent/resolv.conf")
        report.check("a missing resolv.conf", (2, True), (run.status, bool(run.errors)))


def try_output(report: Report, given: Given) -> None:
    """Lines of records, of names, and of what isn't found, by hand."""
    a = f"a.{ORIGIN} 60 IN A 10.0.0.1"
    with Asked(given) as asked:
        for words, lines, errors, status in (
            ([f"a.{ORIGIN}", "-t", "A"], [a], [], 0),
            ([f"a.{ORIGIN}"], [f"a.{ORIGIN} 60 IN AAAA 2001:db8::1", a], [], 0),
            ([f"a.{ORIGIN}", "--strategy", "ipv4-then-ipv6"], [a], [], 0),
            ([f"alias.{ORIGIN}", "-t", "a"], [a], [], 0),
            ([f"alias.{ORIGIN}", "-t", "CNAME"], [f"alias.{ORIGIN} 60 IN CNAME a.{ORIGIN}"], [], 0),
            ([f"mail.{ORIGIN}", "-t", "MX"], [f"mail.{ORIGIN} 60 IN MX 10 a.{ORIGIN}"], [], 0),
            ([f"_s._tcp.{ORIGIN}", "-t", "SRV"], [f"_s._tcp.{ORIGIN} 60 IN SRV 1 2 443 a.{ORIGIN}"], [], 0),
            ([f"p.{ORIGIN}", "-t", "PTR"], [f"p.{ORIGIN} 60 IN PTR a.{ORIGIN}"], [], 0),
            ([ORIGIN, "-t", "NS"], [f"{ORIGIN} 3600 IN NS ns.{ORIGIN}"], [], 0),
            ([ORIGIN, "-t", "SOA"], [f"{ORIGIN} 3600 IN SOA ns.{ORIGIN} host.{ORIGIN} 7 3600 600 86400 30"], [], 0),
            ([f"text.{ORIGIN}", "-t", "TXT"], [f'text.{ORIGIN} 60 IN TXT "a b" "c;d"'], [], 0),
            ([f"text.{ORIGIN}", "-t", "TYPE16"], [f'text.{ORIGIN} 60 IN TXT "a b" "c;d"'], [], 0),
            ([f"a.{ORIGIN}", f"b.{ORIGIN}", "-t", "A"],
             [f"; a.{ORIGIN} A", a, f"; b.{ORIGIN} A", f"b.{ORIGIN} 60 IN A 10.0.0.2"], [], 0),
            ([f"no.{ORIGIN}", "-t", "A"], [], [f"no.{ORIGIN} A: no such name"], 1),
            ([f"a.{ORIGIN}", "-t", "MX"], [], [f"a.{ORIGIN} MX: no records of the type"], 1),
            ([f"no.{ORIGIN}"], [], [f"no.{ORIGIN} ADDRESSES: no such name"], 1),
        ):  # fmt: skip
            run = asked.resolver.run(*words)
            report.check(f"{words}", (lines, errors, status), (run.output.splitlines(), run.errors.splitlines(), run.status))
        run = asked.resolver.run("outside.example.", "-t", "A")
        said = run.errors.startswith("outside.example. A: ")
        report.check("what is refused", (3, "", True), (run.status, run.output, said))


def try_lines(report: Report, given: Given) -> None:
    """Lines of standard input: blanks, types, the last one without an end, and an answer before the next line."""
    with Asked(given, options=["--strategy", "ipv4"]) as asked:
        lines = ["", f"  a.{ORIGIN}  ", f"\tmail.{ORIGIN}\tMX ", "   ", f"a.{ORIGIN} AAAA", f"no.{ORIGIN}"]
        outcomes = asked.resolver.ask([*lines, f"A.{ORIGIN.upper()} a"])
        found = [(it.name, it.type, it.status, it.questions) for it in outcomes]
        wanted = [
            (f"a.{ORIGIN}", "ADDRESSES", "found", 1),
            (f"mail.{ORIGIN}", "MX", "found", 1),
            (f"a.{ORIGIN}", "AAAA", "found", 1),
            (f"no.{ORIGIN}", "ADDRESSES", "nothing", 1),
            (f"A.{ORIGIN.upper()}", "A", "found", 0),
        ]
        report.check("lines", wanted, found)
        outcomes = asked.resolver.run("-", "--json", "-t", "MX", lines=[f"mail.{ORIGIN}", f"a.{ORIGIN} A"]).outcomes()
        report.check("a type for all lines", [("MX", 1), ("A", 1)], [(it.type, len(it.records)) for it in outcomes])
        report.check("no lines", (0, "", ""), asked.resolver.run("-", "--json")[:3])
        run = asked.resolver.run("-", lines=[f"a.{ORIGIN} A", f"b.{ORIGIN} A"])
        lines = [f"; a.{ORIGIN} A", f"a.{ORIGIN} 60 IN A 10.0.0.1", f"; b.{ORIGIN} A", f"b.{ORIGIN} 60 IN A 10.0.0.2"]
        report.check("plain lines", (lines, 0), (run.output.splitlines(), run.status))
        lines = [f"a.{ORIGIN} WHAT", f"a.{ORIGIN}\tIN  A ", f'a.{ORIGIN} "\u00e9\\']
        texts = [f"a.{ORIGIN} WHAT", f"a.{ORIGIN} IN  A", f'a.{ORIGIN} "\u00e9\\']
        run = asked.resolver.run("-", lines=lines)
        wanted = ("".join(f"; {it}\n" for it in texts), "".join(f"{it}: no such type\n" for it in texts))
        report.check("what is not a type", (3, *wanted), run[:3])
        outcomes = asked.resolver.ask(lines)
        wanted = [("WHAT", "no such type", 0), ("IN  A", "no such type", 0), ('"\u00e9\\', "no such type", 0)]
        report.check("what is not a type, as JSON", wanted, [(it.type, it.error, it.questions) for it in outcomes])
        with asked.resolver.interactive() as conversation:
            for name, address in (("a", "10.0.0.1"), ("b", "10.0.0.2"), ("a", "10.0.0.1")):
                outcome = conversation.ask(f"{name}.{ORIGIN} A")
                report.check(f"{name}, line by line", [address], addresses_of(outcome))


def try_cache(report: Report, given: Given) -> None:
    """TTLs that are left, lifetimes by the clock, and `--no-cache`."""
    with Asked(given) as asked, asked.resolver.interactive() as conversation:
        first = conversation.ask(f"short.{ORIGIN} A")
        long = conversation.ask(f"b.{ORIGIN} A")
        report.check("asked first", (1, [2], 1, [60]), (first.questions, ttls(first), long.questions, ttls(long)))
        start = time.monotonic()
        again = conversation.ask(f"short.{ORIGIN} A")
        report.check("asked again", (0, True), (again.questions, ttls(again)[0] in (1, 2)))
        time.sleep(max(0.0, start + 4.1 - time.monotonic()))
        report.check("after its lifetime", (1, [2]), asked_and_ttls(conversation.ask(f"short.{ORIGIN} A")))
        waited = time.monotonic() - start
        questions, (left,) = asked_and_ttls(conversation.ask(f"b.{ORIGIN} A"))
        report.check(f"{waited:.1f} s later: {left} s are left", (0, True), (questions, abs(60 - waited - left) <= 1.1))
    with Asked(given, options=["--no-cache"]) as asked:
        outcomes = asked.resolver.ask([f"a.{ORIGIN} A"] * 3)
        report.check("without a cache", [1, 1, 1], [it.questions for it in outcomes])
        report.check("without a cache: requests", 3, len(asked.requests(3)))


# A chain of nine aliases, of which `nameserver` follows seven at once, two of eight, and one to services.
CHAINS = "".join(
    [
        *(f"\na{at}.{ORIGIN} 60 IN CNAME a{at + 1}.{ORIGIN}" for at in range(9)),
        f"\na9.{ORIGIN} 60 IN A 10.0.1.1",
        *(f"\nb{at}.{ORIGIN} 60 IN CNAME b{at + 1}.{ORIGIN}" for at in range(8)),
        *(f"\nc{at}.{ORIGIN} 60 IN CNAME c{at + 1}.{ORIGIN}" for at in range(7)),
        f"\nc7.{ORIGIN} 60 IN CNAME {ORIGIN}",
        f"\ns.{ORIGIN} 60 IN CNAME _s._tcp.{ORIGIN}",
    ]
)


def try_aliases(report: Report, given: Given) -> None:
    """Aliases that need more than one question, in either order of lookups, which are left out of answers."""
    found = ("found", "NoError", [f"a9.{ORIGIN}"])
    with Asked(given, ZONE + CHAINS) as asked:
        for lines, wanted in (
            (["a0 A"], [found]),
            (["a7 A"], [found]),
            (["a0 A", "a0 A"], [found] * 2),
            (["a0 A", "a7 A"], [found] * 2),
            (["a7 A", "a0 A"], [found] * 2),
            (["b0 A"], [("nothing", "NXDomain", [])]),
            (["b0 MX"], [("nothing", "NXDomain", [])]),
            (["c0 NS"], [("found", "NoError", [ORIGIN])]),
        ):
            outcomes = asked.resolver.ask(line.replace(" ", f".{ORIGIN} ") for line in lines)
            got = [(it.status, it.code, [name_text(record.owner) for record in it.records]) for it in outcomes]
            report.check(f"aliases: {lines}", wanted, got)


def ttls(outcome: Outcome) -> List[int]:
    return [it.ttl for it in outcome.records]


def asked_and_ttls(outcome: Outcome) -> Tuple[int, List[int]]:
    return outcome.questions, ttls(outcome)


def try_program(report: Report, given: Given) -> None:
    for title, work in (
        ("arguments", try_arguments),
        ("output", try_output),
        ("standard input", try_lines),
        ("the cache and the clock", try_cache),
        ("aliases", try_aliases),
        ("transports", try_transports),
        ("types", try_types),
        ("search lists", try_search),
        ("what asks nothing", try_local),
        ("traces", try_trace),
        ("updates", try_updates),
        ("resolv.conf", try_system),
    ):
        report.begin()
        report.attempt(title, work, given)
        report.end(title)
