"""Updates by `nsupdate`, with each of its commands, beside the model (RFC 2136 sections 2.4 and 2.5)."""
import subprocess
from typing import List, NamedTuple, Sequence

from messages import query
from report import Report
from watch import Watched

ZONE = "\n".join(
    [
        "example.com. 60 IN SOA ns.example.com. h.example.com. 10 3600 600 86400 30",
        "example.com. 60 IN NS ns.example.com.",
        "ns.example.com. 60 IN A 10.0.0.53",
        "two.example.com. 60 IN A 10.0.0.1",
        "two.example.com. 60 IN A 10.0.0.2",
        'two.example.com. 60 IN TXT "one" "two words"',
        "alias.example.com. 60 IN CNAME two.example.com.",
        "mail.example.com. 60 IN MX 10 two.example.com.",
    ]
)
OK, REFUSED = "", "REFUSED"


class Case(NamedTuple):
    """Commands of one message, and the code that nsupdate tells of, nothing for NOERROR."""

    commands: Sequence[str]
    code: str = OK


CASES = [
    # The five prerequisites, each where it holds and where it does not.
    Case(["prereq yxdomain two.example.com", "update add p1.example.com 60 A 10.1.0.1"]),
    Case(["prereq yxdomain none.example.com", "update add p1.example.com 60 A 10.1.0.2"], "NXDOMAIN"),
    Case(["prereq nxdomain none.example.com", "update add p2.example.com 60 A 10.1.0.1"]),
    Case(["prereq nxdomain two.example.com", "update add p2.example.com 60 A 10.1.0.2"], "YXDOMAIN"),
    Case(["prereq yxrrset two.example.com A", "update add p3.example.com 60 A 10.1.0.1"]),
    Case(["prereq yxrrset two.example.com AAAA", "update add p3.example.com 60 A 10.1.0.2"], "NXRRSET"),
    Case(["prereq yxrrset two.example.com A 10.0.0.2", "prereq yxrrset two.example.com A 10.0.0.1",
          "update add p4.example.com 60 A 10.1.0.1"]),
    Case(["prereq yxrrset two.example.com A 10.0.0.2", "update add p4.example.com 60 A 10.1.0.2"], "NXRRSET"),
    Case(["prereq yxrrset two.example.com A 10.0.0.1", "prereq yxrrset two.example.com A 10.0.0.2",
          "prereq yxrrset two.example.com A 10.0.0.3", "update add p4.example.com 60 A 10.1.0.2"], "NXRRSET"),
    Case(['prereq yxrrset two.example.com TXT "one" "two words"', "prereq nxrrset two.example.com AAAA",
          "update add p5.example.com 60 A 10.1.0.1"]),
    Case(["prereq nxrrset two.example.com A", "update add p5.example.com 60 A 10.1.0.2"], "YXRRSET"),
    # Additions: a new name, more data, the same data with another TTL, each type, an alias beside data, data beside an alias.
    Case(["update add new.example.com 60 A 10.2.0.1"]),
    Case(["update add new.example.com 61 A 10.2.0.2", "update add NEW.example.com 62 A 10.2.0.1"]),
    Case(["update add types.example.com 60 AAAA 2001:db8::1", "update add types.example.com 60 MX 10 two.example.com.",
          'update add types.example.com 60 TXT "a b" "" c', "update add types.example.com 60 SRV 1 2 3 two.example.com.",
          "update add types.example.com 60 PTR two.example.com.", "update add types.example.com 60 NS ns.example.com.",
          'update add types.example.com 60 HINFO "PDP-11" "UNIX"', 'update add types.example.com 60 CAA 0 issue "ca.test"',
          "update add types.example.com 60 TYPE65280 \\# 3 010203"]),
    Case(["update add other.example.com 60 CNAME two.example.com."]),
    Case(["update add other.example.com 60 CNAME ns.example.com."]),
    Case(["update add two.example.com 60 CNAME ns.example.com."]),
    Case(["update add alias.example.com 60 A 10.2.0.9"]),
    # The start of authority: only a greater serial replaces it.
    Case(["update add example.com 60 SOA ns.example.com. h.example.com. 9 1 1 1 1"]),
    Case(["update add example.com 90 SOA ns.example.com. h.example.com. 11 7200 600 86400 40"]),
    # Deletions of a record, of a set, of a name, and what stays at the origin.
    Case(["update delete new.example.com A 10.2.0.1"]),
    Case(["update delete new.example.com A 10.2.0.77"]),
    Case(["update delete types.example.com MX"]),
    Case(["update delete types.example.com TXT", "update add types.example.com 5 TXT again"]),
    Case(["update delete p1.example.com"]),
    Case(["update delete example.com NS ns.example.com."]),
    Case(["update delete example.com NS"]),
    Case(["update delete example.com SOA"]),
    Case(["update delete example.com"]),
    # Several in one message: the deletions and additions are made in order, and all or none.
    Case(["update delete two.example.com A", "update add two.example.com 60 A 10.3.0.1",
          "update add two.example.com 60 A 10.3.0.2", "update delete two.example.com A 10.3.0.1"]),
    Case(["update delete mail.example.com", "update add mail.example.com 60 CNAME two.example.com."]),
    Case(["prereq yxdomain two.example.com", "prereq nxdomain none.example.com", "prereq yxrrset two.example.com A 10.3.0.2",
          "update delete two.example.com", "update add none.example.com 1 A 10.3.0.3"]),
    Case(["prereq yxdomain two.example.com", "update delete ns.example.com"], "NXDOMAIN"),
    # Too much for a datagram of 512 bytes: nsupdate takes a stream.
    Case([f"update add big.example.com 60 A 10.4.{at // 200}.{at % 200}" for at in range(400)]),
]  # fmt: skip
OTHER_ZONES = [
    Case(["zone other.test", "update add a.other.test 60 A 10.5.0.1"], REFUSED),
    Case(["zone sub.example.com", "update add a.sub.example.com 60 A 10.5.0.1"], "NOTAUTH"),
    Case(["class CH", "zone example.com", "update add a.example.com 60 TXT x"], "NOTAUTH"),
]
# What is asked after each update, beside the names that it has.
NAMES = ["example.com.", "two.example.com.", "ns.example.com.", "alias.example.com."]
TYPES = ["SOA", "NS", "A", "AAAA", "CNAME", "MX", "TXT", "SRV", "PTR", "TYPE13", "TYPE257", "TYPE65280"]


def send(watched: Watched, case: Case, options: Sequence[str], zone: Sequence[str] = ("zone example.com",)) -> str:
    """Sends an update by nsupdate, and returns the code that it tells of."""
    host, port = watched.relay.address
    lines = [f"server {host} {port}", *zone, *case.commands, "send"]
    text = "\n".join(lines) + "\n"
    done = subprocess.run(["nsupdate", *options], input=text, capture_output=True, text=True, timeout=60)
    said = done.stdout + done.stderr
    prefix = "update failed: "
    if not said and done.returncode == 0:
        return OK
    codes = [line[len(prefix) :] for line in said.splitlines() if line.startswith(prefix)]
    return codes[0] if len(codes) == 1 else said


def ask_about(watched: Watched, report: Report, title: str, case: Case) -> None:
    """Compares what the server has at the names of a case with the model, by raw questions."""
    owners = {line.split()[2].rstrip(".").lower() + "." for line in case.commands if line.startswith(("update", "prereq"))}
    for name in [*sorted(owners), *NAMES]:
        for rtype in TYPES:
            watched.expect(report, f"{title}: afterwards {name} {rtype}", query(name, rtype), is_stream=True)


def try_mode(report: Report, program: str, title: str, options: Sequence[str]) -> None:
    """Sends all updates in a mode of nsupdate."""
    report.begin()
    with Watched(program, [ZONE]) as watched:
        for case in CASES:
            name = f"nsupdate {title} {'; '.join(case.commands)[:200]}"
            report.check(f"{name}: code", case.code, send(watched, case, options))
            seen = watched.compare(report, name)
            report.check(f"{name}: an update", True, any(it.request[2] >> 3 == 5 for it in seen))
            report.check(
                f"{name}: transport",
                True,
                "-v" not in options or all(it.is_stream for it in seen if it.request[2] >> 3 == 5),
            )
            ask_about(watched, report, name, case)
        for case in OTHER_ZONES:
            name = f"nsupdate {title} {'; '.join(case.commands)}"
            report.check(f"{name}: code", case.code, send(watched, case, options, ()))
            watched.compare(report, name)
        watched.compare_log(report, f"nsupdate {title}: log")
    report.end(f"nsupdate {title}")


def try_refusals(report: Report, program: str) -> None:
    """Updates are refused by `--no-updates`, before anything else is looked at."""
    report.begin()
    with Watched(program, [ZONE], takes_updates=False) as watched:
        for case in [CASES[1], CASES[11], *OTHER_ZONES[:1]]:
            name = f"--no-updates {'; '.join(case.commands)}"
            zone = () if case.commands[0].startswith("zone") else ("zone example.com",)
            report.check(f"{name}: code", REFUSED, send(watched, case, ["-v"], zone))
            watched.compare(report, name)
            ask_about(watched, report, name, case)
    report.end("nsupdate with --no-updates")


def try_updates(report: Report, program: str, missing: List[str]) -> None:
    if "nsupdate" in missing:
        report.skip("nsupdate", "cannot be installed")
        return
    try_mode(report, program, "over UDP", [])
    try_mode(report, program, "over TCP", ["-v"])
    try_refusals(report, program)
