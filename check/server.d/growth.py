"""How the processor time of one question and of one update grows with the records of a set, the labels of a name, and the zones, and
that of the start with the zones.

The server answers by the whole of RFC 1034, as it does by default. Of each pair of sizes the greater is four times the less, and may
take six times as long, but for names of many labels that exist: each name above such a name is looked up by a key as long as it.
"""
import time
from pathlib import Path
from struct import pack
from typing import Callable, List, NamedTuple, Tuple, Union

from messages import query
from nameserver import NameServer
from report import Report
from samples import at, header, question as question_section, record, wire
from transport import ask_datagram, connect, frame, read_frame

MOST_GROWTH = 6.0
# Four times as many keys that are four times as long take less than 16 times as long, since much of a question does not grow.
GROWTH_OF_KEYS = 10.0
# How often each size is measured, by turns, for how long each time, and how long a reply may take, in seconds.
ROUNDS, TURN, WAIT = 3, 0.2, 60.0
MOST = 65535
ZONE_SECTION = question_section(wire("t."), 6)
HEAD = "t. 60 IN SOA ns.t. h.t. 1 3600 600 86400 30\nt. 60 IN NS ns.t.\nns.t. 60 IN A 10.0.0.53\n"


class Series(NamedTuple):
    """A zone, or some, and a question for each size."""

    title: str
    sizes: Tuple[int, int]
    zone: Callable[[int], Union[str, List[str]]]
    question: Callable[[int], bytes]
    over_stream: bool = False
    options: Tuple[str, ...] = ()
    most: float = MOST_GROWTH


def of_hosts(line: str) -> Callable[[int], str]:
    """A zone with a set whose records name so many hosts, each with an address."""

    def zone(count: int) -> str:
        hosts = "".join(f"h{it}.t. 60 IN A 10.1.{it >> 8 & 255}.{it & 255}\n" for it in range(count))
        return HEAD + "".join(line.format(at=it) for it in range(count)) + hosts

    return zone


def update_of(prerequisites: List[bytes], changes: List[bytes]) -> bytes:
    """An update of the zone t., with as many of the records as fit."""
    body, counts = bytearray(), [0, 0]
    for which, records in enumerate((prerequisites, changes)):
        for it in records:
            if 12 + len(ZONE_SECTION) + len(body) + len(it) > MOST:
                break
            body += it
            counts[which] += 1
    return header((1, counts[0], counts[1], 0), 0x2800) + ZONE_SECTION + bytes(body)


def of_addresses(count: int) -> str:
    """A zone with a set of so many addresses."""
    return HEAD + "".join(f"s.t. 60 IN A 10.{it >> 16}.{it >> 8 & 255}.{it & 255}\n" for it in range(count))


def of_zones(count: int) -> List[str]:
    """So many zones with an address each."""
    return [f"z{it}. 60 IN SOA ns.t. h.t. 1 3600 600 86400 30\na.z{it}. 60 IN A 10.0.0.1\n" for it in range(count)]


def beside_a_deep_zone(_: int) -> List[str]:
    """A thousand such zones, and one whose origin has 100 labels."""
    return of_zones(1_000) + [f"{labels_of_x(100)} 60 IN SOA ns.t. h.t. 1 3600 600 86400 30\n"]


def labels_of_x(count: int) -> str:
    """A name of so many labels, in none of the zones of `of_zones`."""
    return "x." * count


def changes_of_one_set(count: int) -> bytes:
    """An update that adds records to a set which has them already, in at most 64 kB."""
    owner = b"\1s" + at(12)
    return update_of([], [record(owner, 1, pack(">I", 0x0A000000 + it)) for it in range(min(count, 4_000))])


def required_of_one_set(count: int) -> bytes:
    """An update whose prerequisites are records of a set, in at most 64 kB."""
    owner = b"\1s" + at(12)
    return update_of([record(owner, 1, pack(">I", 0x0A000000 + it), 0) for it in range(min(count, 4_000))], [])


def required_of_labels(count: int) -> bytes:
    """An update with 3,000 prerequisites, the names in whose data share so many labels."""
    owner = b"\1m" + at(12)
    first = record(owner, 2, wire("n." + labels_of_x(count) + "t."), 0)
    shared = at(12 + len(ZONE_SECTION) + len(owner) + 10 + 2)
    others = [record(owner, 2, bytes([len(str(it))]) + str(it).encode() + shared, 0) for it in range(3_000)]
    return update_of([first] + others, [])


def absent(count: int) -> bytes:
    """A question for a name of so many labels that does not exist."""
    return query(labels_of_x(count) + "t.")


def of_deep_name(count: int) -> str:
    """A zone with a name of so many labels below the origin."""
    return HEAD + labels_of_x(count) + "t. 60 IN A 10.0.0.1\n"


def of_deep_aliases(count: int) -> str:
    """A zone with a chain of seven aliases, each with so many labels below the origin."""
    deep = [f"{it}." + labels_of_x(count - 1) + "t." for it in range(8)]
    aliases = "".join(f"{one} 60 IN CNAME {other}\n" for one, other in zip(deep, deep[1:]))
    return HEAD + aliases + deep[-1] + " 60 IN A 10.0.0.1\n"


def first_alias(count: int) -> bytes:
    """A question for the first of these aliases."""
    return query("0." + labels_of_x(count - 1) + "t.")


def additions_that_share(count: int) -> bytes:
    """An update that adds records whose owners share so many labels, in at most 64 kB."""
    first = record(wire("n." + labels_of_x(count) + "t."), 1, pack(">I", 0x0A000000))
    shared = at(12 + len(ZONE_SECTION) + 2)
    others = [
        record(bytes([len(str(it))]) + str(it).encode() + shared, 1, pack(">I", 0x0A000001 + it)) for it in range(2_900)
    ]
    return update_of([], [first] + others)


SERIES = [
    Series("SRV records", (4_000, 16_000), of_hosts("s.t. 60 IN SRV 1 {at} 80 h{at}.t.\n"), lambda _: query("s.t.", "SRV")),
    Series("MX records", (4_000, 16_000), of_hosts("s.t. 60 IN MX {at} h{at}.t.\n"), lambda _: query("s.t.", "MX")),
    Series("NS records", (4_000, 16_000), of_hosts("s.t. 60 IN NS h{at}.t.\n"), lambda _: query("x.s.t.")),
    Series("SRV records, TCP", (250, 1_000), of_hosts("s.t. 60 IN SRV 1 {at} 80 h{at}.t.\n"), lambda _: query("s.t.", "SRV"), True),
    Series("MX records, TCP", (250, 1_000), of_hosts("s.t. 60 IN MX {at} h{at}.t.\n"), lambda _: query("s.t.", "MX"), True),
    Series("addresses", (10_000, 40_000), of_addresses, lambda _: query("s.t.")),
    Series("labels that do not exist", (29, 116), lambda _: HEAD, absent),
    Series("labels that exist", (29, 116), of_deep_name, absent, most=GROWTH_OF_KEYS),
    Series("labels of seven aliases", (29, 116), of_deep_aliases, first_alias, most=GROWTH_OF_KEYS),
    Series("labels at a wildcard", (29, 116), lambda _: HEAD + "*.t. 60 IN A 10.0.0.1\n", absent),
    Series("labels in none of 1,000 zones", (31, 124), lambda _: of_zones(1_000), lambda count: query(labels_of_x(count))),
    Series("labels beside a zone of 100 labels", (31, 124), beside_a_deep_zone, lambda count: query("y." * count)),
    Series("records of a set, an update refused", (10_000, 40_000), of_addresses, changes_of_one_set, True, ("--no-updates",)),
    Series("records of a set, an update without effect", (10_000, 40_000), of_addresses, changes_of_one_set, True),
    Series("records of a set, prerequisites", (10_000, 40_000), of_addresses, required_of_one_set, True),
    Series("labels that prerequisites share", (30, 120), lambda _: HEAD, required_of_labels, True),
    Series("labels that prerequisites share, refused", (30, 120), lambda _: HEAD, required_of_labels, True, ("--no-updates",)),
    Series("labels that additions share", (29, 116), lambda _: HEAD, additions_that_share, True),
    Series("zones, an address in the last", (2_500, 10_000), of_zones, lambda count: query(f"a.z{count - 1}.")),
    Series("zones, a name of 120 labels in none", (2_500, 10_000), of_zones, lambda _: query(labels_of_x(120))),
]
# How many zones are read by two starts.
STARTS = (2_500, 10_000)


def try_growth(report: Report, _program: str, given) -> None:
    """Measures each series, and the starts, by the program itself, without `--plain`."""
    try_questions(report, given)
    try_starts(report, given)


def try_questions(report: Report, given) -> None:
    """Measures each series."""
    for series in SERIES:
        report.begin()
        small, large = (Measured(given.program, series, size) for size in series.sizes)
        with small.server, large.server:
            for _ in range(ROUNDS):
                small.ask()
                large.ask()
        growth = large.least / small.least
        title = f"{series.title}, {series.sizes[0]:,} and {series.sizes[1]:,}"
        times = f"{small.least * 1e6:,.0f} and {large.least * 1e6:,.0f} microseconds"
        report.check(f"{title}: {times}", True, growth <= series.most)
        report.end(title, f", {times}")


def try_starts(report: Report, given) -> None:
    """Measures the start with few zones and with many."""
    report.begin()
    least = [float("inf")] * len(STARTS)
    for _ in range(ROUNDS):
        for place, count in enumerate(STARTS):
            with NameServer(of_zones(count), program=given.program, seconds=120, log=False) as server:
                least[place] = min(least[place], processor_time(server))
    title = f"the start, {STARTS[0]:,} and {STARTS[1]:,} zones"
    times = f"{least[0] * 1e3:,.0f} and {least[1] * 1e3:,.0f} milliseconds"
    report.check(f"{title}: {times}", True, least[1] <= MOST_GROWTH * least[0])
    report.end(title, f", {times}")


class Measured:
    """A server that is asked one question of a series, and the least processor time that it took for one."""

    def __init__(self, program: str, series: Series, size: int):
        self.server = NameServer(series.zone(size), program=program, options=series.options, seconds=120, log=False)
        self.request, self.over_stream = series.question(size), series.over_stream
        self.least = float("inf")

    def ask(self) -> None:
        """Asks as long as a turn lasts, and once at least."""
        address, count = (self.server.address, self.server.port), 0
        start, before = time.monotonic(), processor_time(self.server)
        while count == 0 or time.monotonic() - start < TURN:
            reply = ask_over_stream(address, self.request) if self.over_stream else ask_datagram(address, self.request, WAIT)
            if reply is None:
                raise OSError("no reply")
            count += 1
        self.least = min(self.least, (processor_time(self.server) - before) / count)


def processor_time(server: NameServer) -> float:
    """The processor time of a server, in seconds."""
    return int(Path(f"/proc/{server.process.pid}/schedstat").read_text().split()[0]) / 1e9


def ask_over_stream(address, request: bytes):
    with connect(address, WAIT) as stream:
        stream.sendall(frame(request))
        return read_frame(stream)
