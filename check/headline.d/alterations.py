"""Alterations of an output that break a promise for sure, each by itself: the check must notice every one.

Whether an alteration breaks a promise is decided in simple runs, mostly without updates, and not by the check itself.
"""
from collections import Counter
from collections.abc import Callable, Iterable, Iterator
from dataclasses import replace
from itertools import islice

from checks import Checker, Violation
from history import MOST_LINKS, history_of
from names import is_at_or_below, name_of, name_text
from output import PrintedEvent, PrintedRecord, parse_output, write_output
from records import A, AAAA, CNAME, SOA, SRV, Data, Record, data_text, is_data_type, is_plain, type_text
from walk import is_loopback_name, special_outcome
from world import Lookup, LookupIp, World
from zone import Message, Row, alias_of, has_short_chains, rows_of

Output = list[PrintedEvent]
Alteration = Callable[[World, Output], Iterator[Output]]

EMPTY, MISSING = "no records NoError", "no records NXDomain"
# How many outputs of a run each alteration makes at most.
MOST_OUTPUTS = 3


def altered(output: Output, index: int, event: PrintedEvent) -> Output:
    """The output with another event in this place."""
    return [*output[:index], event, *output[index + 1 :]]


def found_records(world: World, output: Output) -> Iterator[tuple[int, int, Lookup, Record]]:
    """Each record of a lookup whose name is not in the hosts file, by its event and its place."""
    for index, (event, line) in enumerate(zip(world.events, output)):
        action = event.action
        if isinstance(action, Lookup) and not world.hosts_records(action.name, action.rtype):
            yield from ((index, at, action, printed.record) for at, printed in enumerate(line.records))


def is_unchanging(world: World) -> bool:
    """Whether the zone's rows stay the same, and no chain of aliases is long."""
    has_updates = any(isinstance(event.action, Message) for event in world.events)
    return not has_updates and has_short_chains(rows_of(world.entries), MOST_LINKS)


def zone_ttl(world: World, record: Record) -> int:
    """The TTL of a record in the zone file, at most the greatest."""
    rows = rows_of(world.entries).get((record.owner, record.rtype), ())
    return min(world.max_ttl(), *(row.ttl for row in rows if row.data == record.data))


def raised_ttl(world: World, output: Output) -> Iterator[Output]:
    """A TTL of one more than the zone's, which never changes, or than the greatest."""
    for index, at, _, record in found_records(world, output):
        if is_unchanging(world) and not is_loopback_name(record.owner):
            yield altered(output, index, output[index].with_record(at, ttl=zone_ttl(world, record) + 1))


def ttl_above_alias(world: World, output: Output) -> Iterator[Output]:
    """The TTL that a record has in the zone, which never changes, although an alias with a lower one leads to it."""
    rows = rows_of(world.entries)
    for index, at, action, record in found_records(world, output):
        is_promised = is_plain(action.rtype) and not is_loopback_name(record.owner)
        if is_unchanging(world) and record.owner != action.name and is_promised:
            alias, ttl = alias_of(rows, action.name), zone_ttl(world, record)
            if alias and alias.ttl < ttl:
                yield altered(output, index, output[index].with_record(at, ttl=ttl))


def outdated_record(world: World, output: Output) -> Iterator[Output]:
    """A record that left the zone longer ago than its TTL."""
    history = history_of(world)
    for index, at, action, record in found_records(world, output):
        now, ends = world.events[index].at, {}
        for standing in history.standings(index, now):
            for row in standing.rows.get((record.owner, record.rtype), ()):
                end = standing.moment + min(row.ttl, world.max_ttl())
                ends[row.data] = max(end, ends.get(row.data, 0))
        for data, end in ends.items():
            if end < now and not is_loopback_name(record.owner):
                yield altered(output, index, output[index].with_record(at, ttl=0, data=data_text(record.rtype, data)))


def unrelated_record(world: World, output: Output) -> Iterator[Output]:
    """A record of another name, to which no alias leads."""
    rows = rows_of(world.entries)
    targets = {row.data[-1] for (_, rtype), values in rows.items() if rtype in (CNAME, SRV) for row in values}
    for index, at, action, record in found_records(world, output):
        for (owner, rtype), (row, *_) in rows.items():
            if is_unchanging(world) and rtype == action.rtype and owner != action.name and owner not in targets:
                changes = {"owner": name_text(owner), "ttl": 0, "data": data_text(rtype, row.data)}
                yield altered(output, index, output[index].with_record(at, **changes))


def other_data(world: World, output: Output) -> Iterator[Output]:
    """An address that no zone here has."""
    for index, at, _, record in found_records(world, output):
        if record.rtype in (A, AAAA):
            data = "203.0.113.1" if record.rtype == A else "2001:db8:ffff::1"
            yield altered(output, index, output[index].with_record(at, ttl=0, data=data))


def other_type(world: World, output: Output) -> Iterator[Output]:
    """A record that the zone has at the name, but of a type that was not asked for."""
    rows = rows_of(world.entries)
    for index, _, action, record in found_records(world, output):
        for (owner, rtype), (row, *_) in rows.items():
            if owner == record.owner and rtype != action.rtype:
                extra = PrintedRecord(name_text(owner), 0, type_text(rtype), data_text(rtype, row.data))
                yield altered(output, index, replace(output[index], records=(*output[index].records, extra)))


def server_sets(world: World, output: Output) -> Iterator[tuple[int, list[Record], list[tuple[Row, ...]]]]:
    """The records of a lookup that come from the server, with the rows of their name and type in each version so far."""
    history = history_of(world)
    for index, at, _, record in found_records(world, output):
        if at == 0 and not is_loopback_name(record.owner):
            versions = [version.rows.get((record.owner, record.rtype), ()) for version in history.versions_by(index)]
            yield index, [printed.record for printed in output[index].records], versions


def data_of_rows(rows: tuple[Row, ...]) -> list[Data]:
    return [row.data for row in rows]


def cut_set(world: World, output: Output) -> Iterator[Output]:
    """A set without one of its records, which no version of the zone has."""
    for index, records, versions in server_sets(world, output):
        for at in range(len(records)):
            left = [record.data for record in [*records[:at], *records[at + 1 :]]]
            if left and left not in map(data_of_rows, versions):
                line = output[index]
                yield altered(output, index, replace(line, records=(*line.records[:at], *line.records[at + 1 :])))


def mixed_set(world: World, output: Output) -> Iterator[Output]:
    """A set with a record that another version has, which no version has whole."""
    for index, records, versions in server_sets(world, output):
        for row in (row for rows in versions for row in rows):
            together = [*(record.data for record in records), row.data]
            if len(set(together)) == len(together) and together not in map(data_of_rows, versions):
                owner, rtype = records[0].owner, records[0].rtype
                more = PrintedRecord(name_text(owner), 0, type_text(rtype), data_text(rtype, row.data))
                yield altered(output, index, replace(output[index], records=(*output[index].records, more)))


def followed_alias(world: World, output: Output) -> Iterator[Output]:
    """The next alias of a chain where one was looked up, as if a lookup of aliases followed them."""
    rows = rows_of(world.entries)
    for index, at, action, record in found_records(world, output):
        target = record.data[0] if record.rtype == CNAME else None
        following = alias_of(rows, target) if target and target != record.owner else None
        if following and is_unchanging(world):
            changes = {"owner": name_text(target), "ttl": 0, "data": data_text(CNAME, following.data)}
            yield altered(output, index, output[index].with_record(at, **changes))


def target_of_another_alias(world: World, output: Output) -> Iterator[Output]:
    """An alias with the target of another alias, which its name never had."""
    rows = rows_of(world.entries)
    targets = {row.data for (_, rtype), values in rows.items() if rtype == CNAME for row in values}
    for index, at, _, record in found_records(world, output):
        for data in targets - {record.data} if record.rtype == CNAME and is_unchanging(world) else ():
            yield altered(output, index, output[index].with_record(at, ttl=0, data=data_text(CNAME, data)))


def services_of_target(world: World, output: Output) -> Iterator[Output]:
    """The services of a service's target, or the same ones there, although no alias led to it."""
    rows = rows_of(world.entries)
    for index, at, action, record in found_records(world, output):
        target = record.data[-1] if record.rtype == SRV else None
        if target and target != record.owner == action.name and is_unchanging(world):
            services = rows.get((target, SRV)) or rows[record.owner, SRV]
            printed = [PrintedRecord(name_text(target), 0, "SRV", data_text(SRV, row.data)) for row in services]
            yield altered(output, index, replace(output[index], records=tuple(printed)))


def absence_of_other_type(world: World, output: Output) -> Iterator[Output]:
    """A negative answer for a type of which no zone has records, which its server does not implement."""
    for index, (event, line) in enumerate(zip(world.events, output)):
        action = event.action
        if isinstance(action, Lookup) and line.result == "code NotImp":
            yield altered(output, index, replace(line, result=EMPTY))


def absent_codes(world: World, index: int, action: Lookup) -> dict[str, int] | None:
    """The negative answers that the zone had so far for the name of a lookup, with the last moment at which each may be
    printed; None if an alias leads on from the name."""
    history, now = history_of(world), world.events[index].at
    if history.reachable(action.name, action.rtype, index) != {action.name} or special_outcome(action.name, action.rtype):
        return None
    ends: dict[str, int] = {}
    for standing in history.standings(index, now):
        rows = standing.rows
        if is_at_or_below(action.name, world.origin) and (action.name, action.rtype) not in rows:
            exists = any(is_at_or_below(owner, action.name) for owner, _ in rows)
            (soa,) = rows[world.origin, SOA]
            code = EMPTY if exists else MISSING
            ends[code] = max(ends.get(code, 0), standing.moment + min(soa.ttl, soa.data[-1]))
    return ends


def data_lookups(world: World, output: Output) -> Iterator[tuple[int, Lookup, PrintedEvent]]:
    """The lookups of types of which a zone can have records, where the hosts file has nothing."""
    for index, (event, line) in enumerate(zip(world.events, output)):
        action = event.action
        if isinstance(action, Lookup) and is_data_type(action.rtype) and not world.hosts_records(action.name, action.rtype):
            yield index, action, line


def old_absence(world: World, output: Output) -> Iterator[Output]:
    """A negative answer that the zone had, longer ago than it may be kept."""
    for index, action, line in data_lookups(world, output):
        for code, end in (absent_codes(world, index, action) or {}).items():
            if end < world.events[index].at:
                yield altered(output, index, replace(line, result=code, records=()))


def code_of_another_moment(world: World, output: Output) -> Iterator[Output]:
    """A negative answer with the other code, which the zone never had for the name, or had too long ago."""
    for index, action, line in data_lookups(world, output):
        if line.result in (EMPTY, MISSING) and (ends := absent_codes(world, index, action)):
            other = MISSING if line.result == EMPTY else EMPTY
            if ends.get(other, -1) < world.events[index].at:
                yield altered(output, index, replace(line, result=other))


def absence_of_found(world: World, output: Output) -> Iterator[Output]:
    """A negative answer for a name that had the records all the time."""
    for index, action, line in data_lookups(world, output):
        if line.records and absent_codes(world, index, action) == {}:
            yield altered(output, index, replace(line, result=EMPTY, records=()))


def ttl_of_hosts(world: World, output: Output) -> Iterator[Output]:
    """A record of the hosts file, or an address that was looked up, with a lower TTL: as if it aged."""
    for index, (event, line) in enumerate(zip(world.events, output)):
        action = event.action
        for at, printed in enumerate(line.records):
            if isinstance(action, Lookup):
                is_exception = bool(world.hosts_records(action.name, action.rtype))
            else:
                is_exception = isinstance(action, LookupIp) and not isinstance(action.host, tuple)
            if is_exception:
                yield altered(output, index, line.with_record(at, ttl=printed.ttl - 1))


def loopback_elsewhere(world: World, output: Output) -> Iterator[Output]:
    """A record of the local host at a name that is not its own, and one with too great a TTL."""
    for index, at, action, record in found_records(world, output):
        if is_loopback_name(record.owner):
            yield altered(output, index, output[index].with_record(at, ttl=86_401))
            yield altered(output, index, output[index].with_record(at, owner=name_text((b"nx", *world.origin))))


def compared_lookups(world: World, output: Output) -> Iterator[tuple[int, PrintedEvent]]:
    """The lookups whose outcome is that of the walk: nothing changes, and the link is honest."""
    for index, (event, line) in enumerate(zip(world.events, output)):
        action = event.action
        is_promised = is_data_type(action.rtype) if isinstance(action, Lookup) else isinstance(action, LookupIp)
        if is_unchanging(world) and is_promised and not event.words:
            yield index, line


def records_altered(alter: Callable[[tuple], tuple]) -> Alteration:
    """Alters the list of the records of a lookup, if that changes their contents."""

    def alteration(world: World, output: Output) -> Iterator[Output]:
        for index, line in compared_lookups(world, output):
            records = alter(line.records)
            if records and [it.record.content() for it in records] != [it.record.content() for it in line.records]:
                yield altered(output, index, replace(line, records=records))

    return alteration


def outcome_altered(result: str, others: Callable[[PrintedEvent], bool]) -> Alteration:
    """Prints this failure in place of the outcome of a lookup, if the outcome is one of some others."""

    def alteration(world: World, output: Output) -> Iterator[Output]:
        for index, line in compared_lookups(world, output):
            if others(line):
                yield altered(output, index, replace(line, result=result, records=()))

    return alteration


def other_code(world: World, output: Output) -> Iterator[Output]:
    """Another response code of an update."""
    for index, (event, line) in enumerate(zip(world.events, output)):
        if isinstance(event.action, Message) and not event.words:
            yield altered(output, index, replace(line, result="NXRRSet" if line.result == "NoError" else "NoError"))


def other_fault(world: World, output: Output) -> Iterator[Output]:
    """A fault of a link that the script does not let fail."""
    for index, (event, line) in enumerate(zip(world.events, output)):
        if event.words and "fail" not in event.words and line.result == "fault F3":
            yield altered(output, index, replace(line, result="fault F2"))


def missing_line(world: World, output: Output) -> Iterator[Output]:
    """An output without its last event."""
    yield output[:-1]


ALTERATIONS: dict[str, Alteration] = {
    "a TTL is raised by one": raised_ttl,
    "a TTL is above that of an alias": ttl_above_alias,
    "a record left the zone too long ago": outdated_record,
    "a record is of an unrelated name": unrelated_record,
    "a record never stood": other_data,
    "a record is of another type": other_type,
    "a set is cut": cut_set,
    "a set is of two versions": mixed_set,
    "an alias was followed where aliases are looked up": followed_alias,
    "an alias has the target of another one": target_of_another_alias,
    "services are those of a target": services_of_target,
    "a negative answer is for a type without records": absence_of_other_type,
    "a negative answer is too old": old_absence,
    "a negative answer has the code of another moment": code_of_another_moment,
    "a negative answer never stood": absence_of_found,
    "a record of the hosts file, or an address, ages": ttl_of_hosts,
    "a record of the local host is elsewhere": loopback_elsewhere,
    "a record is missing": records_altered(lambda records: records[:-1]),
    "records are in another order": records_altered(lambda records: records[::-1]),
    "a record is repeated": records_altered(lambda records: records + records[:1]),
    "records are not found": outcome_altered(EMPTY, lambda line: bool(line.records)),
    "a name with other records does not exist": outcome_altered(MISSING, lambda line: line.result == EMPTY),
    "a missing name exists": outcome_altered(EMPTY, lambda line: line.result == MISSING),
    "a refusal is a negative answer": outcome_altered(MISSING, lambda line: line.result == "code Refused"),
    "an honest link has a fault": outcome_altered("fault F3", lambda line: True),
    "a fault has no cause": other_fault,
    "a response code of an update differs": other_code,
    "an event is missing": missing_line,
}


def self_test(runs: Iterable[tuple[World, str]]) -> int:
    """Alters the outputs of some runs, and prints how many of each kind were noticed. The status is 1 if one was not,
    or if a kind never came up."""
    noticed: Counter[str] = Counter()
    missed: Counter[str] = Counter()
    for world, text in runs:
        output = parse_output(text)
        Checker(world, Counter()).check(output)
        for name, alteration in ALTERATIONS.items():
            for wrong in islice(alteration(world, output), MOST_OUTPUTS):
                try:
                    Checker(world, Counter()).check(parse_output(write_output(wrong)))
                    missed[name] += 1
                except Violation:
                    noticed[name] += 1
    for name in ALTERATIONS:
        print(f"{noticed[name]:>8} noticed, {missed[name]} missed: {name}")
    return 0 if not missed and all(noticed[name] for name in ALTERATIONS) else 1
