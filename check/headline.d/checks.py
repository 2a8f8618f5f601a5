"""The promises, checked on a run's output.

- *Freshness.* A printed record stood in the zone: some rows that stood at a moment t up to now have its owner, type and
  data with a TTL r such that now plus the printed TTL is at most t plus the lesser of r and `--max-ttl`. Aliases, each
  of which stood at some moment up to now, lead from the name of the lookup to the owner; none if aliases themselves are
  looked up; and a lookup of services also goes on at the targets of those to which an alias leads. Other records are
  from the hosts file, of the local host at a name that was reached, or the address that was looked up.
- *Chain bound.* For a type other than CNAME, SOA and SRV: if no chain of aliases had more than seven links, the aliases
  and the record stood in the same rows, and the TTL counts from one such moment, by the least TTL of them all.
- *Whole sets.* The printed records of a type are all rows of one name and this type, in order, in rows that stood at one
  moment t up to now, and no TTL is more than what is left of the row's own from t. So a set is never cut, and never put
  together from two versions.
- *Negative answers.* Where a lookup prints that there are no records, aliases lead to a name that had none of the type,
  and no alias, at a moment t up to now, the code says whether the name existed then, and now is at most t plus the
  lesser of the TTL and the minimum of the SOA record. Other such names are special, or have an alias now, at which a
  lookup stopped.
- *Equality.* If no update changed the rows since the cache was last emptied, no chain has more than seven links, and
  the link met no fault, the outcome is that of a walk over the rows, TTLs aside: along aliases, for a CNAME record of
  the name itself.

Beside these, a fault has a cause among the link words of its line, and the response code of an update is one that the
server answered.
"""
from collections import Counter

from history import MOST_LINKS, History, history_of
from names import Name, is_at_or_below, name_text
from output import PrintedEvent
from records import A, AAAA, CNAME, SOA, Record, data_text, is_data_type, is_plain, type_text
from walk import LOOPBACK_DATA, LOOPBACK_TTL, Outcome, ip_outcome, is_loopback_name, literal_outcome, lookup_outcome, special_outcome
from world import ClearAll, Event, Lookup, LookupIp, World
from zone import Message, Row, Rows, alias_of, has_short_chains


# How many datagrams may fail to be the reply before a question ends.
MOST_DATAGRAMS = 16
# What is printed of a negative answer, before its code.
NO_RECORDS = "no records"


class Violation(Exception):
    """A printed line breaks a promise."""


class Checker:
    """Checks the output of one run, and counts what was checked."""

    def __init__(self, world: World, counts: Counter[str]):
        self.world, self.counts = world, counts
        self.history: History = history_of(world)

    def check(self, printed: list[PrintedEvent]) -> None:
        """Checks each event; raises a violation at the first that breaks a promise."""
        events = self.world.events
        if len(printed) != len(events):
            raise Violation(f"{len(events)} events, but {len(printed)} are printed")
        emptied = 0
        for index, (event, line) in enumerate(zip(events, printed)):
            try:
                self.check_event(index, event, line, emptied)
            except Violation as violation:
                raise Violation(f"event {index + 1} ({event.line()}): {violation}") from None
            if isinstance(event.action, ClearAll):
                emptied = index
        self.counts["versions"] += len(self.history.versions)
        self.counts["updates delivered"] += len(self.history.deliveries)
        self.counts["deliveries that change rows"] += sum(it.changes_rows for it in self.history.deliveries)

    def check_event(self, index: int, event: Event, line: PrintedEvent, emptied: int) -> None:
        """Checks an event; the cache was last emptied in the event `emptied`."""
        if line.head != event.head():
            raise Violation(f"printed as {line.head}")
        if is_fault(line) and line.result not in possible_faults(event.words):
            raise Violation(f"prints {line.result}, which nothing leads to")
        if isinstance(event.action, Message):
            self.check_code(index, event, line)
        elif isinstance(event.action, (Lookup, LookupIp)):
            self.counts["lookups"] += 1
            self.counts["lookups that end in a fault"] += is_fault(line)
            self.check_records(index, event, line)
            self.check_sets(index, event, line)
            self.check_absence(index, event, line)
            self.check_outcome(index, event, line, emptied)

    def check_code(self, index: int, event: Event, line: PrintedEvent) -> None:
        """An update prints a code to which a delivery in its event led, or a fault. Without link words there is none,
        and it cannot be sent exactly if `fail` is in front."""
        number = sum(isinstance(it.action, Message) for it in self.world.events[:index])
        codes = {it.code for it in self.history.deliveries if it.event == index and it.update == number}
        is_unsent = event.words[:1] == ("fail",)
        if is_unsent != (line.result == "fault F1") or not (is_fault(line) or line.result in codes):
            raise Violation(f"prints {line.result}, but the server answers {sorted(codes) or 'nothing'}")
        self.counts[f"updates that print {'a fault' if is_fault(line) else line.result}"] += 1

    def check_records(self, index: int, event: Event, line: PrintedEvent) -> None:
        """Freshness and the chain bound, for each record of a lookup."""
        action = event.action
        types = {action.rtype} if isinstance(action, Lookup) else {A, AAAA}
        for printed in line.records:
            record = printed.record
            if record.rtype not in types:
                raise Violation(f"{printed.line().strip()}: of another type")
            if isinstance(action, LookupIp) and not isinstance(action.host, tuple):
                self.check_exception("literal addresses", record, literal_outcome(action.host).records)
                continue
            name = action.name if isinstance(action, Lookup) else action.host
            hosts = self.world.hosts_records(name, record.rtype)
            if hosts:
                self.check_exception("records of the hosts file", record, hosts)
            else:
                self.check_record(index, event.at, name, record)

    def check_exception(self, kind: str, record: Record, allowed: tuple[Record, ...]) -> None:
        """A record that need not stand in the zone is one of these, with their TTL."""
        if record not in allowed:
            raise Violation(f"{text_of(record)}: not among the {kind}")
        self.counts[kind] += 1

    def check_record(self, index: int, now: int, name: Name, record: Record) -> None:
        """A record of the server is fresh and reached, and has the chain bound; one of the local host is reached."""
        if record.owner not in self.history.reachable(name, record.rtype, index):
            raise Violation(f"{text_of(record)}: nothing leads there from {name_text(name)}")
        if record.ttl > (most := self.greatest_ttl(index, now, record)):
            if is_loopback(record):
                self.counts["records of the local host"] += 1
                return
            raise Violation(f"{text_of(record)}: " + (f"its TTL is at most {most}" if most >= 0 else "it is not fresh"))
        rows = self.history.versions_by(index)[-1].rows
        is_current = any(row.data == record.data for row in rows.get((record.owner, record.rtype), ()))
        self.counts["fresh records"] += 1
        self.counts["fresh records of CNAME, SOA and SRV"] += not is_plain(record.rtype)
        self.counts["fresh records found along aliases"] += record.owner != name
        self.counts["fresh records that have left the zone"] += not is_current
        self.counts["fresh records with the greatest TTL possible"] += record.ttl == most
        if not self.history.has_short_chains(index) or not is_plain(record.rtype):
            return
        if record.ttl > (most := self.greatest_chain_ttl(index, now, name, record)):
            reason = f"its TTL is at most {most}" if most >= 0 else "it is not fresh"
            raise Violation(f"{text_of(record)}: with its aliases, {reason}")
        self.counts["records within the chain bound"] += 1
        self.counts["records at the chain bound"] += record.ttl == most

    def greatest_ttl(self, index: int, now: int, record: Record) -> int:
        """The greatest TTL that a fresh record of this content can have, or less than 0 if none is fresh."""
        bounds = [
            standing.moment + min(row.ttl, self.world.max_ttl()) - now
            for standing in self.history.standings(index, now)
            for row in standing.rows.get((record.owner, record.rtype), ())
            if row.data == record.data
        ]
        return max(bounds, default=-1)

    def greatest_chain_ttl(self, index: int, now: int, name: Name, record: Record) -> int:
        """The same where the aliases from `name` to the owner stood with the record, and their TTLs bound its TTL."""
        bounds = [
            standing.moment + min(row.ttl, least, self.world.max_ttl()) - now
            for standing in self.history.standings(index, now)
            if (least := least_alias_ttl(standing.rows, name, record.owner)) is not None
            for row in standing.rows.get((record.owner, record.rtype), ())
            if row.data == record.data
        ]
        return max(bounds, default=-1)

    def check_sets(self, index: int, event: Event, line: PrintedEvent) -> None:
        """Whole sets: of the type of a lookup, or of each type of addresses."""
        action = event.action
        name = action.name if isinstance(action, Lookup) else action.host
        if not isinstance(name, tuple):
            return
        for rtype in (action.rtype,) if isinstance(action, Lookup) else (AAAA, A):
            records = [printed.record for printed in line.records if printed.record.rtype == rtype]
            if records and not self.world.hosts_records(name, rtype) and not (
                len(records) == 1 and is_loopback(records[0])
            ):
                self.check_set(index, event.at, records)

    def check_set(self, index: int, now: int, records: list[Record]) -> None:
        """These are all rows of a name and a type that stood together, none with too great a TTL."""
        owner, rtype = records[0].owner, records[0].rtype
        if any(record.owner != owner for record in records):
            raise Violation(f"{text_of(records[0])}: with records of another name")
        wholes = [
            standing
            for standing in self.history.standings(index, now)
            if is_whole(standing.rows.get((owner, rtype), ()), records, now - standing.moment, self.world.max_ttl())
        ]
        if not wholes:
            raise Violation(f"{text_of(records[0])}: not a whole set of {len(records)} that stood")
        self.counts["whole sets"] += 1
        self.counts["whole sets of several records"] += len(records) > 1
        self.counts["whole sets that have left the zone"] += wholes[-1].rows is not self.history.versions_by(index)[-1].rows

    def check_absence(self, index: int, event: Event, line: PrintedEvent) -> None:
        """Negative answers. For addresses the one that is printed is that of the first type, AAAA."""
        action = event.action
        name, rtype = (action.name, action.rtype) if isinstance(action, Lookup) else (action.host, AAAA)
        if not isinstance(name, tuple) or not (line.result or "").startswith(NO_RECORDS):
            return
        if not is_data_type(rtype) and not special_outcome(name, rtype):
            raise Violation(f"prints {line.result} for a type of no records")
        reached = self.history.reachable(name, rtype, index)
        if any((special := special_outcome(it, rtype)) and special.failure == line.result for it in reached):
            self.counts["negative answers of special names"] += 1
            return
        absences = [
            (standing, it)
            for standing in self.history.standings(index, event.at)
            for it in reached
            if absence_of(standing.rows, self.world.origin, it, rtype) == line.result
        ]
        current = [it for it in absences if event.at <= it[0].moment + negative_ttl(it[0].rows, self.world.origin)]
        if current:
            self.counts["negative answers"] += 1
            is_old = all(it.rows is not self.history.versions_by(index)[-1].rows for it, _ in current)
            self.counts["negative answers that no longer hold"] += is_old
            self.counts["negative answers of CNAME, SOA and SRV"] += not is_plain(rtype)
        elif line.result != f"{NO_RECORDS} NoError" or not self.may_stop(index, event.at, rtype, reached):
            reason = "is too old" if absences else "never stood"
            raise Violation(f"prints {line.result}, which {reason}")
        else:
            self.counts["negative answers where a lookup stops"] += 1

    def may_stop(self, index: int, now: int, rtype: int, reached: set[Name]) -> bool:
        """Whether one of these names has an alias now, at which a lookup stops that has followed too many aliases, or
        services that these lead to; and one of an SOA record also where an alias leads out of the zone."""
        rows_now = [it.rows for it in self.history.standings(index, now) if it.moment == now]
        has_link = rtype != CNAME and any(alias_of(rows, name) for rows in rows_now for name in reached)
        return has_link and not (is_plain(rtype) and self.history.has_short_chains(index))

    def check_outcome(self, index: int, event: Event, line: PrintedEvent, emptied: int) -> None:
        """Equality. A lookup of one name and type that meets a fault prints it. With link words, a lookup of both types
        of addresses may hide one, and is not compared."""
        may_meet_faults = event.words and (isinstance(event.action, LookupIp) or is_fault(line))
        if may_meet_faults or self.history.changes_within(emptied, index):
            return
        rows = self.history.versions_by(index)[-1].rows
        wanted = self.wanted_outcome(event, rows)
        if not wanted or not has_short_chains(rows, MOST_LINKS):
            return
        got = line.outcome()
        contents = [[record.content() for record in outcome.records] for outcome in (got, wanted)]
        if got.failure != wanted.failure or contents[0] != contents[1]:
            raise Violation(f"the walk finds {described(wanted)}, but it prints {described(got)}")
        self.counts["outcomes compared"] += 1
        if isinstance(event.action, Lookup) and not is_plain(event.action.rtype):
            self.counts["outcomes compared of CNAME, SOA and SRV"] += 1
        self.counts["failures compared"] += not wanted.records
        self.counts["outcomes compared after updates"] += bool(len(self.history.versions_by(index)) > 1)

    def wanted_outcome(self, event: Event, rows: Rows) -> Outcome | None:
        """The outcome over these rows, or None if a zone has no records of the type."""
        action = event.action
        if isinstance(action, Lookup):
            return lookup_outcome(self.world, rows, action.name, action.rtype) if is_data_type(action.rtype) else None
        if isinstance(action.host, tuple):
            return ip_outcome(self.world, rows, action.host)
        return literal_outcome(action.host)


def is_fault(line: PrintedEvent) -> bool:
    """Whether an event ends in a fault of the link, or for want of memory."""
    return line.result is not None and line.result.startswith(("fault", "no memory"))


def possible_faults(words: tuple[str, ...]) -> set[str]:
    """The faults to which the words of a link script can lead: the link fails, or a receive finds nothing, as after the
    last word, or none of sixteen datagrams is the reply."""
    faults = {"fault F3"} if words else set()
    if "fail" in words:
        faults |= {"fault F1", "fault F2", "fault F5"}
    if sum(word.startswith("r") for word in words) >= MOST_DATAGRAMS:
        faults.add("fault F4")
    return faults


def is_whole(rows: tuple[Row, ...], records: list[Record], age: int, most: int) -> bool:
    """Whether records are these rows, all and in order, with no more than what is left of their TTLs after some seconds."""
    return [row.data for row in rows] == [record.data for record in records] and all(
        record.ttl + age <= min(row.ttl, most) for row, record in zip(rows, records)
    )


def absence_of(rows: Rows, origin: Name, name: Name, rtype: int) -> str | None:
    """What is printed where a name of the zone has neither records of a type nor an alias: whether the name exists."""
    if not is_at_or_below(name, origin) or (name, rtype) in rows or alias_of(rows, name):
        return None
    return f"{NO_RECORDS} {'NoError' if any(is_at_or_below(owner, name) for owner, _ in rows) else 'NXDomain'}"


def negative_ttl(rows: Rows, origin: Name) -> int:
    """How long a negative answer may be kept: the lesser of the SOA record's TTL and its last field (RFC 2308)."""
    (soa,) = rows[origin, SOA]
    return min(soa.ttl, soa.data[-1])


def is_loopback(record: Record) -> bool:
    """Whether a record is one of the local host, with at most its TTL."""
    return (
        is_loopback_name(record.owner)
        and record.data == LOOPBACK_DATA.get(record.rtype)
        and record.ttl <= LOOPBACK_TTL
    )


def least_alias_ttl(rows: Rows, name: Name, owner: Name) -> int | None:
    """The least TTL of the aliases that lead from a name to an owner in these rows, and a great one if none are needed.
    None if none lead there."""
    least, passed = 2**32, set()
    while name != owner:
        alias = alias_of(rows, name)
        if not alias or name in passed:
            return None
        passed.add(name)
        least, name = min(least, alias.ttl), alias.data[0]
    return least


def text_of(record: Record) -> str:
    """A record as it is printed."""
    return f"{name_text(record.owner)} {record.ttl} IN {type_text(record.rtype)} {data_text(record.rtype, record.data)}"


def described(outcome: Outcome) -> str:
    """An outcome as it is printed, on one line."""
    return outcome.failure or "; ".join(map(text_of, outcome.records))
