"""What a lookup finds in a zone: a walk along aliases, without servers, a cache or messages (RFC 1034 section 5.3.3)."""
from typing import Dict, List, NamedTuple, Sequence, Tuple

from asking import Outcome
from wire import lower
from zones import A, AAAA, CNAME, Name, Record, Row, Zone, comparable, is_at_or_below, name_text, type_text

# The types of a strategy for addresses, and whether the second is looked up only where the first has nothing.
STRATEGIES: Dict[str, Tuple[List[int], bool]] = {
    "ipv4": ([A], False),
    "ipv6": ([AAAA], False),
    "both": ([AAAA, A], False),
    "ipv4-then-ipv6": ([A, AAAA], True),
    "ipv6-then-ipv4": ([AAAA, A], True),
}
# No TTL is longer, unless an option says so.
MOST_SECONDS = 86400


class Walk(NamedTuple):
    """Where a walk ends: a code, the aliases on the way, and the records at their end."""

    code: str
    aliases: Tuple[Record, ...] = ()
    records: Tuple[Record, ...] = ()
    is_loop: bool = False


def walk(zone: Zone, name: Name, rtype: int) -> Walk:
    """Follows aliases from a name to the records of a type."""
    aliases: List[Record] = []
    seen = set()
    while True:
        if not is_at_or_below(name, zone.origin):
            return Walk("Refused", tuple(aliases))
        found, alias = zone.at(name, rtype), zone.at(name, CNAME)
        if found:
            return Walk("NoError", tuple(aliases), records_of(name, rtype, found))
        if not alias:
            return Walk("NoError" if zone.has_below(name) else "NXDomain", tuple(aliases))
        if lower(name) in seen:
            return Walk("NoError", tuple(aliases), is_loop=True)
        seen.add(lower(name))
        aliases += records_of(name, CNAME, alias)
        name = alias[0].data[0]


def records_of(owner: Name, rtype: int, rows: Sequence[Row]) -> Tuple[Record, ...]:
    return tuple(Record(owner, row.ttl, rtype, row.data) for row in rows)


def walk_addresses(zone: Zone, name: Name, strategy: str) -> Walk:
    """The addresses of a name by a strategy: those of both types, or of the first that has some, or else a failure."""
    types, is_one_enough = STRATEGIES[strategy]
    walks = [walk(zone, name, it) for it in types]
    found = [it for it in walks if it.records][: 1 if is_one_enough else 2]
    if not found:
        return walks[-1] if is_one_enough else walks[0]
    return Walk("NoError", found[0].aliases, tuple(record for it in found for record in it.records))


def keys(records: Sequence[Record]) -> List[tuple]:
    """What is compared of records, whatever their order, case and TTLs."""
    return sorted({(name_text(lower(it.owner)), type_text(it.rtype), comparable(it.data)) for it in records}, key=repr)


def wanted_of(found: Walk, has_aliases: bool = False) -> tuple:
    """What is compared of a walk: lookups leave aliases out."""
    if not found.records:
        return ("failed" if found.code == "Refused" else "nothing", found.code, [])
    return ("found", "NoError", keys([*(found.aliases if has_aliases else ()), *found.records]))


def got_of(outcome: Outcome) -> tuple:
    """What is compared of an outcome."""
    return (outcome.status, outcome.code, keys(outcome.records))


def most_ttls(found: Walk) -> Dict[tuple, int]:
    """The greatest TTL that each record may have."""
    records = [*found.aliases, *found.records]
    return {key: min(it.ttl, MOST_SECONDS) for it in records for key in keys([it])}
