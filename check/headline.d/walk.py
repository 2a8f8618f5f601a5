"""What a lookup finds in a zone: a walk along aliases, without a cache, a link or a limit of datagrams."""
import ipaddress
from dataclasses import dataclass

from history import MOST_LINKS
from names import ROOT, Name, is_at_or_below, name_of, name_text, reverse_name
from records import A, AAAA, CNAME, PTR, SOA, SRV, Record
from world import HOSTS_TTL, World
from zone import Rows, alias_of

LOCALHOST: Name = (b"localhost",)
# Names at or below these have the addresses of the local host (RFC 6761 section 6.3, RFC 6303 section 4).
LOOPBACK_ZONES = (LOCALHOST, name_of("127.in-addr.arpa.")[0], reverse_name(ipaddress.IPv6Address("::1")))
# Names at or below these do not exist (RFC 6761 section 6.4, RFC 7686 section 2).
NONEXISTENT_ZONES: tuple[Name, ...] = ((b"invalid",), (b"onion",))
LOOPBACK_TTL = 86_400
LOOPBACK_DATA = {A: (b"\x7f\0\0\1",), AAAA: (bytes(15) + b"\1",), PTR: (LOCALHOST,)}


@dataclass(frozen=True)
class Outcome:
    """Records, or the text of a failure."""

    records: tuple[Record, ...] = ()
    failure: str = ""

    def __str__(self) -> str:
        return self.failure or ", ".join(f"{name_text(it.owner)} {it.rtype} {it.data}" for it in self.records)


def is_loopback_name(name: Name) -> bool:
    """Whether a name belongs to the local host."""
    return any(is_at_or_below(name, zone) for zone in LOOPBACK_ZONES)


def special_outcome(name: Name, rtype: int) -> Outcome | None:
    """What a resolver knows of a name of special use, or None for other names."""
    if is_loopback_name(name):
        data = LOOPBACK_DATA.get(rtype)
        return Outcome((Record(name, LOOPBACK_TTL, rtype, data),)) if data else Outcome(failure="no records NoError")
    if any(is_at_or_below(name, zone) for zone in NONEXISTENT_ZONES):
        return Outcome(failure="no records NXDomain")
    return None


def negative_outcome(rows: Rows, origin: Name, name: Name) -> Outcome:
    """Why a name has no records: its server refuses it, or it exists without such records, or it does not exist."""
    if not is_at_or_below(name, origin):
        return Outcome(failure="code Refused")
    has_rows = any(is_at_or_below(owner, name) for owner, _ in rows)
    return Outcome(failure=f"no records {'NoError' if has_rows else 'NXDomain'}")


def walk(rows: Rows, origin: Name, name: Name, rtype: int, links: int = MOST_LINKS) -> Outcome:
    """What a name leads to along at most so many aliases (RFC 1034 section 4.3.2)."""
    special = special_outcome(name, rtype)
    if special:
        return special
    found = rows.get((name, rtype))
    if found:
        return Outcome(tuple(Record(name, row.ttl, rtype, row.data) for row in found))
    alias = alias_of(rows, name)
    if alias and links:
        return walk(rows, origin, alias.data[0], rtype, links - 1)
    return negative_outcome(rows, origin, name)


def soa_outcome(rows: Rows, origin: Name, name: Name) -> Outcome:
    """The same of the SOA record, for which a reply without one is no answer: where an alias leads out of the zone, or
    to a name of special use, the lookup ends there."""
    end = name
    for _ in range(MOST_LINKS):
        alias = alias_of(rows, end)
        if not alias or (end, SOA) in rows or not is_at_or_below(end, origin) or special_outcome(end, SOA):
            break
        end = alias.data[0]
    if end != name and (not is_at_or_below(end, origin) or special_outcome(end, SOA)):
        return Outcome(failure="no records NoError")
    return walk(rows, origin, name, SOA)


def service_outcome(rows: Rows, origin: Name, name: Name, lookups: int = MOST_LINKS) -> Outcome:
    """The same of services. If an alias leads to them, the lookup goes on at the target of the last one, so many times
    at most, unless that is where they are."""
    outcome = walk(rows, origin, name, SRV)
    if not outcome.records or outcome.records[0].owner == name:
        return outcome
    target = outcome.records[-1].data[-1]
    if target == outcome.records[0].owner:
        return outcome
    return service_outcome(rows, origin, target, lookups - 1) if lookups else Outcome(failure="no records NoError")


def outcome_in(rows: Rows, origin: Name, name: Name, rtype: int) -> Outcome:
    """What a lookup of a name and a type finds in these rows."""
    if rtype == CNAME:
        return walk(rows, origin, name, CNAME, 0)
    if rtype == SOA:
        return soa_outcome(rows, origin, name)
    return service_outcome(rows, origin, name) if rtype == SRV else walk(rows, origin, name, rtype)


def lookup_outcome(world: World, rows: Rows, name: Name, rtype: int) -> Outcome:
    """The outcome of a lookup of a name and a type: what the hosts file has, or else the zone."""
    records = world.hosts_records(name, rtype)
    return Outcome(records) if records else outcome_in(rows, world.origin, name, rtype)


def literal_outcome(address: ipaddress.IPv4Address | ipaddress.IPv6Address) -> Outcome:
    """The outcome of a lookup of an address. The text of an IPv4 address is spelled like a name, which is the owner."""
    is_four = address.version == 4
    owner = name_of(str(address))[0] if is_four else ROOT
    return Outcome((Record(owner, HOSTS_TTL, A if is_four else AAAA, (address.packed,)),))


def ip_outcome(world: World, rows: Rows, name: Name) -> Outcome:
    """The outcome of a lookup of the addresses of a name: those of IPv6 and then those of IPv4; if there are none, the
    failure of IPv6."""
    six, four = lookup_outcome(world, rows, name, AAAA), lookup_outcome(world, rows, name, A)
    return Outcome(six.records + four.records) if six.records or four.records else six
