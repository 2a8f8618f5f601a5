"""Random zones and hosts files: few names, so that they come up again and again, and small TTLs."""
import ipaddress
import random

from names import Address, Name, is_at_or_below, label_text, name_of, name_text, random_case
from records import A, AAAA, CNAME, MX, NS, PTR, SOA, SRV, TXT, Data, Record, data_text, random_address, type_text
from world import HostsLine

ORIGINS = ["t."] * 8 + ["z.t.", "."]
INNER_NAMES = ["a", "b", "c", "d", "e", "w", "x.a", "y.x.a", "*.b", r"a\;b", r"e\.f.c"]
OUTER_NAMES = ["www.example.", "t.", "u.", "a.u."]
SPECIAL_NAMES = ["localhost.", "h.localhost.", "q.invalid.", "x.q.onion.", "1.0.0.127.in-addr.arpa.", "local."]
DATA_TYPES = [A] * 8 + [AAAA] * 4 + [TXT] * 3 + [MX] * 3 + [CNAME] * 6 + [SRV] * 3 + [NS, PTR]
TXT_STRINGS = [b"one", b"two words", b'a "quote"; \\', b"", bytes(range(120, 135)), b"x" * 255]
SERIALS = [0, 1, 2, 3, 2**31, 2**32 - 1]
ADDRESSES = ["10.0.0.9", "10.0.0.1", "10.0.0.0", "127.0.0.1", "::1", "2001:db8::9", "2001:db8::1"]


def random_host_address(rng: random.Random) -> Address:
    """An address of the hosts file."""
    return ipaddress.ip_address(rng.choice(ADDRESSES))


class RandomZone:
    """The names of a zone, how they are spelled, and the records of its file."""

    def __init__(self, rng: random.Random):
        self.rng = rng
        self.origin = name_of(rng.choice(ORIGINS))[0]
        inner = [name_of(text)[0] + self.origin for text in INNER_NAMES]
        # Aliases mostly lead to later names of this list, so that loops are rare.
        self.names = [*rng.sample(inner, rng.choice((2, 4, 6, len(inner)))), self.origin]
        # Names that come up more often than others.
        self.favourites = rng.sample(self.names, 2)
        self.outer = [name_of(text)[0] for text in OUTER_NAMES + SPECIAL_NAMES]
        self.is_mixing = rng.random() < 0.1
        self.completes_names = bool(self.origin) and rng.random() < 0.3
        self.entries: list[Record] = []
        self.make_entries()

    def make_entries(self) -> None:
        """The records of the zone file, the SOA record first."""
        rng = self.rng
        self.entries = [Record(self.origin, self.ttl(), SOA, self.soa_data())]
        for _ in range(rng.randint(3, 14)):
            self.add_entry(self.name(), rng.choice(DATA_TYPES))
        if rng.random() < 0.2:
            self.add_chain(rng.randint(1, 9))
        if rng.random() < 0.08:
            self.add_large_set()
        if rng.random() < 0.05:
            self.entries.append(rng.choice(self.entries))

    def add_entry(self, owner: Name, rtype: int) -> None:
        """Adds a record, unless it would put an alias beside other data; some zones have even those."""
        others = {entry.rtype for entry in self.entries if entry.owner == owner}
        if self.is_mixing or not (CNAME in others - {rtype} or (rtype == CNAME and others - {CNAME})):
            self.entries.append(Record(owner, self.ttl(), rtype, self.data(rtype, owner)))

    def add_chain(self, links: int) -> None:
        """Aliases one after another, the last of which leads to any name."""
        chain = [(b"l%d" % at, *self.origin) for at in range(links)]
        for owner, target in zip(chain, [*chain[1:], self.target(None)]):
            self.entries.append(Record(owner, self.ttl(), CNAME, (target,)))
        self.names = chain + self.names

    def add_large_set(self) -> None:
        """Records at one name that may not fit a datagram."""
        owner = self.rng.choice(self.names)
        if self.rng.random() < 0.5:
            data = [(ipaddress.IPv4Address(f"10.1.0.{at}").packed,) for at in range(self.rng.randint(25, 90))]
            self.entries += [Record(owner, self.ttl(), A, it) for it in data]
        else:
            data = [(b"%d" % at + b"x" * 250,) for at in range(self.rng.randint(2, 6))]
            self.entries += [Record(owner, self.ttl(), TXT, it) for it in data]

    def name(self) -> Name:
        """A name of the zone."""
        return self.rng.choice(self.favourites if self.rng.random() < 0.4 else self.names)

    def target(self, owner: Name | None) -> Name:
        """A name that data can lead to: one of the zone, mostly after the owner, or another."""
        rng = self.rng
        if rng.random() < 0.15:
            return rng.choice(self.outer)
        if rng.random() < 0.1:
            return (b"nx", *self.origin)
        later = self.names[self.names.index(owner) + 1 :] if owner in self.names else []
        return rng.choice(self.names) if rng.random() < 0.04 or not later else rng.choice(later)

    def ttl(self) -> int:
        """A TTL, mostly of at most 100 seconds."""
        kind = self.rng.random()
        if kind < 0.01:
            return self.rng.choice((100_000, 2**31, 2**32 - 1))
        return self.rng.randint(0, 2) if kind < 0.2 else self.rng.randint(0, 100)

    def data(self, rtype: int, owner: Name) -> Data:
        """Data of a type."""
        rng = self.rng
        if rtype in (A, AAAA):
            return random_address(rtype, rng)
        if rtype == TXT:
            return tuple(rng.choice(TXT_STRINGS) for _ in range(rng.randint(1, 3)))
        if rtype == SOA:
            return self.soa_data()
        numbers = {MX: 1, SRV: 3}.get(rtype, 0)
        return (*(rng.randrange(3) for _ in range(numbers)), self.target(owner))

    def soa_data(self) -> Data:
        """The data of an SOA record, whose last number bounds how long negative answers are kept (RFC 2308)."""
        times = [self.rng.randint(0, 100) for _ in range(4)]
        return ((b"ns", *self.origin), (b"h", *self.origin), self.rng.choice(SERIALS), *times)

    def spelled(self, name: Name) -> str:
        """A fully qualified name, in some case."""
        return random_case(name_text(name), self.rng)

    def completed(self, name: Name) -> str:
        """The same where the origin completes names: sometimes without the origin."""
        inner = name[: len(name) - len(self.origin)]
        if not is_at_or_below(name, self.origin) or not inner or self.rng.random() < 0.5:
            return self.spelled(name)
        return random_case(".".join(map(label_text, inner)), self.rng)

    def completed_target(self, name: Name) -> str:
        """The same for a name in data, where `@` is the origin."""
        return "@" if name == self.origin and self.rng.random() < 0.3 else self.completed(name)

    def lines(self) -> tuple[str, ...]:
        """The lines of the zone file."""
        return tuple(map(self.entry_line, self.entries))

    def entry_line(self, entry: Record) -> str:
        """The line of a record."""
        owner, target = self.spelled, self.spelled
        if self.completes_names:
            owner, target = self.completed, self.completed_target
        words = [str(entry.ttl), self.rng.choice(("IN", "in", "")), type_text(entry.rtype)]
        return " ".join([owner(entry.owner), *filter(None, words), data_text(entry.rtype, entry.data, target)])

    def hosts(self) -> tuple[HostsLine, ...]:
        """Lines of a hosts file, in which no name has an address twice."""
        rng, seen, lines = self.rng, set(), []
        for _ in range(rng.randint(1, 5)):
            address = random_host_address(rng)
            names = rng.sample(self.names + self.outer, rng.randint(1, 3))
            names = [name for name in names if name and (address, name) not in seen]
            seen |= {(address, name) for name in names}
            if names:
                spelled = [text if rng.random() < 0.5 else text[:-1] for text in map(self.spelled, names)]
                lines.append(HostsLine(address, tuple(names), f"{address} {' '.join(spelled)}"))
        return tuple(lines)
