"""Random scripts: lookups of what a zone has, had or leads to, updates of that, and links that misbehave."""
import random

from names import Name, reverse_name
from random_zone import DATA_TYPES, RandomZone, random_host_address
from records import A, AAAA, ANY, AXFR, CNAME, MAILB, MX, NS, OPT, PTR, SIG, SOA, SRV, TSIG, TXT, ZERO
from records import Record, data_text, type_text
from world import Action, Clear, ClearAll, Event, Lookup, LookupIp
from zone import AddRecord, DeleteRecord, DeleteSet, Message, SetIsAbsent, SetIsExactly, after_update, rows_of

ASKED_TYPES = [A] * 16 + [AAAA] * 6 + [TXT] * 4 + [MX] * 4 + [CNAME] * 3 + [SRV] * 3 + [SOA] * 2 + [NS, PTR, PTR]
RARE_TYPES = [ZERO, 10, 13, SIG, OPT, TSIG, AXFR, ANY, 257, 65_280]
MOST_MOMENT = 2**62


class RandomScript:
    """A script over a zone. If it is honest, no link misbehaves, and the cache is emptied after updates."""

    def __init__(self, zone: RandomZone, rng: random.Random, is_honest: bool):
        self.zone, self.rng, self.is_honest = zone, rng, is_honest
        self.has_updates = rng.random() < 0.75
        # The greatest number of seconds between two events.
        self.pace = rng.choice((2, 10, 60))
        # What was or may be in the zone, and what is in it if each update arrives once.
        self.known, self.rows = list(zone.entries), rows_of(zone.entries)
        self.updates = 0
        self.asked: list[tuple[Name, int]] = []

    def events(self, count: int) -> tuple[Event, ...]:
        """So many lines."""
        rng, events = self.rng, []
        at = rng.choice((0, 0, 0, rng.randrange(10**6), MOST_MOMENT - 60 * count * 2))
        while len(events) < count:
            for action, text in self.step():
                at += rng.choice((0, rng.randint(0, 2), rng.randint(0, self.pace)))
                events.append(Event(at, action, text, self.words(action)))
        return tuple(events[:count])

    def step(self) -> list[tuple[Action, str]]:
        """One action, or, if the link is honest, some updates after which the cache is emptied."""
        kind = self.rng.random()
        if kind < 0.6:
            return [self.lookup()]
        if kind < 0.7:
            return [self.lookup_ip()]
        if kind < 0.73:
            name, rtype = self.question()
            return [(Clear(name, rtype), f"clear {self.zone.spelled(name)} {type_text(rtype)}")]
        if kind < 0.78:
            return [(ClearAll(), "clearall")]
        if not self.has_updates:
            return []
        if not self.is_honest:
            return [self.update()]
        updates = [self.update() for _ in range(self.rng.randint(1, 4))]
        return [*updates, (ClearAll(), "clearall")] if kind < 0.9 else []

    # Lookups.

    def lookup(self) -> tuple[Action, str]:
        name, rtype = self.question()
        self.asked.append((name, rtype))
        text = type_text(rtype) if self.rng.random() < 0.9 else type_text(rtype).lower()
        return Lookup(name, rtype), f"lookup {self.host_text(name)} {text}"

    def lookup_ip(self) -> tuple[Action, str]:
        if self.rng.random() < 0.1:
            address = random_host_address(self.rng)
            return LookupIp(address), f"ip {str(address).upper()}"
        name, _ = self.question()
        self.asked.append((name, A))
        return LookupIp(name), f"ip {self.host_text(name)}"

    def host_text(self, name: Name) -> str:
        """A name to look up. Nothing completes a relative name, so the dot at its end may be left out."""
        text = self.zone.spelled(name)
        return text[:-1] if name and self.rng.random() < 0.15 else text

    def question(self) -> tuple[Name, int]:
        """What to look up: often what the zone has or had, what an alias leads to, or what was looked up before."""
        rng, kind = self.rng, self.rng.random()
        if kind < 0.35 and self.asked:
            return rng.choice(self.asked[-3:])
        if kind < 0.6:
            record = rng.choice(self.known)
            return record.owner, record.rtype
        aliases = [record for record in self.known if record.rtype == CNAME]
        if kind < 0.8 and aliases:
            alias = rng.choice(aliases)
            types = [record.rtype for record in self.known if record.owner == alias.data[0]]
            return alias.owner, rng.choice(types or [self.rtype()])
        return self.name(), self.rtype()

    def name(self) -> Name:
        """A name to look up: one of the zone, below one, outside of it, or the reverse name of an address."""
        rng, kind = self.rng, self.rng.random()
        if kind < 0.75:
            return self.zone.name()
        if kind < 0.85:
            return (rng.choice((b"nx", b"below")), *rng.choice(self.zone.names))
        if kind < 0.97:
            return rng.choice(self.zone.outer)
        name = reverse_name(random_host_address(rng))
        return name[rng.randrange(3) :] if len(name) < 10 else name

    def rtype(self) -> int:
        """A type to look up."""
        return self.rng.choice(RARE_TYPES if self.rng.random() < 0.06 else ASKED_TYPES)

    # Updates.

    def update(self) -> tuple[Message, str]:
        """An update of any kind."""
        zone, record = self.zone, self.updated_record()
        made = Record(record.owner, zone.ttl(), record.rtype, zone.data(record.rtype, record.owner))
        makers = (self.create, self.append, self.swap, self.swap, self.delete_record, self.delete_set, self.delete_name)
        message, words = self.rng.choice(makers)(record, made)
        self.known.append(made)
        self.rows = after_update(self.rows, zone.origin, message)[1]
        self.updates += 1
        return message, " ".join(["update", *words])

    def updated_record(self) -> Record:
        """What an update is about: a new record, or one that the zone has or had, mostly at a name looked up before or
        at the target of an alias there."""
        zone, rng = self.zone, self.rng
        if rng.random() < 0.25:
            owner, rtype = zone.name(), rng.choice([*DATA_TYPES, SOA])
            return Record(owner, zone.ttl(), rtype, zone.data(rtype, owner))
        records = self.known
        if rng.random() < 0.7:
            sets = self.rows.items()
            records = [Record(owner, row.ttl, rtype, row.data) for (owner, rtype), rows in sets for row in rows]
        recent = {name for name, _ in self.asked[-4:]}
        recent |= {record.data[0] for record in self.known if record.rtype == CNAME and record.owner in recent}
        asked = [record for record in records if record.owner in recent]
        return rng.choice(asked if asked and rng.random() < 0.8 else records)

    def create(self, _: Record, made: Record) -> tuple[Message, list[str]]:
        message = Message((SetIsAbsent(made.owner, made.rtype),), (AddRecord(made),))
        return message, ["create", *self.record_words(made, made.ttl), self.data_text(made)]

    def append(self, record: Record, made: Record) -> tuple[Message, list[str]]:
        """Adds new data, or lets data that is known have another TTL."""
        data = record.data if self.rng.random() < 0.3 else made.data
        added = Record(made.owner, made.ttl, made.rtype, data)
        return Message((), (AddRecord(added),)), ["append", *self.record_words(added, added.ttl), self.data_text(added)]

    def swap(self, record: Record, made: Record) -> tuple[Message, list[str]]:
        wanted = SetIsExactly(record.owner, record.rtype, record.data)
        message = Message((wanted,), (DeleteRecord(record.owner, record.rtype, record.data), AddRecord(made)))
        words = ["swap", *self.record_words(record, made.ttl), self.data_text(record), "->", self.data_text(made)]
        return message, words

    def delete_record(self, record: Record, _: Record) -> tuple[Message, list[str]]:
        message = Message((), (DeleteRecord(record.owner, record.rtype, record.data),))
        return message, ["delete-record", *self.record_words(record), self.data_text(record)]

    def delete_set(self, record: Record, _: Record) -> tuple[Message, list[str]]:
        """Deletes the records of a type, or of a type that only questions have, which may be refused."""
        rtype = self.rng.choice((AXFR, MAILB, ANY, 13)) if self.rng.random() < 0.1 else record.rtype
        message = Message((), (DeleteSet(record.owner, rtype),))
        return message, ["delete-set", self.zone.completed(record.owner), type_text(rtype)]

    def delete_name(self, record: Record, _: Record) -> tuple[Message, list[str]]:
        return Message((), (DeleteSet(record.owner, ANY),)), ["delete-name", self.zone.completed(record.owner)]

    def record_words(self, record: Record, ttl: int | None = None) -> list[str]:
        """The words of a record in front of its data, with a TTL where the update has one."""
        return [self.zone.completed(record.owner), *([] if ttl is None else [str(ttl)]), type_text(record.rtype)]

    def data_text(self, record: Record) -> str:
        return data_text(record.rtype, record.data, self.zone.completed_target)

    # Link scripts.

    def words(self, action: Action) -> tuple[str, ...]:
        """What the link does during an event; mostly something after which there can be a reply."""
        rng = self.rng
        if self.is_honest or rng.random() < 0.6:
            return ()
        kind = rng.random()
        exchange = [f"u{max(self.updates - 1, 0)}", "r0"] if isinstance(action, Message) else ["q0", "r0"]
        if kind < 0.45:
            words = exchange * rng.choice((1, 1, 2, 3))
            for _ in range(rng.choice((0, 1, 1, 2, 3))):
                words.insert(rng.randint(0, len(words)), self.word())
        elif kind < 0.6:
            # Earlier replies come late, and perhaps the right one does not come at all.
            earlier = [f"r{rng.randint(1, 4)}" for _ in range(rng.randint(1, 3))]
            words = [exchange[0], *earlier, rng.choice(("r0", "quiet"))]
        elif kind < 0.7:
            words = [exchange[0], *[f"r{rng.randint(0, 3)}"] * rng.randint(2, 18), "r0"]
        else:
            words = [self.word() for _ in range(rng.randint(1, 8))]
        return tuple(words)

    def word(self) -> str:
        """A word of a link script, whose number may name nothing."""
        rng = self.rng
        number = rng.choice((0, 0, 1, 2, rng.randrange(6)))
        update = rng.randrange(self.updates + 1) if rng.random() < 0.95 else rng.randrange(2**64)
        return rng.choice((*(f"q{number}", f"r{number}", f"u{update}") * 2, "quiet", "fail"))
