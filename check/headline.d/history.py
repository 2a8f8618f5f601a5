"""The history of a zone: the versions of its rows, by the events of a run alone, whatever the resolver asks.

Questions change no rows. An update reaches the server where its own line has no link script, or where a line has a word
`uN` for it: every such word of a line takes effect, during the event or as it ends. Only the datagram of an update that
was sent can arrive, and a `fail` in front of an update's line keeps it from being sent.
"""
from collections.abc import Iterator
from dataclasses import dataclass

from names import Name
from records import CNAME, SRV
from world import Event, World
from zone import Message, Rows, after_update, alias_of, has_short_chains, rows_of

MOST_LINKS = 7


@dataclass(frozen=True)
class Version:
    """Rows from the moment, in seconds, of the event that made them; the zone file's are of no event."""

    moment: int
    rows: Rows
    event: int = -1


@dataclass(frozen=True)
class Delivery:
    """An update that reaches the server: in which event, which update of the script, and what it leads to."""

    event: int
    update: int
    code: str
    changes_rows: bool


@dataclass(frozen=True)
class Standing:
    """Rows, and the last moment up to now at which they stood."""

    rows: Rows
    moment: int


@dataclass
class History:
    versions: list[Version]
    deliveries: list[Delivery]

    def versions_by(self, event: int) -> list[Version]:
        """The versions that the events up to this one made."""
        return [version for version in self.versions if version.event <= event]

    def standings(self, event: int, now: int) -> Iterator[Standing]:
        """The rows that stood at some moment up to now. A version stands from its moment to that of the next one, both
        included, so several may stand at one moment."""
        versions = self.versions_by(event)
        for version, following in zip(versions, [*versions[1:], None]):
            yield Standing(version.rows, min(now, following.moment) if following else now)

    def has_short_chains(self, event: int) -> bool:
        """Whether no chain of aliases in any rows so far is longer than a reply follows."""
        return all(has_short_chains(version.rows, MOST_LINKS) for version in self.versions_by(event))

    def changes_within(self, first: int, last: int) -> bool:
        """Whether a delivery changes the rows in these events, both included."""
        return any(first <= it.event <= last and it.changes_rows for it in self.deliveries)

    def reachable(self, start: Name, rtype: int, event: int) -> set[Name]:
        """The names to which a lookup of a type leads from a name, along links each of which stood in some rows so far:
        aliases, if it is not one of aliases (RFC 1034 section 3.6.2). A lookup of services that was led to them by an
        alias goes on at their targets."""
        found, pending = {(start, False)}, [(start, False)]
        while pending:
            name, is_aliased = pending.pop()
            fresh = set()
            for version in self.versions_by(event):
                if rtype != CNAME and (alias := alias_of(version.rows, name)):
                    fresh.add((alias.data[0], True))
                if rtype == SRV and is_aliased:
                    fresh |= {(row.data[-1], False) for row in version.rows.get((name, SRV), ())}
            pending += fresh - found
            found |= fresh
        return {name for name, _ in found}


def delivered_updates(event: Event, own: int | None) -> list[int]:
    """The numbers of the updates that an event's words deliver, or its own update where there are no words."""
    if not event.words:
        return [] if own is None else [own]
    return [int(word[1:]) for word in event.words if word.startswith("u")]


def history_of(world: World) -> History:
    """The history of a run. An update that the server accepts makes a version, even if no row changes."""
    history = History([Version(0, rows_of(world.entries))], [])
    datagrams: list[Message | None] = []
    for index, event in enumerate(world.events):
        own = None
        if isinstance(event.action, Message):
            own = len(datagrams)
            datagrams.append(None if event.words[:1] == ("fail",) else event.action)
        for number in delivered_updates(event, own):
            message = datagrams[number] if number < len(datagrams) else None
            if message:
                deliver(history, world.origin, index, event.at, number, message)
    return history


def deliver(history: History, origin: Name, event: int, at: int, number: int, message: Message) -> None:
    """Lets an update reach the server."""
    before = history.versions[-1].rows
    code, after = after_update(before, origin, message)
    history.deliveries.append(Delivery(event, number, code, after != before))
    if code == "NoError":
        history.versions.append(Version(at, after, event))
