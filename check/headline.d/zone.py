"""The rows of a zone: how a zone file makes them, and how an update changes them (RFC 2136 section 3)."""
from collections.abc import Iterable
from dataclasses import dataclass

from names import Name
from records import ANY, AXFR, CNAME, MAILA, MAILB, NS, SOA, Data, Record


@dataclass(frozen=True)
class Row:
    """The data and the TTL of a record at an owner and a type."""

    data: Data
    ttl: int


# The rows by owner and type, in their order. No list is empty.
Rows = dict[tuple[Name, int], tuple[Row, ...]]


@dataclass(frozen=True)
class SetIsAbsent:
    """A prerequisite: there is no record of this name and type (RFC 2136 section 2.4.3)."""

    owner: Name
    rtype: int


@dataclass(frozen=True)
class SetIsExactly:
    """A prerequisite: the records of a name and a type have just this data (RFC 2136 section 2.4.2)."""

    owner: Name
    rtype: int
    data: Data


@dataclass(frozen=True)
class AddRecord:
    record: Record


@dataclass(frozen=True)
class DeleteRecord:
    owner: Name
    rtype: int
    data: Data


@dataclass(frozen=True)
class DeleteSet:
    """Deletes the records of a name and a type, or of all types if it is ANY (RFC 2136 sections 2.5.2 and 2.5.3)."""

    owner: Name
    rtype: int


Prerequisite = SetIsAbsent | SetIsExactly
Change = AddRecord | DeleteRecord | DeleteSet


@dataclass(frozen=True)
class Message:
    """An update of a zone of this origin."""

    prerequisites: tuple[Prerequisite, ...]
    changes: tuple[Change, ...]


def rows_of(entries: Iterable[Record]) -> Rows:
    """The rows of a zone file. Of equal data the first stays, and of aliases of a name, of which there is one (RFC 2181
    section 10.1), the last."""
    rows: Rows = {}
    for entry in entries:
        key, row = (entry.owner, entry.rtype), Row(entry.data, entry.ttl)
        present = rows.get(key, ())
        if entry.rtype == CNAME:
            rows[key] = (row,)
        elif all(other.data != row.data for other in present):
            rows[key] = (*present, row)
    return rows


def types_at(rows: Rows, owner: Name) -> set[int]:
    """The types of the rows at a name."""
    return {rtype for name, rtype in rows if name == owner}


def is_serial_greater(left: int, right: int) -> bool:
    """Whether a serial number follows another one (RFC 1982 section 3.2)."""
    return 0 < (left - right) % 2**32 < 2**31


def code_of(rows: Rows, message: Message) -> str:
    """The response code of an update: that of the first test that fails (RFC 2136 sections 3.2 and 3.4.1)."""
    for wanted in message.prerequisites:
        present = rows.get((wanted.owner, wanted.rtype), ())
        if isinstance(wanted, SetIsAbsent) and present:
            return "YXRRSet"
        if isinstance(wanted, SetIsExactly) and {row.data for row in present} != {wanted.data}:
            return "NXRRSet"
    for change in message.changes:
        if isinstance(change, DeleteSet) and change.rtype in (AXFR, MAILA, MAILB):
            return "FormErr"
    return "NoError"


def after_change(rows: Rows, origin: Name, change: Change) -> Rows:
    """The rows after one change of an update (RFC 2136 section 3.4.2)."""
    if isinstance(change, AddRecord):
        return after_addition(rows, change.record)
    is_apex = change.owner == origin
    if isinstance(change, DeleteSet):
        kept = {SOA, NS} if is_apex else set()
        gone = types_at(rows, change.owner) if change.rtype == ANY else {change.rtype}
        return {key: value for key, value in rows.items() if key[0] != change.owner or key[1] not in gone - kept}
    key = (change.owner, change.rtype)
    left = tuple(row for row in rows.get(key, ()) if row.data != change.data)
    if change.rtype == SOA or (is_apex and change.rtype == NS and not left):
        return rows
    others = {other: value for other, value in rows.items() if other != key}
    return others | {key: left} if left else others


def after_addition(rows: Rows, record: Record) -> Rows:
    """The rows after a record is added (RFC 2136 section 3.4.2.2): an alias and other data exclude each other, and a
    record with data that is there replaces that one."""
    key, row = (record.owner, record.rtype), Row(record.data, record.ttl)
    types, present = types_at(rows, record.owner), rows.get(key, ())
    if record.rtype == CNAME:
        return rows if types - {CNAME} else rows | {key: (row,)}
    if CNAME in types:
        return rows
    if record.rtype == SOA:
        # The serial number is the third field.
        is_newer = present and is_serial_greater(record.data[2], present[0].data[2])
        return rows | {key: (row,)} if is_newer else rows
    if any(other.data == row.data for other in present):
        return rows | {key: tuple(row if other.data == row.data else other for other in present)}
    return rows | {key: (*present, row)}


def after_update(rows: Rows, origin: Name, message: Message) -> tuple[str, Rows]:
    """The response code of an update, and the rows afterwards: all changes are made, or none."""
    code = code_of(rows, message)
    if code == "NoError":
        for change in message.changes:
            rows = after_change(rows, origin, change)
    return code, rows


def alias_of(rows: Rows, name: Name) -> Row | None:
    """The alias at a name, if it has one. Its data is the target alone."""
    aliases = rows.get((name, CNAME))
    return aliases[0] if aliases else None


def has_short_chains(rows: Rows, most: int) -> bool:
    """Whether no chain of aliases has more than `most` links. A loop has more than any number."""
    for owner, rtype in rows:
        links, name = 0, owner
        while rtype == CNAME and (alias := alias_of(rows, name)):
            links, name = links + 1, alias.data[0]
            if links > most:
                return False
    return True
