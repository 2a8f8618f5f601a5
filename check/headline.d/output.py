"""What the program prints: a line for each event, and one for each record that it found."""
import re
from dataclasses import dataclass, replace

from names import name_of
from records import Record, data_of, type_of, type_text
from walk import Outcome

EVENT = re.compile(r"(?P<head>\d+ (?:lookup \S+ \S+|ip \S+|clear \S+ \S+|clearall|update))(?:: (?P<result>.*))?")
RECORD = re.compile(r"  (\S+) (\d+) IN (\S+) (.*)")
COUNT = re.compile(r"(\d+) records")


class BadOutput(ValueError):
    """The output is not that of a run."""


@dataclass(frozen=True)
class PrintedRecord:
    """A line of a record: its words as printed, and what they spell."""

    owner: str
    ttl: int
    rtype: str
    data: str

    @property
    def record(self) -> Record:
        rtype = type_of(self.rtype)
        return Record(name_of(self.owner)[0], self.ttl, rtype, data_of(rtype, self.data))

    def line(self) -> str:
        return f"  {self.owner} {self.ttl} IN {self.rtype} {self.data}"


@dataclass(frozen=True)
class PrintedEvent:
    """An event: the line in front of the colon, the failure or the code after it, if any, and its records."""

    head: str
    result: str | None
    records: tuple[PrintedRecord, ...] = ()

    def outcome(self) -> Outcome:
        return Outcome(tuple(it.record for it in self.records), self.result or "")

    def lines(self) -> list[str]:
        result = f"{len(self.records)} records" if self.records else self.result
        first = self.head if result is None else f"{self.head}: {result}"
        return [first, *(it.line() for it in self.records)]

    def with_record(self, index: int, **changes: object) -> "PrintedEvent":
        """The event with other words in one of its records."""
        records = list(self.records)
        records[index] = replace(records[index], **changes)
        return replace(self, records=tuple(records))


def parse_output(text: str) -> list[PrintedEvent]:
    """The events of an output."""
    lines, events, at = text.split("\n"), [], 0
    if lines.pop() != "":
        raise BadOutput("the last line does not end")
    while at < len(lines):
        head = EVENT.fullmatch(lines[at])
        if not head:
            raise BadOutput(lines[at])
        count = COUNT.fullmatch(head["result"] or "")
        records = [parse_record(line) for line in lines[at + 1 : at + 1 + int(count[1])]] if count else []
        if count and (len(records) != int(count[1]) or not records):
            raise BadOutput(f"{lines[at]}, but there are {len(records)}")
        events.append(PrintedEvent(head["head"], None if count else head["result"], tuple(records)))
        at += 1 + len(records)
    return events


def parse_record(line: str) -> PrintedRecord:
    """The record of a line."""
    words = RECORD.fullmatch(line)
    if not words:
        raise BadOutput(line)
    printed = PrintedRecord(words[1], int(words[2]), words[3], words[4])
    try:
        printed.record
    except (ValueError, KeyError, IndexError) as error:
        raise BadOutput(f"{line}: {error}") from error
    if printed.rtype != type_text(printed.record.rtype):
        raise BadOutput(line)
    return printed


def write_output(events: list[PrintedEvent]) -> str:
    """The text of an output."""
    return "".join(line + "\n" for event in events for line in event.lines())
