"""The scripts of crates/nameserver/data with a server for one zone, by which the model of the server is checked: the gate runs the proved
program on the same scripts, so the model and the program agree on them."""
from pathlib import Path
from typing import List, NamedTuple, Optional

from messages import update
from replies import CODES, OWN_PAYLOAD, Server
from wire import UPDATE
from zones import ANY, CLASS_ANY, CLASS_NONE, IN, Record, comparable, data_of, name_of, record_of, type_of, zone_of

DATA = Path(__file__).resolve().parent.parent.parent / "crates" / "nameserver" / "data"
# The servers of these scripts keep the serial numbers of their zones, or are asked for changes that leave the zone as it is.
NAMES = "answers building chains changes cutting existence prerequisites prescan serving updates".split()
EXPECTED = "#> "


class Event(NamedTuple):
    """The line of a server or of a request, and the lines that it leads to."""

    line: str
    expected: List[str]


def events(text: str):
    """The events of a script, with what they lead to."""
    found: List[Event] = []
    for line in text.splitlines():
        if line.startswith(EXPECTED):
            found[-1].expected.append(line[len(EXPECTED) :])
        elif line and not line.startswith("#"):
            found.append(Event(line, []))
    return found


def server_for(line: str) -> Optional[Server]:
    """The model of the server of a line, or `None` for a zone file that is not whole records in lines."""
    _, path, *words = line.split()
    limit = int(words[words.index("--limit") + 1]) if "--limit" in words else OWN_PAYLOAD
    try:
        return Server([zone_of((DATA / path).read_text(encoding="utf-8"))], limit)
    except (ValueError, AssertionError, IndexError, KeyError):
        return None


def change_of(words: str) -> Record:
    """The record of a change or a prerequisite of an update in words (RFC 2136 sections 2.4 and 2.5)."""
    kind, _, rest = words.removeprefix("prereq ").partition(" ")
    if kind == "add":
        owner, ttl, rest = rest.split(" ", 2)
        return record_of(f"{owner} {ttl} IN {rest}")
    owner, rtype, data = [*rest.split(" ", 2), "", ""][:3]
    rtype = type_of(rtype) if rtype else ANY
    if data:
        return Record(name_of(owner), 0, rtype, data_of(rtype, data), IN if kind == "yxrrset" else CLASS_NONE)
    return Record(name_of(owner), 0, rtype, None, CLASS_NONE if kind in ("nxdomain", "nxrrset") else CLASS_ANY)


def update_of(words: str) -> bytes:
    """The bytes of an update in words."""
    origin, _, text = words.partition(" ")
    changes = text.split(" ; ")
    return update(
        origin,
        [change_of(it) for it in changes if it.startswith("prereq ")],
        [change_of(it) for it in changes if not it.startswith("prereq ")],
    )


def contents(zone) -> dict:
    """The TTLs and the data of each set of a zone, in any order."""
    return {key: {(row.ttl, comparable(row.data)) for row in rows.values()} for key, rows in zone.sets.items()}


def try_transfer(report, title: str, server: Server, event: Event) -> None:
    """Compares the zone of the model with a transfer."""
    answers = [it.removeprefix("  answer ") for it in event.expected if it.startswith("  answer ")]
    try:
        wanted = contents(zone_of("\n".join(answers)))
    except (ValueError, AssertionError, IndexError, KeyError):
        return
    report.check(title, wanted, contents(server.zones[0]))


def try_request(report, title: str, server: Server, event: Event, is_plain: bool) -> None:
    """Makes the request of an event, and compares the reply to bytes, or the code of the reply to words."""
    _, _, transport, kind, words = [*event.line.split(" ", 4), ""][:5]
    data = update_of(words) if kind == "update" else bytes.fromhex(words)
    reply = server.reply(data, transport == "tcp")
    is_update = len(data) > 2 and data[2] >> 3 == UPDATE
    # Without `--plain`, updates have the same replies where they decode and are for the zone.
    if not is_plain and not (is_update and reply is not None and CODES[reply[3] & 15] != "Refused"):
        return
    if kind == "update":
        report.check(title, event.expected, [f"{event.line}: {CODES[reply[3] & 15]}"])
    elif reply is None:
        report.check(title, event.expected, [f"{event.line}: no reply"])
    else:
        report.check(title, event.expected, [f"{event.line}: {len(reply)} bytes", f"  {reply.hex()}"])


def try_scripts(report, _program, _missing) -> None:
    """Compares what the model does with what the scripts expect."""
    report.begin()
    start = report.count
    for name in NAMES:
        server, is_plain = None, False
        for event in events((DATA / f"{name}.script").read_text(encoding="utf-8")):
            title = f"{name}.script: {event.line[:120]}"
            if event.line.startswith("server "):
                server, is_plain = server_for(event.line), "--plain" in event.line.split()
            elif server is not None and event.line.split()[3] == "axfr":
                try_transfer(report, title, server, event)
            elif server is not None and event.line.split()[3] in ("hex", "update"):
                try_request(report, title, server, event, is_plain)
    report.check("events that the model can make", True, report.count - start > 1200)
    report.end("the model on the scripts of crates/nameserver/data")
