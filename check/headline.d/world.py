"""A run: a zone, a hosts file, options and a script. `write_files` makes the program's files and arguments of it."""
import ipaddress
from dataclasses import dataclass, field
from pathlib import Path

from names import Address, Name, reverse_address
from records import A, AAAA, PTR, Record
from zone import Message

HOSTS_TTL = 86_400


@dataclass(frozen=True)
class Lookup:
    name: Name
    rtype: int


@dataclass(frozen=True)
class LookupIp:
    """A lookup of the addresses of a name, or of an address, which is its own result."""

    host: Name | Address


@dataclass(frozen=True)
class Clear:
    name: Name
    rtype: int


@dataclass(frozen=True)
class ClearAll:
    pass


Action = Lookup | LookupIp | Clear | ClearAll | Message


@dataclass(frozen=True)
class Event:
    """A line of a script. Its words say what the link does: without any, each datagram arrives and is answered."""

    at: int
    action: Action
    text: str
    words: tuple[str, ...] = ()

    def line(self) -> str:
        """The line of the script."""
        return f"{self.at} {self.text}" + (f" ; {' '.join(self.words)}" if self.words else "")

    def head(self) -> str:
        """What is printed of the event in front of its result: types in capitals, and updates without their words."""
        if isinstance(self.action, Message):
            return f"{self.at} update"
        words = self.text.split(" ")
        if isinstance(self.action, (Lookup, Clear)):
            words[-1] = words[-1].upper()
        return " ".join([str(self.at), *words])


@dataclass(frozen=True)
class HostsLine:
    address: Address
    names: tuple[Name, ...]
    text: str


@dataclass(frozen=True)
class World:
    origin: Name
    # The records of the zone file in its order, and the lines that spell it.
    entries: tuple[Record, ...]
    zone_lines: tuple[str, ...]
    events: tuple[Event, ...]
    hosts: tuple[HostsLine, ...] = ()
    # Options with a value, as `cache`, and whether `--origin` is among them.
    options: dict[str, str] = field(default_factory=dict)

    def max_ttl(self) -> int:
        """The greatest TTL that a record from the server keeps, in seconds."""
        return int(self.options.get("max-ttl", 86_400))

    def hosts_records(self, name: Name, rtype: int) -> tuple[Record, ...]:
        """What the hosts file has for a name: its addresses in the order of the lines, or the names of its address in
        canonical order (RFC 4034 section 6.1)."""
        if rtype == PTR:
            address = reverse_address(name)
            names = {other for line in self.hosts if line.address == address for other in line.names}
            ordered = sorted(names, key=lambda other: other[::-1])
            return tuple(Record(name, HOSTS_TTL, PTR, (other,)) for other in ordered)
        kind = {A: ipaddress.IPv4Address, AAAA: ipaddress.IPv6Address}.get(rtype)
        addresses = [line.address for line in self.hosts for other in line.names if other == name]
        return tuple(Record(name, HOSTS_TTL, rtype, (it.packed,)) for it in addresses if kind and isinstance(it, kind))


def write_files(world: World, folder: Path) -> list[str]:
    """Writes the files of a run to a folder, in which the program is to be started with the arguments returned."""
    texts = {"zone": world.zone_lines, "script": [event.line() for event in world.events]}
    if world.hosts:
        texts["hosts"] = [line.text for line in world.hosts]
    for name, lines in texts.items():
        (folder / name).write_text("".join(line + "\n" for line in lines))
    arguments = [word for name in texts for word in (f"--{name}", name)]
    return arguments + [word for name, value in world.options.items() for word in (f"--{name}", value)]
