"""Hosts files as runs of the program `stub`: the addresses of each name, by the model. Many inputs are one file; those that are not UTF-8
or are about the start of a file are files by themselves."""
import ipaddress
from collections import Counter
from pathlib import Path

from hosts_text import read_hosts
from inputs import Input
from folder_runs import parts_of, run
from request_script import ZONE
from text import name_text

# How many inputs a file has, and the good input whose changes are about the start of a file.
INPUTS, MARKED = 250, "a byte-order mark"
# Names that are looked up in each file.
NAMES = [(b"a",), (b"b", b"t"), (b"c",)]
FOUND_NOT = {True: "no records NXDomain", False: "code Refused"}
NOT_UTF8 = b"hosts: H1\n"


def outcome_of(given: Input) -> str:
    return "Utf8" if read_hosts(given.data) is None else "read"


def is_alone(given: Input) -> bool:
    """Whether an input is a file by itself."""
    return given.title == MARKED or outcome_of(given) == "Utf8"


def together(inputs: list[Input]) -> bytes:
    """The hosts file of several inputs."""
    return b"".join(it.data if it.data.endswith(b"\n") else it.data + b"\n" for it in inputs)


def address_text(packed: bytes) -> str:
    """An address as RFC 5952 writes it."""
    found = ipaddress.ip_address(packed)
    mapped = found.ipv4_mapped if found.version == 6 else None
    return f"::ffff:{mapped}" if mapped else str(found)


def lookups(hosts: bytes) -> str:
    """The script that looks up the names of a hosts file, with what is found. The zone has none of them."""
    found, lines = read_hosts(hosts), []
    for name in dict.fromkeys([*NAMES, *found]):
        for record_type, size in (("A", 4), ("AAAA", 16)):
            event = f"0 lookup {name_text(name)} {record_type}"
            records = [address_text(it) for it in found.get(name, []) if len(it) == size]
            if not records and name not in NAMES:
                continue
            said = f"{len(records)} records" if records else FOUND_NOT[name[-1:] == (b"t",)]
            lines += [event, f"#> {event}: {said}"]
            lines += [f"#>   {name_text(name)} 86400 IN {record_type} {it}" for it in records]
    return "".join(f"{it}\n" for it in lines)


def difference(program: Path, hosts: bytes) -> str | None:
    """What differs in a run on a hosts file."""
    is_read = read_hosts(hosts) is not None
    script = lookups(hosts) if is_read else "0 lookup a A\n"
    words = ["--zone", "zone", "--script", "script", "--hosts", "hosts", "--check"]
    done = run(program, words, {"zone": ZONE.encode(), "script": script.encode(), "hosts": hosts})
    got = (done.returncode, done.stdout, done.stderr)
    if got == ((0, b"", b"") if is_read else (2, b"", NOT_UTF8)):
        return None
    return f"hosts file {hosts!r}\n  {done.stderr.decode()}{done.stdout.decode()}"


def tried(program: Path, inputs: list[Input], counts: Counter, most: int | None) -> list[str]:
    """Tries inputs, of those that are files by themselves at most so many, and counts their outcomes. The result is what differs."""
    alone = [it for it in inputs if is_alone(it)]
    alone = alone[:: len(alone) // most + 1] if most is not None else alone
    parts = [*parts_of((it for it in inputs if not is_alone(it)), INPUTS), *([it] for it in alone)]
    counts.update(outcome_of(it) for part in parts for it in part)
    return [said for part in parts if (said := difference(program, part[0].data if len(part) == 1 else together(part)))]
