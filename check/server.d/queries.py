"""Zones of many records, and files of questions for dnsperf."""
import random
from pathlib import Path
from typing import List

ORIGIN = "load.test."


def big_zone(count: int) -> str:
    """A zone with this many addresses, each at a name of its own, as a zone file that all servers read."""
    lines = [
        f"$ORIGIN {ORIGIN}",
        "$TTL 3600",
        "@ IN SOA ns hostmaster 1 3600 600 86400 300",
        "@ IN NS ns",
        "ns IN A 10.255.0.1",
    ]
    lines += [f"host{at} IN A 10.{at >> 16 & 255}.{at >> 8 & 255}.{at & 255}" for at in range(count)]
    return "\n".join(lines) + "\n"


def questions(count: int, records: int, seed: int = 1) -> List[str]:
    """Questions for dnsperf: each tenth for a name that does not exist."""
    rng = random.Random(seed)
    found = []
    for at in range(count):
        number = rng.randrange(records)
        found.append(f"none{number}.{ORIGIN} A" if at % 10 == 0 else f"host{number}.{ORIGIN} A")
    return found


def write_questions(path: Path, count: int, records: int) -> None:
    path.write_text("\n".join(questions(count, records)) + "\n", encoding="ascii")
