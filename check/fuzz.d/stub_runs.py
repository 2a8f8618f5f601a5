"""Random files for the program `stub`, and what docs/REPLAY.md says of a run on them."""
import random
import re
from collections import Counter
from pathlib import Path

from hosts_text import MARK
from mutation import changed
from runs import Run, run
from samples import hosts, scripts, zones
from wire import Refusal
from zone_text import Zone, is_utf8

HERE = Path(__file__).resolve().parent
SECONDS = 20.0
# The address space of a run: so many bytes for each byte of its files, and for the program itself. If a run wants more,
# it reports that memory was refused, which is a fault here.
PER_BYTE, BASE = 1000, 2**24
FAULTS = re.compile(
    rb"(cannot read (zone|script|hosts)|zone: Z1 line (?P<zone>\d+)|zone: Z[2-6]|script line (?P<script>\d+)|hosts: H1)\n\Z"
)
LINES = re.compile(
    rb"(\d+ (lookup|ip|clear|clearall|update) ?[^\n]*|  [^\n]+ \d+ (IN|CH|HS|NONE|ANY|CLASS\d+) [A-Z0-9]+ [^\n]+|)\Z"
)


class Seeds:
    """Good files: those of this folder, and the good inputs of check/hostile."""

    def __init__(self):
        parts = {"zone": zones(), "hosts": hosts(), "script": scripts()}
        self.files = {
            part: [path.read_bytes() for path in sorted(HERE.glob(f"*.{part}"))] + [data for _, data in found]
            for part, found in parts.items()
        }
        self.own = {part: len(list(HERE.glob(f"*.{part}"))) for part in parts}

    def draw(self, rng: random.Random) -> dict[str, bytes]:
        """Three files, of which one or more are changed."""
        found = {}
        altered = rng.choice([["zone"], ["hosts"], ["script"], ["script"], ["zone", "script"], list(self.files)])
        for part, files in self.files.items():
            if part in altered:
                found[part] = changed(rng, rng.choice(files), files)
            else:
                found[part] = rng.choice(files[: self.own[part]])
        return found


def arguments(rng: random.Random) -> list[str]:
    found = ["--zone", "zone", "--script", "script"]
    found += ["--hosts", "hosts"] if rng.random() < 0.6 else []
    found += ["--limit", str(rng.choice([512, 600, 1232, 65535]))] if rng.random() < 0.3 else []
    found += ["--cache", str(rng.choice([0, 1, 2, 4294967295]))] if rng.random() < 0.3 else []
    found += ["--max-ttl", str(rng.choice([0, 1, 4294967295]))] if rng.random() < 0.2 else []
    return found


def zone_is_parsed(data: bytes) -> bool:
    try:
        # The program includes no texts.
        Zone({}).read(data)
    except Refusal:
        return False
    return True


def fault_of(found: Run, files: dict[str, bytes], words: list[str]) -> str | None:
    """What a run breaks, if it breaks something."""
    if found.is_late:
        return f"it has not ended after {SECONDS} seconds"
    if found.status not in (0, 1):
        return f"its status is {found.status}"
    if found.status == 0:
        return "it prints on standard error" if found.err else output_fault(found.out) or parts_fault(b"", files, words)
    match = FAULTS.match(found.err)
    if not match:
        return f"no such fault: {found.err!r}"
    for part in ("zone", "script"):
        if match[part] and not 1 <= int(match[part]) <= files[part].count(b"\n") + 1:
            return f"the {part} has no line {int(match[part])}"
    return "it prints before a fault" if found.out else parts_fault(found.err, files, words)


def output_fault(out: bytes) -> str | None:
    bad = next((line for line in out.split(b"\n") if not LINES.match(line)), None)
    return None if bad is None else f"no such line of output: {bad[:80]!r}"


def parts_fault(err: bytes, files: dict[str, bytes], words: list[str]) -> str | None:
    """Whether the fault is that of the first file that a model refuses."""
    for part in ("zone", "script"):
        if not is_utf8(files[part]):
            wanted = f"cannot read {part}\n".encode()
            return None if err == wanted else f"the {part} is not UTF-8, but: {err!r}"
    if err.startswith(b"cannot read"):
        return "it can read all files"
    if err.startswith(b"zone: Z1") == zone_is_parsed(files["zone"]):
        return f"the zone is{'' if err.startswith(b'zone: Z1') else ' not'} parsed, but: {err!r}"
    if "hosts" in words and not is_utf8(files["hosts"].removeprefix(MARK)) and not err:
        return "the hosts are not UTF-8, but no fault is reported"
    if err.startswith(b"hosts: H1") and is_utf8(files["hosts"]):
        return "the hosts are UTF-8"
    return None


def run_on(program: Path, words: list[str], files: dict[str, bytes]) -> Run:
    """A run on files, in a bounded time and in memory that is bounded by their size."""
    return run(program, words, files, SECONDS, BASE + PER_BYTE * sum(map(len, files.values())))


def fuzz(program: Path, rng: random.Random, seeds: Seeds, counts: Counter) -> tuple | None:
    """One run on random files. The result is a broken promise with the files and the arguments."""
    files, words = seeds.draw(rng), arguments(rng)
    found = run_on(program, words, files)
    counts["runs"] += 1
    counts[(found.err.decode(errors="replace").split("line")[0].strip() or "status 0")[:40]] += 1
    counts["processor milliseconds"] += round(1000 * found.seconds)
    fault = fault_of(found, files, words)
    return (fault, files, words) if fault else None


def reduced(program: Path, fault: str, files: dict[str, bytes], words: list[str]) -> dict[str, bytes]:
    """Smaller files with such a fault: lines and then characters are left out as long as there is one."""
    for cut in (lambda it: it.splitlines(keepends=True), lambda it: [bytes([byte]) for byte in it]):
        for part in files:
            pieces, at = cut(files[part]), 0
            while at < len(pieces) and len(pieces) < 3000:
                fewer = {**files, part: b"".join(pieces[:at] + pieces[at + 1 :])}
                if fault_of(run_on(program, words, fewer), fewer, words):
                    files, pieces = fewer, pieces[:at] + pieces[at + 1 :]
                else:
                    at += 1
    return files
