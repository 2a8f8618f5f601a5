"""The calls that the program `rows` repeats beside the same by trust-dns, ldns and libknot."""
import os
import re
import resource
import shutil
import subprocess
import sys
from pathlib import Path

from packages import CARGO_REGISTRY, CRATES, HEADERS
from repeated import RepeatedRows, sum_of

HERE = Path(__file__).resolve().parent
# Debian's cargo and compiler, whatever others there are.
CARGO, RUSTC = "/usr/bin/cargo", "/usr/bin/rustc"
# What has to be installed.
NEEDED = [CARGO, "gcc", *CRATES, *HEADERS, "valgrind"]
OURS, TRUST_DNS = "here", "trust-dns"
# The libraries for C, and what they are linked by.
IN_C = {"ldns": "ldns", "libknot": "knot"}
PEERS = [TRUST_DNS, *IN_C]
# The operation, and how often it is repeated to be timed.
OPERATIONS = [
    ("name-read", 1_000_000),
    ("name-write", 200_000),
    ("name-parse", 1_000_000),
    ("name-print", 1_000_000),
    ("name-compare", 1_000_000),
    ("name-clone", 1_000_000),
    ("data-read", 200_000),
    ("data-write", 200_000),
    ("data-print", 200_000),
    ("message-read", 200_000),
    ("message-read-one", 400_000),
    ("message-read-ten", 100_000),
    ("message-view", 400_000),
    ("message-view-one", 800_000),
    ("message-view-ten", 200_000),
    ("message-write", 200_000),
    ("message-write-one", 400_000),
    ("message-write-ten", 100_000),
    ("message-clone", 200_000),
    ("message-clone-one", 400_000),
    ("message-clone-ten", 100_000),
]
# Operations that only this library has, with what the others do in their place.
INSTEAD = {"message-view": "message-read", "message-view-one": "message-read-one", "message-view-ten": "message-read-ten"}
# Operations whose checksum is another by trust-dns: it prints text without quotes.
OTHERWISE = {"data-print"}
# How often an operation is repeated while its instructions and its allocations are counted.
COUNTED = 2_000
# The status of a program whose library has no such operation.
LACKING = 3


def build_trust_dns(folder, cache):
    """Builds the Cargo project in a folder outside the checkout, from Debian's sources, and returns the program."""
    copy = folder / "trust_dns"
    shutil.copytree(HERE / "trust_dns", copy)
    (copy / ".cargo").mkdir()
    (copy / ".cargo" / "config.toml").write_text(
        f'[source.crates-io]\nreplace-with = "debian"\n[source.debian]\ndirectory = "{CARGO_REGISTRY}"\n'
    )
    target = cache / "trust_dns_bench"
    words = [CARGO, "build", "--release", "--offline", "--quiet", "--target-dir", str(target)]
    subprocess.run(words, cwd=copy, check=True, env={**os.environ, "RUSTC": RUSTC})
    return str(target / "release" / "trust_dns_bench")


def build_all(folder, cache):
    """Builds the programs of the peers, and returns them by the names of their libraries."""
    programs = {TRUST_DNS: build_trust_dns(folder, cache)}
    for name, library in IN_C.items():
        programs[name] = str(folder / f"{name}_bench")
        source = str(HERE / "c_libraries" / f"{name}_bench.c")
        subprocess.run(["gcc", "-O3", "-o", programs[name], source, f"-l{library}"], check=True)
    return programs


class Ours:
    """The program `rows`, whose files are in a folder. A row that wants no sum fails, with status 1."""

    def __init__(self, program, folder):
        self.program, self.rows = program, RepeatedRows(folder)

    def words(self, what, count):
        """The command line of so many repetitions."""
        return [self.program, *self.rows.words(what, count)]

    def run(self, words):
        """What a run printed, on standard output and on standard error."""
        done = subprocess.run(words, capture_output=True, text=True)
        if done.returncode != 1:
            raise subprocess.CalledProcessError(done.returncode, words)
        return done.stdout, done.stderr

    def checksum(self, printed):
        """The checksum that a run printed."""
        return sum_of(printed)


class Theirs:
    """The program of another library."""

    def __init__(self, program):
        self.program = program

    def words(self, what, count):
        """The command line of so many repetitions."""
        return [self.program, what, str(count)]

    def run(self, words):
        """What a run printed, on standard output and on standard error."""
        done = subprocess.run(words, check=True, capture_output=True, text=True)
        return done.stdout, done.stderr

    def checksum(self, printed):
        """The checksum that a run printed."""
        return printed.split()[-1]


def timed(program, what, count):
    """The processor time of a run in seconds, and what it printed."""
    before = resource.getrusage(resource.RUSAGE_CHILDREN)
    printed, _ = program.run(program.words(what, count))
    after = resource.getrusage(resource.RUSAGE_CHILDREN)
    return after.ru_utime + after.ru_stime - before.ru_utime - before.ru_stime, printed


def time_of(program, what, count):
    """The processor time of one repetition, in seconds, and the checksum."""
    none, _ = timed(program, what, 0)
    some, printed = timed(program, what, count)
    return (some - none) / count, program.checksum(printed)


def difference(found):
    """What one repetition takes, of what none and what COUNTED repetitions took."""
    return (found[1] - found[0]) / COUNTED


def instructions(program, what):
    """The instructions of one repetition, by callgrind."""
    found = []
    for count in (0, COUNTED):
        tool = ["valgrind", "--tool=callgrind", "--callgrind-out-file=/dev/null"]
        _, log = program.run([*tool, *program.words(what, count)])
        found.append(int(log.split("Collected :")[1].split()[0]))
    return difference(found)


def allocations(program, what):
    """How often one repetition allocates memory, and how many bytes, by valgrind."""
    found = []
    for count in (0, COUNTED):
        _, log = program.run(["valgrind", *program.words(what, count)])
        usage = re.search(r"total heap usage: ([\d,]+) allocs, [\d,]+ frees, ([\d,]+) bytes", log)
        found.append([int(it.replace(",", "")) for it in usage.groups()])
    return [difference(it) for it in zip(*found)]


def has(program, what):
    """Whether a program has an operation."""
    status = subprocess.run(program.words(what, 0), stdout=subprocess.DEVNULL, stderr=subprocess.DEVNULL).returncode
    return status != LACKING


class Row:
    """An operation, by each library that has it."""

    def __init__(self, programs, operation, rounds):
        self.what, count = operation
        # What each library does, with its program.
        self.means = {OURS: (programs[OURS], self.what)}
        for name in PEERS:
            theirs = INSTEAD.get(self.what, self.what)
            if has(programs[name], theirs):
                self.means[name] = (programs[name], theirs)
        times, self.sums = {name: [] for name in self.means}, {}
        for _ in range(rounds):
            for name, (program, what) in self.means.items():
                time, self.sums[name] = time_of(program, what, count)
                times[name].append(time)
        self.times = {name: min(it) for name, it in times.items()}

    def times_row(self):
        """Its row in the table of times."""
        cells = [f"{self.times[OURS] * 1e9:,.0f} ns"]
        for name in PEERS:
            cells += [f"{self.times[name] * 1e9:,.0f} ns", f"{self.times[OURS] / self.times[name]:.2f}"] if name in self.times else ["", ""]
        return f"| `{self.what}` | {' | '.join(cells)} |"

    def counts_row(self):
        """Its row in the table of instructions and of allocations."""
        cells = []
        for count, told in ((instructions, lambda it: f"{it:,.0f}"), (allocations, lambda it: f"{it[0]:.0f}, {it[1]:,.0f} B")):
            for name in (OURS, *PEERS):
                cells.append(told(count(*self.means[name])) if name in self.means else "")
        return f"| `{self.what}` | {' | '.join(cells)} |"

    def is_well(self):
        """Whether all that have it gave the same checksum, where they should."""
        sums = {it for name, it in self.sums.items() if name != TRUST_DNS or self.what not in OTHERWISE}
        return len(sums) == 1


def print_head(cells):
    """Prints the head of a table."""
    print(f"| {' | '.join(cells)} |\n|{'---|' * len(cells)}", flush=True)


def print_tables(folder, program, programs, rounds, wanted):
    """Prints the tables of all operations, or of those that are wanted, and returns the status. The folder is for files of rows."""
    status, rows = 0, []
    found = {OURS: Ours(program, folder), **{name: Theirs(it) for name, it in programs.items()}}
    print_head(["Operation", OURS, *(it for name in PEERS for it in (name, "ratio"))])
    for operation in OPERATIONS:
        if wanted and operation[0] not in wanted:
            continue
        rows.append(Row(found, operation, rounds))
        print(rows[-1].times_row(), flush=True)
        if not rows[-1].is_well():
            print(f"peers: {operation[0]}: the checksums differ: {rows[-1].sums}", file=sys.stderr)
            status = 1
    print()
    print_head(["Operation", *(f"{it}, {name}" for it in ("instructions", "allocations") for name in (OURS, *PEERS))])
    for row in rows:
        print(row.counts_row(), flush=True)
    return status
