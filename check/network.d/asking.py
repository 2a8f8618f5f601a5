"""Runs the program `lookup`, and reads what it prints."""
import json
import os
import select
import subprocess
import tempfile
import time
from dataclasses import dataclass
from pathlib import Path
from typing import Iterable, List, NamedTuple, Optional, Sequence, Tuple

from transport import Address
from zones import Record, record_of

# The keys of an object, in their order.
KEYS = ["name", "type", "status", "code", "records", "error", "questions", "milliseconds"]
RECORD_KEYS = ["name", "ttl", "class", "type", "data"]
# How long a run may take, in seconds.
SECONDS = 300


@dataclass(frozen=True)
class Outcome:
    """What a lookup led to, as its line of JSON has it."""

    name: str
    type: str
    status: str
    code: Optional[str]
    records: Tuple[Record, ...]
    error: Optional[str]
    questions: int
    milliseconds: float


class Run(NamedTuple):
    """A run of the program: its status, what it printed, and how long it took, in seconds."""

    status: int
    output: str
    errors: str
    seconds: float

    def outcomes(self) -> List[Outcome]:
        """The outcomes that it printed with `--json`."""
        return [outcome_of(line) for line in self.output.splitlines()]

    def records(self) -> List[Record]:
        """The records that it printed without `--json`."""
        lines = self.output.splitlines()
        return [record_of(line) for line in lines if not line.startswith(";")]


def outcome_of(line: str) -> Outcome:
    """The outcome of a line. Raises a `ValueError` if it doesn't have the fields that it should."""
    fields = json.loads(line)
    if list(fields) != KEYS or any(list(it) != RECORD_KEYS for it in fields["records"]):
        raise ValueError(f"other keys: {line}")
    texts = (" ".join(str(it[key]) for key in RECORD_KEYS) for it in fields["records"])
    return Outcome(**{**fields, "records": tuple(record_of(it) for it in texts)})


def place(address: Address) -> str:
    """An address and a port, as `--server` takes them."""
    host, port = address[:2]
    return f"[{host}]:{port}" if ":" in host else f"{host}:{port}"


class Resolver:
    """The program with some servers, and with files of its own in place of the system's, inside a `with` block."""

    def __init__(self, program: str, servers: Iterable[Address] = (), options: Sequence[object] = ()):
        self.program, self.options = program, [str(it) for it in options]
        self.servers = [word for it in servers for word in ("--server", place(it))]
        self.resolv_conf, self.hosts = "options edns0\n", ""

    def __enter__(self) -> "Resolver":
        self.folder = tempfile.TemporaryDirectory()
        self.write("resolv.conf", self.resolv_conf)
        self.write("hosts", self.hosts)
        return self

    def __exit__(self, *_) -> None:
        self.folder.cleanup()

    def write(self, name: str, text: str) -> str:
        """Writes a file, and returns its path."""
        path = Path(self.folder.name, name)
        path.write_text(text, encoding="utf-8")
        return str(path)

    def words(self, *words: object) -> List[str]:
        """The program and its arguments."""
        files = []
        for option, name in (("--resolv-conf", "resolv.conf"), ("--hosts", "hosts")):
            files += [] if option in words else [option, str(Path(self.folder.name, name))]
        return [self.program, *(str(it) for it in words), *files, *self.servers, *self.options]

    def run(self, *words: object, lines: Iterable[str] = (), seconds: float = SECONDS) -> Run:
        """Runs the program to its end."""
        start = time.monotonic()
        done = subprocess.run(
            self.words(*words), input="".join(f"{it}\n" for it in lines), capture_output=True, text=True, timeout=seconds
        )
        return Run(done.returncode, done.stdout, done.stderr, time.monotonic() - start)

    def ask(self, lines: Iterable[str], *options: object) -> List[Outcome]:
        """The outcomes of lines, of one process."""
        return self.run("-", "--json", *options, lines=lines).outcomes()

    def interactive(self, *words: object) -> "Conversation":
        return Conversation(self.words("-", "--json", *words))


class Conversation:
    """A process that is told one line after another, inside a `with` block."""

    def __init__(self, words: List[str]):
        self.words, self.read = words, b""

    def __enter__(self) -> "Conversation":
        pipes = {"stdin": subprocess.PIPE, "stdout": subprocess.PIPE, "stderr": subprocess.DEVNULL}
        self.process = subprocess.Popen(self.words, **pipes)
        return self

    def __exit__(self, *_) -> None:
        self.process.stdin.close()
        try:
            self.process.wait(10)
        except subprocess.TimeoutExpired:
            self.process.kill()
            self.process.wait()
        self.process.stdout.close()

    def ask(self, line: str, seconds: float = 60) -> Outcome:
        """The outcome of a line, which is there before the next line is told."""
        self.process.stdin.write(f"{line}\n".encode())
        self.process.stdin.flush()
        return outcome_of(self.next_line(time.monotonic() + seconds))

    def next_line(self, end: float) -> str:
        output = self.process.stdout.fileno()
        while b"\n" not in self.read:
            left = end - time.monotonic()
            if left <= 0 or not select.select([output], [], [], left)[0]:
                raise TimeoutError(f"no line in time, but {self.read!r}")
            more = os.read(output, 65536)
            if not more:
                raise EOFError(f"the program ended after {self.read!r}")
            self.read += more
        line, _, self.read = self.read.partition(b"\n")
        return line.decode()
