"""dnspython, ldns and BIND: the text of data, and the data of a text."""
import re
import shutil
import subprocess
from pathlib import Path

from records import TYPES

Record = tuple[str, bytes]

# How many records a zone file has at most: a file is read again for each record in it that is refused.
FILE = 2000

HEAD = "$TTL 60\n@ SOA ns.t. h.t. 1 2 3 4 5\n@ NS ns.u.\n"


def install() -> None:
    """Installs the packages that are missing."""
    wanted = {"ldns-read-zone": "ldnsutils", "named-compilezone": "bind9-utils"}
    missing = [package for program, package in wanted.items() if shutil.which(program) is None]
    if not Path("/usr/lib/python3/dist-packages/dns").is_dir():
        missing.append("python3-dnspython")
    if missing:
        subprocess.run(["apt-get", "update"], check=True, capture_output=True)
        subprocess.run(["apt-get", "install", "-y", *missing], check=True, capture_output=True)


class Tools:
    """The tools to compare with."""

    def __init__(self, folder: Path):
        self.tools = [Dnspython(), Zones("ldns", folder, ldns), Zones("BIND", folder, bind)]

    def all(self) -> list:
        """Each of them."""
        return self.tools


class Dnspython:
    """The library dnspython."""

    name = "dnspython"

    def texts(self, records: list[Record]) -> list[str | None]:
        """The text of each record, or none."""
        return [self.text(kind, data) for kind, data in records]

    def text(self, kind: str, data: bytes) -> str | None:
        """The text of data, or none if it refuses the data, or a row cannot have the text."""
        text = self.written(kind, data)
        return None if text is None or not text.isprintable() or set("{}>#") & set(text.removeprefix("\\#")) else text

    def written(self, kind: str, data: bytes) -> str | None:
        """The text of data, or none if it refuses the data."""
        import dns.exception
        import dns.rdata

        try:
            return dns.rdata.from_wire(1, TYPES[kind].number, data, 0, len(data)).to_text()
        except (dns.exception.DNSException, ValueError):
            return None

    def agrees(self, records: list[Record], texts: list[str], own: list[str | None]) -> list[bool | None]:
        """Whether each text is read as the data; none if it is refused, or the library does not read its own text as it."""
        return [self.is_same(kind, data, text) for (kind, data), text in zip(records, texts, strict=True)]

    def is_same(self, kind: str, data: bytes, text: str) -> bool | None:
        """Whether a text is read as the data."""
        found = self.bytes(kind, text)
        if found is None or found == data:
            return None if found is None else True
        own = self.written(kind, data)
        return None if own is None or self.bytes(kind, own) != data else False

    def bytes(self, kind: str, text: str) -> bytes | None:
        """The bytes of a text, or none if it is refused."""
        import dns.exception
        import dns.rdata

        try:
            return dns.rdata.from_text(1, TYPES[kind].number, text).to_wire()
        except (dns.exception.DNSException, ValueError):
            return None


# The lines of a zone file as a tool writes them, or none if it refuses the file, and the numbers of lines that it refuses.
Written = tuple[list[str], set[int]]


def ldns(path: Path) -> Written:
    """What ldns-read-zone writes. It names the first line that it refuses."""
    run = subprocess.run(["ldns-read-zone", path], capture_output=True, timeout=120, check=False)
    if run.returncode == 0:
        return run.stdout.decode("latin-1").split("\n"), set()
    return [], {int(number) for number in re.findall(r" at line (\d+)", run.stderr.decode("latin-1"))}


def bind(path: Path) -> Written:
    """What named-compilezone writes."""
    out = path.with_suffix(".out")
    arguments = ["-k", "ignore", "-n", "ignore", "-m", "ignore", "-i", "none", "-s", "full", "-o", str(out), "t.", str(path)]
    run = subprocess.run(["named-compilezone", *arguments], capture_output=True, timeout=120, check=False)
    if run.returncode == 0:
        return out.read_text(encoding="latin-1").split("\n"), set()
    messages = (run.stdout + run.stderr).decode("latin-1")
    return [], {int(number) for number in re.findall(re.escape(str(path)) + r":(\d+): ", messages)}


class Zones:
    """A program that reads a zone file and writes it again."""

    def __init__(self, name: str, folder: Path, run):
        self.name, self.folder, self.run = name, folder, run

    def lines(self, entries: list[tuple[str, str]]) -> list[str | None]:
        """What the program writes for each entry, a type and a text."""
        return [line for start in range(0, len(entries), FILE) for line in self.file_lines(entries[start : start + FILE])]

    def file_lines(self, entries: list[tuple[str, str]]) -> list[str | None]:
        """What the program writes for the entries of one file, without those that it says it refuses; others are sought by halves."""
        path = self.folder / f"{self.name}.zone"
        head = "$ORIGIN t.\n" + HEAD
        path.write_text(head + "".join(f"r{i} {kind} {text}\n" for i, (kind, text) in enumerate(entries)), encoding="latin-1")
        written, refused = self.run(path)
        if not written:
            if len(entries) < 2:
                return [None] * len(entries)
            first = head.count("\n") + 1
            left = [entry for number, entry in enumerate(entries, first) if number not in refused]
            if len(left) < len(entries):
                lines = iter(self.file_lines(left) if left else [])
                return [None if number in refused else next(lines) for number in range(first, first + len(entries))]
            middle = len(entries) // 2
            return self.file_lines(entries[:middle]) + self.file_lines(entries[middle:])
        found = {}
        for line in written:
            words = line.split(None, 4)
            if len(words) == 5 and words[0].lower().startswith("r") and words[0].lower().endswith(".t."):
                found[words[0].lower()] = words[4].split(" ;{")[0].strip()
        return [found.get(f"r{i}.t.") for i in range(len(entries))]

    def texts(self, records: list[Record]) -> list[str | None]:
        """The text of each record, or none."""
        lines = self.lines([(f"TYPE{TYPES[kind].number}", f"\\# {len(data)} {data.hex()}") for kind, data in records])
        return [None if it is None or set("{}>#") & set(it.removeprefix("\\#")) else it for it in lines]

    def agrees(self, records: list[Record], texts: list[str], own: list[str | None]) -> list[bool | None]:
        """Whether the program writes the same for each text as for the bytes; none if it refuses one of them."""
        lines = self.lines([(kind, text) for (kind, _), text in zip(records, texts, strict=True)])
        return [None if line is None or mine is None else line == mine for line, mine in zip(lines, own, strict=True)]
