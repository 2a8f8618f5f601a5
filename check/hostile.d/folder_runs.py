"""Runs of the programs on files."""
import subprocess
import tempfile
from collections.abc import Iterable, Iterator
from itertools import islice
from pathlib import Path

SECONDS = 300.0


def run(program: Path, words: list[str], files: dict[str, bytes]) -> subprocess.CompletedProcess:
    """What a program prints in a folder with some files, and its status."""
    with tempfile.TemporaryDirectory() as name:
        for path, data in files.items():
            file = Path(name, path)
            file.parent.mkdir(exist_ok=True)
            file.write_bytes(data)
        return subprocess.run(
            [program.resolve(), *words], cwd=name, stdin=subprocess.DEVNULL, capture_output=True, timeout=SECONDS
        )


def parts_of(items: Iterable, size: int) -> Iterator[list]:
    """The items in lists of at most so many."""
    rest = iter(items)
    while part := list(islice(rest, size)):
        yield part
