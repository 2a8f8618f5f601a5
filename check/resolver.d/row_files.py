"""Rows of data: `OPERATION INPUT > ANSWER`, one a line (CONTRIBUTING.md)."""
import re
from pathlib import Path
from typing import Iterator, NamedTuple

ESCAPES = {"n": "\n", "r": "\r", "t": "\t", "s": " ", "\\": "\\"}


class Row(NamedTuple):
    """A row, and where it is."""

    place: str
    operation: str
    input: str
    answer: str


def expanded(text: str) -> str:
    """A text in which each {3*TEXT} stands for TEXT three times, with `#` for its number, and {tab} for a tab."""
    text = text.replace("{tab}", "\t")
    return re.sub(r"\{(\d+)\*([^}]*)\}", lambda it: "".join(it[2].replace("#", str(at)) for at in range(int(it[1]))), text)


def unescaped(text: str) -> str:
    """A text whose escapes are characters: `\\n`, `\\r`, `\\t`, `\\s`, which is a blank, and `\\\\`."""
    return re.sub(r"\\(.)", lambda it: ESCAPES[it[1]], text)


def rows_of(path: Path) -> Iterator[Row]:
    """The rows of a file. Empty lines and comments are none."""
    for number, line in enumerate(path.read_text(encoding="utf-8").splitlines(), 1):
        if line and not line.startswith("#"):
            operation, _, rest = expanded(line).partition(" ")
            given, mark, answer = rest.rpartition(" > ")
            if not mark:
                raise ValueError(f"{path.name}:{number}: a row without an answer")
            yield Row(f"{path.name}:{number}", operation, given, answer)
