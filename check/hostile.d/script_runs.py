"""Scripts as runs of the program `stub`: which line is the first that is none of a script, by the model. The inputs whose lines all are
scripts' are one script, with a line at the end that is none; the others are scripts by themselves."""
from collections import Counter
from pathlib import Path

from inputs import Input
from folder_runs import parts_of, run
from request_script import ZONE
from script_text import faulty_line
from zone_text import is_utf8

# How many inputs a script has, and the line at its end.
INPUTS, LAST = 500, b"x\n"


def outcome_of(given: Input) -> str:
    if not is_utf8(given.data):
        return "not UTF-8"
    return "Line" if faulty_line(given.data) else "read"


def together(inputs: list[Input]) -> bytes:
    """The script of several inputs."""
    return b"".join(it.data if it.data.endswith(b"\n") else it.data + b"\n" for it in inputs)


def said_of(script: bytes) -> bytes:
    """What the program says of a script with a fault."""
    return b"script line %d\n" % faulty_line(script) if is_utf8(script) else b"cannot read script\n"


def difference(program: Path, script: bytes) -> str | None:
    """What differs in a run on a script with a fault."""
    done = run(program, ["--zone", "zone", "--script", "script"], {"zone": ZONE.encode(), "script": script})
    got, wanted = (done.returncode, done.stdout, done.stderr), (1, b"", said_of(script))
    return None if got == wanted else f"script {script!r}\n  wanted {wanted}, got {got}"


def tried(program: Path, inputs: list[Input], counts: Counter, most: int | None) -> list[str]:
    """Tries inputs, of those with a fault at most so many, and counts their outcomes. The result is what differs."""
    faulty = [it for it in inputs if outcome_of(it) != "read"]
    faulty = faulty[:: len(faulty) // most + 1] if most is not None else faulty
    good = [it for it in inputs if outcome_of(it) == "read"]
    counts.update(outcome_of(it) for it in [*good, *faulty])
    scripts = [together(it) + LAST for it in parts_of(good, INPUTS)] + [it.data for it in faulty]
    return [said for it in scripts if (said := difference(program, it))]
