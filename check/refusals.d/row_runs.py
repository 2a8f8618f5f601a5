"""Runs of `rows` on a single row in which a request for memory is refused."""
import re
from pathlib import Path

from case_runs import program_check, run

DATA = Path(__file__).resolve().parent.parent / "harness" / "rows" / "data"
# The longest row that is tried, in characters, and the files whose rows fail or are made.
LONGEST, LEFT_OUT = 400, {"failing", "mutated_names", "mutated_messages", "mutated_frames"}
# The operations whose first word says which call is made, or of which type the data is.
BY_WORD = set("view join compare label-view sentence data data-view data-bytes data-hex format format-text remake item same build repeat".split())
# What separates the steps of a script, whose first words say which calls are made.
STEPS = {"read": "; ", "write": "; ", "write-over": "; ", "set": "; ", "update": " || "}
# Want of memory, as an answer has it.
REFUSAL = re.compile(r"(^| )\S*\b(Memory|AllocError|out of memory)\b")
# A step that names a place, after a write that was refused: there is no such place. These operations have such steps.
OUT_OF_PLACE, PLACED = "the input is not what the operation reads", {"write", "write-over"}
# How `rows` ends before it has read its file, or without memory for what it prints: its status, and standard error.
ENDINGS = {(b"2\n", b"cannot read a.rows: out of memory\n"), (b"1\n", b"Error: Kind(OutOfMemory)\n")}


def calls_of(row):
    """The calls that a row makes: its operation, and the word or the steps that say which."""
    asked = row.partition(" > ")[0]
    operation, _, rest = asked.partition(" ")
    if operation in BY_WORD:
        return {f"{operation} {rest.partition(' ')[0]}"}
    if operation in STEPS:
        steps = rest.split(STEPS[operation])[1:] if operation != "write" else rest.split("; ")
        return {f"{operation} {it.partition(' ')[0]}" for it in steps}
    return {operation}


def all_rows():
    """The rows of the files, the longest first, since they make more requests."""
    files = [it for it in sorted(DATA.glob("*.rows")) if it.stem not in LEFT_OUT]
    lines = [line for it in files for line in it.read_text(encoding="utf-8").splitlines()]
    rows = [it for it in lines if it and not it.startswith("#") and len(it) <= LONGEST and not re.search(r"\{\d+\*", it)]
    return sorted(rows, key=lambda it: -len(it))


def chosen_rows(operations):
    """Rows that make each call once, or each call of some operations, with the name of the first call that none before it makes."""
    made = set()
    for row in all_rows():
        calls = calls_of(row) - made
        if calls and (not operations or row.split(" ")[0] in operations):
            made |= calls
            yield sorted(calls)[0], row


def row_case(row):
    """The run of a row."""
    return program_check.Case([b"a.rows"], {"a.rows": f"{row}\n".encode()})


def is_refusal(row, said):
    """Whether what `rows` says of a failing row is that memory was refused."""
    operation, wanted = row.split(" ")[0], row.partition(" > ")[2]
    if operation in PLACED and said == OUT_OF_PLACE:
        return True
    found = REFUSAL.search(said)
    if not found:
        return False
    # Data that is not read leaves the decoder at another index, which the answer begins with.
    return wanted.startswith(said[: found.start()]) or operation == "data-hex" and said[: found.start()].isdigit()


def fault_of(row, status, stdout, stderr):
    """What is wrong with a run in which a request was refused, if anything is."""
    if (status, stderr) in ENDINGS:
        return f"it prints {stdout!r}" if stdout else None
    found = re.search(r"\n    but(?: came)?: (.*)\n.*1 failed\n.*1 failed\n$", stdout.decode())
    if status != b"1\n" or stderr or not found:
        return f"it ends with {(status, stdout, stderr)!r}"
    return None if is_refusal(row, found[1]) else f"the answer is {found[1]!r}"


def check_row(program, case, refuser):
    """The number of each request that was refused, and what is wrong with the run."""
    row = case.files["a.rows"].decode().rstrip("\n")
    ample = run(program, case)
    if ample[0] != b"0\n":
        yield 0, f"with ample memory it ends with {ample!r}"
    for nth, got in refuser.runs(lambda environment: run(program, case, environment)):
        yield nth, None if got == ample else fault_of(row, *got)
