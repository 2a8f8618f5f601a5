"""Names, messages and frames of streams as rows of the program `rows`: what each input is read as, by the model."""
from collections import Counter
from pathlib import Path

from inputs import Input
from folder_runs import parts_of, run
from replies import Encoder, read_request
from text import name_text
from wire import OPT, TSIG, Cursor, Refusal, read_message
from zones import Record

# How many rows a process has, and how many bytes a read of a stream gives.
ROWS, PIECES = 50_000, (1, 2, 3, 70_000)


def digits(data: bytes) -> str:
    """Bytes as a row has them."""
    return data.hex() or "-"


def name_row(given: Input) -> tuple[str, str]:
    """The outcome of the name at the index that the first byte says, or at the end of the bytes, and the row: the name and where
    it ends, or the refusal and where it would begin."""
    data = given.data
    start = min(data[0], len(data)) if data else 0
    at = Cursor(data, start)
    try:
        outcome, answer, end = "read", name_text(at.name()), at.at
    except Refusal as refusal:
        outcome = answer = str(refusal)
        end = start
    return outcome, f"read {digits(data)}; at {start}; name; index > {answer} {end}"


def message_row(given: Input) -> tuple[str, str]:
    """The outcome of a message, and the row: the message as it is encoded again, or the refusal."""
    try:
        read_message(given.data)
        outcome, answer = "read", encoded_again(given.data).hex()
    except Refusal as refusal:
        outcome = answer = str(refusal)
    return outcome, f"encode 65535 {digits(given.data)} > {answer}"


def encoded_again(data: bytes) -> bytes:
    """The encoding of the message that bytes begin with: without the bit Z (RFC 1035 section 4.1.1), with the OPT record, whose size is
    512 at least (RFC 6891 section 6.2.3), and the TSIG record at the end (RFC 8945 section 5.1), and with its names compressed."""
    request = read_request(data)
    *front, additional = request.sections
    edns = [Record(it.owner, it.ttl, OPT, it.data, max(512, it.rclass)) for it in additional if it.rtype == OPT]
    signatures = [it for it in additional[-1:] if it.rtype == TSIG and it.data is not None]
    others = [it for it in additional if it.rtype != OPT and it not in signatures]
    out = Encoder(65535)
    for question in request.questions:
        out.name(question.name)
        out.put(question.rtype.to_bytes(2, "big") + question.rclass.to_bytes(2, "big"))
    counts = [len(request.questions)] + [out.section(it) for it in [*front, [*others, *edns, *signatures]]]
    out.data[:12] = b"".join(it.to_bytes(2, "big") for it in [request.id, request.flags & 0xFFBF, *counts])
    return bytes(out.data)


def frames_of(data: bytes) -> tuple[list[bytes], bool]:
    """The frames of a stream, and whether it ends after one (RFC 1035 section 4.2.2)."""
    found, at = [], 0
    while at < len(data):
        size = int.from_bytes(data[at : at + 2], "big")
        if at + 2 > len(data) or at + 2 + size > len(data):
            return found, False
        found.append(data[at + 2 : at + 2 + size])
        at += 2 + size
    return found, True


def frames_row(given: Input) -> tuple[str, str]:
    """The outcome of a stream, and the row, which reads it in pieces of a size: its frames, and how it ends."""
    found, is_whole = frames_of(given.data)
    outcome, piece = "read" if is_whole else "Truncated", PIECES[sum(given.data) % len(PIECES)]
    return outcome, " ".join([f"frames {piece} {digits(given.data)} >", *map(digits, found), "end" if is_whole else outcome])


ROW_OF = {"names": name_row, "messages": message_row, "frames": frames_row}


def failures(program: Path, rows: list[str]) -> list[str]:
    """The rows that the program does not answer so."""
    done = run(program, ["hostile.rows"], {"hostile.rows": "".join(f"{it}\n" for it in rows).encode()})
    lines = done.stdout.decode(errors="replace").splitlines()
    wanted = [f"hostile.rows: {len(rows)} rows, 0 failed", f"total: {len(rows)} rows, 0 failed"]
    return [] if lines == wanted and done.returncode == 0 else lines + done.stderr.decode(errors="replace").splitlines()


def tried(kind: str, program: Path, inputs: list[Input], counts: Counter) -> list[str]:
    """Tries inputs, and counts their outcomes. The result is what differs."""
    found = []
    for part in parts_of(map(ROW_OF[kind], inputs), ROWS):
        counts.update(outcome for outcome, _ in part)
        found += failures(program, [row for _, row in part])
    return found
