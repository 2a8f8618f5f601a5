"""The stored inputs: of each kind some hundred that are close to the good ones, with what becomes of them by the model, as rows of the
program `rows`, a script of `nameserver` and cases of check/zonecheck and check/program, which `./test` and the gate run."""
from collections import Counter
from collections.abc import Callable, Iterator
from itertools import chain, groupby, islice
from pathlib import Path

import hosts_runs
import request_script
import script_runs
import wire_rows
import zone_files
from inputs import Input, at_random, close_to, good_ones
from request_script import ZONE
from script_text import faulty_line
from zone_text import is_utf8

ROOT = Path(__file__).resolve().parent.parent.parent
ROWS, SCRIPT = ROOT / "check" / "harness" / "rows" / "data", ROOT / "crates" / "nameserver" / "data"
ZONES, RUNS = ROOT / "check" / "zonecheck.d", ROOT / "check" / "program.d"
# How many of the inputs close to a good one are looked at, and how far they are from each other.
LOOKED, STEP = 220, 7919
# How many of them are stored at most, and how many with the same outcome.
MOST, SAME = 9, 2
# The SOA record below which zone files are read that have no fault by themselves, or only one that a record of a zone has.
FIRST = b"$ORIGIN t.\n@ 60 SOA ns h 1 3600 600 86400 30\n"
PLACES = ("NotInternet", "OutsideOrigin", "SoaElsewhere", "OriginTwice")
# Every outcome is stored at least once.
OUTCOMES = {
    "names": "read InsufficientBytes UnrecognizedLabelCode PointerNotPriorToLabel DomainNameTooLong",
    "messages": "read InsufficientBytes UnrecognizedLabelCode PointerNotPriorToLabel IncorrectRDataLengthRead "
    "InvalidEmptyRecord RecordNotInAdditionalSection DuplicateEdns EdnsNameNotRoot",
    "frames": "read Truncated",
    "requests": "NoError FormErr NXDomain NotImp Refused YXDomain YXRRSet NXRRSet NotAuth NotZone no_reply unknown_opcode",
    "zones": "read UnclosedQuotedString UnclosedList NestedList UnopenedList LoneBackslash NoOwner InvalidOwner InvalidTtl "
    "RepeatedField MissingType UnknownType NoTtl InvalidDirective UnsupportedRecordType MissingToken InvalidToken UnexpectedToken "
    "InvalidName IncludeNotFound NotInternet OutsideOrigin SoaElsewhere",
    "hosts": "read Utf8",
    "scripts": "read Line not_UTF-8",
}


def picked(kind: str, outcome_of: Callable[[Input], str | None], most: int = MOST, same: int = SAME) -> list[tuple[str, Input]]:
    """The stored inputs of a kind with their outcomes, those close to a good one after it. One without an outcome is none."""
    good = good_ones(kind)
    groups = [(it, spread(list(close_to(kind, it)))) for it in good] + [(None, list(islice(at_random(kind, good), LOOKED)))]
    found, data = [], set()
    for first, near in groups:
        counts: Counter = Counter()
        for given in [*([first] if first else []), *near]:
            outcome = outcome_of(given) if given.data not in data else None
            if outcome and counts[outcome] < same and counts.total() < most:
                counts[outcome] += 1
                data.add(given.data)
                found.append((outcome, given))
    return found + rare_ones(kind, outcome_of, {it for it, _ in found})


def spread(inputs: list[Input]) -> list[Input]:
    """Some of the inputs, from everywhere among them."""
    return [inputs[it * STEP % len(inputs)] for it in range(min(LOOKED, len(inputs)))]


def rare_ones(kind: str, outcome_of: Callable[[Input], str | None], present: set[str]) -> list[tuple[str, Input]]:
    """An input for each outcome that is not there yet."""
    missing, found = {it.replace("_", " ") for it in OUTCOMES[kind].split()} - present, []
    for given in chain.from_iterable(close_to(kind, it) for it in reversed(good_ones(kind))) if missing else ():
        outcome = outcome_of(given)
        if outcome in missing:
            missing.remove(outcome)
            found.append((outcome, given))
        if not missing:
            return found
    if missing:
        raise ValueError(f"{kind}: no input for {', '.join(sorted(missing))}")
    return found


def by_title(inputs: list[Input]) -> Iterator[tuple[str, list[Input]]]:
    """The inputs that are close to the same good one."""
    for title, group in groupby(inputs, key=lambda it: it.title):
        yield title, list(group)


# ---- rows and exchanges


def rows_text(kind: str, about: str, same: int = SAME) -> str:
    row_of = wire_rows.ROW_OF[kind]
    lines = [f"# {about} Made by check/hostile --write."]
    for title, group in by_title([it for _, it in picked(kind, lambda it: row_of(it)[0], same=same)]):
        lines += ["", f"# {title}", *(row_of(it)[1] for it in group)]
    return "".join(f"{it}\n" for it in lines)


def request_outcome(given: Input) -> str | None:
    return next((outcome for outcome, _ in request_script.exchanges([given])), None)


def script_text() -> str:
    lines = ["# Requests close to good ones, and what the server with `--plain` replies, as bytes. Made by check/hostile --write."]
    script, inputs = request_script.Script(), [it for _, it in picked("requests", request_outcome)]
    for title, group in by_title(sorted(inputs, key=lambda it: request_script.TRANSPORTS[it.reader])):
        lines += ["", f"# {title}"]
        for given in group:
            lines += script.exchange(given)[1]
    return "".join(f"{it}\n" for it in lines)


# ---- cases


def escaped(data: bytes) -> str:
    """Bytes as a part `escaped` of a case has them, each line on a line."""
    plain = lambda it: chr(it) if 0x20 <= it < 0x7F and it != 0x5C else {0x0A: "\\n\n", 0x09: "\\t", 0x0D: "\\r"}.get(it, f"\\x{it:02x}")
    lines = "".join(map(plain, data)).split("\n")
    lines = [f"\\x2d{it[1:]}" if it.startswith("-") else it for it in lines]
    # A blank at the end of a line is seen.
    lines = [f"{it[:-1]}\\x20" if it.endswith(" ") else it for it in lines]
    return "".join(f"{it}\n" for it in lines if it)


def is_line(text: str) -> bool:
    """Whether a text can be a line of a case as it is."""
    return text.isprintable() and text == text.rstrip() != "" and not set(text) & set("{}\ufeff") and not text.startswith("-")


def written_file(text: bytes) -> str | None:
    """A zone file as a line of a case, if it can be one."""
    if not is_utf8(text) or text.startswith(b"\xef\xbb\xbf"):
        return None
    written = text.decode()
    lines = [it.replace("\t", "").replace("\r", "") for it in written.split("\n")]
    if not all(is_line(it) or not it for it in lines) or not is_line(written[-1:]):
        return None
    return written.replace("\n", "{lf}").replace("\r", "{cr}").replace("\t", "{tab}")


def told(given: Input, front: bytes) -> tuple[str, str, str] | None:
    """The outcome of a zone file below a front, the part of a case that says so, and its line there. If there is a fault, the file ends
    with the line of the fault, which has no other."""
    includes = zone_files.INCLUDED if given.title == zone_files.INCLUDING else {}
    text = given.data.removesuffix(b"\n")
    for _ in range(2):
        refusal = zone_files.refusal_of(front + text, includes)[1]
        if refusal is None or str(refusal) == "NoSoa":
            return ("read", "accepted", written_file(text)) if front and written_file(text) else None
        if refusal.line is None or refusal.line > (front + text).count(b"\n") + 1:
            return None
        text = b"\n".join((front + text).split(b"\n")[: refusal.line])[len(front) :]
    # After a parenthesis inside another, a line that does not begin with a blank is read again. In a file of all types a string may go on.
    is_again = str(refusal) == "NestedList" and text.split(b"\n")[-1][:1] not in (b" ", b"\t") and b"\n" in text
    if is_again or includes and str(refusal) == "UnclosedQuotedString":
        return None
    is_last = refusal.line == (front + text).count(b"\n") + 1
    written = written_file(text)
    return (str(refusal), f"refused zone: {zone_files.sentence_of(refusal)}", written) if is_last and written else None


def placed(given: Input) -> tuple[bytes, str, str, str] | None:
    """The front that a zone file is below, which is nothing if it has a fault by itself, and what is told of it there."""
    if not is_utf8(given.data) or not all(it in "\t\r\n" or it.isprintable() for it in given.data.decode()):
        return None
    alone = told(given, b"") if given.title != zone_files.INCLUDING else None
    if alone and alone[0] not in PLACES:
        return b"", *alone
    below = told(given, FIRST)
    return below and (FIRST, *below)


def zone_outcome(given: Input) -> str | None:
    """The outcome of a zone file that a case can have."""
    found = placed(given)
    return found and found[1]


def zone_case() -> str:
    parts: dict[tuple[bool, bool], dict[str, list[str]]] = {}
    for _, given in picked("zones", zone_outcome):
        front, _, title, text = placed(given)
        parts.setdefault((given.title == zone_files.INCLUDING, bool(front)), {}).setdefault(title, []).append(text)
    lines = ["# Zone files close to good ones: the fault of the last line of each, and those without one. Made by check/hostile --write."]
    lines += ["-- options", "--nine"]
    for key in ((False, False), (False, True), (True, True)):
        if key == (False, True):
            lines += ["-- then", "Below the SOA record of their zone.", "-- file zone", FIRST.decode().rstrip("\n")]
        if key == (True, True):
            lines += ["-- then", "With a file that is included.", "-- options", "-- file inc"]
            lines += zone_files.INCLUDED[b"inc"].decode().splitlines()
        for title, texts in parts[key].items():
            lines += [f"-- {title}", *dict.fromkeys(texts)]
    return "".join(f"{it}\n" for it in lines) + not_utf8_run()


def not_utf8_run() -> str:
    """The run on a zone file that is not UTF-8: nothing else is said of it."""
    given = next(it for it in close_to("zones", good_ones("zones")[-1]) if not is_utf8(it.data) and not it.is_front)
    _, refusal = zone_files.refusal_of(given.data, {})
    text = f"-- then\nA byte that is not UTF-8.\n-- file zone escaped\n{escaped(given.data)}-- status\n1\n-- stdout\n"
    return text + f"zone:{refusal.line}: fault: {zone_files.sentence_of(refusal)}\n    save the file as UTF-8; it may be in Latin-1\n"


def hosts_case() -> str:
    inputs = picked("hosts", hosts_runs.outcome_of, 18, 15)
    many = [it for _, it in inputs if not hosts_runs.is_alone(it)]
    marked = [it for outcome, it in inputs if outcome == "read" and hosts_runs.is_alone(it)][:4]
    others = [it for outcome, it in inputs if outcome == "Utf8"][::8]
    hosts = hosts_runs.together(many)
    text = "# Hosts files close to good ones, as one file: the addresses of each name, in their order. Made by check/hostile --write.\n"
    text += f"-- file zone\n{ZONE}-- file hosts escaped\n{escaped(hosts)}-- file script\n{hosts_runs.lookups(hosts)}"
    for given in marked:
        text += f"-- then\nA byte-order mark, and what is close to it.\n-- file hosts escaped\n{escaped(given.data)}"
        text += f"-- file script\n{hosts_runs.lookups(given.data)}"
    for given in others:
        text += f"-- then\nA byte that is not UTF-8.\n-- file hosts escaped\n{escaped(given.data)}-- file script\n0 lookup a. A\n"
        text += f"-- status\n1\n-- stderr\n{hosts_runs.NOT_UTF8.decode()}"
    return text


def script_outcome(given: Input) -> str | None:
    """The outcome of a script that a case can have: one that is refused is a line."""
    outcome = script_runs.outcome_of(given)
    if outcome == "Line" and not is_line(given.data.decode().removesuffix("\n")):
        return None
    return outcome


def script_case() -> str:
    inputs = picked("scripts", script_outcome, 16, 10)
    good = script_runs.together([it for outcome, it in inputs if outcome == "read"])
    others = [it for outcome, it in inputs if outcome == "not UTF-8"][::25]
    # A line that is none of a script follows, and nothing is wrong before it.
    number = faulty_line(good + script_runs.LAST)
    text = "# Scripts close to good ones. Those that are scripts are the first lines of each run, and one that is none is the last.\n"
    text += f"# Made by check/hostile --write.\n-- file zone\n{ZONE}-- file script escaped\n{escaped(good)}"
    text += f"-- refused script: script line {number}\n"
    text += "".join(f"{it.data.decode().removesuffix(chr(10))}\n" for outcome, it in inputs if outcome == "Line")
    for given in others:
        text += f"-- then\nA byte that is not UTF-8.\n-- file script escaped\n{escaped(given.data)}"
        text += "-- status\n1\n-- stderr\ncannot read script\n"
    return text


def files() -> dict[Path, str]:
    """The stored files, as the model has them."""
    names = "Names close to good ones: the name that is read and where it ends, or the refusal and where it begins."
    messages = "Messages close to good ones: how each is encoded again, or the refusal."
    frames = "Streams close to good ones: their frames, and how they end."
    return {
        ROWS / "mutated_names.rows": rows_text("names", names),
        ROWS / "mutated_messages.rows": rows_text("messages", messages),
        ROWS / "mutated_frames.rows": rows_text("frames", frames, 5),
        SCRIPT / request_script.NAME: ZONE,
        SCRIPT / "mutated.script": script_text(),
        ZONES / "mutated.case": zone_case(),
        RUNS / "mutated_hosts.case": hosts_case(),
        RUNS / "mutated_scripts.case": script_case(),
    }
