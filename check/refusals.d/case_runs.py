"""Runs of `zonecheck`, `nameserver --replay` and `stub` in which a request for memory is refused."""
import importlib.machinery
import importlib.util
import re
import sys
from pathlib import Path

HERE = Path(__file__).resolve().parent


def module_of(path):
    """The module of a Python file whose name has no ending."""
    loader = importlib.machinery.SourceFileLoader(f"{path.name}_check", str(path))
    module = importlib.util.module_from_spec(importlib.util.spec_from_loader(loader.name, loader))
    loader.exec_module(module)
    return module


program_check = module_of(HERE.parent / "program")
# How `stub` ends: that it had no memory, or what it says of the zone or of the hosts then; and a good run.
NO_MEMORY = [(b"1\n", fault) for fault in (b"no memory\n", b"zone: Z7\n", b"hosts: H2\n")]
GOOD = (b"0\n", b"")
# What `zonecheck` says of a file to include when it has no memory to look whether the file is there, and should say that of itself.
NOT_THERE = b"; zone:4: fault: a file to include that cannot be read\n"
# How a script of `nameserver` prints the reply to an update that the server could not make (RFC 2136 section 2.2).
SERVER_FAILURE = b": ServFail\n"


def cases_of(program):
    """The cases of a program, by name. A case is as those that check/program describes."""
    for path in sorted((HERE / program).glob("*.case")):
        (case,) = program_check.read_case(path)
        yield path.stem, case


def run(program, case, environment=None):
    """The status, standard output and standard error of a run."""
    got = program_check.run(program, case, environment)
    return got["status"], got["stdout"], got["stderr"]


def ample_run(program, case):
    """The run with ample memory, or what is wrong with it."""
    got = program_check.run(program, case)
    # Standard error has the time that reading a zone took.
    differences = program_check.differences(case, {**got, "stderr": case.wanted["stderr"]})
    return (got["status"], got["stdout"], got["stderr"]), "\n".join(differences)


def is_without_update(program, case, ample, stdout):
    """Whether an update is answered with `ServFail` in a run, and all else is as in the script without this update."""
    printed = stdout.splitlines(True)
    at = next((i for i, (line, wanted) in enumerate(zip(printed, ample.splitlines(True))) if line != wanted), None)
    if at is None or b" update " not in printed[at] or not printed[at].endswith(SERVER_FAILURE):
        return False
    update = printed[at].removesuffix(SERVER_FAILURE) + b"\n"
    script = b"".join(line for line in case.files["script"].splitlines(True) if line != update)
    shorter = program_check.Case(case.arguments, {**case.files, "script": script}, case.options)
    status, others, _ = run(program, shorter)
    return (status, others) == (b"0\n", b"".join(printed[:at] + printed[at + 1 :]))


def check_ending(program, case, refuser):
    """The number of each request that was refused, and what is wrong with the run, which has to end as such."""
    ample, fault = ample_run(program, case)
    if fault:
        yield 0, fault
    for nth, (status, stdout, stderr) in refuser.runs(lambda environment: run(program, case, environment)):
        is_whole = (status, stdout) == ample[:2]
        is_ended = status == b"1\n" and ample[1].startswith(stdout) and stderr.endswith(b": out of memory\n")
        is_known = stdout.startswith(NOT_THERE) and not stderr
        is_sound = is_whole or is_ended or is_known or status == b"0\n" and is_without_update(program, case, ample[1], stdout)
        yield nth, None if is_sound else f"it ends with {(status, stdout, stderr)!r}"


def events_of(text):
    """What a report has of each event."""
    return re.split(rb"(?m)^(?=\S)", text)[1:]


def without_event(case, at):
    """The case without one of its events, which are a line each."""
    lines = case.files["script"].splitlines(True)
    events = [i for i, line in enumerate(lines) if line.strip() and not line.startswith(b"#")]
    script = b"".join(line for i, line in enumerate(lines) if i != events[at])
    return program_check.Case(case.arguments, {**case.files, "script": script}, case.options)


class EventRuns:
    """The runs of a script of `stub`."""

    def __init__(self, program, case, ample):
        self.program, self.case, self.ample = program, case, ample
        # The event at which the last request was refused, and what the scripts without an event print.
        self.at, self.others = 0, {}

    def fault_of(self, status, stdout, stderr):
        """What is wrong with a run in which one more request was refused, if anything is."""
        ending, told = (status, stderr), events_of(stdout)
        if ending in NO_MEMORY:
            is_fault = self.is_earlier(len(told)) or told != self.ample[: len(told)]
            return f"it stops with {stderr!r} after {stdout!r}" if is_fault else None
        refused = [at for at, event in enumerate(told) if event.endswith(b": no memory\n")]
        if ending != GOOD or len(told) != len(self.ample) or len(refused) > 1:
            return f"it ends with {(status, stdout, stderr)!r}"
        if not refused:
            return None if told == self.ample else f"it prints {stdout!r}"
        (at,) = refused
        if self.is_earlier(at) or told[:at] != self.ample[:at]:
            return f"an event before the refused one is another: {stdout!r}"
        if told[at + 1 :] not in (self.ample[at + 1 :], self.later_without(at)):
            return f"an event after the refused one is another: {stdout!r}"
        return None

    def is_earlier(self, at):
        """Whether an event is before the one at which a request was refused last, and notes it."""
        before, self.at = self.at, max(self.at, at)
        return at < before

    def later_without(self, at):
        """What the events after one print in the script without it."""
        if at not in self.others:
            _, printed, _ = run(self.program, without_event(self.case, at))
            self.others[at] = events_of(printed)[at:]
        return self.others[at]


def check_events(program, case, refuser):
    """The number of each request that was refused, and what is wrong with the run of `stub`."""
    ample, fault = ample_run(program, case)
    if fault:
        yield 0, fault
    runs = EventRuns(program, case, events_of(ample[1]))
    for nth, got in refuser.runs(lambda environment: run(program, case, environment)):
        yield nth, runs.fault_of(*got)
