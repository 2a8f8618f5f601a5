"""Stored runs and tests on builds without proofs."""
import difflib
import os
import re
import shutil
import subprocess
import sys
import tempfile
import time
from concurrent.futures import ThreadPoolExecutor, as_completed
from pathlib import Path

from copies import copy_crates
from crates import folder_of, in_order, read_crates

ROOT = Path(__file__).resolve().parent.parent
TEST = re.compile(r"^\s*#\[test\]", re.MULTILINE)
# How long a program and the tests of a crate may take, in seconds, as in the gate.
PROGRAM_SECONDS, TEST_SECONDS = 120, 600
# How long the cases of a program may take: of `stub`, each allocation is refused in turn.
CASES_SECONDS = 1800
# The checks with the cases of a program, and the parts of these that need no rights and no packages.
CASES = {
    "lookup": (("resolver",),),
    "stub": (("program",), ("sockets", "strangers"), ("refusals", "stub")),
    "zonecheck": (("zonecheck",), ("refusals", "zonecheck")),
    "nameserver": (("nameserver",), ("refusals", "nameserver")),
    "rows": (("refusals", "rows"),),
}
# The crate of the library for C, and what `./library` links it with.
LIBRARY, LINKING = "rumstrait_c", ("ar", "cc", "ld", "objcopy")
# How many lines of a difference are printed.
SHOWN = 12
# What one build takes of memory, in kilobytes.
BUILD_MEMORY = 3_000_000


class Failure(Exception):
    """Why a suite failed."""


def stored_run(name):
    """Builds a program and compares what it does with what is stored."""
    crate = folder_of(ROOT, name)
    program = built(name)
    words = lines_in(crate / "args")
    with tempfile.TemporaryDirectory() as folder:
        room, files = Path(folder, "data"), crate / "data"
        shutil.copytree(files, room) if files.is_dir() else room.mkdir()
        given = crate / "stdin"
        with open(given if given.exists() else os.devnull, "rb") as stdin:
            done = run([program, *words], cwd=room, stdin=stdin, seconds=PROGRAM_SECONDS)
    wanted = (crate / "stdout").read_bytes()
    status = int((lines_in(crate / "status") or ["0"])[0])
    if done.returncode != status:
        raise Failure(f"status {done.returncode} in place of {status}\n{end_of(done.stderr)}")
    if done.stdout != wanted:
        raise Failure(f"other output:\n{difference(wanted, done.stdout)}")
    return f"{wanted.count(bytes([10]))} lines"


def built(name):
    """The program, built without proofs."""
    done = subprocess.run([sys.executable, ROOT / "scripts" / "make_build.py", name], stdin=subprocess.DEVNULL, capture_output=True)
    if done.returncode:
        raise Failure(f"it is not built\n{end_of(done.stderr)}")
    return os.fsdecode(done.stdout.rstrip(b"\n"))


def cases(name):
    """Builds a program and runs it on its cases."""
    program, said = built(name), []
    for check, *parts in CASES[name]:
        words = [ROOT / "check" / check, "--program", program, *parts]
        done = run(words, cwd=ROOT, stdin=subprocess.DEVNULL, seconds=CASES_SECONDS)
        if done.returncode:
            raise Failure(end_of(done.stdout + done.stderr))
        said.append(done.stdout.decode().splitlines()[-1])
    return "; ".join(said)


def library(name):
    """Builds the library for C, and looks names up by it, step by step."""
    missing = [it for it in LINKING if not shutil.which(it)]
    if missing:
        return f"skipped, since {', '.join(missing)} is not there"
    with tempfile.TemporaryDirectory() as folder:
        steps = [sys.executable, ROOT / "check" / "c.d" / "steps.py", Path(folder, "lib", "librumstrait.so")]
        for words in ([ROOT / "library", folder, "--unproved"], steps):
            done = run(words, cwd=ROOT, stdin=subprocess.DEVNULL, seconds=CASES_SECONDS)
            if done.returncode:
                raise Failure(end_of(done.stdout + done.stderr))
    return done.stdout.decode().splitlines()[-1]


def tests(name):
    """Runs the tests of a crate, before any proof."""
    with tempfile.TemporaryDirectory() as folder:
        copy_crates(ROOT, in_order(read_crates(ROOT), [name]), Path(folder))
        done = run(["rt", "try", "--test"], cwd=Path(folder, "crates", name), stdin=subprocess.DEVNULL, seconds=TEST_SECONDS)
    if done.returncode:
        raise Failure(end_of(done.stdout + done.stderr))
    return f"{test_count(name)} tests"


def run(words, cwd, stdin, seconds):
    """Runs a command to its end."""
    try:
        return subprocess.run(words, cwd=cwd, stdin=stdin, capture_output=True, timeout=seconds)
    except subprocess.TimeoutExpired:
        raise Failure(f"it takes more than {seconds} seconds") from None


def lines_in(file):
    """The lines of a file, or none without it."""
    return file.read_text(encoding="utf-8").splitlines() if file.exists() else []


def end_of(output):
    """The last lines of an output."""
    return "\n".join(output.decode(errors="replace").splitlines()[-SHOWN:])


def difference(wanted, found):
    """Where two outputs differ."""
    lines = (it.decode(errors="replace").splitlines() for it in (wanted, found))
    return "\n".join([*difflib.unified_diff(*lines, "stored", "printed", lineterm="", n=1)][:SHOWN])


def test_count(name):
    """How many tests a crate has."""
    return sum(len(TEST.findall(it.read_text(encoding="utf-8"))) for it in (folder_of(ROOT, name) / "src").rglob("*.rt"))


def suites(names):
    """The suites of these crates, or of all: the largest programs first, since their builds take longest."""
    crates = read_crates(ROOT)
    found = [(stored_run, it) for it in crates if (folder_of(ROOT, it) / "stdout").is_file()]
    found += [(tests, it) for it in crates if test_count(it)]
    found += [*((cases, it) for it in CASES), (library, LIBRARY)]
    found.sort(key=lambda it: -len(in_order(crates, [it[1]])))
    return [it for it in found if not names or it[1] in names]


def jobs():
    """How many suites are run side by side: a processor and the memory of a build for each."""
    free = int(re.search(r"MemAvailable:\s+(\d+)", Path("/proc/meminfo").read_text(encoding="ascii"))[1])
    return max(1, min(len(os.sched_getaffinity(0)), free // BUILD_MEMORY))


def timed(suite, name):
    """Runs a suite: how it ended, and in how many seconds."""
    started = time.monotonic()
    try:
        said, is_passed = suite(name), True
    except Failure as failure:
        said, is_passed = str(failure), False
    return is_passed, said, int(time.monotonic() - started)


def main(words, usage):
    """Runs the suites that the words name."""
    if any(it.startswith("-") for it in words):
        print(usage, end="")
        return 0 if words in (["--help"], ["-h"]) else 2
    found = suites(words)
    unknown = [it for it in words if it not in {name for _, name in found}]
    if unknown:
        print(f"test: no stored run and no tests: {', '.join(unknown)}", file=sys.stderr)
        return 2
    passed, done = 0, 0
    with ThreadPoolExecutor(jobs()) as pool:
        running = {pool.submit(timed, suite, name): name for suite, name in found}
        for it in as_completed(running):
            is_passed, said, seconds = it.result()
            passed, done = passed + is_passed, done + 1
            verdict = "passed" if is_passed else "FAILED"
            print(f"{done:2} of {len(found)}  {running[it]:<20} {verdict}  {seconds:4} s  {said}", flush=True)
    print(f"{passed} passed, {len(found) - passed} failed")
    return 0 if passed == len(found) else 1
