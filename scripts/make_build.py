"""Makes the build without proofs of a program, unless it is there, and prints the file that it is kept in.

usage: python3 scripts/make_build.py PROGRAM

The program is compiled from a copy of its sources and kept as build/PROGRAM-CHECKSUM, by the checksum of that copy. One
process makes a build of a program at a time, and another waits for it. The status is 0 if the build is there, else 1.
"""
import contextlib
import ctypes
import fcntl
import math
import os
import shutil
import signal
import sys
import time
from pathlib import Path

sys.dont_write_bytecode = True

from compiler import CompileFault, Compiler
from copies import copy_crates, copy_file, folder_for_a_while
from crates import in_order, read_crates
from processes import end_descendants, ending_together, exit_as_told, processor_seconds
from programs import CODE, is_program, kept_build

ROOT = Path(__file__).resolve().parent.parent
# How many builds of a program are kept.
MOST = 4
# How often a line says how long it takes so far, in seconds, unless a terminal shows the time.
EACH = 30
# About how much processor time a build takes, and from how much on the rest is estimated, in seconds.
WORK, ENOUGH = 120, 5
# The option of prctl(2) that has this process told to end when its parent does.
PR_SET_PDEATHSIG = 1


class BuildFault(Exception):
    """Why there is no build."""


class Progress:
    """What is said of a program while its build is made."""

    def __init__(self, name):
        self.name, self.started, self.told = name, time.monotonic(), 0

    def tell(self, text):
        """Prints a line."""
        with contextlib.suppress(OSError, AttributeError):
            sys.stderr.write(f"{self.erasing()}{self.name}: {text}\n")
            sys.stderr.flush()

    def show(self):
        """Says how long it takes so far."""
        if sys.stderr and sys.stderr.isatty():
            sys.stderr.write(f"\r{self.name}: compiling, {self.clock()}{self.left()}\x1b[K")
            sys.stderr.flush()
        elif time.monotonic() - self.started - self.told >= EACH:
            self.told += EACH
            self.tell(f"compiling, {self.clock()} so far{self.left()}")

    def left(self):
        """How long it will take, if the processors have as little time for it as so far."""
        used, passed = processor_seconds(), time.monotonic() - self.started
        if not ENOUGH <= used < WORK:
            return ""
        return f", about {math.ceil((WORK - used) * passed / used / 60)} min left"

    def erasing(self):
        """What erases the time from a terminal."""
        return "\r\x1b[K" if sys.stderr.isatty() else ""

    def clock(self):
        """The time so far, as minutes and seconds."""
        seconds = int(time.monotonic() - self.started)
        return f"{seconds // 60}:{seconds % 60:02}"


def build_of(name):
    """The build of today's sources, which is made if it is not there."""
    if not is_program(ROOT, name):
        raise BuildFault("crates.txt names no such program")
    program = kept_build(ROOT, name)
    if os.access(program, os.X_OK):
        return program
    if not shutil.which("rt"):
        raise BuildFault("it is not built yet, and rt, the command of the toolchain, is not on the PATH")
    with only_one(program.parent, name) as progress:
        # Another process may have made it meanwhile.
        return program if os.access(program, os.X_OK) else make_build(name, progress)


@contextlib.contextmanager
def only_one(folder, name):
    """Waits until no other process makes a build of this program."""
    folder.mkdir(exist_ok=True)
    with open(folder / f"{name}.lock", "a", encoding="utf-8") as lock:
        try:
            fcntl.flock(lock, fcntl.LOCK_EX | fcntl.LOCK_NB)
        except BlockingIOError:
            Progress(name).tell("waiting for another start, which compiles it")
            fcntl.flock(lock, fcntl.LOCK_EX)
        yield Progress(name)


def make_build(name, progress):
    """Compiles a program, and returns the file that it is kept in."""
    log = ROOT / "build" / f"{name}.log"
    with folder_for_a_while(f"{name}-") as room, open(log, "wb") as said:
        sources = Path(room, "sources")
        copy_crates(ROOT, in_order(read_crates(ROOT), [name]), sources, CODE)
        program = ROOT / "build" / kept_build(sources, name).name
        progress.tell("compiling the sources, which is done once and takes two to three minutes")
        try:
            built = Compiler(Path(room), said, progress.show).compile(sources / "crates" / name)
        except CompileFault as fault:
            raise BuildFault(f"{fault}; the end of build/{log.name}:\n{end_of(log)}") from None
        finally:
            end_descendants()
        copy_file(built, program, 0o755)
    progress.tell(f"compiled in {progress.clock()}")
    remove_oldest(program)
    return program


def end_of(log):
    """The last lines of a log."""
    return "\n".join(log.read_text(errors="replace").splitlines()[-20:])


def remove_oldest(program):
    """Removes the builds of a program that were made first, if there are too many."""
    builds = program.parent.glob(f"{program.name.partition('-')[0]}-*")
    for it in sorted(builds, key=lambda it: -it.stat().st_mtime)[MOST:]:
        it.unlink()


def end_with_parent():
    """Has this process told to end when its parent ends."""
    ctypes.CDLL(None).prctl(PR_SET_PDEATHSIG, signal.SIGTERM, 0, 0, 0)


def reason_of(error):
    """What a failed call of the system says."""
    return ": ".join(str(it) for it in (error.strerror, error.filename) if it) or str(error)


def main(words):
    if len(words) != 1 or words[0].startswith("-"):
        print(__doc__, end="")
        return 0 if words in (["--help"], ["-h"]) else 2
    progress = Progress(words[0])
    try:
        with ending_together():
            end_with_parent()
            program = build_of(words[0])
    except BuildFault as fault:
        progress.tell(fault)
        return 1
    except OSError as error:
        progress.tell(f"no build can be made: {reason_of(error)}")
        return 1
    sys.stdout.buffer.write(os.fsencode(program) + b"\n")
    return 0


if __name__ == "__main__":
    exit_as_told(main, sys.argv[1:])
