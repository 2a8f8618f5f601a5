"""The front of each program: runs the proved build that `./prove` left, or else one without proofs, which it keeps.

A front is a file at the top of the repository, which has the name of its program. The program takes the place of this
process, with the arguments, the working directory, the standard streams and the signals that its caller gave. The status
is 125 if there is no program to run.

With `--version` alone, it says what it would run, and runs nothing.

A front starts the interpreter without its module `site`, which may import much, so that the program starts soon.
"""
import contextlib
import os
import signal
import sys
from pathlib import Path

from programs import is_program, kept_build, proved_program

ROOT = Path(__file__).resolve().parent.parent
# What the interpreter of this file ignores from its start.
IGNORED = (signal.SIGPIPE, signal.SIGXFSZ)
NOTHING_TO_RUN = 125
# The arguments that ask for the version.
VERSION_WORDS = (["--version"], ["-V"])


def run_program(name):
    """Runs a program in the place of this process, or exits if there is none to run."""
    # The interpreter would answer it by an exception.
    if signal.getsignal(signal.SIGINT) is signal.default_int_handler:
        signal.signal(signal.SIGINT, signal.SIG_DFL)
    sys.exit(start_program(name))


def start_program(name):
    """Runs a program in the place of this process, or returns a status if there is none to run."""
    if not is_program(ROOT, name):
        tell(name, "crates.txt names no such program")
        return NOTHING_TO_RUN
    program = proved_program(ROOT, name)
    if sys.argv[1:] in VERSION_WORDS:
        return print_version(name, program)
    if program:
        tell(name, "this build is proved")
        return become(name, program)
    program = build_of(name)
    if not program:
        return NOTHING_TO_RUN
    tell(name, f"this build is not proved: compiled from the sources with run-time checks; ./prove {name} proves it")
    return become(name, program)


def print_version(name, program):
    """Prints the version of a program, whether it is proved, with which toolchain, and from which commit."""
    from build_notes import build_note
    from programs import VERSION

    made = "proved" if program else "not proved"
    print(f"{name} {VERSION}\n{build_note(ROOT, made)}", end="")
    return 0


def tell(name, text):
    """Prints a line about a program to standard error, if there is one."""
    with contextlib.suppress(OSError, AttributeError):
        sys.stderr.write(f"{name}: {text}\n")
        sys.stderr.flush()


def build_of(name):
    """The build without proofs of today's sources, which is made if it is not there, or nothing if that fails."""
    program = kept_build(ROOT, name)
    if os.access(program, os.X_OK):
        return program
    # This is not imported above, so that a start that finds a build need not wait for it.
    from processes import Told, end_as_told, output_of

    try:
        # A process of its own makes it, which ends all that it starts; the program gets the children of this one.
        status, output = output_of([sys.executable, ROOT / "scripts" / "make_build.py", name])
    except Told as told:
        end_as_told(told)
    return None if status else Path(os.fsdecode(output.rstrip(b"\n")))


def become(name, program):
    """Runs a program in the place of this process."""
    for it in IGNORED:
        signal.signal(it, signal.SIG_DFL)
    try:
        os.execv(program, sys.argv)
    except OSError as error:
        tell(name, f"{program} does not start: {error.strerror}")
        return NOTHING_TO_RUN
