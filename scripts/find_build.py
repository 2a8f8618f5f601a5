"""Prints the file that the front of a program runs: the proved build, or else the one without proofs, which is made if need be.

usage: python3 scripts/find_build.py PROGRAM

The status is 0, or 1 if there is none, and 2 for wrong arguments. Whoever starts a program often asks once, since each start of a
front compares the sources with its build.
"""
import os
import sys
from pathlib import Path

sys.dont_write_bytecode = True

from programs import is_program, proved_program
from run_program import build_of

ROOT = Path(__file__).resolve().parent.parent


def main(words):
    if len(words) != 1 or words[0].startswith("-"):
        print(__doc__, end="")
        return 0 if words in (["--help"], ["-h"]) else 2
    name = words[0]
    if not is_program(ROOT, name):
        print(f"{name}: crates.txt names no such program", file=sys.stderr)
        return 1
    program = proved_program(ROOT, name) or build_of(name)
    if not program:
        return 1
    sys.stdout.buffer.write(os.fsencode(program) + b"\n")
    return 0


if __name__ == "__main__":
    sys.exit(main(sys.argv[1:]))
