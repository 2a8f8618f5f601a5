"""The programs of today's sources, for checks that run several."""
import subprocess
import sys
from pathlib import Path

HERE = Path(__file__).resolve().parent


def program_of(name):
    """The proved program, or else the build without proofs, which is made if it is not there."""
    command = [sys.executable, HERE / "find_build.py", name]
    return subprocess.run(command, check=True, stdin=subprocess.DEVNULL, stdout=subprocess.PIPE, text=True).stdout.rstrip("\n")
