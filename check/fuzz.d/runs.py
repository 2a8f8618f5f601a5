"""Runs of a program on files, and what they cost."""
import os
import resource
import subprocess
import tempfile
import time
from dataclasses import dataclass
from pathlib import Path


@dataclass
class Run:
    status: int
    out: bytes
    err: bytes
    # processor seconds
    seconds: float
    is_late: bool


def limited(space: int | None) -> None:
    """Limits what a program writes when it crashes, and its address space."""
    resource.setrlimit(resource.RLIMIT_CORE, (0, 0))
    if space:
        resource.setrlimit(resource.RLIMIT_AS, (space, space))


def run(
    program: Path, arguments: list[str], files: dict[str, bytes], limit: float, space: int | None = None
) -> Run:
    """Runs a program in a folder with files, for so many seconds and in so many bytes of memory at most."""
    with tempfile.TemporaryDirectory() as name:
        folder = Path(name)
        for path, data in files.items():
            (folder / path).parent.mkdir(exist_ok=True)
            (folder / path).write_bytes(data)
        with open(folder / ".out", "wb") as out, open(folder / ".err", "wb") as err:
            child = subprocess.Popen(
                [str(program.resolve()), *arguments],
                cwd=folder,
                stdin=subprocess.DEVNULL,
                stdout=out,
                stderr=err,
                preexec_fn=lambda: limited(space),
            )
            status, usage, is_late = waited(child, limit)
        return Run(
            os.waitstatus_to_exitcode(status),
            (folder / ".out").read_bytes(),
            (folder / ".err").read_bytes(),
            usage.ru_utime + usage.ru_stime,
            is_late,
        )


def least_space(program: Path, arguments: list[str], files: dict[str, bytes], wanted: Run, limit: float) -> int:
    """The least address space in which a run does the same, to a quarter of a megabyte."""
    low, high = 0, 2**20
    while not is_same(run(program, arguments, files, limit, high), wanted) and high < 2**34:
        low, high = high, 2 * high
    while high - low > 2**18:
        middle = (low + high) // 2
        if is_same(run(program, arguments, files, limit, middle), wanted):
            high = middle
        else:
            low = middle
    return high


def is_same(one: Run, other: Run) -> bool:
    return (one.status, one.out, one.err) == (other.status, other.out, other.err)


def waited(child: subprocess.Popen, limit: float):
    """Waits for a child's end, and ends it when its time is over."""
    end, pause = time.monotonic() + limit, 0.0005
    while True:
        pid, status, usage = os.wait4(child.pid, os.WNOHANG)
        if pid:
            child.returncode = 0
            return status, usage, False
        if time.monotonic() > end:
            child.kill()
            _, status, usage = os.wait4(child.pid, 0)
            child.returncode = 0
            return status, usage, True
        time.sleep(pause)
        pause = min(0.02, 1.5 * pause)
