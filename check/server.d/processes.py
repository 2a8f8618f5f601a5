"""Processes of other programs, each ended by its id, and what the system says of them."""
import contextlib
import os
import signal
import socket
import subprocess
import time
from pathlib import Path

# How long a program may take to answer after its start, and to end, in seconds.
START, END = 30, 10
TICKS = os.sysconf("SC_CLK_TCK")


def free_port(host: str = "127.0.0.1") -> int:
    """A port that is free for datagrams and for streams."""
    for _ in range(100):
        with socket.socket(socket.AF_INET, socket.SOCK_STREAM) as one, socket.socket(
            socket.AF_INET, socket.SOCK_DGRAM
        ) as other:
            one.bind((host, 0))
            with contextlib.suppress(OSError):
                other.bind(one.getsockname())
                return one.getsockname()[1]
    raise OSError("no port that is free for both")


@contextlib.contextmanager
def running(words, folder, environment=None, before=None):
    """A program while it runs, with what it prints in a file of the folder."""
    output = Path(folder) / f"{Path(words[0]).name}.log"
    with open(output, "wb") as log:
        process = subprocess.Popen(
            words, stdin=subprocess.DEVNULL, stdout=log, stderr=subprocess.STDOUT, cwd=folder, env=environment,
            start_new_session=True, preexec_fn=before,
        )  # fmt: skip
    process.output = output
    try:
        yield process
    finally:
        end(process)


def end(process) -> None:
    """Ends a program, at last by a signal that it can't ignore."""
    if process.poll() is None:
        process.send_signal(signal.SIGTERM)
        try:
            process.wait(END)
        except subprocess.TimeoutExpired:
            process.kill()
            process.wait()


def wait_until(is_ready, process, what: str) -> None:
    """Waits until a program is ready."""
    limit = time.monotonic() + START
    while not is_ready():
        if process.poll() is not None or time.monotonic() > limit:
            raise RuntimeError(f"{what} does not answer: {process.output.read_text(errors='replace')[-2000:]}")
        time.sleep(0.05)


def status_of(process_id: int, field: str) -> int:
    """A number of /proc/ID/status, in kB for a size."""
    for line in Path(f"/proc/{process_id}/status").read_text().splitlines():
        if line.startswith(field + ":"):
            return int(line.split()[1])
    raise KeyError(field)


def children_of(process_id: int) -> list:
    """A process and those that it started, down to the last."""
    parents = {}
    for stat in Path("/proc").glob("[0-9]*/stat"):
        with contextlib.suppress(OSError, ValueError, IndexError):
            parents.setdefault(int(stat.read_text(errors="replace").rpartition(")")[2].split()[1]), []).append(
                int(stat.parent.name)
            )
    found = [process_id]
    for it in found:
        found += parents.get(it, [])
    return found


def processor_time(process_id: int) -> float:
    """The processor time that a program took, of itself and of the processes that it started, in seconds."""
    total = 0
    for it in children_of(process_id):
        with contextlib.suppress(OSError):
            fields = Path(f"/proc/{it}/stat").read_text(errors="replace").rpartition(")")[2].split()
            total += int(fields[11]) + int(fields[12])
    return total / TICKS


def memory(process_id: int) -> int:
    """The memory of a program and of the processes that it started, in kB. What they share is counted once."""
    total = 0
    for it in children_of(process_id):
        with contextlib.suppress(OSError):
            for line in Path(f"/proc/{it}/smaps_rollup").read_text().splitlines():
                total += int(line.split()[1]) if line.startswith("Pss:") else 0
    return total
