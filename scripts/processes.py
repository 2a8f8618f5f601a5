"""Commands that end with all that they started when this program is told to end."""
import contextlib
import ctypes
import os
import signal
import subprocess
import sys
import time
from pathlib import Path

ENDING = (signal.SIGINT, signal.SIGTERM, signal.SIGHUP)
# The option of prctl(2) that makes orphans the children of this process, so that none gets out of sight.
PR_SET_CHILD_SUBREAPER = 36
# How long a command may take to end by itself.
GRACE = 0.3


class Told(Exception):
    """A signal told this program to end."""

    def __init__(self, number):
        super().__init__(number)
        self.number = number


def start(words, **how):
    """Starts a command in a session of its own, which no signal of the terminal reaches."""
    adopt_orphans(True)
    return subprocess.Popen(words, start_new_session=True, stdin=subprocess.DEVNULL, **how)


def start_apart(words):
    """Starts a command that goes on when this program ends all that it started."""
    # It becomes an orphan at once, which is no child of this process.
    adopt_orphans(False)
    silent = dict.fromkeys(("stdin", "stdout", "stderr"), subprocess.DEVNULL)
    subprocess.run(["setsid", "--fork", *words], **silent)
    adopt_orphans(True)


def adopt_orphans(adopts):
    """Makes the orphans of what this process started its children, or those of its parents."""
    ctypes.CDLL(None).prctl(PR_SET_CHILD_SUBREAPER, int(adopts), 0, 0, 0)


def output_of(words):
    """Runs a command that ends by itself when it is told to, and returns its status and its standard output."""
    told = []

    def pass_on(number, _frame):
        """Passes a signal on."""
        told.append(number)
        command.send_signal(number)

    command = subprocess.Popen(words, stdin=subprocess.DEVNULL, stdout=subprocess.PIPE)
    with handling_ends(pass_on):
        output = command.communicate()[0]
    if told:
        raise Told(told[0])
    return command.returncode, output


@contextlib.contextmanager
def ending_together():
    """Ends all processes that were started meanwhile when an exception leaves, and raises `Told` on a signal to end."""
    with handling_ends(raise_told):
        try:
            yield
        except BaseException:
            end_descendants()
            raise


@contextlib.contextmanager
def handling_ends(handler):
    """Handles the signals to end, but for those that the caller has this program ignore, until this is left with no exception."""
    former = {it: signal.getsignal(it) for it in ENDING if signal.getsignal(it) != signal.SIG_IGN}
    for it in former:
        signal.signal(it, handler)
    yield
    for number, earlier in former.items():
        signal.signal(number, earlier)


def exit_as_told(call, *given):
    """Exits with the status that a call returns, or by the signal that told this program to end."""
    try:
        sys.exit(call(*given))
    except Told as told:
        end_as_told(told)


def end_as_told(told):
    """Ends this program by the signal that told it to end."""
    signal.signal(told.number, signal.SIG_DFL)
    os.kill(os.getpid(), told.number)
    sys.exit(128 + told.number)


def raise_told(number, _frame):
    """Handles a signal, once."""
    for it in ENDING:
        signal.signal(it, signal.SIG_IGN)
    raise Told(number)


def end_descendants():
    """Ends all processes that this one started, and those that they started."""
    kill_all(signal.SIGTERM)
    last = time.monotonic() + GRACE
    while reap() and time.monotonic() < last:
        time.sleep(0.02)
    while reap():
        kill_all(signal.SIGKILL)
        time.sleep(0.01)


def kill_all(number):
    """Sends a signal to all descendants."""
    for it in descendants():
        with contextlib.suppress(ProcessLookupError, PermissionError):
            os.kill(it, number)


def reap():
    """Takes note of the children that have ended, and says whether any is left."""
    with contextlib.suppress(ChildProcessError):
        while os.waitpid(-1, os.WNOHANG)[0]:
            pass
        return True
    return False


def descendants():
    """The processes that this one started, and those that they started."""
    children = {}
    for it in Path("/proc").glob("[0-9]*"):
        with contextlib.suppress(OSError, ValueError):
            children.setdefault(int(fields_of(it)[1]), []).append(int(it.name))
    found = [os.getpid()]
    for it in found:
        found += children.get(it, [])
    return found[1:]


def fields_of(process):
    """What the system says of a process, from its state on (proc(5)). `process` is its folder."""
    # The name of the program is in parentheses, and may have any characters.
    return Path(process, "stat").read_text(errors="replace").rpartition(")")[2].split()


def processor_seconds():
    """The processor time that all descendants of this process have taken so far, those that have ended included, in seconds."""
    used = os.times()
    ticks = 0
    for it in descendants():
        with contextlib.suppress(OSError, ValueError):
            # User and system time, of the process and of its children that have ended.
            ticks += sum(map(int, fields_of(Path("/proc", str(it)))[11:15]))
    return used.children_user + used.children_system + ticks / os.sysconf("SC_CLK_TCK")
