"""What the program `lookup` makes of a resolv.conf(5): which names it asks for, of which servers, and until when."""
import contextlib
import itertools
import os
import socket
import struct
import subprocess
import tempfile
import time
from pathlib import Path
from typing import Dict, List, Tuple

from lookups import Program, parts_of
from row_files import unescaped

PORT = 53
# Where no server listens, as none should at port 53 of the addresses of rows: the server of an empty file, and others.
NOBODY = ("127.0.0.1", "127.54.0.1")
# Silent servers have addresses of their own, those of each process apart.
NETWORK, NUMBERS = f"127.{64 + os.getpid() % 128}.{os.getpid() // 128 % 256}.", itertools.count(1)
# The option of a socket that tells when a datagram was received (socket(7)), and what it tells.
SO_TIMESTAMP, TIMEVAL = 29, "@ll"
# How often it is looked whether a process has ended, in seconds, which is what a wait may be measured too short by.
EACH = 0.1


class Configured:
    """A file with the text of a row, inside a `with` block."""

    def __init__(self, text: str):
        self.text = bytes.fromhex(text[2:]) if text.startswith("0x") else unescaped(text).encode()

    def __enter__(self) -> str:
        self.folder = tempfile.TemporaryDirectory()
        file = Path(self.folder.name, "resolv.conf")
        file.write_bytes(self.text)
        return str(file)

    def __exit__(self, *_) -> None:
        self.folder.cleanup()


def why_skipped() -> Dict[str, str]:
    """The operations that cannot be tried on this machine, and why."""
    heard, unbound = next(filter(None, map(why_heard, NOBODY)), ""), why_unbound(NOBODY[1])
    return {it: reason for it, reason in (("conf", heard), ("attempts", heard), ("waits", unbound)) if reason}


def why_heard(address: str) -> str:
    """Why a question to port 53 is not refused, or an empty text."""
    with socket.socket(socket.AF_INET, socket.SOCK_DGRAM) as asking:
        asking.settimeout(1)
        try:
            asking.connect((address, PORT))
            asking.send(b"?")
            asking.recv(512)
        except ConnectionRefusedError:
            return ""
        except OSError as error:
            return f"{address}:{PORT}: {error}"
    return f"something listens at {address}:{PORT}"


def why_unbound(address: str) -> str:
    """Why nothing can listen at port 53, or an empty text."""
    with socket.socket(socket.AF_INET, socket.SOCK_DGRAM) as server:
        try:
            server.bind((address, PORT))
        except OSError as error:
            return f"{address}:{PORT}: {error}"
    return ""


def tries_in(errors: str) -> List[Tuple[str, List[str]]]:
    """The questions that a trace shows, each with the servers that were asked, and how."""
    tries: List[Tuple[str, List[str]]] = []
    question = ""
    for line in errors.splitlines():
        words = line.split()[2:]
        if words[0] == "question":
            question = words[1]
        elif words[0] in ("udp", "tcp") and question:
            if not tries or tries[-1][0] != question:
                tries.append((question, []))
            tries[-1][1].append(f"{words[1].removesuffix(f':{PORT}')}/{words[0]}")
            question = ""
    return tries


def conf(program: Program, given: str) -> str:
    """`TEXT || NAME..`: the names for which lookups ask by a configuration, and behind a bar the servers that are tried for each.

    None of the servers is there, so each is tried in every round. Where all names have the same tries, these are there once.
    """
    text, names = parts_of(given, 2)
    with Configured(text) as file:
        tries = tries_in(program.run([*names.split(" "), "-t", "A", "--trace", "--resolv-conf", file]).stderr)
    servers = [" ".join(it) for _, it in tries]
    return f"{' '.join(name for name, _ in tries)} | {' / '.join(servers[:1] if len(set(servers)) == 1 else servers)}"


def attempts(program: Program, given: str) -> str:
    """`TEXT || NAME`: the names that a lookup attempts by a configuration."""
    text, name = parts_of(given, 2)
    with Configured(text) as file:
        done = program.run([name, "-t", "A", "--trace", "--resolv-conf", file])
    return " ".join(name for name, _ in tries_in(done.stderr))


def waits(program: Program, given: str) -> str:
    """`TEXT`: for how many seconds the program waits for a reply of the silent server whose address takes the place of ADDRESS."""
    address = f"{NETWORK}{next(NUMBERS)}"
    with contextlib.ExitStack() as stack:
        server = stack.enter_context(socket.socket(socket.AF_INET, socket.SOCK_DGRAM))
        server.setsockopt(socket.SOL_SOCKET, SO_TIMESTAMP, 1)
        server.bind((address, PORT))
        server.settimeout(EACH)
        file = stack.enter_context(Configured(given.replace("ADDRESS", address)))
        words = [program.path, "x.", "-t", "A", "--resolv-conf", file, "--hosts", os.devnull]
        asking = stack.enter_context(subprocess.Popen(words, stdout=subprocess.DEVNULL, stderr=subprocess.DEVNULL))
        start, end = next_moment(server, asking), next_moment(server, asking)
        asking.kill()
        return f"{int(end - start + EACH)}"


def next_moment(server: socket.socket, asking: subprocess.Popen) -> float:
    """When a process asks a server, by the time at which the system received the datagram, or has ended."""
    while asking.poll() is None:
        with contextlib.suppress(socket.timeout):
            ((_, _, moment), *_) = server.recvmsg(512, socket.CMSG_SPACE(struct.calcsize(TIMEVAL)))[1]
            seconds, microseconds = struct.unpack(TIMEVAL, moment)
            return seconds + microseconds / 1e6
    return time.time()
