"""Lookups and updates of the program `lookup`, at a server that replies as a row says."""
import contextlib
import re
import shlex
import subprocess
import tempfile
from pathlib import Path
from typing import Iterable, List

from reply_texts import reply_bytes
from row_files import unescaped
from scripted import Listed, Replies, Scripted

# How long a run may take, and how long the program waits for a reply: where one that is left out is waited for, and else.
RUN_SECONDS, SHORT_SECONDS, SECONDS = 60, 0.2, 20
# What is changed in the header of a reply, by the word of a row.
CHANGES = {"wrong-id": b"\1\0\0", "wrong-opcode": b"\0\0\x20"}
# The id of a request, in the place of the one that the program draws.
ID = "1234"
# The status of a program whose arguments are wrong.
WRONG_ARGUMENTS = 2
# A line of the help that describes an argument.
DESCRIPTION = re.compile(r" +(?:\[(?P<name>[A-Z]+)\]\.\.\.|(?:-\w, )?(?P<option>--[a-z-]+)(?: <[^ ]*>)?)  +(?P<text>.*)")


class Program:
    """The program, and how many times longer than usual it waits for a reply."""

    def __init__(self, path: str, slowness: int = 1):
        self.path, self.slowness = path, slowness

    def run(self, words: Iterable[object], hosts: bytes = b"", line: str = "") -> "subprocess.CompletedProcess[str]":
        """Runs the program with a hosts file, and a line of standard input."""
        with tempfile.TemporaryDirectory() as folder:
            file = Path(folder, "hosts")
            file.write_bytes(hosts)
            given = [self.path, *(str(it) for it in words), "--hosts", str(file)]
            return subprocess.run(given, input=line, capture_output=True, text=True, timeout=RUN_SECONDS)

    def ask(self, server: Scripted, words: Iterable[str], seconds: float = SECONDS, **more) -> "subprocess.CompletedProcess[str]":
        """Runs the program with a server, which is asked once for each question."""
        return self.run([*words, "--server", server.place, "--attempts", "1", "--timeout", seconds * self.slowness], **more)


def parts_of(given: str, count: int) -> List[str]:
    """The parts of an input that bars separate."""
    parts = given.split(" || ")
    if len(parts) != count:
        raise ValueError(f"{len(parts)} parts in place of {count}: {given}")
    return parts


def found(done: "subprocess.CompletedProcess[str]") -> str:
    """The records that a run printed, or why there are none."""
    if done.returncode == WRONG_ARGUMENTS:
        return done.stderr.strip()
    lines = [it for it in done.stdout.splitlines() if not it.startswith("; ")]
    return ", ".join(lines) or "; ".join(it.partition(": ")[2] for it in done.stderr.splitlines())


def lookup(program: Program, given: str) -> str:
    """`ARGUMENTS || HOSTS || REPLIES`: what is found, the questions, and how many replies are left.

    `; ` parts the replies: `quiet` is none, and any other one has the id and the question of the request. `-` stands for no reply, no
    hosts and no questions.
    """
    words, hosts, replies = parts_of(given, 3)
    listed = Listed(lambda request, text: [] if text == "quiet" else [reply_bytes(request, text)], listed_in(replies))
    with Scripted(listed) as server:
        seconds = SHORT_SECONDS if "quiet" in replies else SECONDS
        done = program.ask(server, shlex.split(words), seconds, hosts=hosts_of(hosts))
        asked = ", ".join(it.text for it in server.questions()) or "-"
    return f"{found(done)} | {asked} | {len(listed.left)} left"


def servers(program: Program, given: str) -> str:
    """`ARGUMENTS || REPLIES || ..`: what is found with several servers, each with its replies, and which of them were asked, from 1 on.

    With `--tcp` they are servers over streams, and their numbers end in `/tcp`. ` & ` parts the datagrams of a reply, each of which may
    begin with `wrong-id` or `wrong-opcode`. Behind the last reply there is none.
    """
    words, *lists = given.split(" || ")
    asked: List[str] = []
    is_stream = "--tcp" in words.split()
    with contextlib.ExitStack() as stack:
        numbered = [(f"{number}/tcp" if is_stream else str(number), text) for number, text in enumerate(lists, 1)]
        places = [stack.enter_context(Scripted(noted(asked, *it), is_stream)).place for it in numbered]
        given_words = [*shlex.split(words), *(it for place in places for it in ("--server", place))]
        seconds = SHORT_SECONDS if "-" in lists else SECONDS
        done = program.run([*given_words, "--timeout", seconds * program.slowness])
    return f"{found(done)} | {' '.join(asked)}"


def noted(asked: List[str], number: str, texts: str) -> Replies:
    """The replies of a server, which notes its number when it is asked."""
    listed = Listed(lambda request, text: [changed(request, it) for it in text.split(" & ")], listed_in(texts))

    def replies(request: bytes) -> List[bytes]:
        asked.append(number)
        return listed(request)

    return replies


def changed(request: bytes, text: str) -> bytes:
    """A datagram of a reply."""
    word, _, rest = text.partition(" ")
    reply = reply_bytes(request, rest if word in CHANGES else text)
    return bytes(one ^ other for one, other in zip(reply, CHANGES.get(word, b""))) + reply[len(CHANGES.get(word, b"")) :]


def hosts_of(text: str) -> bytes:
    """A hosts file: its text, or `0x` and the digits of its bytes."""
    if text == "-":
        return b""
    return bytes.fromhex(text[2:]) if text.startswith("0x") else unescaped(text).encode()


def listed_in(text: str) -> List[str]:
    """The texts that `; ` parts."""
    return [] if text == "-" else text.split("; ")


def line(program: Program, given: str) -> str:
    """`ARGUMENTS || LINE`: what is said of a line of standard input, and the questions."""
    words, text = parts_of(given, 2)
    with Scripted(lambda request: [reply_bytes(request, "3")]) as server:
        done = program.ask(server, ["-", *shlex.split(words)], line=text + "\n")
        asked = ", ".join(it.text for it in server.questions()) or "-"
    return f"{found(done)} | {asked}"


def hosts(program: Program, given: str) -> str:
    """`QUESTION, .. || HOSTS`: what a hosts file has for each of the questions, parted by bars, or `none`, where the server is asked."""
    questions, text = parts_of(given, 2)
    lines = [it.strip() for it in questions.split(",")]
    with Scripted(lambda request: [reply_bytes(request, "3")]) as server:
        done = program.ask(server, ["-"], hosts=hosts_of(text), line="".join(f"{it}\n" for it in lines))
    records: List[List[str]] = []
    for it in done.stdout.splitlines():
        records.append([]) if it.startswith("; ") else records[-1].append(it)
    return " / ".join(", ".join(it) or "none" for it in records)


def names(program: Program, given: str) -> str:
    """`ARGUMENTS || NAME`: the names that a lookup attempts, none of which exists."""
    words, name = parts_of(given, 2)
    with Scripted(lambda request: [reply_bytes(request, "3")]) as server:
        program.ask(server, [name, "-t", "A", *shlex.split(words)])
        return " ".join(it.name for it in server.questions())


def request(program: Program, given: str) -> str:
    """`ARGUMENTS`: the bytes of the requests of a lookup, under the id 1234."""
    with Scripted(lambda request: [reply_bytes(request, "3")]) as server:
        program.ask(server, shlex.split(given))
        return ", ".join(ID + it.hex()[4:] for it in server.requests) or "-"


def update(program: Program, given: str) -> str:
    """`ZONE || CHANGE`: the bytes of an update, under the id 1234, or `none` and what is wrong with its words."""
    zone, change = parts_of(given, 2)
    with Scripted(lambda request: [reply_bytes(request, "0")]) as server:
        done = program.ask(server, ["--update", unescaped(change), "--zone", zone])
        sent = [ID + it.hex()[4:] for it in server.requests]
    if done.returncode == WRONG_ARGUMENTS and not sent:
        return "none"
    return f"{', '.join(sent)}{'' if done.returncode == 0 else f' status {done.returncode}'}"


def described(program: Program, given: str) -> str:
    """`ARGUMENT`: what the help says of an argument."""
    lines = (DESCRIPTION.fullmatch(it) for it in program.run(["--help"]).stdout.splitlines())
    return "; ".join(it["text"] for it in lines if it and given in (it["name"], it["option"]))


def refused(program: Program, given: str) -> str:
    """`ARGUMENTS`: what is said of arguments that are refused."""
    done = program.run(shlex.split(given))
    if done.returncode != WRONG_ARGUMENTS or done.stdout:
        return f"status {done.returncode}: {done.stdout}"
    return done.stderr.rstrip("\n")


def traced(program: Program, given: str) -> str:
    """`ARGUMENTS || HOSTS || REPLIES`, as of `lookup`, but with `--tcp` over streams: what the trace and the program say on standard error,
    without moments, with `SERVER` for the address of the server and `ID` for the id of a message.
    """
    words, hosts, replies = parts_of(given, 3)
    listed = Listed(lambda request, text: [] if text == "quiet" else [reply_bytes(request, text)], listed_in(replies))
    with Scripted(listed, "--tcp" in words.split()) as server:
        seconds = SHORT_SECONDS if "quiet" in replies else SECONDS
        done = program.ask(server, [*shlex.split(words), "--trace"], seconds, hosts=hosts_of(hosts))
        text = done.stderr.replace(server.place, "SERVER")
    return " / ".join(re.sub(r"^\d+ ms |(?<=\bid )\d+$", lambda it: "ID" if it.start() else "", line) for line in text.splitlines())
