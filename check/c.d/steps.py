"""Lookups of the library, step by step, under a clock that the rows have.

usage: steps.py LIBRARY [FILE..]

LIBRARY is librumstrait.so. Each row of check/c.d/FILE.rows is tried, or of all files. A row is `OPERATION INPUT > ANSWER`; `steps`,
`schedule` and `finds` below say what their inputs and answers are. The status is 0 if all rows hold, else 1.
"""
import ctypes
import os
import sys
from pathlib import Path

ROWS = Path(__file__).resolve().parent
ROOT = ROWS.parent.parent
sys.path[:0] = [str(it) for it in (ROOT / "check" / "resolver.d", ROOT / "check" / "server.d", ROOT / "clients" / "python")]
sys.dont_write_bytecode = True
if len(sys.argv) < 2:
    sys.exit(__doc__)
# The package loads the library when it is imported.
os.environ["RUMSTRAIT_LIBRARY"] = sys.argv[1]

from reply_texts import name_bytes, question_of, reply_bytes
from report import Report
from row_files import rows_of
from rumstrait._library import LIBRARY, Handle, Refusal, Wait
from rumstrait.resolver import endpoint_of, server_of
from rumstrait.types import number_of_type

# The ids of messages, the servers of rows by their numbers, one that is never asked, and the room of a message.
IDS, NETWORK, STRANGER, ROOM = range(1, 100), "192.0.2.", "203.0.113.1", 4096
# What a schedule asks, and the reply of its word `answer`.
QUESTION, ANSWER = "a. A", "0 | a. 60 IN A 192.0.2.100"
# Replies of a schedule by their words.
REPLIES = {"answer": ANSWER, "truncated": "0 tc", "NoError": "0", "FormErr": "1", "ServFail": "2", "NXDomain": "3", "NotImp": "4",
           "Refused": "5"}  # fmt: skip
# What turns the reply `answer` into a message that is none, by the words for these.
SPOILED = {
    "wrong-id": lambda it: bytes([it[0] ^ 1]) + it[1:],
    "wrong-question": lambda it: it.replace(name_bytes("a."), name_bytes("b.")),
    "wrong-opcode": lambda it: it[:2] + bytes([it[2] ^ 0x20]) + it[3:],
    "echo": lambda it: it[:2] + bytes([it[2] & 0x7F]) + it[3:],
    "garbage": lambda it: b"garbage",
}


class Lookups:
    """A resolver of the library, and its last lookup, inside a `with` block.

    The settings are words: `timeout:N` in seconds, `attempts:N`, and `ids:N` for ids up to N. `-` sets nothing. Servers are numbers,
    which commas part: the last octet of an address in 192.0.2.0/24.
    """

    def __init__(self, settings, servers, cache_size):
        given = dict(it.split(":") for it in settings.split() if it != "-")
        self.ids = list(IDS)[: int(given.get("ids", len(IDS)))]
        numbers = [NETWORK + it for it in servers.split(",") if it != "-"]
        endpoints = b"".join(endpoint_of(it) for it in numbers)
        self.numbers = int(given.get("timeout", 5)) * 1000, int(given.get("attempts", 2)), cache_size
        self.handle, self.lookup, self.wait = Handle(), ctypes.c_uint64(), None
        self.succeed(LIBRARY.rumstrait_resolver_new(endpoints, len(endpoints), *self.numbers, ctypes.byref(self.handle)))

    def __enter__(self):
        return self

    def __exit__(self, *_):
        LIBRARY.rumstrait_resolver_free(self.handle)

    def succeed(self, code):
        """Raises an exception for a refusal."""
        if code:
            raise ValueError(Refusal(code))

    def begin(self, question, clock):
        """Begins a lookup of a question."""
        name, kind = question.split()
        ids = (ctypes.c_uint16 * len(self.ids))(*self.ids)
        given = name.encode(), len(name), number_of_type(kind), ids, len(ids), clock
        self.succeed(LIBRARY.rumstrait_lookup_begin(self.handle, *given, ctypes.byref(self.lookup)))
        self.look()

    def look(self):
        """Notes what the lookup waits for, if it has not ended."""
        wait, buffer, size = Wait(), ctypes.create_string_buffer(ROOM), ctypes.c_size_t()
        code = LIBRARY.rumstrait_lookup_wait(self.handle, self.lookup, ctypes.byref(wait), buffer, ROOM, ctypes.byref(size))
        if code not in (0, Refusal.ENDED):
            raise ValueError(Refusal(code))
        self.wait, self.message = (None, b"") if code else (wait, buffer.raw[: size.value])

    def receive(self, message, clock, sender=None):
        """Tells the lookup of a message: whether it was the reply, and not dropped."""
        before = self.count()
        server = bytes(self.wait.server) if sender is None else endpoint_of(sender)
        given = message, len(message), server, len(server), clock
        self.succeed(LIBRARY.rumstrait_lookup_received(self.handle, self.lookup, *given))
        self.look()
        return self.count() != before

    def fail(self, clock):
        """Tells the lookup that the socket failed."""
        self.succeed(LIBRARY.rumstrait_lookup_failed(self.handle, self.lookup, clock))
        self.look()

    def time_out(self, clock):
        """Tells the lookup that nothing came."""
        self.succeed(LIBRARY.rumstrait_lookup_timed_out(self.handle, self.lookup, clock))
        self.look()

    def count(self):
        """How many messages there were, or nothing if the lookup has ended."""
        return self.wait and (self.wait.exchanges, self.wait.number)

    def sent(self):
        """How a message is sent, and to the server with which address."""
        return "tcp" if self.wait.transport else "udp", server_of(bytes(self.wait.server))[0]

    def found(self):
        """The records that were found, or why there are none."""
        buffer, size = ctypes.create_string_buffer(ROOM), ctypes.c_size_t()
        code = LIBRARY.rumstrait_lookup_records(self.handle, self.lookup, buffer, ROOM, ctypes.byref(size))
        return Refusal(code).name.lower().replace("_", "-") if code else ", ".join(buffer.raw[: size.value].decode().splitlines()) or "-"

    def state(self):
        """What the lookup waits for, or what it found."""
        if self.wait is None:
            return self.found()
        transport, server = self.sent()
        return f"{transport} {server} {self.wait.number}: {question_of(self.message).text} until {self.wait.deadline}"


def steps(given):
    """`SETTINGS || SERVERS || QUESTION || STEP || ..`: what a lookup waits for at first and after each step, or what it found.

    A step is a moment in milliseconds and `reply TEXT`, `stray TEXT` from another server, a word of SPOILED, `silence`, `failure`, or
    `ask QUESTION`, which begins another lookup. A text is one of `reply_bytes`.
    """
    settings, servers, question, *rest = given.split(" || ")
    with Lookups(settings, servers, 100) as lookups:
        lookups.begin(question, 0)
        states = [lookups.state()]
        for step in rest:
            clock, word, *text = step.split(" ", 2)
            take_step(lookups, int(clock), word, text[0] if text else ANSWER)
            states.append(lookups.state())
    return " / ".join(states)


def take_step(lookups, clock, word, text):
    """Takes a step of a lookup."""
    if word == "silence":
        lookups.time_out(clock)
    elif word == "failure":
        lookups.fail(clock)
    elif word == "ask":
        lookups.begin(text, clock)
    else:
        spoil = SPOILED.get(word, lambda it: it)
        lookups.receive(spoil(reply_bytes(lookups.message, text)), clock, STRANGER if word == "stray" else None)


def schedule(given):
    """`SETTINGS || SERVERS || SCRIPT then SCRIPT ..`: one lookup for each script, each as soon as the last one has ended.

    The answer has what they found, what was sent as MOMENT TRANSPORT SERVER, and how many messages were dropped. `; ` parts the events of
    a script: a delay in milliseconds and `silence`, `failure`, a word of REPLIES or one of SPOILED. `-` is no event; behind the last
    one nothing comes.
    """
    settings, servers, scripts = given.split(" || ")
    clock, sent, dropped, found = 0, [], 0, []
    with Lookups(settings, servers, 0) as lookups:
        for script in scripts.split(" then "):
            events = [] if script == "-" else script.split("; ")
            lookups.begin(QUESTION, clock)
            clock, count = play(lookups, events, clock, sent)
            dropped += count
            found.append(lookups.found())
            lookups.ids = lookups.ids[1:]
    return f"{'; '.join(found)} | {', '.join(sent) or '-'} | {dropped} dropped"


def play(lookups, events, clock, sent):
    """Plays the events of a lookup, and notes what it sends: the moment of its end, and how many messages were dropped."""
    dropped, is_new = 0, True
    while lookups.wait is not None:
        if is_new:
            transport, server = lookups.sent()
            sent.append(f"{clock} {transport} {server.removeprefix(NETWORK)}")
        delay, word = events.pop(0).split() if events else ("0", "silence")
        is_new = True
        if word == "silence" or clock + int(delay) > lookups.wait.deadline:
            clock = lookups.wait.deadline
            lookups.time_out(clock)
            continue
        clock += int(delay)
        if word == "failure":
            lookups.fail(clock)
            continue
        reply = reply_bytes(lookups.message, REPLIES.get(word, ANSWER))
        is_new = lookups.receive(SPOILED.get(word, lambda it: it)(reply), clock)
        dropped += not is_new
    return clock, dropped


def finds(given):
    """`REPLIES || MOMENT QUESTION || ..`: what a lookup of each question finds at a moment in seconds, one after another, with the questions
    that it asks; and how many replies are left.

    `; ` parts the replies: `quiet` and `failure` are none, and any other one is a text of `reply_bytes`. `-` is no reply.
    """
    replies, *steps = given.split(" || ")
    replies, found = [] if replies == "-" else replies.split("; "), []
    with Lookups("attempts:1", "1", 100) as lookups:
        for step in steps:
            moment, question = step.split(" ", 1)
            lookups.begin(question, int(moment) * 1000)
            asked = answered(lookups, replies, int(moment) * 1000)
            found.append(f"{lookups.found()} | {', '.join(asked) or '-'}")
    return " / ".join([*found, f"{len(replies)} left"])


def answered(lookups, replies, clock):
    """Gives a lookup its replies, and returns the questions that it asks."""
    asked = []
    while lookups.wait is not None:
        asked.append(question_of(lookups.message).text)
        text = replies.pop(0) if replies else "quiet"
        if text == "quiet":
            lookups.time_out(lookups.wait.deadline)
        elif text == "failure":
            lookups.fail(clock)
        else:
            lookups.receive(reply_bytes(lookups.message, text), clock)
    return asked


OPERATIONS = {it.__name__: it for it in (steps, schedule, finds)}


def main(names):
    report = Report()
    for name in names or sorted(it.stem for it in ROWS.glob("*.rows")):
        report.begin()
        for row in rows_of(ROWS / f"{name}.rows"):
            report.check(f"{row.place} {row.input}", row.answer, OPERATIONS[row.operation](row.input))
        report.end(name)
    return report.status()


if __name__ == "__main__":
    sys.exit(main(sys.argv[2:]))
