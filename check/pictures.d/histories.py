"""What happens in a script of `stub`: who sends what to whom, from what the program prints and from its trace."""
import re
import subprocess
from pathlib import Path
from typing import NamedTuple

SCRIPT, RESOLVER, SERVER = range(3)


class Step(NamedTuple):
    """A step: a moment, an arrow between two, one that is lost, or a note at one."""

    kind: str
    start: int
    end: int
    text: str


class Event(NamedTuple):
    """An event of a script: its line without the words of the link, these words, the lines that were printed for it, and those of
    its trace."""

    line: str
    link: list
    output: list
    trace: list


def events_of(stub, zone, script):
    """The events of a script, with what the program prints for each."""
    lines = [it for it in script.splitlines() if it.strip() and not it.lstrip().startswith("#")]
    printed, traces = (re.split(r"^(?=\S)", it, flags=re.M)[1:] for it in run(stub, zone, script))
    if not len(printed) == len(traces) == len(lines):
        raise ValueError(f"{len(lines)} events, of which {len(printed)} are printed and {len(traces)} traced")
    return [
        Event(line.partition(" ; ")[0], line.partition(" ; ")[2].split(), out.splitlines(), trace.splitlines()[1:])
        for line, out, trace in zip(lines, printed, traces)
    ]


def run(stub, zone, script):
    """What the program prints for a script, and its trace."""
    file = Path(zone).with_name("picture.script")
    file.write_text(script, encoding="utf-8")
    words = [stub, "--trace", "--zone", zone, "--script", file]
    done = subprocess.run(words, check=True, capture_output=True, text=True, timeout=60)
    return done.stdout, done.stderr


class History:
    """The steps of a script, from the trace of each event. Only whether a lost datagram was a question or a reply is known from the
    words of the link alone."""

    def __init__(self, stub, zone, script):
        self.steps = []
        for event in events_of(stub, zone, script):
            moment, word, *rest = event.line.split()
            self.add("moment", SCRIPT, SERVER, f"moment {moment}")
            if word == "update":
                self.update(" ".join(rest), event)
            elif word == "lookup":
                self.lookup(" ".join(rest), event)
            else:
                self.add("arrow", SCRIPT, RESOLVER, " ".join([word, *rest]))
                self.add("note", RESOLVER, RESOLVER, "the cache is empty" if word == "clearall" else "the entry is removed")

    def add(self, kind, start, end, text):
        self.steps.append(Step(kind, start, end, text))

    def update(self, words, event):
        """An update, whose reply is received at once unless the link has words."""
        code = event.output[0].rpartition(": ")[2]
        is_replied = any(it.endswith("the reply") for it in event.trace)
        self.add("arrow" if is_replied else "lost", SCRIPT, SERVER, f"update {words}")
        self.add("arrow" if is_replied else "note", SERVER if is_replied else SCRIPT, SCRIPT, code)

    def lookup(self, question, event):
        """A lookup: what its trace has, and the result."""
        result = result_of(event.output)
        self.add("arrow", SCRIPT, RESOLVER, f"lookup {question}")
        for line in event.trace:
            self.follow(line.strip(), question, result, event.link)
        origin = ", from the cache" if event.trace[-1].endswith("from the cache") else ""
        self.add("arrow", RESOLVER, SCRIPT, f"{result}{origin}")

    def follow(self, line, question, result, words):
        """What a line of the trace says."""
        reaches = not words or "q0" in words
        if line.startswith("->"):
            self.add("arrow" if reaches else "lost", RESOLVER, SERVER, f"question {question}")
        elif line.endswith("the reply"):
            self.add("arrow", SERVER, RESOLVER, f"reply: {result}")
        elif line.endswith("dropped: another id"):
            self.add("arrow", SERVER, RESOLVER, "the late reply to the earlier question")
            self.add("note", RESOLVER, RESOLVER, "dropped: its id is that of another question")
        elif line.endswith("nothing"):
            if reaches:
                self.add("lost", SERVER, RESOLVER, "the reply does not arrive")
        elif not re.search(r": from the (cache|server)$", line):
            raise ValueError(f"no picture of {line}")


def result_of(output):
    """The result of a lookup in a few words."""
    records = [it.split() for it in output[1:]]
    if records:
        return "; ".join(f"{owner} {' '.join(data)}, TTL {ttl}" for owner, ttl, _, _, *data in records)
    return output[0].rpartition(": ")[2]
