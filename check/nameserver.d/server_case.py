"""Cases of check/nameserver: their parts, and how a run differs from what they want."""
import fcntl
import random
import re
import tempfile
from pathlib import Path

import histories
import journals
import signed
import sockets
from cases import MEMORY, program_check

LOADED = re.compile(rb"(?m)^\S+: zone \S+, \d+ records, loaded in \d+ ms\n")


class Case(program_check.Case):
    """A run: a server, and the requests of a script."""

    def __init__(self, arguments=None, files=(), options=()):
        super().__init__(arguments, files, options)
        self.runs, self.left = [], {}

    def take(self, path, title, body):
        lines = body.split("\n")[:-1]
        if title[-1:] == ["hex"]:
            self.files[" ".join(title[1:-1])] = bytes.fromhex(body)
        elif title[0] in JOURNALS:
            self.runs += [Journals(self, *line.split(" > "), *JOURNALS[title[0]]) for line in lines]
        elif title[0] == "left":
            self.left[title[1]] = body.encode()
        elif title == ["wide"]:
            self.runs += [Wide(self, *line.split(" > ")) for line in lines]
        elif title[0] in AT_SOCKETS:
            self.runs += [AtSockets(self, AT_SOCKETS[title[0]], *line.rsplit(" > ", 1)) for line in lines]
        elif title == ["signed"]:
            self.runs.append(Signed(self, [line.split(" > ") for line in lines]))
        elif title == ["crashes"]:
            self.runs += [Crashes(self, *line.split(" > ")) for line in lines]
        elif title == ["written"]:
            self.runs += [Written(self, line) for line in lines]
        elif title == ["locked"]:
            self.runs += [Locked(self, *line.split(" > ")) for line in lines]
        else:
            super().take(path, title, body)

    def next(self):
        return Case(self.arguments, self.files, self.options)

    def refusal(self, file, fault, line):
        return super().refusal(file, fault.replace(b"{}", line.rpartition(b"|")[2]), line)

    def refusals(self):
        return [*self.runs, *super().refusals()]

    def words(self):
        """The arguments of the program."""
        if self.arguments is not None:
            return [*self.arguments, *self.options]
        return [*([b"zone"] if "zone" in self.files else []), *self.options, b"--replay", b"script"]

    def faults(self, start):
        """How a run differs from what is wanted, by a function that makes the run of words and files."""
        got = start(self.words(), self.files)
        left = got.pop("files")
        others = [it for it, data in self.left.items() if left.get(it) != data]
        told = [f"  {it}: wanted {self.left[it]!r}\n     got {left.get(it)!r}" for it in others]
        return told + program_check.differences(self, {**got, "stderr": LOADED.sub(b"", got["stderr"])})


class Told:
    """Runs of which a text says what they led to."""

    def __init__(self, case, wanted):
        self.words, self.files, self.wanted = [b"zone", *case.options, b"--replay", b"script"], case.files, wanted

    def faults(self, start):
        """How what is told of the runs differs from what is wanted."""
        found = self.told(start)
        return [] if found == self.wanted else [f"  wanted {self.wanted:.2000}\n     got {found:.2000}"]


class Journals(Told):
    """Servers that read the journals that are made of one."""

    def __init__(self, case, digits, wanted, made, is_short):
        super().__init__(case, wanted)
        self.made, self.is_short = made(bytes.fromhex(digits.replace("-", ""))), is_short

    def told(self, start):
        words = [*self.words, b"--journal", b"journal"]
        found = [journals.told(start(words, {**self.files, "script": journals.QUESTION, "journal": it})) for it in self.made]
        return journals.runs(map(journals.short, found)) if self.is_short else found[0]


# The parts with journals: the journals that are made of one, and whether outcomes are told in short.
JOURNALS = {
    "journals": (lambda data: [data], False),
    "fronts": (journals.fronts, True),
    "changed": (journals.changed, True),
    "flipped": (journals.flipped, True),
}


class Written(Told):
    """A server that takes updates, and then one that reads the journal of the first one."""

    def __init__(self, case, numbers):
        super().__init__(case, f"{numbers} end 0")
        self.numbers = [int(it) for it in numbers.split()]

    def told(self, start):
        words = [*self.words, b"--journal", b"journal"]
        sent = b"".join(b"0 127.0.0.1 udp message %s\n" % journals.update(it).hex().encode() for it in self.numbers)
        data = start(words, {**self.files, "script": sent})["files"]["journal"]
        if data != journals.journal(self.files["zone"], data[40:56], map(journals.payload, self.numbers)):
            return f"another journal: {data.hex()}"
        return journals.told(start(words, {**self.files, "script": journals.QUESTION, "journal": data}))


class Locked(Told):
    """A server of a journal whose lock file another process holds: what it says."""

    def __init__(self, case, text, wanted):
        super().__init__(case, wanted)
        self.text = "" if text == "-" else text

    def told(self, start):
        with tempfile.TemporaryDirectory(dir=MEMORY) as folder, open(Path(folder, "journal.lock"), "w", encoding="ascii") as lock:
            fcntl.flock(lock, fcntl.LOCK_EX)
            lock.write(self.text)
            lock.flush()
            journal = str(Path(folder, "journal"))
            got = start([*self.words, b"--journal", journal.encode()], {**self.files, "script": journals.QUESTION})
        return LOADED.sub(b"", got["stderr"]).decode().replace(journal, "journal").rstrip("\n")


class Wide(Told):
    """A server of a zone with so many further records, which it is asked to transfer: the numbers of messages and of their records."""

    def __init__(self, case, count, wanted):
        super().__init__(case, wanted)
        hosts = (f"host-{i} 300 IN A 10.{i // 65536 % 256}.{i // 256 % 256}.{i % 256}\n" for i in range(int(count)))
        self.files = {**case.files, "zone": case.files["zone"] + "".join(hosts).encode()}

    def told(self, start):
        output = start(self.words, self.files)["stdout"]
        counts = [int(it, 16) for it in re.findall(rb"(?m)^  [0-9a-f]{12}([0-9a-f]{4})", output)]
        return f"{len(counts)} messages, {sum(counts)} records"


class AtSockets(Told):
    """A server at sockets."""

    def __init__(self, case, tried, given, wanted):
        super().__init__(case, wanted)
        self.tried, self.given = tried, program_check.repeated(given)

    def told(self, start):
        return self.tried(start.program, self.files, self.given)


def streams(program, files, digits):
    """What a server writes to a connection, whatever the pieces in which bytes arrive."""
    with sockets.serving(program, files, "--plain") as address:
        return sockets.streamed(address, bytes.fromhex(digits.replace("-", "")))


def unread(program, files, given):
    """How many replies come in order to so many requests, if they are read only when no more are taken."""
    count, digits = given.split()
    with sockets.serving(program, files, "--plain") as address:
        return str(sockets.unread(address, bytes.fromhex(digits), int(count)))


# The parts that are tried at sockets.
AT_SOCKETS = {
    "streams": streams,
    "unread": unread,
    "late": lambda program, files, given: sockets.late(program, files, [int(it) for it in given.split()]),
    "notified": lambda program, files, _: sockets.notified(program, files),
    "octets": lambda program, _, given: histories.known_by_octets(program, int(given)),
    "versions": lambda program, _, given: histories.known_by_number(program, int(given)),
    "answered": lambda program, files, given: sockets.answered(program, files, *given.split()),
}


class Signed(Told):
    """Servers with keys, to which signed requests are sent: the verdicts on them, or their replies."""

    def __init__(self, case, lines):
        super().__init__(case, "\n".join(wanted for _, wanted in lines))
        self.script, self.keys = signed.script_of([given for given, _ in lines])
        self.forms = [wanted for _, wanted in lines]

    def told(self, start):
        got = start([b"--replay", b"script"], {**self.files, **self.keys, "script": self.script})
        if got["status"] != b"0\n":
            return got["stderr"].decode()
        return "\n".join(map(signed.told, signed.replies_of(got["stdout"]), self.forms))


class Crashes(Told):
    """Servers whose journal is torn at random moments: in how many of the runs each server reads what it should."""

    def __init__(self, case, seed_and_count, wanted):
        super().__init__(case, wanted)
        self.words += [b"--journal", b"journal"]
        self.seed, self.count = map(int, seed_and_count.split())

    def told(self, start):
        chosen = random.Random(self.seed)
        return str(sum(self.is_good(start, chosen) for _ in range(self.count)))

    def is_good(self, start, chosen):
        """Makes a run, with four crashes. Returns whether each server reads the acknowledged updates, and at most the next one."""
        data, acknowledged, appended = b"", 0, 0
        for _ in range(4):
            got = self.read(start, data)
            found = journals.told(got).split()[:-2]
            if not is_numbered(found, acknowledged, appended):
                return False
            acknowledged, appended, data = self.append(start, chosen, got["files"]["journal"], len(found))
        return is_numbered(journals.told(self.read(start, data)).split()[:-2], acknowledged, appended)

    def read(self, start, data):
        """What a server leaves that reads a journal."""
        return start(self.words, {**self.files, "script": journals.QUESTION, "journal": data})

    def append(self, start, chosen, data, found):
        """Appends updates, and tears the write of the last one. Returns how many are acknowledged and appended, and the journal."""
        last = found + chosen.randint(1, 14)
        sent = [journals.update(it, 50 + it * 97 % 700) for it in range(found + 1, last + 1)]
        script = b"".join(b"0 127.0.0.1 udp message %s\n" % it.hex().encode() for it in sent)
        whole = start(self.words, {**self.files, "script": script, "journal": data})["files"]["journal"]
        safe = len(whole) - 36 - 6 - len(sent[-1])
        return last - 1, last, journals.crashed(whole, safe, chosen)


def is_numbered(numbers, least, most):
    """Whether there are so many numbers, from 1 on."""
    return numbers == [str(it) for it in range(1, len(numbers) + 1)] and least <= len(numbers) <= most
