"""A crash that tears and drops what was not synchronized yet.

A server is run under strace, so that each of its calls on the zone file and its journal is known, and each reply that it sent. At a random
call the crash is made: the files are what the calls before it made of them, but for what was not synchronized. Of bytes that were appended
since the last synchronization, each block is there or has zeros, and those after the first, and after the first 28 bytes, may have other
bytes; the file may end anywhere in them. What was cut off since then may be back; a rename that the folder has not kept yet may be undone.
A server that is started on these files has all updates that were acknowledged by then."""
import os
import random
import re
import signal
import tempfile
import threading
from pathlib import Path

from kills import Load, whole_zone_fault
from servers import ZONE, Refused, Server

CALLS = "openat,close,write,pwrite64,writev,fsync,fdatasync,ftruncate,rename,renameat,renameat2,sendto"
# What a disk writes whole or not at all, and the front of an entry of a journal, in bytes.
BLOCK, FRAME = 512, 28
CALL = re.compile(r"^(?:\d+\s+)?(\w+)\((.*)\)\s+= (-?\d+)")


def bytes_of(words):
    """The bytes of the first text of a call, which strace writes in hexadecimal."""
    found = re.search(r'"((?:\\x[0-9a-f]{2})*)"', words)
    return bytes.fromhex(found.group(1).replace("\\x", "")) if found else b""


def texts_of(words):
    """The texts of a call."""
    return [bytes.fromhex(it.replace("\\x", "")) for it in re.findall(r'"((?:\\x[0-9a-f]{2})*)"', words)]


class File:
    """A file: its bytes, and those that are on the disk for certain."""

    def __init__(self, content=b"", safe=None):
        self.content, self.safe = content, content if safe is None else safe

    def left(self, chosen):
        """What a crash may leave."""
        front = 0
        while front < min(len(self.content), len(self.safe)) and self.content[front] == self.safe[front]:
            front += 1
        longest = max((self.content, self.safe), key=len)
        if front == len(longest):
            return self.content
        tail = bytearray(longest[front : chosen.randint(front, len(longest))])
        in_block = BLOCK - front % BLOCK
        free = max(in_block, FRAME)
        way = chosen.randrange(4)
        if way == 1 and len(tail) > free:
            for _ in range(chosen.randint(1, 3)):
                tail[chosen.randrange(free, len(tail))] = chosen.randrange(256)
        elif way == 2 and tail:
            cut = chosen.choice([0, *range(in_block, len(tail), BLOCK)])
            tail[cut:] = bytes(len(tail) - cut)
        elif way == 3:
            tail = bytearray()
        return self.content[:front] + bytes(tail)


class Model:
    """The files of a folder, as calls change them."""

    def __init__(self, folder):
        self.folder = folder
        self.names = {b"zone": File((folder / "zone").read_bytes())}
        self.undone = []  # names from before the last synchronization of the folder
        self.open = {}
        self.acknowledged = 0
        self.outputs = {}

    def name_of(self, path):
        """The name of a path in the folder, or None."""
        front = bytes(self.folder) + b"/"
        return path[len(front) :] if path.startswith(front) else None

    def take(self, call, words, value):
        """Takes a call that succeeded."""
        if call == "openat":
            path = texts_of(words)[0]
            name = self.name_of(path)
            if path == bytes(self.folder):
                self.open[value] = self.folder
            elif name is not None:
                if name not in self.names:
                    self.undone.append(dict(self.names))
                    self.names[name] = File()
                file = self.names[name]
                if "O_TRUNC" in words:
                    file.content = b""
                self.open[value] = file
            return
        number = int(re.match(r"\d+", words).group()) if re.match(r"\d+", words) else None
        file = self.open.get(number)
        if call == "close":
            self.open.pop(number, None)
        elif call.startswith("rename"):
            old, new = (self.name_of(it) for it in texts_of(words)[:2])
            self.undone.append(dict(self.names))
            self.names[new] = self.names.pop(old)
        elif file is self.folder and call == "fsync":
            self.undone = []
        elif isinstance(file, File):
            self.change(file, call, words, value)
        elif call in ("sendto", "write"):
            self.reply(number, bytes_of(words)[:value])

    def change(self, file, call, words, value):
        """Takes a call on a file."""
        if call == "write":
            file.content += bytes_of(words)[:value]
        elif call == "pwrite64":
            place, written = int(words.rsplit(",", 1)[1]), bytes_of(words)[:value]
            file.content = file.content[:place] + written + file.content[place + len(written) :]
        elif call in ("fsync", "fdatasync"):
            file.safe = file.content
        elif call == "ftruncate":
            file.content = file.content[: int(words.split(",")[1])]
        else:
            raise ValueError(f"{call} on a file")

    def reply(self, number, data):
        """Counts the updates that were answered with NoError."""
        if number in (1, 2):
            return
        messages = [data]
        if data[2:4] and len(data) >= 14 and int.from_bytes(data[:2], "big") == len(data) - 2 or number in self.outputs:
            rest = self.outputs.get(number, b"") + data
            messages = []
            while len(rest) >= 2 and len(rest) - 2 >= int.from_bytes(rest[:2], "big"):
                end = 2 + int.from_bytes(rest[:2], "big")
                messages.append(rest[2:end])
                rest = rest[end:]
            self.outputs[number] = rest
        for message in messages:
            if len(message) >= 12 and message[2] & 0x78 == 0x28 and message[3] & 15 == 0:
                self.acknowledged += 1

    def left(self, chosen, folder):
        """Writes what a crash may leave to a folder."""
        names = chosen.choice([*self.undone, self.names])
        for name, file in names.items():
            (folder / name.decode()).write_bytes(file.left(chosen))


def recorded(given, folder, chosen):
    """The calls of a server under load, and the number of updates that were sent."""
    limit = ["--journal-limit", str(chosen.choice([4096, 6000]))] if chosen.random() < 0.7 else []
    trace = folder.parent / "trace"
    prefix = ["strace", "-f", "-xx", "-s", "16000000", "-e", f"trace={CALLS}", "-o", str(trace)]
    server = Server(given.program, folder, *limit, prefix=prefix)
    load = Load(0)
    way = chosen.choice([load.by_datagrams, load.by_stream])
    server.socket.settimeout(2)
    thread = threading.Thread(target=way, args=(server,))
    thread.start()
    thread.join(chosen.uniform(0.5, 1.5))
    children = Path(f"/proc/{server.process.pid}/task/{server.process.pid}/children").read_text().split()
    for child in children:
        os.kill(int(child), signal.SIGKILL)
    server.process.wait()
    thread.join()
    server.close()
    calls = []
    for line in trace.read_text(errors="replace").splitlines():
        found = CALL.match(line)
        if found and int(found.group(3)) >= 0:
            calls.append((found.group(1), found.group(2), int(found.group(3))))
    return calls, load.sent


def crash_once(given, folder, calls, sent, chosen):
    """Makes a crash at a random call, and says what is wrong afterwards."""
    moment = chosen.randint(1, len(calls))
    with tempfile.TemporaryDirectory() as name:
        left = Path(name)
        model = Model(folder)
        model.names[b"zone"] = File(ZONE.encode())
        for call, words, value in calls[:moment]:
            model.take(call, words, value)
        model.left(chosen, left)
        try:
            server = Server(given.program, left)
        except Refused as error:
            return f"after call {moment} of {len(calls)} the server does not start: {error}"
        try:
            there = 0
            while there <= sent and server.has(f"n{there}.example."):
                there += 1
            later = [number for number in range(there + 1, min(sent, there + 60)) if server.has(f"n{number}.example.")]
        finally:
            server.kill()
        if there < model.acknowledged:
            return f"after call {moment} of {len(calls)}: {model.acknowledged} updates were acknowledged, and {there} are there"
        if there > sent or later:
            return f"after call {moment} of {len(calls)}: {there} updates are there, and {later}"
        return whole_zone_fault(given, left)


def torn(given):
    """Makes crashes."""
    chosen = random.Random()
    count = runs = 0
    while count < given.kills:
        with tempfile.TemporaryDirectory() as name:
            folder = Path(name) / "files"
            folder.mkdir()
            (folder / "zone").write_text(ZONE)
            calls, sent = recorded(given, folder, chosen)
            runs += 1
            for _ in range(min(100, given.kills - count)):
                count += 1
                fault = crash_once(given, folder, calls, sent, chosen)
                if fault:
                    yield fault
    print(f"  {count} crashes in {runs} runs")
