"""A server that is killed at random moments, and started again."""
import random
import shutil
import subprocess
import tempfile
import threading
import time
from pathlib import Path

from messages import code_of, update
from servers import ZONE, Refused, Server
from streams import Replies, connected, framed

# The number of updates that are sent over a stream without waiting.
WINDOW = 50


class Load:
    """Updates that add one name after another until the server is gone: those before `done` were acknowledged, those before `sent` were
    sent."""

    def __init__(self, first):
        self.done = self.sent = first
        self.fault = None

    def by_datagrams(self, server):
        """Sends one update after another."""
        while True:
            number, self.sent = self.sent, self.sent + 1
            if server.add(number, f"n{number}.example.") != 0:
                return
            self.done = number + 1

    def by_nsupdate(self, server):
        """The same, by nsupdate."""
        while True:
            number, self.sent = self.sent, self.sent + 1
            words = f"server 127.0.0.1 {server.port}\nzone example.\nupdate add n{number}.example. 60 A 192.0.2.7\nsend\n"
            ended = subprocess.run(["nsupdate", "-t", "1", "-r", "0"], input=words.encode(), capture_output=True)
            if ended.returncode != 0:
                return
            self.done = number + 1

    def by_stream(self, server):
        """Sends updates over a stream, many of which wait for their replies."""
        try:
            with connected(server.port) as stream:
                replies = Replies(stream)
                while True:
                    number = self.sent
                    self.sent = self.done + WINDOW
                    stream.sendall(b"".join(framed(self.message(n)) for n in range(number, self.sent)))
                    found = replies.next()
                    if not found:
                        return
                    for reply in found:
                        if code_of(reply) != 0 or int.from_bytes(reply[:2], "big") != self.done & 0xFFFF:
                            self.fault = f"update {self.done} is answered by {reply.hex()}"
                            return
                        self.done += 1
        except OSError:
            return

    @staticmethod
    def message(number):
        """An update that adds a name."""
        return update(number & 0xFFFF, "example.", f"n{number}.example.", "192.0.2.7")


def whole_zone_fault(given, folder):
    """What zonecheck says of the zone with its updates, if it has a fault. The journal itself is left as it is."""
    with tempfile.TemporaryDirectory() as name:
        for file in ("zone", "journal"):
            shutil.copy(folder / file, name)
        words = [given.program, f"{name}/zone", "--journal", f"{name}/journal", "--compact"]
        ended = subprocess.run(words, capture_output=True)
        if ended.returncode != 0:
            return f"no compaction: {ended.stderr.decode()}"
        ended = subprocess.run([given.zonecheck, f"{name}/zone"], capture_output=True)
        return None if ended.returncode == 0 else f"zonecheck: {ended.stdout.decode()}"


def left_fault(server, first, load):
    """What is wrong with the updates that are left, and the number of the first that is not there."""
    there = [server.has(f"n{number}.example.") for number in range(max(0, first - 3), load.sent + 2)]
    start = max(0, first - 3)
    end = start + (there.index(False) if False in there else len(there))
    if True in there[end - start :]:
        return f"update {end} is not there, and a later one is", end
    if end < load.done:
        return f"update {end} was acknowledged and is lost", end
    if end > load.sent:
        return f"update {load.sent} was not sent and is there", end
    return load.fault, end


def kill_once(given, folder, chosen, first):
    """Starts a server, kills it under load, and returns the number from which the next one goes on, and what was wrong."""
    limit = ["--journal-limit", str(chosen.choice([4096, 5000, 20000]))] if chosen.random() < 0.5 else []
    server = Server(given.program, folder, *limit)
    load = Load(first)
    way = chosen.choices([load.by_datagrams, load.by_stream, load.by_nsupdate], [5, 4, 1])[0]
    # The reply to the update that is on its way at the kill never comes.
    server.socket.settimeout(0.4)
    thread = threading.Thread(target=way, args=(server,))
    thread.start()
    time.sleep(chosen.random() * (0.3 if way == load.by_nsupdate else 0.08))
    server.kill()
    thread.join()
    fault = whole_zone_fault(given, folder)
    if fault:
        return first, fault
    again = Server(given.program, folder, *limit)
    try:
        fault, end = left_fault(again, first, load)
        return end, fault
    finally:
        again.kill()


def kills(given):
    """Kills servers, each of which goes on where the last one was killed."""
    chosen = random.Random()
    count = updates = 0
    while count < given.kills:
        with tempfile.TemporaryDirectory() as name:
            folder = Path(name)
            (folder / "zone").write_text(ZONE)
            first = 0
            for _ in range(min(100, given.kills - count)):
                try:
                    first, fault = kill_once(given, folder, chosen, first)
                except Refused as error:
                    fault = f"the server does not start: {error}"
                count += 1
                if fault:
                    yield fault
                    break
            updates += first
        print(f"  {count} kills, {updates} updates", flush=True)


def damage(given):
    """Flips a bit in each byte of a journal, with the record of its end and without."""
    chosen = random.Random()
    refused = 0
    with tempfile.TemporaryDirectory() as name:
        folder = Path(name)
        (folder / "zone").write_text(ZONE)
        # Each update is one entry, and all have the same length.
        server = Server(given.program, folder, "--keep-serials")
        for number in range(4):
            server.add(number, f"n{number}.example.")
        server.kill()
        whole = (folder / "journal").read_bytes()
        entry = (len(whole) - 64) // 4
        # All of it is in the first block of a disk, so its bytes alone tell damage to the last entry, too.
        record = (folder / "journal.end").read_bytes()
        for place in range(2 * len(whole)):
            place, has_record = place // 2, place % 2 == 0
            bytes_ = bytearray(whole)
            bytes_[place] ^= 1 << chosen.randrange(8)
            (folder / "journal").write_bytes(bytes_)
            (folder / "journal.end").write_bytes(record if has_record else b"")
            wanted = f"byte {64 + (place - 64) // entry * entry}" if place >= 64 else "not a journal, or its header is damaged"
            try:
                server = Server(given.program, folder)
            except Refused as error:
                refused += 1
                if wanted not in str(error):
                    yield f"byte {place}: refused without its place: {error}"
                if (folder / "journal").read_bytes() != bytes_:
                    yield f"byte {place}: refused, and the journal is changed"
                continue
            yield f"byte {place}: served though the journal is damaged"
            server.kill()
    print(f"  {refused} refused")


def disk(given):
    """A journal that cannot grow, by a limit on the size of files."""
    with tempfile.TemporaryDirectory() as name:
        folder = Path(name)
        (folder / "zone").write_text(ZONE)
        server = Server(given.program, folder, prefix=["bash", "-c", 'ulimit -f 1; trap "" XFSZ; exec "$@"', "bash"])
        codes = [server.add(number, f"n{number}.example.") for number in range(40)]
        count = codes.index(2) if 2 in codes else len(codes)
        if codes != [0] * count + [2] * (len(codes) - count) or count == len(codes):
            yield f"codes {codes}"
        for number in range(len(codes)):
            if server.has(f"n{number}.example.") != (number < count):
                yield f"update {number} of {count} that were taken"
        server.kill()
        again = Server(given.program, folder)
        for number in range(len(codes)):
            if again.has(f"n{number}.example.") != (number < count):
                yield f"after a restart, update {number} of {count} that were taken"
        again.kill()
        print(f"  {count} updates, then SERVFAIL")
