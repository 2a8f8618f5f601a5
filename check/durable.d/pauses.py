"""How long a compaction keeps queries waiting."""
import tempfile
import threading
import time
from pathlib import Path

from messages import query
from servers import Server

HEAD = """$ORIGIN example.
@ 60 IN SOA ns hostmaster 1 3600 600 86400 60
@ 60 IN NS ns
"""


class Clock(threading.Thread):
    """Asks one question after another, and keeps the longest time that an answer took, in seconds."""

    def __init__(self, server):
        super().__init__(daemon=True)
        self.server, self.longest, self.count, self.has_ended = server, 0.0, 0, False

    def run(self):
        with self.server.another_socket() as socket:
            while not self.has_ended:
                start = time.monotonic()
                socket.send(query(self.count & 0xFFFF, "host1.example."))
                socket.recv(65535)
                self.longest = max(self.longest, time.monotonic() - start)
                self.count += 1


def pause(given, folder, records):
    """The longest time that a query took while the zone file of so many records was replaced, in seconds, or None if it was not."""
    hosts = "".join(f"host{n} 60 IN A 10.{n >> 16}.{n >> 8 & 255}.{n & 255}\n" for n in range(records))
    (folder / "zone").write_text(HEAD + hosts)
    before = (folder / "zone").stat().st_ino
    server = Server(given.program, folder, "--journal-limit", "4096")
    clock = Clock(server)
    clock.start()
    for number in range(100_000):
        if server.add(number, f"n{number % 1000}.example.", f"192.0.2.{number % 200}") != 0:
            break
        if (folder / "zone").stat().st_ino != before:
            break
    time.sleep(0.2)
    clock.has_ended = True
    clock.join(10)
    server.kill()
    return clock.longest if (folder / "zone").stat().st_ino != before else None


def pauses(given):
    """Prints the pauses of zones of growing size."""
    for records in (1_000, 10_000, 100_000, 1_000_000):
        with tempfile.TemporaryDirectory() as name:
            longest = pause(given, Path(name), records)
            if longest is None:
                yield f"a zone file of {records} records is not replaced"
            else:
                print(f"  {records} records: a query waits {1000 * longest:.0f} ms at most", flush=True)
