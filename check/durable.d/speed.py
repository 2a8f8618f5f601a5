"""How many updates a second are taken on one stream, and how long a restart takes."""
import os
import tempfile
import threading
import time
from pathlib import Path

from messages import code_of, update
from servers import ZONE, Server
from signing import Key, signed
from streams import Replies, connected, framed

# The least number of updates a second, and the most seconds of a restart.
LEAST_RATE, MOST_SECONDS = 2000, 1.0


def rate_of(server, messages):
    """How many updates a second are answered on one stream, and the response codes."""
    data = b"".join(framed(it) for it in messages)
    codes = set()
    with connected(server.port) as stream:
        start = time.monotonic()
        sender = threading.Thread(target=stream.sendall, args=(data,))
        sender.start()
        replies, count = Replies(stream), 0
        while count < len(messages):
            found = replies.next()
            if not found:
                break
            codes.update(code_of(it) for it in found)
            count += len(found)
        seconds = time.monotonic() - start
        sender.join()
    return count / seconds, codes


def syncs_a_second(folder):
    """How many calls of fdatasync after an append a second the disk takes."""
    with open(folder / "probe", "ab", buffering=0) as file:
        start = time.monotonic()
        for _ in range(200):
            file.write(bytes(100))
            os.fdatasync(file.fileno())
        return 200 / (time.monotonic() - start)


def speed(given):
    """Updates that wait together on one stream, and a restart."""
    key = Key("key.example.", "hmac-sha256", os.urandom(32))
    for signs in (False, True):
        with tempfile.TemporaryDirectory() as name:
            folder = Path(name)
            (folder / "zone").write_text(ZONE)
            (folder / "key").write_text(key.text())
            print(f"  the disk takes {syncs_a_second(folder):.0f} synchronizations a second")
            server = Server(given.program, folder, "--key", str(folder / "key"), "--grant", "key.example. example.")
            messages = [update(n & 0xFFFF, "example.", f"n{n}.example.", "192.0.2.7") for n in range(10000)]
            rate, codes = rate_of(server, [signed(key, it) for it in messages] if signs else messages)
            server.kill()
            word = "signed" if signs else "unsigned"
            print(f"  {rate:.0f} {word} updates a second, of {len(messages)}")
            if codes != {0}:
                yield f"{word} updates: response codes {codes}"
            if rate < LEAST_RATE:
                yield f"{word} updates: {rate:.0f} a second"
    with tempfile.TemporaryDirectory() as name:
        folder = Path(name)
        (folder / "zone").write_text(ZONE)
        server = Server(given.program, folder, "--journal-limit", "1000000000")
        messages = [update(n & 0xFFFF, "example.", f"n{n}.example.", "192.0.2.7") for n in range(100000)]
        rate_of(server, messages)
        server.kill()
        start = time.monotonic()
        server = Server(given.program, folder, "--journal-limit", "1000000000")
        seconds = time.monotonic() - start
        there = server.has("n99999.example.")
        server.kill()
        print(f"  a restart over {len(messages)} updates takes {seconds:.2f} s")
        if not there:
            yield "the last update is not there after a restart"
        if seconds > MOST_SECONDS:
            yield f"a restart takes {seconds:.2f} s"
