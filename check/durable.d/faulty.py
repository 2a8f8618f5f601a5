"""Faults beside keys and a journal."""
import os
import subprocess
import tempfile
from pathlib import Path

from debian import PYTHON, install
from servers import ZONE, Server
from signing import ALGORITHMS, Key

HERE = Path(__file__).resolve().parent

RULES = """\
coded.example.    *    code SERVFAIL
cut.example.      *    truncate
late.example.     *    delay 300
dropped.example.  *    drop times 1
stale.example.    *    stale
other.example.    *    wrong-id
"""


def faulty(given):
    """Requests that are signed, and whose replies a rule decides on: dnspython verifies them."""
    missing = install(["dns"])
    if missing:
        print(f"  skipped, since they cannot be installed: {', '.join(missing)}")
        return
    tried = 0
    for algorithm in ALGORITHMS:
        key = Key("key.example.", algorithm, os.urandom(32))
        with tempfile.TemporaryDirectory() as name:
            folder = Path(name)
            (folder / "zone").write_text(ZONE)
            (folder / "key").write_text(key.text())
            (folder / "faults").write_text(RULES)
            options = ["--key", f"{folder}/key", "--grant", "key.example. example.", "--no-updates"]
            words = [PYTHON, str(HERE / "with_faults.py"), "PORT", key.name, key.secret_text(), algorithm]
            server = Server(given.program, folder, *options, "--faults", f"{folder}/faults")
            asked = ask(server, words, "faults")
            server.kill()
            # An update that was answered with a code alone, or dropped, was not made: it is not in the journal.
            (folder / "faults").write_text("example. SOA code SERVFAIL times 1\nexample. SOA drop times 1\n")
            server = Server(given.program, folder, *options, "--faults", f"{folder}/faults")
            refused = ask(server, words, "refused")
            server.kill()
            server = Server(given.program, folder, *options)
            left = ask(server, words, "left")
            server.kill()
        for said in (asked, refused, left):
            if "FAULT" in said or not said.rstrip().endswith("steps"):
                yield f"{algorithm}: {said}"
            else:
                tried += int(said.split()[-2])
    print(f"  {tried} steps")


def ask(server, words, part):
    """What dnspython says of a part."""
    words = [str(server.port) if it == "PORT" else it for it in words]
    done = subprocess.run([*words, part], capture_output=True, text=True, timeout=120)
    return done.stdout + done.stderr
