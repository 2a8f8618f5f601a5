"""What a compaction keeps, and what it leaves when it fails."""
import os
import signal
import subprocess
import tempfile
import threading
import time
from pathlib import Path

from servers import ZONE, Refused, Server

# Lets no file grow beyond so many blocks of 1,024 bytes.
SMALL_FILES = ["bash", "-c", 'ulimit -f 8; trap "" XFSZ; exec "$@"', "bash"]
# Lets each synchronization of a whole file take 200 ms, or each one of the data of the journal.
SLOW_DISK = ["strace", "-f", "-qq", "-o", "/dev/null", "-e", "trace=fsync", "-e", "inject=fsync:delay_enter=200000"]
SLOW_JOURNAL = [it.replace("fsync", "fdatasync") for it in SLOW_DISK]
LIMIT = ("--journal-limit", "4096")


def compact(given, folder, prefix=()):
    """Runs `nameserver --compact`."""
    words = [*prefix, given.program, str(folder / "zone"), "--journal", str(folder / "journal"), "--compact"]
    return subprocess.run(words, capture_output=True, text=True, check=False)


def kill_traced(server):
    """Kills a server that another process traces."""
    pid = server.process.pid
    for child in Path(f"/proc/{pid}/task/{pid}/children").read_text().split():
        os.kill(int(child), signal.SIGKILL)
    server.close()


def left_over(folder):
    """The files with new texts."""
    return [path.name for path in folder.glob("**/*.new")]


def mode_and_link(given, folder):
    """The mode of the zone file, a symbolic link to it, and an edit that was made while the server ran."""
    there = folder / "kept" / "there"
    there.parent.mkdir()
    there.write_text(ZONE)
    there.chmod(0o640)
    (folder / "zone").symlink_to("kept/there")
    server = Server(given.program, folder, *LIMIT)
    for number in range(80):
        server.add(number, f"n{number}.example.")
    server.kill()
    if not (folder / "zone").is_symlink() or "n20" not in there.read_text():
        yield "a symbolic link is replaced, or there was no compaction"
    if there.stat().st_mode & 0o777 != 0o640:
        yield f"the mode is {oct(there.stat().st_mode)}"
    server = Server(given.program, folder, *LIMIT)
    edited = (folder / "zone").read_text() + "; by hand\n"
    (folder / "zone").write_text(edited)
    codes = {server.add(number, f"n{number}.example.") for number in range(80, 200)}
    server.kill()
    if codes != {0} or (folder / "zone").read_text() != edited:
        yield f"an edit is overwritten, or updates are refused: {codes}"
    if left_over(folder):
        yield "a file with a new text is left"


def relative_names(given, folder):
    """A relative name that is added to a compacted zone file is completed by the zone."""
    (folder / "zone").write_text(ZONE)
    server = Server(given.program, folder)
    server.add(1, "n1.example.")
    server.kill()
    done = compact(given, folder)
    text = (folder / "zone").read_text()
    (folder / "zone").write_text(f"{text}by-hand 60 A 10.9.9.9\n")
    checked = subprocess.run([given.zonecheck, str(folder / "zone")], capture_output=True, text=True, check=False)
    if done.returncode or not text.startswith("$ORIGIN example.\n") or checked.returncode:
        yield f"a relative name that is added is refused: {done.stderr}{checked.stdout}{checked.stderr}"


def edited_meanwhile(given, folder):
    """An edit while the new text is being written: it is not overwritten, and updates are taken before and after it."""
    (folder / "zone").write_text(ZONE)
    edited = None

    def edit():
        nonlocal edited
        while not (folder / "zone.new").exists():
            time.sleep(0.001)
        edited = (folder / "zone").read_text() + "; by hand\n"
        (folder / "zone").write_text(edited)

    server = Server(given.program, folder, *LIMIT, prefix=SLOW_DISK)
    thread = threading.Thread(target=edit, daemon=True)
    thread.start()
    codes = [server.add(number, f"n{number}.example.") for number in range(120)]
    thread.join(10)
    kill_traced(server)
    if edited is None or (folder / "zone").read_text() != edited:
        yield "an edit that was made while the new text was written is overwritten"
    if set(codes) != {0}:
        yield f"updates are refused after an edit: {codes}"
    if left_over(folder):
        yield f"after an edit, {left_over(folder)} is left"


def edited_at_last(given, folder):
    """An edit after the new text was written, before it takes its name: it is not overwritten, and the refusal says why."""
    (folder / "zone").write_text(ZONE)
    server = Server(given.program, folder)
    server.add(1, "n1.example.")
    server.kill()
    length = (folder / "journal").stat().st_size
    edited = f"{ZONE}; by hand\n"

    def edit():
        # The journal has the mark of the new text.
        while (folder / "journal").stat().st_size == length:
            time.sleep(0.001)
        (folder / "zone").write_text(edited)

    thread = threading.Thread(target=edit, daemon=True)
    thread.start()
    done = compact(given, folder, SLOW_JOURNAL)
    thread.join(10)
    if (folder / "zone").read_text() != edited:
        yield "an edit that was made after the new text was written is overwritten"
    if done.returncode != 1 or not done.stderr.endswith(": the zone file was edited since it was read\n"):
        yield f"--compact after an edit ends with {done.returncode}: {done.stderr}"
    if left_over(folder):
        yield f"after an edit, {left_over(folder)} is left"


def without_room(given, folder):
    """A new text for which there is no room: the journal goes on, nothing else is written to it, and no file is left."""
    hosts = "".join(f"host{number} 60 IN A 192.0.2.1\n" for number in range(400))
    (folder / "zone").write_text(ZONE + hosts)
    server = Server(given.program, folder, *LIMIT, prefix=SMALL_FILES)
    sizes, codes = [], []
    for number in range(60):
        codes.append(server.add(number, f"n{number}.example."))
        sizes.append((folder / "journal").stat().st_size)
    server.process.terminate()
    said = server.process.stderr.read().decode()
    server.close()
    steps = {after - before for before, after in zip(sizes, sizes[1:])}
    if set(codes) != {0} or sizes[-1] < 4096:
        yield f"updates are refused after a compaction for which there was no room: {codes}, {sizes[-1]} bytes"
    if max(steps) - min(steps) > 2:
        yield f"a compaction for which there was no room grows the journal: {sorted(steps)}"
    if said.count("the journal goes on") != 1:
        yield f"a compaction for which there was no room is told as {said!r}"
    journal, zone = (folder / "journal").read_bytes(), (folder / "zone").read_bytes()
    done = compact(given, folder, SMALL_FILES)
    if done.returncode == 0 or "zone.new" not in done.stderr:
        yield f"--compact without room ends with {done.returncode}: {done.stderr}"
    if (folder / "journal").read_bytes() != journal or (folder / "zone").read_bytes() != zone:
        yield "--compact without room changes the journal or the zone file"
    if left_over(folder):
        yield f"without room, {left_over(folder)} is left"
    again = Server(given.program, folder)
    if not all(again.has(f"n{number}.example.") for number in range(60)):
        yield "updates are lost after a compaction for which there was no room"
    again.kill()


def edited_under_journal(given, folder):
    """An edit of the zone file under a journal is refused, and says what to do; whoever does that has the updates and the edit."""
    (folder / "zone").write_text(ZONE)
    server = Server(given.program, folder)
    server.add(1, "n1.example.")
    server.kill()
    (folder / "zone").write_text(f"{ZONE}by-hand 60 IN A 10.9.9.9\n")
    try:
        Server(given.program, folder).kill()
        yield "an edited zone file under a journal is served"
    except Refused as refusal:
        said = str(refusal)
        if not all(it in said for it in ("another zone file", "put the former zone file back", "--compact", "remove the journal")):
            yield f"the refusal does not say what to do: {said}"
    (folder / "zone").write_text(ZONE)
    compact(given, folder)
    (folder / "journal").unlink()
    with open(folder / "zone", "a", encoding="utf-8") as file:
        file.write("by-hand 60 A 10.9.9.9\n")
    server = Server(given.program, folder)
    if not server.has("n1.example.") or not server.has("by-hand.example."):
        yield "the update or the edit is lost, though it was made as the refusal says"
    server.kill()


def compacted(given):
    """Each of these, in a folder of its own."""
    for tried in (mode_and_link, relative_names, edited_meanwhile, edited_at_last, without_room, edited_under_journal):
        with tempfile.TemporaryDirectory() as name:
            yield from tried(given, Path(name))
