"""Journals that are damaged, and servers that are started together on one journal.

A damaged journal is refused with the place of the damage, and no file is changed, or it is served with all updates that were acknowledged.
Of servers that are started together on one journal, one serves and the others say who does."""
import random
import subprocess
import tempfile
import threading
from pathlib import Path

from kills import Load, left_fault
from servers import ZONE, Refused, Server

# The files of a folder that a start may create or write without changing what is served.
OWN_FILES = {"journal.lock"}


def files_of(folder):
    """The bytes of each file of a folder."""
    return {path.name: path.read_bytes() for path in sorted(folder.iterdir()) if path.name not in OWN_FILES}


def made(given, folder, count, serial):
    """Makes a journal of so many updates, and returns the places where its entries begin, and its length."""
    (folder / "zone").write_text(ZONE.replace("hostmaster 1", f"hostmaster {serial}"))
    server = Server(given.program, folder)
    places = []
    for number in range(count):
        places.append((folder / "journal").stat().st_size)
        server.add(number, f"n{number}.example.")
    server.kill()
    return places + [(folder / "journal").stat().st_size]


def flipped(chosen, whole, places, _other):
    place = chosen.randrange(len(whole))
    return whole[:place] + bytes([whole[place] ^ 1 << chosen.randrange(8)]) + whole[place + 1 :]


def cut(chosen, whole, places, _other):
    return whole[: chosen.randrange(len(whole))]


def inserted(chosen, whole, places, _other):
    place = chosen.randrange(len(whole))
    return whole[:place] + chosen.randbytes(chosen.randint(1, 200)) + whole[place:]


def removed(chosen, whole, places, _other):
    place = chosen.randrange(len(whole))
    return whole[:place] + whole[place + chosen.randint(1, 200) :]


def repeated(chosen, whole, places, _other):
    index, at = chosen.randrange(len(places) - 1), chosen.choice(places)
    return whole[:at] + whole[places[index] : places[index + 1]] + whole[at:]


def swapped(chosen, whole, places, _other):
    index, later = sorted(chosen.sample(range(len(places) - 1), 2))
    entries = [whole[start:end] for start, end in zip(places, places[1:])]
    entries[index], entries[later] = entries[later], entries[index]
    return whole[: places[0]] + b"".join(entries)


def left_out(chosen, whole, places, _other):
    index = chosen.randrange(len(places) - 1)
    return whole[: places[index]] + whole[places[index + 1] :]


def spliced(chosen, whole, places, other):
    there, there_places = other
    return whole[: chosen.choice(places[:-1])] + there[chosen.choice(there_places[1:-1]) :]


# What a refusal says that names the place: a byte, or the header.
PLACES = ("byte", "not a journal", "another zone file")
# Damage to the first eight bytes can make them those of the format before, which the server then names.
FORMER = "a journal of the former format"


def begins_as_former(folder):
    """Whether the journal in a folder begins as one of the former format does."""
    return Path(folder, "journal").read_bytes().startswith(b"dnsjrnl1")


WAYS = {
    "flips": flipped,
    "cuts": cut,
    "inserts": inserted,
    "removals": removed,
    "repeats": repeated,
    "swaps": swapped,
    "entries left out": left_out,
    "two journals spliced": spliced,
}


def tried(given, folder, count):
    """Starts a server on damaged files, and returns whether it served, and what is wrong."""
    before = files_of(folder)
    try:
        server = Server(given.program, folder)
    except Refused as error:
        if files_of(folder) != before:
            return False, f"refused, and the files are changed: {error}"
        if not any(it in str(error) for it in PLACES) and not (FORMER in str(error) and begins_as_former(folder)):
            return False, f"refused without a place: {error}"
        return False, None
    missing = [number for number in range(count) if not server.has(f"n{number}.example.")]
    server.kill()
    return True, f"served without the updates {missing}" if missing else None


def damaged(given):
    """Damages journals, in each way as often as servers are killed."""
    chosen = random.Random()
    for way, damage in WAYS.items():
        served = 0
        with tempfile.TemporaryDirectory() as name, tempfile.TemporaryDirectory() as second:
            folder, other = Path(name), Path(second)
            count = chosen.randint(3, 9)
            places = made(given, folder, count, 1)
            other_places = made(given, other, count, 1)
            there = (other / "journal").read_bytes()
            kept = {path.name: path.read_bytes() for path in folder.iterdir()}
            for _ in range(given.kills):
                for path in folder.iterdir():
                    path.unlink()
                for file, bytes_ in kept.items():
                    (folder / file).write_bytes(bytes_)
                bytes_ = damage(chosen, kept["journal"], places, (there, other_places))
                if bytes_ == kept["journal"]:
                    continue
                (folder / "journal").write_bytes(bytes_)
                has_served, fault = tried(given, folder, count)
                served += has_served
                if fault:
                    yield f"{way}: {fault}"
        print(f"  {way}: {given.kills}, of which {served} were served", flush=True)


def started_together(given, folder, count, options):
    """Starts servers at the same moment, and returns those that serve, and what the others said."""
    words = [str(given.program), str(folder / "zone"), "--listen", "127.0.0.1:0", "--journal", str(folder / "journal"), *options]
    servers, errors = [], []
    gate = threading.Barrier(count)

    def start():
        gate.wait()
        process = subprocess.Popen(words, stdout=subprocess.PIPE, stderr=subprocess.PIPE, stdin=subprocess.DEVNULL)
        line = process.stdout.readline()
        if line.startswith(b"listening on "):
            servers.append(process)
        else:
            process.wait()
            errors.append(process.stderr.read().decode())

    threads = [threading.Thread(target=start) for _ in range(count)]
    for thread in threads:
        thread.start()
    for thread in threads:
        thread.join()
    return servers, errors


def is_named(error, process):
    """Whether an error says who has the lock. The holder may not have written its process id yet."""
    return f"process {process} has its lock file" in error or "another process has its lock file" in error


def beside(given, folder, starts):
    """Starts servers, one after another, beside one that takes updates and begins its journal anew after about forty of them: none
    serves, and no update that was acknowledged is lost."""
    (folder / "zone").write_text(ZONE)
    server = Server(given.program, folder, "--journal-limit", "4096")
    load = Load(0)
    thread = threading.Thread(target=load.by_stream, args=(server,))
    thread.start()
    begun = set()
    for _ in range(starts):
        servers, errors = started_together(given, folder, 1, ["--journal-limit", "4096"])
        for other in servers:
            other.kill()
            other.wait()
            yield "a second server serves the journal of one that begins it anew"
        if any(not is_named(error, server.process.pid) for error in errors):
            yield f"another server says {errors}, and not that process {server.process.pid} has the lock"
        begun.add((folder / "journal").read_bytes()[:40])
    server.kill()
    thread.join()
    if load.fault or load.done == 0:
        yield load.fault or "no update was made"
    if len(begun) < 2:
        yield f"the journal was seen to begin anew {len(begun)} times"
    server = Server(given.program, folder)
    fault, _ = left_fault(server, 0, load)
    server.kill()
    if fault:
        yield fault


def together(given):
    """Starts two and three servers together, a quarter as often as servers are killed, on a new journal; and as many one after
    another, beside one that begins its journal anew."""
    for count in (2, 3):
        for _ in range(max(1, given.kills // 4)):
            with tempfile.TemporaryDirectory() as name:
                folder = Path(name)
                (folder / "zone").write_text(ZONE)
                servers, errors = started_together(given, folder, count, [])
                ids = [str(server.pid) for server in servers]
                for server in servers:
                    server.kill()
                    server.wait()
                    server.stdout.close()
                    server.stderr.close()
                if len(servers) != 1:
                    yield f"{len(servers)} of {count} servers serve one journal"
                elif any(not is_named(error, ids[0]) for error in errors):
                    yield f"another server says {errors}, and not that process {ids[0]} has the lock"
        print(f"  {max(1, given.kills // 4)} times {count} servers", flush=True)
    with tempfile.TemporaryDirectory() as name:
        yield from beside(given, Path(name), max(1, given.kills // 4))
    print(f"  {max(1, given.kills // 4)} servers beside one that begins its journal anew", flush=True)
