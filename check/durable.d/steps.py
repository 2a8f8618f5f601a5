"""A server that is killed while a compaction that takes many steps is under way, under updates of what the new text has and has not yet."""
import random
import struct
import tempfile
import time
from pathlib import Path

from messages import query, wire_name
from servers import Refused, Server

HEAD = """$ORIGIN example.
@ 60 IN SOA ns hostmaster 1 3600 600 86400 60
@ 60 IN NS ns
ns 60 IN A 192.0.2.1
"""
RECORDS = 20_000
# Long enough that a compaction begins after some updates, and short enough that it begins soon.
LIMIT = ("--journal-limit", "6000")

# The types and classes of updates: an address is added, an address or all of them are deleted, and all records of a name are.
A, ANY, IN, NONE = 1, 255, 1, 254


def change(number, name, kind, class_, ttl, data):
    """An update of one record."""
    head = struct.pack(">HHHHHH", number & 0xFFFF, 0x2800, 1, 0, 1, 0)
    record = wire_name(name) + struct.pack(">HHIH", kind, class_, ttl, len(data)) + data
    return head + wire_name("example.") + struct.pack(">HH", 6, 1) + record


def addresses(reply):
    """The addresses in a reply, as their last 8 bits."""
    found, place = set(), 12
    for _ in range(struct.unpack(">H", reply[4:6])[0]):
        while reply[place]:
            place += reply[place] + 1
        place += 5
    for _ in range(struct.unpack(">H", reply[6:8])[0]):
        place += 2 if reply[place] >= 192 else next(n for n in range(256) if not reply[place + n]) + 1
        kind, _, _, length = struct.unpack(">HHIH", reply[place : place + 10])
        if kind == A:
            found.add(reply[place + 13])
        place += 10 + length
    return found


def drawn(chosen, number, model):
    """An update that is drawn at random, its name, and the addresses of that after it."""
    host = f"host{chosen.randrange(RECORDS)}" if chosen.random() < 0.7 else f"new{chosen.randrange(300)}"
    name = f"{host}.example."
    before = model.get(name, first(name))
    address = chosen.randrange(1, 6)
    data = bytes([10, 0, 0, address])
    way = chosen.randrange(5)
    if way <= 1:
        return change(number, name, A, IN, 60, data), name, before | {address}
    if way == 2:
        return change(number, name, A, NONE, 0, data), name, before - {address}
    if way == 3:
        return change(number, name, A, ANY, 0, b""), name, set()
    return change(number, name, ANY, ANY, 0, b""), name, set()


def first(name):
    """The addresses of a name in the zone file that the first server reads."""
    return {1} if name.startswith("host") else set()


def fault_of(server, model, name, last):
    """What is wrong with the addresses of a name: those of the model, or after the last update, which was not acknowledged."""
    reply = server.ask(query(7, name, A))
    found = addresses(reply)
    if found == model.get(name, first(name)) or (last and last[0] == name and found == last[1]):
        return None, found
    return f"{name} has {sorted(found)} and not {sorted(model.get(name, first(name)))}", found


def kill_once(given, folder, chosen, model, number):
    """Starts a server, kills it while it compacts, and returns the number of the next update, whether it was writing, and what was wrong."""
    server = Server(given.program, folder, *LIMIT)
    new = folder / "zone.new"
    last, until = None, None
    while True:
        message, name, after = drawn(chosen, number, model)
        number += 1
        if until is None and new.exists():
            until = time.monotonic() + chosen.random() * 0.15
        if until is not None and time.monotonic() > until:
            server.socket.send(message)
            last = (name, after)
            break
        reply = server.ask(message)
        if reply is None or reply[3] & 15:
            return number, False, f"an update is answered by {reply and reply.hex()}"
        model[name] = after
    is_writing = new.exists()
    server.kill()
    again = Server(given.program, folder)
    try:
        for name in [*model, last[0]]:
            fault, found = fault_of(again, model, name, last)
            if fault:
                return number, is_writing, fault
            if name == last[0]:
                model[name] = found
        for host in chosen.sample(range(RECORDS), 50):
            name = f"host{host}.example."
            if name not in model:
                fault, _ = fault_of(again, model, name, None)
                if fault:
                    return number, is_writing, fault
    finally:
        again.kill()
    return number, is_writing, None


def steps(given):
    """Kills servers, each of which goes on where the last one was killed."""
    chosen = random.Random()
    count = writing = number = 0
    wanted = max(1, given.kills // 20)
    while count < wanted:
        with tempfile.TemporaryDirectory() as folder:
            folder = Path(folder)
            hosts = "".join(f"host{n} 60 IN A 10.0.0.1\n" for n in range(RECORDS))
            (folder / "zone").write_text(HEAD + hosts)
            model = {}
            for _ in range(min(20, wanted - count)):
                try:
                    number, was_writing, fault = kill_once(given, folder, chosen, model, number)
                except Refused as error:
                    was_writing, fault = False, f"the server does not start: {error}"
                count += 1
                writing += was_writing
                if fault:
                    yield fault
                    break
            print(f"  {count} kills, {writing} of them while a text was written, {number} updates", flush=True)
