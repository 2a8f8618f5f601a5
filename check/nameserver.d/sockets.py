"""Servers at sockets of the loopback interface: streams in pieces, replies that nobody reads yet, late replies, and notifications."""
import contextlib
import re
import socket
import subprocess
import tempfile
import time
from concurrent.futures import ThreadPoolExecutor

from cases import MEMORY, write_files

# How long is waited for what comes, and for what does not come, in seconds: a notification is repeated after one second.
SOON, NEVER = 30, 2.8
LOCAL, OTHER = "127.0.0.1", "127.0.0.2"
# A question for the TXT records of a.t, without its id.
QUESTION = b"\1\0\0\1\0\0\0\0\0\0" + b"\1a\1t\0\0\x10\0\1"
# How many connections are tried at once.
AT_ONCE = 16


@contextlib.contextmanager
def serving(program, files, *words):
    """The address of a server of these files."""
    with tempfile.TemporaryDirectory(dir=MEMORY) as folder:
        write_files(folder, files)
        command = [program, "zone", "--listen", f"{LOCAL}:0", "--until-stdin-closes", *words]
        with subprocess.Popen(
            command, cwd=folder, stdin=subprocess.PIPE, stdout=subprocess.PIPE, stderr=subprocess.PIPE
        ) as server:
            line = server.stdout.readline().decode()
            if not line.startswith("listening on "):
                raise OSError(server.stderr.read().decode())
            yield (LOCAL, int(line.rsplit(":", 1)[1]))
            server.stdin.close()


def exchange(address, pieces):
    """What a server writes to a connection on which pieces are sent, one after another, and then nothing."""
    with socket.create_connection(address, timeout=SOON) as stream:
        stream.setsockopt(socket.IPPROTO_TCP, socket.TCP_NODELAY, 1)
        for piece in pieces:
            stream.sendall(piece)
            time.sleep(0.002)
        stream.shutdown(socket.SHUT_WR)
        return b"".join(iter(lambda: stream.recv(65536), b""))


def pieces_of(data):
    """Bytes whole, byte by byte, and in two pieces, cut at each place."""
    yield [data]
    yield [data[at : at + 1] for at in range(len(data))]
    yield from ([data[:at], data[at:]] for at in range(1, len(data)))


def streamed(address, data):
    """What a server writes to a connection, whatever the pieces in which bytes arrive, or how it differs."""
    with ThreadPoolExecutor(AT_ONCE) as pool:
        whole, *others = pool.map(lambda pieces: exchange(address, pieces).hex() or "-", pieces_of(data))
    other = next((it for it in others if it != whole), None)
    return f"{whole}, and in pieces {other}" if other else whole


def numbered(frame, number):
    """The frame of a message with an id."""
    return frame[:2] + number.to_bytes(2, "big") + frame[4:]


def unread(address, frame, count):
    """How many of so many replies come, in order, if none is read while requests are sent for as long as the server takes them."""
    sent = b"".join(numbered(frame, number) for number in range(count))
    with socket.create_connection(address, timeout=SOON) as stream:
        stream.settimeout(0.3)
        place = 0
        with contextlib.suppress(TimeoutError):
            while place < len(sent):
                place += stream.send(sent[place : place + 4096])
        stream.settimeout(SOON)
        with ThreadPoolExecutor(1) as pool:
            rest = pool.submit(lambda: (stream.sendall(sent[place:]), stream.shutdown(socket.SHUT_WR)))
            got = b"".join(iter(lambda: stream.recv(65536), b""))
            rest.result()
    return in_order(got)


def in_order(frames):
    """How many frames there are, whose messages have the ids from 0 on."""
    number, place = 0, 0
    while place < len(frames) and frames[place + 2 : place + 4] == number.to_bytes(2, "big"):
        place += 2 + int.from_bytes(frames[place : place + 2], "big")
        number += 1
    return number if place == len(frames) else -1


def late(program, files, delays):
    """The order in which replies come to requests that a server delays by so many milliseconds, each not before its moment."""
    names = [chr(ord("a") + i) for i in range(len(delays))]
    rules = "".join(f"{name}.t TXT delay {delay}\n" for name, delay in zip(names, delays))
    with serving(program, {**files, "faults": rules.encode()}, "--faults", "faults") as address:
        with socket.socket(socket.AF_INET, socket.SOCK_DGRAM) as asking:
            asking.settimeout(SOON)
            start = time.monotonic()
            for number, name in enumerate(names):
                asking.sendto(number.to_bytes(2, "big") + QUESTION.replace(b"a", name.encode()), address)
            found = []
            for _ in names:
                number = int.from_bytes(asking.recv(512)[:2], "big")
                is_early = (time.monotonic() - start) * 1000 < delays[number]
                found.append(names[number] + " early" * is_early)
    return " ".join(found)


def notified(program, files):
    """The notification that a secondary is sent at the start, with zeros for its id."""
    with secondary() as waiting, serving(program, files, "--notify", address_of(waiting)):
        return "0000" + waiting.recv(512)[2:].hex()


def answered(program, files, sender, response):
    """Whether a notification is repeated after a response, whose first two bytes are the id in the place of `id`."""
    with secondary() as waiting, secondary(OTHER) as other, secondary() as beside:
        with serving(program, files, "--notify", address_of(waiting)):
            notification, server = waiting.recvfrom(512)
            number = int.from_bytes(notification[:2], "big")
            ids = {"id": number, "next": (number + 1) % 65536}
            data = re.sub("^(id|next)", lambda found: f"{ids[found[0]]:04x}", response)
            {"secondary": waiting, "port": beside, "address": other}[sender].sendto(bytes.fromhex(data), server)
            return "repeated" if comes_again(waiting, notification) else "taken"


def comes_again(waiting, message):
    """Whether a message comes once more while it might be repeated, perhaps behind others."""
    end = time.monotonic() + NEVER
    with contextlib.suppress(TimeoutError):
        while (left := end - time.monotonic()) > 0:
            waiting.settimeout(left)
            if waiting.recv(512) == message:
                return True
    return False


def secondary(host=LOCAL):
    """A socket for datagrams."""
    waiting = socket.socket(socket.AF_INET, socket.SOCK_DGRAM)
    waiting.bind((host, 0))
    waiting.settimeout(SOON)
    return waiting


def address_of(waiting):
    """The address and the port of a socket, as an option has them."""
    return "{}:{}".format(*waiting.getsockname())
