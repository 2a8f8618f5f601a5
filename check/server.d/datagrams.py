"""Random and mutated datagrams, and spoofed ones."""
import contextlib
import random
import socket
import time

from messages import query
from nameserver import NameServer
from replies import Server
from report import Report
from samples import samples
from siege import GOOD, ZONE, Siege
from transport import ask_datagram, datagram_socket
from wire import UPDATE
from zones import zone_of

# How many datagrams are sent before one is compared: as many as surely fit the buffer of a socket.
BATCH = 50
HEADERS = [
    b"\0\1\0\0\0\1\0\0\0\0\0\0",
    b"\0\1\1\0\0\1\0\0\0\0\0\1",
    b"\0\1\x28\0\0\1\0\1\0\1\0\0",
    b"\0\1\x28\0\0\1\0\0\0\3\0\0",
]


class Mutator:
    """Makes datagrams of good requests and of random bytes."""

    def __init__(self, seed: int):
        self.rng = random.Random(seed)
        found = samples()
        self.good = [it[-1] for it in found["requests"]] * 3 + [it[-1] for it in found["messages"]]

    def next(self) -> bytes:
        rng, kind = self.rng, self.rng.random()
        if kind < 0.15:
            return rng.randbytes(rng.randrange(300))
        if kind < 0.3:
            return rng.choice(HEADERS) + rng.randbytes(rng.randrange(120))
        data = bytearray(rng.choice(self.good))
        data[2:3] = bytes([data[2] & 0x7F]) if len(data) > 2 else b""
        for _ in range(rng.choice((0, 1, 1, 1, 2, 3, 4))):
            self.edit(data)
        return bytes(data[:2000])

    def edit(self, data: bytearray) -> None:
        """Changes some bytes, takes some out, or puts some of another request in."""
        rng = self.rng
        at, kind = rng.randrange(len(data) + 1), rng.random()
        if kind < 0.6 and at < len(data):
            data[at] = rng.choice((rng.randrange(256), data[at] ^ 1 << rng.randrange(8), 0, 255, 0xC0))
        elif kind < 0.8:
            del data[at : at + rng.randrange(1, 6)]
        else:
            other = rng.choice(self.good)
            start = rng.randrange(len(other))
            data[at:at] = other[start : start + rng.randrange(1, 40)]


def try_datagrams(report: Report, program: str, given) -> None:
    """Random datagrams, one of each batch compared with the model, which also makes the updates of all of them."""
    title, mutator = f"{given.datagrams:,} random and mutated datagrams", Mutator(given.seed)
    with Siege(report, program, title) as siege, datagram_socket(siege.address) as flood, datagram_socket(
        siege.address, 10
    ) as sender:
        flood.setblocking(False)
        compared = silent = 0
        for _ in range(0, given.datagrams, BATCH):
            batch = [mutator.next() for _ in range(BATCH)]
            for data in batch[:-1]:
                flood.send(data)
                if len(data) > 2 and data[2] >> 3 & 15 == UPDATE:
                    siege.model.reply(data)
            drain(flood)
            wanted = siege.model.reply(batch[-1])
            sender.send(batch[-1])
            # What has no reply is followed by a question that has one, which also shows that all before it was read.
            silent += wanted is None
            if wanted is None:
                sender.send(query(GOOD))
            report.check(f"{title}: {batch[-1].hex()}", siege.good_reply if wanted is None else wanted, sender.recv(65535))
            compared += 1
            if not siege.is_running:
                break
        siege.detail = f", {compared:,} compared, {silent:,} of them without a reply"


def drain(receiver: socket.socket) -> None:
    """Takes all that has arrived."""
    with contextlib.suppress(BlockingIOError):
        while True:
            receiver.recv(65535)


def try_responses(report: Report, program: str, given) -> None:
    """Responses, which have no reply: good ones, random ones, and replies of a server to itself."""
    title, mutator = f"{given.responses:,} responses", Mutator(given.seed + 1)
    with Siege(report, program, title) as siege, datagram_socket(siege.address, 10) as sender:
        for number in range(given.responses):
            data = bytearray(mutator.next())
            if len(data) < 3:
                continue
            data[2] |= 0x80
            sender.send(bytes(data))
            if number % BATCH == 0:
                sender.send(query(GOOD))
                report.check(f"{title}: the next reply after {data.hex()}", siege.good_reply, sender.recv(65535))
        sender.settimeout(0.5)
        with contextlib.suppress(socket.timeout):
            report.check(f"{title}: nothing more", b"", sender.recv(65535))


def spoofed(source, target, data: bytes) -> bytes:
    """An IPv4 packet with a datagram whose source is another's (RFC 791, RFC 768). The system fills in the checksum of the
    header, and UDP needs none."""
    addresses = socket.inet_aton(source[0]) + socket.inet_aton(target[0])
    size = (28 + len(data)).to_bytes(2, "big")
    head = b"\x45\0" + size + b"\0\0\0\0\x40\x11\0\0" + addresses
    return head + b"".join(it.to_bytes(2, "big") for it in (source[1], target[1], 8 + len(data), 0)) + data


def try_two_servers(report: Report, program: str, given) -> None:
    """A question to one server that seems to come from another: the reply ends there, so two servers don't talk for ever."""
    title = "a question of one server to another"
    report.begin()
    try:
        sender = socket.socket(socket.AF_INET, socket.SOCK_RAW, socket.IPPROTO_RAW)
    except PermissionError:
        report.skip(title, "no right to open raw sockets")
        return
    with sender, NameServer(ZONE, program=program) as one, NameServer(ZONE, program=program) as other:
        pair = (one.address, one.port), (other.address, other.port)
        requests = [
            query(GOOD, id=1),
            query("no.t.", id=2, payload=1232),
            query("u.", id=3),
            query(GOOD, id=4, flags=4 << 11),
        ]
        for request in requests:
            sender.sendto(spoofed(pair[1], pair[0], request), (pair[0][0], 0))
        one.wait_for_requests(len(requests))
        time.sleep(1)
        wanted = [(False, "udp", f"{pair[1][0]}:{pair[1][1]}", number + 1) for number in range(len(requests))]
        report.check(f"{title}: its log", wanted, [(it.code is None, it.transport, it.peer, it.id) for it in one.requests()])
        wanted = [(True, 0, f"{pair[0][0]}:{pair[0][1]}", number + 1) for number in range(len(requests))]
        found = [(it.code is None, it.reply_bytes, it.peer, it.id) for it in other.requests()]
        report.check(f"{title}: the log of the other one", wanted, found)
        for address in pair:
            reply = ask_datagram(address, query(GOOD))
            report.check(f"{title}: afterwards", Server([zone_of(ZONE)]).reply(query(GOOD)), reply)
    report.end(title)
