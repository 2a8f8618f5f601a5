"""Requests as bytes over UDP, TCP and IPv6, and streams that are cut at each byte, beside the model."""
import socket
from typing import List

from messages import UPDATE_FLAGS, numbers, opt_record, query, question, update
from nameserver import NameServer
from replies import Server
from report import Report
from request_script import ZONE as SMALL
from samples import samples
from tools import CHILD, QUESTIONS, ZONE
from transport import ask_datagram, ask_stream, connect, frame, read_frame
from watch import Watched
from zones import CLASS_ANY, CLASS_NONE, Record, name_of, record_of, zone_of

PARENTS = ["t. 60 IN SOA ns.t. h.t. 1 3600 600 86400 30\na.t. 60 IN A 10.0.0.1\nx.b.t. 60 IN A 10.0.0.2",
           "b.t. 60 IN SOA ns.t. h.t. 1 3600 600 86400 30\na.b.t. 60 IN A 10.0.0.3"]  # fmt: skip
ROOT = ". 60 IN SOA ns.t. h.t. 1 3600 600 86400 30\na. 60 IN A 10.0.0.4"
# A cut at which the server does not answer takes a while, so the others are left out after so many.
MOST_FAULTS = 3
# What has no reply: fewer bytes than a header, responses, and what does not decode.
WITHOUT_REPLY = [
    b"", b"\0", bytes(11), query("a.t.", flags=0x8000), query("a.t.", flags=0xFFFF), query("a.t.")[:-1], bytes(4) + b"\0\1" + bytes(6),
    numbers(1, 0, 1, 0, 0, 0) + b"\xc0\x0c" + numbers(1, 1), numbers(1, 0, 1, 0, 0, 0) + b"\x40a\0" + numbers(1, 1),
    query("a.t.", payload=512)[:-1], numbers(1, 0, 1, 0, 0, 2) + question(name_of("a.t."), 1) + opt_record() * 2, b"\xff" * 600,
]  # fmt: skip


def other_requests() -> List[bytes]:
    """Requests of each opcode and shape, with and without EDNS."""
    found = [query("a.t.", flags=code << 11) for code in range(16)]
    found += [numbers(1, 0, count, 0, 0, 0) + question(name_of("a.t."), 1) * count for count in (0, 2, 3)]
    found += [
        query("a.t.", id=id, flags=flags)
        for id in (0, 0xFFFF)
        for flags in (0, 0x0010, 0x0020, 0x0040, 0x0080, 0x0200, 0x0400, 0x7)
    ]
    found += [query("a.t.")[:-2] + numbers(rclass) for rclass in (0, 2, 3, 4, 254, 255, 256)]
    found += [query("a.t.", f"TYPE{rtype}") for rtype in (0, 24, 41, 128, 249, 250, 251, 252, 253, 254, 255, 256, 65535)]
    found += [query("A.T.", payload=payload) for payload in (0, 1, 511, 512, 513, 1232, 65535)]
    edns = numbers(1, 0, 1, 0, 0, 1) + question(name_of("a.t."), 1)
    found += [
        edns + opt_record(1232, flags, options)
        for flags in (0x8000, 0x7FFF)
        for options in (b"", numbers(10, 8) + bytes(8), numbers(3, 0))
    ]
    found += [edns + b"\0" + numbers(41, 1232, 1, 0, 0), query("a.t.") + b"trailing", query("a.t.") + bytes(1200)]
    return found


def other_updates() -> List[bytes]:
    """Updates of other zones and classes, and malformed ones."""
    address = [record_of("n.t. 60 IN A 10.0.0.9")]
    found = [update(origin, [], address) for origin in ("T.", "a.t.", "u.", ".")]
    head = numbers(1, UPDATE_FLAGS, 1, 0, 0, 0)
    found += [
        head + question(name_of("t."), rtype, rclass) for rtype, rclass in ((6, 1), (1, 1), (6, 3), (6, 255), (255, 1))
    ]
    found += [numbers(1, UPDATE_FLAGS, count, 0, 0, 0) + question(name_of("t."), 6) * count for count in (0, 2)]
    for rclass in (1, 3, CLASS_NONE, CLASS_ANY):
        for ttl in (0, 1):
            for rtype in (1, 5, 6, 41, 252, 255):
                for data in (None, (b"\x0a\0\0\1",)):
                    if rtype in (1, 255) or data is None:
                        record = Record(name_of("m.t."), ttl, rtype, data, rclass)
                        found += [update("t.", [record], []), update("t.", [], [record])]
    return found


def try_requests(report: Report, program: str) -> None:
    """Good requests and others, each as a datagram and over a stream, against servers with several limits."""
    requests = [data for _, _, data in samples()["requests"]] + other_requests() + other_updates()
    for limit in (512, 1232, 65507):
        report.begin()
        with Watched(program, [SMALL], limit=limit) as watched:
            for request in requests:
                for is_stream in (False, True):
                    if watched.model.reply(request, is_stream) is None:
                        continue
                    watched.expect(report, "request", request, is_stream)
        report.end(f"requests as bytes with --limit {limit}")


def try_sizes(report: Report, program: str) -> None:
    """Replies that just fit, and just don't: sets of each size, and each payload size around those of some replies."""
    lines = ["t. 60 IN SOA ns.t. h.t. 1 3600 600 86400 30"]
    for count in (1, 29, 30, 31, 74, 75, 76, 118, 119, 120, 200, 4000, 5000):
        lines += [f"n{count}.t. 60 IN A 10.{at // 62500}.{at // 250 % 250}.{at % 250}" for at in range(count)]
    for limit in (512, 1232, 65507):
        report.begin()
        with Watched(program, ["\n".join(lines)], limit=limit) as watched:
            for count in (1, 29, 30, 31, 74, 75, 76, 118, 119, 120, 200, 4000, 5000):
                for payload in (None, 512, 513, 527, 528, 529, 1231, 1232, 1233, 4096, 65507, 65535):
                    request = query(f"n{count}.t.", payload=payload)
                    watched.expect(report, f"{count} addresses", request)
                watched.expect(report, f"{count} addresses over a stream", query(f"n{count}.t.", payload=1232), True)
        report.end(f"replies around their limits with --limit {limit}")


def try_silence(report: Report, program: str) -> None:
    """What has no reply, each followed by a question that has one: nothing else comes."""
    report.begin()
    with Watched(program, [SMALL]) as watched:
        good = query("a.t.", id=77)
        wanted = watched.model.reply(good)
        with socket.socket(socket.AF_INET, socket.SOCK_DGRAM) as sender:
            sender.settimeout(5)
            sender.connect(watched.address)
            for silent in WITHOUT_REPLY:
                report.check(f"model of {silent.hex()}", None, watched.model.reply(silent))
                sender.send(silent)
                sender.send(good)
                report.check(f"the reply after the datagram {silent.hex()}", wanted, sender.recv(65535))
            sender.settimeout(0.3)
            report.check("nothing more", b"", received(sender))
        for silent in WITHOUT_REPLY:
            replies = exchange(watched, frame(silent) + frame(good), [2 + len(silent)])
            report.check(f"the reply after the frame {silent.hex()}", frame(wanted), replies)
    report.end("what has no reply")


def received(sender: socket.socket) -> bytes:
    try:
        return sender.recv(65535)
    except socket.timeout:
        return b""


def exchange(watched: Watched, data: bytes, cuts: List[int], closes: bool = True) -> bytes:
    """Sends bytes in pieces that end at some places, and returns all that comes back."""
    with connect(watched.address) as stream:
        stream.setsockopt(socket.IPPROTO_TCP, socket.TCP_NODELAY, 1)
        start = 0
        for end in [*cuts, len(data)]:
            stream.sendall(data[start:end])
            start = end
        if closes:
            stream.shutdown(socket.SHUT_WR)
        found = bytearray()
        while True:
            try:
                more = stream.recv(65536)
            except (socket.timeout, ConnectionResetError):
                return bytes(found) + b" and no end"
            if not more:
                return bytes(found)
            found += more


def try_streams(report: Report, program: str) -> None:
    """Streams of several frames, cut at each byte, byte by byte, and in one piece."""
    requests = [query("a.t.", id=1), query("c.t.", "TXT", id=2), b"", query("a.t.", flags=0x8180), query("no.t.", id=3, payload=4096),
                update("t.", [], [record_of("e.t. 60 IN A 10.0.0.5")], id=4), query("e.t.", id=5)]  # fmt: skip
    data = b"".join(frame(it) for it in requests)
    report.begin()
    with Watched(program, [SMALL]) as watched:
        watched.model.reply(requests[5])
        wanted = b"".join(frame(reply) for reply in (watched.model.reply(it, True) for it in requests) if reply is not None)
        report.check("all in one piece", wanted, exchange(watched, data, []))
        faults = 0
        for cut in range(len(data)):
            faults += not report.check(f"cut at byte {cut}", wanted, exchange(watched, data, [cut]))
            if faults == MOST_FAULTS:
                break
        report.check("byte by byte", wanted, exchange(watched, data, list(range(1, len(data)))))
        report.check("a frame without its end", wanted, exchange(watched, data + frame(query("a.t."))[:-1], [len(data)]))
        report.check("a length alone", wanted, exchange(watched, data + b"\0", [len(data)]))
        many = [query("a.t.", id=at) for at in range(3000)]
        wanted = b"".join(frame(watched.model.reply(it, True)) for it in many)
        report.check("3,000 frames in one piece", wanted, exchange(watched, b"".join(frame(it) for it in many), []))
        try_open_stream(report, watched)
    report.end("streams in pieces of each size")


def try_open_stream(report: Report, watched: Watched) -> None:
    """A stream that stays open: each reply comes before the next request, and after other connections."""
    with connect(watched.address) as first, connect(watched.address) as second:
        for number in range(50):
            for stream in (first, second):
                request = query("a.t.", id=number)
                stream.sendall(frame(request))
                report.check(f"request {number} of an open stream", watched.model.reply(request, True), read_frame(stream))


def try_addresses(report: Report, program: str) -> None:
    """Several addresses, of IPv6 too: a reply comes from the address that was asked."""
    report.begin()
    model = Server([zone_of(ZONE), zone_of(CHILD)])
    options = [word for it in ("127.0.0.2:0", "[::1]:0", "127.0.0.1:0") for word in ("--listen", it)]
    with NameServer([ZONE, CHILD], program=program, options=options, seconds=60) as server:
        hosts = [it[0] for it in server.addresses]
        report.check("the addresses in order", ["127.0.0.1", "127.0.0.2", "::1", "127.0.0.1"], hosts)
        for address in server.addresses:
            for question_asked in QUESTIONS:
                request = query(*question_asked, payload=1232)
                report.check(f"{address} {question_asked}", model.reply(request), ask_datagram(address, request))
            requests = [query(*it) for it in QUESTIONS]
            report.check(
                f"{address} over a stream", [model.reply(it, True) for it in requests], ask_stream(address, requests)
            )
    report.end("four addresses, one of them of IPv6")


def try_zones(report: Report, program: str) -> None:
    """The zone with the closest origin answers, in any order of the zones; an update reaches no other."""
    names = ["t.", "a.t.", "b.t.", "x.b.t.", "a.b.t.", "no.b.t.", "ab.t.", "u.", ".", "a.", "B.T."]
    changes = [("t.", "n.t."), ("b.t.", "n.b.t."), ("t.", "n.b.t."), ("u.", "n.u."), (".", "n."), ("a.b.t.", "n.a.b.t.")]
    for texts in (PARENTS, PARENTS[::-1], [*PARENTS, ROOT], [ROOT, *PARENTS[::-1]]):
        report.begin()
        with Watched(program, texts) as watched:
            for origin, owner in [(None, None), *changes]:
                if origin:
                    request = update(origin, [], [record_of(f"{owner} 60 IN A 10.0.0.6")])
                    watched.expect(report, f"update of {origin}", request)
                for name in [*names, *(it for _, it in changes)]:
                    for rtype in ("A", "SOA", "NS", "ANY"):
                        watched.expect(report, f"{name} {rtype}", query(name, rtype))
        report.end(f"the zones {', '.join(it.split()[0] for it in texts)}")


def try_bytes(report: Report, program: str, _missing: List[str]) -> None:
    for work in (try_requests, try_sizes, try_silence, try_streams, try_addresses, try_zones):
        report.attempt(work.__name__, work, program)
