"""Good inputs for each reader: messages packed field by field as RFC 1035 section 4.1 draws them, names with pointers,
streams, zone files, hosts and scripts. Every one is accepted."""
from struct import pack

Sample = tuple[str, str, bytes]


def wire(name: str) -> bytes:
    """A name without compression."""
    labels = [it.encode() for it in name.split(".") if it]
    return b"".join(bytes([len(it)]) + it for it in labels) + b"\0"


def at(offset: int) -> bytes:
    """A compression pointer."""
    return pack(">H", 0xC000 | offset)


def header(counts: tuple[int, int, int, int], flags: int = 0x0100, ident: int = 0x1234) -> bytes:
    return pack(">6H", ident, flags, *counts)


def question(name: bytes, rtype: int = 1, rclass: int = 1) -> bytes:
    return name + pack(">2H", rtype, rclass)


def record(name: bytes, rtype: int, data: bytes, ttl: int = 60, rclass: int = 1) -> bytes:
    return name + pack(">2HIH", rtype, rclass, ttl, len(data)) + data


def opt(payload: int = 1232, data: bytes = b"", flags: int = 0) -> bytes:
    return record(b"\0", 41, data, flags, payload)


def query(name: str, rtype: int = 1, rclass: int = 1, flags: int = 0x0100) -> bytes:
    return header((1, 0, 0, 0), flags) + question(wire(name), rtype, rclass)


def update(prerequisites: list[bytes], updates: list[bytes], zone: bytes | None = None) -> bytes:
    zone = question(wire("t."), 6) if zone is None else zone
    return header((1, len(prerequisites), len(updates), 0), 0x2800) + zone + b"".join(prerequisites + updates)


def names() -> list[tuple[str, bytes]]:
    def starting(start: int, data: bytes) -> bytes:
        return bytes([start]) + data

    whole = ["", "a", "t", "a.t", "ns.t", "A.B.c", "www.example.com", "x" * 63, "_sip._udp.t", "a-b.c", "0.1.2.3", "*.t"]
    found = [(f"the name {it or 'of the root'}", starting(1, wire(it))) for it in whole]
    found += [
        ("labels of any octets", starting(1, b"\x03\x00\xff.\x01\x40\x00")),
        ("a label of the octets of a pointer", starting(1, b"\x02\xc0\x00\x00")),
        ("127 labels of one octet: 255 bytes", starting(1, b"\x01a" * 127 + b"\0")),
        ("labels of 63 and of 61 octets: 255 bytes", starting(1, wire(".".join(["b" * 63] * 3 + ["c" * 61])))),
        ("bytes after the name", starting(1, b"\x01a\x00\xc0\xff\x40")),
    ]
    f_isi_arpa = b"\x01F\x03ISI\x04ARPA\0"
    compressed = f_isi_arpa + b"\x03FOO" + at(1) + at(7) + b"\x00"
    found += [
        ("F.ISI.ARPA of RFC 1035 section 4.1.4", starting(1, compressed)),
        ("FOO.F.ISI.ARPA, which ends in a pointer", starting(13, compressed)),
        ("ARPA, which is a pointer", starting(19, compressed)),
        ("the root after a pointer", starting(21, compressed)),
        ("a pointer to the root", starting(2, b"\0" + at(1))),
        ("the root at the index 0", b"\x00\x00"),
        ("a pointer to a pointer", starting(6, b"\x01a\0" + at(1) + at(4))),
        ("a chain of four pointers", starting(10, b"\x01a\0" + at(1) + at(4) + at(6) + at(8))),
        ("labels before pointers", starting(12, b"\x01a\0\x01b" + at(1) + b"\x01c" + at(4) + b"\x01d" + at(8))),
        ("a pointer into a label", starting(8, b"\x03\x01x\x00a\0\0" + b"\x01y" + at(2))),
        ("a pointer to offset 254", starting(255, b"\0" * 254 + b"\x01q" + at(254))),
    ]
    deep = b"\x01a\0" + b"".join(b"\x01b" + at(1 if it == 0 else 4 * it) for it in range(20))
    found += [("a chain of twenty labels with pointers", starting(4 + 4 * 19, deep))]
    long_chain = b"\x01a\0" + b"".join(at(1 if it == 0 else 4 + 2 * (it - 1)) for it in range(60))
    found += [("a chain of sixty pointers", starting(4 + 2 * 59, long_chain))]
    found += [(f"a name of {it} labels", starting(1, wire(".".join("abcdefgh"[:it])))) for it in range(2, 9)]
    found += [(f"a label of {it} octets", starting(1, wire("z" * it))) for it in (2, 31, 62)]
    return found


def messages() -> list[tuple[str, bytes]]:
    question_at, address = question(wire("a.t")), record(wire("a.t"), 1, bytes(4))
    # A record whose owner and data are pointers, and one whose owner is the data of that.
    pointers = record(at(12), 5, b"\x01b" + at(14)) + record(at(33), 1, bytes(4))
    referral = record(at(14), 2, b"\x02ns" + at(14)) + record(at(33), 1, bytes(4))
    chained = record(at(12), 16, b"\x02" + at(12)) + record(at(34), 1, bytes(4)) + record(at(36), 1, bytes(4))
    absent = record(wire("a.t"), 255, b"", 0, 254)
    many = b"".join(record(at(12), 1, bytes([10, 0, 0, it])) for it in range(20))
    compressed_soa = b"\x02ns" + at(14) + b"\x01h" + at(14) + pack(">5I", 1, 2, 3, 4, 5)
    one = header((1, 1, 0, 0), 0x8580) + question_at
    soa = wire("ns.t") + wire("h.t") + pack(">5I", 1, 3600, 600, 86400, 30)
    found = [
        ("a header alone", header((0, 0, 0, 0))),
        ("a question", query("a.t")),
        ("the root's name servers", query("", 2)),
        ("two questions", header((2, 0, 0, 0)) + question_at + question(at(12), 28)),
        ("every flag", header((0, 0, 0, 0), 0xFFFF)),
        ("bytes after the message", header((0, 0, 0, 0)) + b"\xc0\xff"),
        ("an address", one + record(at(12), 1, bytes([10, 0, 0, 1]))),
        ("an address of IPv6", one + record(at(12), 28, bytes(range(16)))),
        ("a name server", one + record(at(12), 2, wire("ns.t"))),
        ("an alias with a pointer", one + record(at(12), 5, b"\x01b" + at(14))),
        ("a pointer of an address", one + record(at(12), 12, at(12))),
        ("a mail exchange", one + record(at(12), 15, pack(">H", 10) + at(12))),
        ("a start of authority", one + record(at(14), 6, compressed_soa)),
        ("a start of authority without pointers", one + record(at(14), 6, soa)),
        ("a service", one + record(at(12), 33, pack(">3H", 1, 2, 53) + wire("a.t"))),
        ("a service with a pointer, which is read", one + record(at(12), 33, pack(">3H", 1, 2, 53) + at(12))),
        ("one string", one + record(at(12), 16, b"\x03one")),
        ("strings, one of them empty", one + record(at(12), 16, b"\x03one\x00\x05three")),
        ("data of an unknown type", one + record(at(12), 65280, b"\x00\x01\x02")),
        ("data of NULL", one + record(at(12), 10, bytes(40))),
        ("data of HINFO as octets", one + record(at(12), 13, b"\x03cpu\x02os")),
        ("class CH", header((1, 0, 0, 0)) + question(wire("version.bind"), 16, 3)),
        ("an unknown class and type", header((1, 0, 0, 0)) + question(wire("t"), 65535, 65535)),
        ("a TTL of 32 bits", one + record(at(12), 1, bytes(4), 2**32 - 1)),
        ("an OPT record", header((1, 0, 0, 1)) + question_at + opt()),
        ("an OPT record with the flag DO", header((1, 0, 0, 1)) + question_at + opt(4096, b"", 0x8000)),
        ("an OPT record that announces 0 bytes", header((0, 0, 0, 1)) + opt(0)),
        ("options", header((0, 0, 0, 1)) + opt(512, pack(">2H", 10, 8) + bytes(8) + pack(">2H", 3, 0))),
        ("an extended response code", header((0, 0, 0, 1), 0x8007) + opt(1232, b"", 0x01000000)),
        ("an address before an OPT record", header((0, 0, 0, 2)) + address + opt()),
        ("an address after an OPT record", header((0, 0, 0, 2)) + opt() + address),
        ("a signature", header((0, 0, 0, 1)) + record(wire("k"), 250, b"\x00sig", 0, 255)),
        ("an OPT record and a signature", header((0, 0, 0, 2)) + opt() + record(wire("k"), 250, b"\x01", 0, 255)),
        ("a negative answer", header((1, 0, 1, 0), 0x8583) + question_at + record(at(14), 6, soa, 30)),
        ("an alias and its target", header((1, 2, 0, 0), 0x8180) + question_at + pointers),
        ("a referral", header((1, 0, 1, 1), 0x8000) + question_at + referral),
        ("an update that deletes a set", update([], [record(wire("a.t"), 1, b"", 0, 255)])),
        ("an update with prerequisites", update([absent], [address])),
        ("twenty addresses", header((1, 20, 0, 0), 0x8580) + question_at + many),
        ("owners in a chain of pointers", header((1, 3, 0, 0), 0x8000) + question_at + chained),
    ]
    return found


def streams() -> list[tuple[str, bytes]]:
    def frame(data: bytes) -> bytes:
        return pack(">H", len(data)) + data

    found = [("a stream without frames", b""), ("an empty frame", frame(b"")), ("a frame of one byte", frame(b"a"))]
    found += [(f"{it} empty frames", frame(b"") * it) for it in (2, 5, 17)]
    found += [(f"frames of up to {it} bytes", b"".join(frame(bytes(size)) for size in range(it))) for it in (3, 5, 8)]
    found += [
        ("a query in a frame", frame(query("a.t"))),
        ("two queries in frames", frame(query("a.t")) + frame(query("b.t", 28))),
        ("a frame of frames", frame(frame(b"ab") + frame(b""))),
        ("a frame of 256 bytes", frame(bytes(256))),
        ("a frame of 300 bytes and an empty one", frame(b"\xff" * 300) + frame(b"")),
        ("frames whose lengths are bytes of the others", frame(b"\x00\x02ab") + frame(b"\x00\x01")),
    ]
    return found


def requests() -> list[tuple[str, str, bytes]]:
    a, address = wire("a.t"), bytes([10, 0, 0, 1])
    both = [record(a, 1, address, 0), record(a, 1, bytes([10, 0, 0, 2]), 0)]
    authority = record(wire("t"), 6, wire("ns.t") + wire("h.t") + pack(">5I", 2, 1, 1, 1, 1))
    old, deleted = (record(a, 16, b"\x03one\x03two", 0, rclass) for rclass in (1, 254))
    found = [
        ("stream", "addresses", query("a.t")),
        ("stream", "strings", query("a.t", 16)),
        ("stream", "an alias", query("c.t")),
        ("stream", "an alias out of the zone", query("d.t")),
        ("stream", "the alias itself", query("c.t", 5)),
        ("stream", "a name without the type", query("a.t", 28)),
        ("stream", "no such name", query("b.t")),
        ("stream", "a name with a name below", query("y.t")),
        ("stream", "the origin's authority", query("T.", 6)),
        ("stream", "a name out of the zone", query("example.")),
        ("stream", "another class", query("a.t", 1, 3)),
        ("stream", "any type", query("a.t", 255)),
        ("stream", "no question", header((0, 0, 0, 0))),
        ("stream", "two questions", header((2, 0, 0, 0)) + question(a) + question(a)),
        ("stream", "another opcode", query("a.t", 1, 1, 0x2000)),
        ("datagram", "an unknown opcode", query("a.t", 1, 1, 0x7800)),
        ("datagram", "an OPT record", header((1, 0, 0, 1)) + question(a) + opt()),
        ("datagram", "an OPT record that announces much", header((1, 0, 0, 1)) + question(wire("ns.t")) + opt(65535)),
        ("datagram", "an OPT record that announces little", header((1, 0, 0, 1)) + question(wire("x.y.t"), 15) + opt(1)),
        ("datagram", "a mail exchange", query("x.y.t", 15)),
        ("datagram", "an added address", update([], [record(a, 1, bytes([10, 0, 0, 9]))])),
        ("datagram", "a deleted set", update([], [record(a, 1, b"", 0, 255)])),
        ("datagram", "a deleted name", update([], [record(a, 255, b"", 0, 255)])),
        ("datagram", "a deleted record", update([], [record(a, 1, address, 0, 254)])),
        ("datagram", "no zone section", update([], [], b"")[:4] + pack(">4H", 0, 0, 0, 0)),
        ("datagram", "another zone", update([], [], question(wire("u."), 6))),
        ("datagram", "a zone section of another type", update([], [], question(wire("t."), 1))),
        ("datagram", "a name out of the zone", update([], [record(wire("b.u"), 1, address)])),
        ("datagram", "a set that must exist", update([record(a, 1, b"", 0, 255)], [])),
        ("datagram", "a set that must not", update([record(a, 1, b"", 0, 254)], [])),
        ("small", "a name that must exist", update([record(wire("b.t"), 255, b"", 0, 255)], [])),
        ("small", "a name that must not", update([record(a, 255, b"", 0, 254)], [])),
        ("small", "a set with these data", update(both, [])),
        ("small", "a set with other data", update([record(a, 1, address, 0)], [])),
        ("small", "a set without the type", update([record(a, 28, b"", 0, 255)], [])),
        ("small", "an addition of no data", update([], [record(a, 1, b"")])),
        ("small", "a change of the authority", update([], [authority])),
        ("small", "a swap", update([old], [deleted, record(a, 16, b"\x01x")])),
        ("small", "many questions in one request", header((5, 0, 0, 0)) + question(a) + question(at(12)) * 4),
        ("small", "a response", query("a.t", 1, 1, 0x8180)),
    ]
    return found


def zones() -> list[tuple[str, bytes]]:
    soa = "@ 60 SOA ns h 1 3600 600 86400 30\n"
    found = [
        ("an empty file", ""),
        ("blank lines and comments", "\n  \n; a comment\n \t ; another\r\n"),
        ("an address", "a 60 A 10.0.0.1\n"),
        ("no end of the last line", "a 60 A 10.0.0.1"),
        ("an address of IPv6", "a 60 AAAA 2001:db8::1\n"),
        ("an address of IPv6 that ends in one of IPv4", "a 60 AAAA ::ffff:1.2.3.4\n"),
        ("class and TTL", "a IN 60 A 10.0.0.1\nb 60 in A 10.0.0.1\n"),
        ("class CH", "a 60 CH A 10.0.0.1\n"),
        ("a TTL with units", "a 1w2d3h4m5s A 10.0.0.1\n"),
        ("the greatest TTL", "a 4294967295 A 10.0.0.1\n"),
        ("the default TTL", "$TTL 1h\na A 10.0.0.1\n"),
        ("the last TTL", "a 60 A 10.0.0.1\nb A 10.0.0.1\n"),
        ("the minimum of the authority", "t. SOA ns.t. h.t. 1 1h 10m 1d 30\na.t. A 10.0.0.1\n"),
        ("an authority in parentheses", "@ 60 SOA ns h ( 1 ; serial\n 3600 600\n\n 86400 30 )\n"),
        ("the previous owner", "a 60 A 10.0.0.1\n  A 10.0.0.2\n\tTXT x\n"),
        ("an origin", "$ORIGIN t.\n" + soa + "a 60 A 10.0.0.1\n"),
        ("a relative origin", "$ORIGIN t.\n$ORIGIN b\n@ 60 A 10.0.0.1\n"),
        ("name servers and aliases", "$ORIGIN t.\n" + soa + "@ NS ns\nc CNAME a\np PTR @\n"),
        ("mail and services", "m 60 MX 10 a\ns 60 SRV 1 2 53 a.t.\n"),
        ("strings", 'a 60 TXT one "two; three" "" \\; @\n'),
        ("escapes", 'a\\.b\\032c 60 TXT "a\\"b" \\255\\\\\n'),
        ("types by number", "a 60 TYPE1 10.0.0.1\na 60 type00016 x\n"),
        ("equal data", "a 60 A 10.0.0.1\nA 70 A 10.0.0.1\n"),
        ("two aliases of a name", "a 60 CNAME b\na 60 CNAME c\n"),
        ("an included text", "$ORIGIN t.\n$INCLUDE inc\n$INCLUDE \"inc\" sub ; with an origin\n"),
        ("lines that end in CR LF", "a 60 A 10.0.0.1\r\nb 60 A 10.0.0.2\r\n"),
        ("a carriage return in a string", 'a 60 TXT "a\rb"\n'),
        ("characters that are not ASCII", "; f\u00fcr\na 60 TXT \u00e4\u20ac\n"),
        ("a wildcard and an underscore", "*.a 60 A 10.0.0.1\n_x._y 60 A 10.0.0.2\n"),
        ("a name of 255 bytes", ".".join(["b" * 63] * 3 + ["c" * 59]) + " 60 A 10.0.0.1\n"),
    ]
    return [(title, text.encode()) for title, text in found]


def hosts() -> list[tuple[str, bytes]]:
    found = [
        ("an empty file", ""),
        ("an address", "10.0.0.1 a\n"),
        ("no end of the last line", "10.0.0.1 a"),
        ("an address of IPv6", "2001:db8::1 a\n"),
        ("two names", "10.0.0.1 a b.t\n"),
        ("two addresses of a name", "10.0.0.1 a\n10.0.0.2 a\n"),
        ("the same address again", "10.0.0.1 a A a.\n"),
        ("comments", "# a comment\n10.0.0.1 a # b.t\n#\n"),
        ("tabs and blank lines", "\n\t10.0.0.1\t\ta\t\n\n"),
        ("lines that end in CR LF", "10.0.0.1 a\r\n::1 b.t\r\n"),
        ("a byte-order mark", "\ufeff10.0.0.1 a\n"),
        ("lines that are skipped", "a 10.0.0.1\nfe80::1%lo0 a\n10.0.0.01 a\n"),
        ("words that are no names", "10.0.0.1 -x a ..\n"),
        ("other white space", "10.0.0.1\u00a0a\u2003b.t\u3000\n"),
        ("escapes", "10.0.0.1 \\097 b\\.t b.t\n"),
    ]
    return [(title, text.encode()) for title, text in found]


def scripts() -> list[tuple[str, bytes]]:
    found = [
        ("an empty script", ""),
        ("blank lines and comments", "\n \t\n# a comment\n  # another\r\n"),
        ("a lookup", "0 lookup a.t. A\n"),
        ("no end of the last line", "0 lookup a.t. A"),
        ("a type by number", "0 lookup a TYPE65280\n"),
        ("addresses of a host", "0 ip a.t\n1 ip 10.0.0.1\n2 ip ::1\n"),
        ("removals", "0 clear a.t. aaaa\n1 clearall\n"),
        ("the greatest moment", "4611686018427387904 clearall\n"),
        ("a link script", "0 lookup a.t. A ; q0 r0 quiet fail u1\n"),
        ("honest link scripts", "0 lookup a.t. A ;\n1 ip a ; honest\n"),
        ("an escaped semicolon", "0 lookup a\\;b.t. A\n"),
        ("a created record", "0 update create b 60 A 10.0.0.9\n"),
        ("an added record", "0 update append b.t. 60 MX 10 @\n"),
        ("a swap", "0 update swap a 60 A 10.0.0.1 -> 10.0.0.2\n"),
        ("a swap of quoted strings", '0 update swap a 60 TXT "->" -> "b c" ; u0\n'),
        ("a deleted record", "0 update delete-record a A 10.0.0.1\n"),
        ("a deleted set", "0 update delete-set a TYPE1\n"),
        ("a deleted name", "0 update delete-name a\n"),
        ("tabs and many blanks", "\t0 \t lookup   a.t.\tA  \n"),
        ("a service and an authority", "0 update append s 1 SRV 1 2 3 a\n1 update append t. 1 SOA a b 1 1h 2 3 4\n"),
    ]
    return [(title, text.encode()) for title, text in found]


def samples() -> dict[str, list[Sample]]:
    """The good inputs: by file, each with its reader and a title."""
    return {
        "names": [("name", *it) for it in names()],
        "messages": [("message", *it) for it in messages()],
        "frames": [("frames", *it) for it in streams()],
        "requests": [(reader, title, data) for reader, title, data in requests()],
        "zones": [("zone", *it) for it in zones()],
        "hosts": [("hosts", *it) for it in hosts()],
        "scripts": [("script", *it) for it in scripts()],
    }
