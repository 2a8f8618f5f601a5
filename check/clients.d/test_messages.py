"""The messages of `clients/python/nameserver_messages.py`, each beside those of dnspython."""
import re

import dns.message
import dns.name
import dns.rdata
import dns.rdatatype
import dns.tsig
import dns.tsigkeyring
import dns.update
import pytest

import nameserver_messages as messages
from nameserver_messages import Key, MessageError, Update

ZONE = "example.com."
# Data of each type that has a form, as dnspython prints it, but for the digits of octets.
DATA = [
    ("A", "192.0.2.1"),
    ("AAAA", "2001:db8::1"),
    ("CAA", '0 issue "ca.example.net"'),
    ("CNAME", "a\\.b.example.net."),
    ("DNAME", "example.net."),
    ("DS", "1 13 2 " + "ab" * 32),
    ("HINFO", '"PC" "Linux 6"'),
    ("MX", "10 mail.example.net."),
    ("NAPTR", '100 10 "u" "E2U+sip" "!^.*$!sip:a@example.net!" .'),
    ("NS", "ns.example.net."),
    ("PTR", "example.net."),
    ("SOA", "ns.example.net. hostmaster.example.net. 1 3600 600 86400 30"),
    ("SPF", '"v=spf1 -all"'),
    ("SRV", "1 2 5060 sip.example.net."),
    ("SSHFP", "1 1 " + "cd" * 20),
    ("TLSA", "3 1 1 " + "ef" * 32),
    ("TXT", '"a b" "\\"" "\\\\" "\\195\\164" ""'),
]


@pytest.mark.parametrize("kind, text", DATA)
def test_data(kind, text):
    """Data is encoded as by dnspython, and its text is read back by it."""
    theirs = dns.rdata.from_text("IN", kind, text)
    ours = messages.encode_data(kind, messages.words_of(text))
    assert ours == theirs.to_wire()
    printed = messages.decode_data(messages.type_number(kind), ours, 0, len(ours))
    assert printed.lower() == theirs.to_text().lower()
    assert messages.type_number(kind) == dns.rdatatype.from_text(kind)


def test_longest():
    """The longest label, name, string and TTL are those of RFC 1035 section 2.3.4 and RFC 2181 section 8."""
    labels = [it * 63 for it in "abc"]
    longest = ".".join([*labels, "d" * 61])
    assert messages.encode_name(longest) == dns.name.from_text(longest).to_wire()
    assert messages.encode_string("x" * 255) == b"\xff" + b"x" * 255
    assert Update(f"append a {(1 << 31) - 1} TXT x", ZONE).changes
    for call in (
        lambda: messages.encode_name(longest + "d"),
        lambda: messages.encode_name("a" * 64),
        lambda: messages.encode_string("x" * 256),
        lambda: Update(f"append a {1 << 31} TXT x", ZONE),
    ):
        with pytest.raises(ValueError):
            call()


def test_escapes():
    """A dot that is escaped ends no label and no name, as for dnspython."""
    origin = dns.name.from_text(ZONE)
    for text in ("a\\.b", "a\\.", "a\\046", "\\@", "a\\\\.", "@", "b.Example.COM", "bexample.com"):
        whole = messages.whole_name(text, ZONE)
        wanted = text + "." if text.lower().endswith(".example.com") else text
        assert messages.encode_name(whole) == dns.name.from_text(wanted, origin).to_wire(), text


def test_data_without_a_form():
    """Data of other types is written in the form of RFC 3597 section 5, and so is data that is not of its type."""
    loc = dns.rdata.from_text("IN", "LOC", "52 22 23 N 4 53 32 E 0m").to_wire()
    text = f"\\# 16 {loc.hex()}"
    assert messages.encode_data("TYPE29", text.split()) == loc
    assert messages.decode_data(29, loc, 0, 16) == text[:6] + loc.hex().upper()
    assert messages.decode_data(1, b"\1\2\3", 0, 3) == "\\# 3 010203"


NSUPDATE = """
; a comment
zone example.com
prereq nxdomain gone.example.com
prereq yxdomain there.example.com.
prereq nxrrset a.example.com. AAAA
prereq yxrrset a.example.com IN MX
prereq yxrrset b.example.com A 192.0.2.1
prereq yxrrset b.example.com IN A 192.0.2.2
update add c.example.com 60 IN TXT "a b" c
add c.example.com 60 a 192.0.2.3
update delete d.example.com
del e.example.com. MX
update delete f.example.com 60 IN A 192.0.2.4
send
"""


def test_words_of_nsupdate():
    """The update that dnspython makes of the same changes."""
    theirs = dns.update.UpdateMessage("example.com.")
    theirs.absent("gone")
    theirs.present("there")
    theirs.absent("a", "AAAA")
    theirs.present("a", "MX")
    theirs.present("b", "A", "192.0.2.1")
    theirs.present("b", "A", "192.0.2.2")
    theirs.add("c", 60, "TXT", '"a b" c')
    theirs.add("c", 60, "A", "192.0.2.3")
    theirs.delete("d")
    theirs.delete("e", "MX")
    theirs.delete("f", "A", "192.0.2.4")
    assert records_of(Update(NSUPDATE, "example.net.").to_wire(7)) == records_of(theirs.to_wire(max_size=65535))


def test_words_of_lookup():
    """Names are completed by the zone, but for those that have a dot at their end or are in the zone."""
    text = """
        create a 60 MX 10 mail
        append @ 60 TXT x
        swap www.example.com 60 A 192.0.2.1 -> 192.0.2.2
        delete-record b.example.com. MX 10 example.net.
        delete-set b TXT
        delete-name c
    """
    theirs = dns.update.UpdateMessage("example.com.")
    theirs.absent("a", "MX")
    theirs.add("a", 60, "MX", "10 mail.example.com.")
    theirs.add("@", 60, "TXT", "x")
    theirs.present("www", "A", "192.0.2.1")
    theirs.delete("www", "A", "192.0.2.1")
    theirs.add("www", 60, "A", "192.0.2.2")
    theirs.delete("b", "MX", "10 example.net.")
    theirs.delete("b", "TXT")
    theirs.delete("c")
    assert records_of(Update(text, "example.com.").to_wire(7)) == records_of(theirs.to_wire(max_size=65535))


def records_of(wire):
    """The zone and the records of each section of an update, as dnspython decodes them, in their order."""
    found = dns.message.from_wire(wire, one_rr_per_rrset=True)
    assert found.opcode() == 5 and not found.additional
    return [[it.to_text() for it in section] for section in found.sections]


@pytest.mark.parametrize(
    "line, reason",
    [
        ("www 60 A 192.0.2.1", "'www' is none of create, append, swap, "),
        ("append www 60 A", "the form is append NAME TTL TYPE DATA"),
        ("swap www 60 A 192.0.2.1 192.0.2.2", "the form is swap NAME TTL TYPE DATA -> DATA"),
        ("delete-set www", "the form is delete-set NAME TYPE"),
        ("delete-name www A", "the form is delete-name NAME"),
        ("append www soon A 192.0.2.1", "'soon' is no TTL, which is a number of seconds"),
        ("append www 60 A 192.0.2.256", "'192.0.2.256' is no data of type A"),
        ("append www 60 A 192.0.2.1 192.0.2.2", "'192.0.2.1 192.0.2.2' is no data of type A: it has 2 words"),
        ("append www 60 LOC 52 22 23 N", "data of type LOC is written as \\# LENGTH HEX"),
        ("append www 60 TYPE9 \\# 2 01", "has 1 octets"),
        ("append www 60 WEB x", "data of type WEB is written as"),
        ("delete-set www WEB", "'WEB' is no type that is known here: write TYPE and its number"),
        ("append a..b 60 A 192.0.2.1", "'a..b.example.com.' is no name"),
        ("append b\u00fcro 60 A 192.0.2.1", "write it in its ASCII form, which begins with xn--"),
        (f"append {'a' * 64} 60 A 192.0.2.1", "is no name: it is too long"),
        ('append www 60 TXT "a', "a quote that is not closed"),
        ("update add www.example.com. 60 A", "the form is add NAME TTL TYPE DATA"),
        ("prereq yxname www", "'prereq yxname' is none of"),
        ("", "it has no changes"),
    ],
)
def test_faulty_line(line, reason):
    with pytest.raises(ValueError, match=re.escape(reason)):
        Update(line, ZONE)


@pytest.mark.parametrize("algorithm", sorted(messages.ALGORITHMS))
def test_signature(algorithm):
    """dnspython verifies the signature of an update, and its signature of the reply is verified."""
    secret = b"0123456789abcdef"
    name = dns.name.from_text(messages.ALGORITHMS[algorithm][0])
    theirs = dns.tsig.Key("Me.example.", secret, name)
    text = f'key "me.example." {{\n\talgorithm {algorithm};\n\tsecret "MDEyMzQ1Njc4OWFiY2RlZg==";\n}};\n'
    key = Key.read(text)
    wire, mac = key.sign(Update("delete-name a", ZONE).to_wire(7))
    request = dns.message.from_wire(wire, keyring={theirs.name: theirs})
    assert request.had_tsig and request.mac == mac
    reply = dns.message.make_response(request)
    reply.use_tsig(theirs)
    signed = reply.to_wire()
    assert key.verify(signed, mac) is None
    for wrong in (signed[:2] + b"\x29" + signed[3:], signed[:-20] + bytes([signed[-20] ^ 1]) + signed[-19:]):
        with pytest.raises(MessageError, match="wrong"):
            key.verify(wrong, mac)
    with pytest.raises(MessageError, match="wrong"):
        key.verify(signed, mac[:-1] + bytes([mac[-1] ^ 1]))
    with pytest.raises(MessageError, match="wrong"):
        Key("you.example.", secret, algorithm).verify(signed, mac)
    with pytest.raises(MessageError, match="not signed"):
        key.verify(dns.message.make_response(dns.message.from_wire(Update("delete-name a", ZONE).to_wire(7))).to_wire(), mac)


def test_late_signature(monkeypatch):
    """A reply that was signed ten minutes ago is refused, and its signature is right all the same."""
    key = Key("me.example.", b"0123456789abcdef")
    wire, mac = key.sign(Update("delete-name a", ZONE).to_wire(7))
    theirs = dns.tsig.Key("me.example.", b"0123456789abcdef", "hmac-sha256")
    request = dns.message.from_wire(wire, keyring={theirs.name: theirs})
    reply = dns.message.make_response(request)
    reply.use_tsig(theirs)
    signed = reply.to_wire()
    now = messages.time.time()
    monkeypatch.setattr(messages.time, "time", lambda: now + 600)
    with pytest.raises(MessageError, match="too late"):
        key.verify(signed, mac)


def test_faulty_key(tmp_path):
    with pytest.raises(ValueError, match="no key of the form"):
        Key.read("{ }")
    with pytest.raises(ValueError, match="not in base64"):
        Key.read('key "a." { algorithm hmac-sha256; secret "*"; };')
    with pytest.raises(ValueError, match="'hmac-sha3' is none of the algorithms hmac-md5, "):
        Key.read('key "a." { algorithm hmac-sha3; secret "YQ=="; };')
    file = tmp_path / "a.key"
    file.write_text('key a. {\n\talgorithm "hmac-sha1";\n\tsecret YQ==;\n};\n')
    assert (Key.read(file).secret, Key.read(str(file)).name) == (b"a", b"\1a\0")


def test_faulty_messages():
    """Bytes that are no message are an error of their own."""
    good = dns.message.make_response(dns.message.make_query("a.", "A")).to_wire()
    assert messages.decode_message(good).answers == []
    answer = dns.message.from_text("id 1\nflags QR\n;QUESTION\na. IN A\n;ANSWER\na. 60 IN A 192.0.2.1").to_wire()
    assert [it.data for it in messages.decode_message(answer).answers] == ["192.0.2.1"]
    cut = [b"", good[:12], good[:11], answer[:-1], answer[:-4], answer[:-12]]
    for wire in [*cut, good[:7] + b"\1" + good[8:], good[:12] + b"\xc0\x0c" + good[12:], good[:12] + b"\x41" + b"a" * 65 + good[14:]]:
        with pytest.raises(MessageError):
            messages.decode_message(wire)
