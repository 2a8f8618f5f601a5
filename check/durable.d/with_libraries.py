"""Signed updates and questions by dnspython, and by the client of certbot's plugin for RFC 2136. Debian's Python runs this.

usage: with_libraries.py PORT NAME SECRET ALGORITHM

Prints a line for each step that went wrong, and at last how many there were."""
import sys

import dns.message
import dns.name
import dns.query
import dns.rcode
import dns.tsig
import dns.tsigkeyring
import dns.update

PORT, NAME, SECRET, ALGORITHM = int(sys.argv[1]), *sys.argv[2:]
STEPS = [0]


def check(title, wanted, came):
    """Compares what came with what was wanted."""
    STEPS[0] += 1
    if wanted != came:
        print(f"FAULT {title}: {came}, not {wanted}")


def with_dnspython():
    """Updates over datagrams and streams, whose replies dnspython verifies; and one whose key is wrong."""
    algorithm = dns.name.from_text({"hmac-md5": "hmac-md5.sig-alg.reg.int"}.get(ALGORITHM, ALGORITHM))
    ring = dns.tsigkeyring.from_text({NAME: SECRET})
    for title, ask in (("udp", dns.query.udp), ("tcp", dns.query.tcp)):
        change = dns.update.Update("example.", keyring=ring, keyalgorithm=algorithm)
        change.add(f"{title}.{ALGORITHM}", 60, "A", "192.0.2.8")
        reply = ask(change, "127.0.0.1", port=PORT, timeout=5)
        check(f"{title}: an update", (dns.rcode.NOERROR, True), (reply.rcode(), reply.had_tsig))
        question = dns.message.make_query(f"{title}.{ALGORITHM}.example.", "A")
        question.use_tsig(ring, algorithm=algorithm)
        reply = ask(question, "127.0.0.1", port=PORT, timeout=5)
        check(f"{title}: a question", (1, True), (len(reply.answer), reply.had_tsig))
    wrong = dns.tsigkeyring.from_text({NAME: "AAAAAAAAAAAAAAAAAAAAAA=="})
    change = dns.update.Update("example.", keyring=wrong, keyalgorithm=algorithm)
    change.add("wrong", 60, "A", "192.0.2.8")
    try:
        came = dns.query.udp(change, "127.0.0.1", port=PORT, timeout=5).rcode()
    except dns.tsig.PeerBadSignature as error:
        came = type(error).__name__
    check("a wrong secret", "PeerBadSignature", came)


def with_certbot():
    """The challenge of a certificate is added and removed, as certbot does."""
    from certbot_dns_rfc2136._internal.dns_rfc2136 import _RFC2136Client

    algorithm = {
        "hmac-md5": dns.tsig.HMAC_MD5,
        "hmac-sha1": dns.tsig.HMAC_SHA1,
        "hmac-sha224": dns.tsig.HMAC_SHA224,
        "hmac-sha256": dns.tsig.HMAC_SHA256,
        "hmac-sha384": dns.tsig.HMAC_SHA384,
        "hmac-sha512": dns.tsig.HMAC_SHA512,
    }[ALGORITHM]
    client = _RFC2136Client("127.0.0.1", PORT, NAME, SECRET, algorithm)
    name = "_acme-challenge.www.example."

    def texts():
        reply = dns.query.udp(dns.message.make_query(name, "TXT"), "127.0.0.1", port=PORT, timeout=5)
        return sorted(str(it) for found in reply.answer for it in found)

    client.add_txt_record(name, "one", 120)
    client.add_txt_record(name, "two", 120)
    check("certbot adds", ['"one"', '"two"'], texts())
    client.del_txt_record(name, "one")
    check("certbot removes", ['"two"'], texts())
    client.del_txt_record(name, "two")
    check("certbot removes the last one", [], texts())


with_dnspython()
with_certbot()
print(f"{STEPS[0]} steps")
