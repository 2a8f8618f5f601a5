"""Signed requests to a server that makes faults, by dnspython, which verifies the replies. Debian's Python runs this.

usage: with_faults.py PORT NAME SECRET ALGORITHM faults | refused | left

Prints a line for each step that went wrong, and at last how many there were."""
import sys
import time

import dns.exception
import dns.flags
import dns.message
import dns.name
import dns.query
import dns.rcode
import dns.tsig
import dns.tsigkeyring
import dns.update

PORT, NAME, SECRET, ALGORITHM, PART = int(sys.argv[1]), *sys.argv[2:]
RING = dns.tsigkeyring.from_text({NAME: SECRET})
WRONG = dns.tsigkeyring.from_text({NAME: "AAAAAAAAAAAAAAAAAAAAAA=="})
KIND = dns.name.from_text({"hmac-md5": "hmac-md5.sig-alg.reg.int"}.get(ALGORITHM, ALGORITHM))
STEPS = [0]


def check(title, wanted, came):
    """Compares what came with what was wanted."""
    STEPS[0] += 1
    if wanted != came:
        print(f"FAULT {title}: {came}, not {wanted}")


def signed(message, ring=RING):
    """A message that a key signs."""
    message.use_tsig(ring, algorithm=KIND)
    return message


def asked(name, ask=dns.query.udp, ring=RING):
    """The reply to a question, or the name of the error."""
    try:
        return ask(signed(dns.message.make_query(name, "A"), ring), "127.0.0.1", port=PORT, timeout=2)
    except (dns.exception.DNSException, OSError) as error:
        return type(error).__name__


def updated(name, address):
    """The code of the reply to an update, and whether it was signed; or the name of the error."""
    change = dns.update.Update("example.", keyring=RING, keyalgorithm=KIND)
    change.replace(name, 60, "A", address)
    try:
        reply = dns.query.udp(change, "127.0.0.1", port=PORT, timeout=2)
    except (dns.exception.DNSException, OSError) as error:
        return type(error).__name__
    return reply.rcode(), reply.had_tsig


def addresses(reply):
    """The addresses of a reply."""
    return [str(it) for found in reply.answer for it in found] if isinstance(reply, dns.message.Message) else reply


def faults():
    """Rules on questions."""
    for name in ("coded", "cut", "late", "dropped", "stale", "other"):
        check(f"{name} is added", (dns.rcode.NOERROR, True), updated(name, "192.0.2.1"))
    reply = asked("coded.example.")
    check("a code alone is signed", (dns.rcode.SERVFAIL, True, 0), (reply.rcode(), reply.had_tsig, len(reply.answer)))
    reply = asked("cut.example.")
    check("a truncated reply is signed", (True, True, 0), (bool(reply.flags & dns.flags.TC), reply.had_tsig, len(reply.answer)))
    check("a stream has all of it", ["192.0.2.1"], addresses(asked("cut.example.", dns.query.tcp)))
    start = time.monotonic()
    check("a late reply verifies", ["192.0.2.1"], addresses(asked("late.example.")))
    check("it is late", True, time.monotonic() - start >= 0.3)
    check("a question is dropped", "Timeout", asked("dropped.example."))
    check("once", ["192.0.2.1"], addresses(asked("dropped.example.")))
    check("a wrong id is no reply", "BadResponse", asked("other.example."))
    check("stale is updated", (dns.rcode.NOERROR, True), updated("stale", "192.0.2.2"))
    reply = asked("stale.example.")
    check("a stale reply is signed", (["192.0.2.1"], True), (addresses(reply), reply.had_tsig))
    check("a code beside a wrong secret", "PeerBadSignature", asked("coded.example.", ring=WRONG))
    check("stale beside a wrong secret", "PeerBadSignature", asked("stale.example.", ring=WRONG))


def refused():
    """Rules on updates: none is made."""
    check("an update has a code alone", (dns.rcode.SERVFAIL, True), updated("first", "192.0.2.3"))
    check("an update is dropped", "Timeout", updated("second", "192.0.2.3"))
    check("the third is made", (dns.rcode.NOERROR, True), updated("third", "192.0.2.3"))
    check("the first was not made", [], addresses(asked("first.example.")))
    check("nor was the second", [], addresses(asked("second.example.")))


def left():
    """What is in the journal."""
    for name, wanted in (("stale", ["192.0.2.2"]), ("first", []), ("second", []), ("third", ["192.0.2.3"])):
        check(f"{name} after a restart", wanted, addresses(asked(f"{name}.example.")))


{"faults": faults, "refused": refused, "left": left}[PART]()
print(f"{STEPS[0]} steps")
