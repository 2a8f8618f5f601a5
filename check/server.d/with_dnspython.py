"""Asks a server by dnspython: each question over UDP, TCP and UDP with a fallback, and then updates.

The arguments are an address and a port; standard input has the questions. Prints a list of steps, each a title and the bytes of
the reply as they came. dnspython itself checks that a reply has the id and the question of its request.
"""
import json
import sys

import dns.flags
import dns.message
import dns.name
import dns.query
import dns.rcode
import dns.update

ADDRESS, PORT = sys.argv[1], int(sys.argv[2])
SECONDS = 20
STEPS = []


def note(title, reply):
    STEPS.append((title, reply.wire.hex() if hasattr(reply, "wire") else reply.to_wire().hex()))
    return reply


def keep_wire():
    """Makes each message keep the bytes that it was read from."""
    read = dns.message.from_wire

    def reading(wire, *given, **named):
        message = read(wire, *given, **named)
        message.wire = bytes(wire)
        return message

    dns.message.from_wire = reading


def ask(name, rtype):
    """Asks a question in each way."""
    plain = dns.message.make_query(name, rtype)
    note(f"udp {name} {rtype}", dns.query.udp(plain, ADDRESS, SECONDS, PORT))
    note(f"tcp {name} {rtype}", dns.query.tcp(plain, ADDRESS, SECONDS, PORT))
    reply, was_stream = dns.query.udp_with_fallback(dns.message.make_query(name, rtype, use_edns=0), ADDRESS, SECONDS, PORT)
    note(f"udp_with_fallback {name} {rtype}", reply)
    assert not reply.flags & dns.flags.TC or was_stream


def send(update, code, over=dns.query.tcp):
    reply = note(f"update {code}", over(update, ADDRESS, SECONDS, PORT))
    assert reply.rcode() == dns.rcode.from_text(code), (reply.rcode(), code)


def change():
    """Updates with prerequisites and changes of each kind."""
    update = dns.update.UpdateMessage("example.com.")
    update.absent("py")
    update.add("py", 60, "A", "10.6.0.1")
    send(update, "NOERROR")
    send(update, "YXDOMAIN", dns.query.udp)
    update = dns.update.UpdateMessage("example.com.")
    update.present("py", "A", "10.6.0.1")
    update.absent("py", "TXT")
    update.replace("py", 30, "A", "10.6.0.2", "10.6.0.3")
    update.add("py", 30, "TXT", '"a b" c')
    send(update, "NOERROR", dns.query.udp)
    update = dns.update.UpdateMessage("example.com.")
    update.present("py", "AAAA")
    update.delete("py")
    send(update, "NXRRSET")
    update = dns.update.UpdateMessage("example.com.")
    update.present("py")
    update.delete("py", "A", "10.6.0.2")
    update.delete("py", "TXT")
    send(update, "NOERROR")
    ask("py.example.com.", "A")
    ask("py.example.com.", "TXT")
    send(dns.update.UpdateMessage("elsewhere.test."), "REFUSED")


def main():
    keep_wire()
    for name, rtype in json.load(sys.stdin):
        ask(name, rtype)
    change()
    json.dump(STEPS, sys.stdout)


main()
