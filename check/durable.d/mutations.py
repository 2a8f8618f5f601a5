"""Signed updates that are changed, signed again by others, or sent again too late."""
import os
import random
import struct
import time

from keys import serving
from messages import code_of, query, update
from signing import Key, signed

PROBE = 0xBEEF


class Attacker:
    """Sends messages, and counts those of their replies that accept an update."""

    def __init__(self, server):
        self.server = server
        self.tried = self.answered = 0

    def is_accepted(self, message):
        """Whether an update is accepted. A question behind it has an answer, so that no reply to the update is still on its way."""
        self.tried += 1
        socket = self.server.socket
        socket.send(message)
        socket.send(query(PROBE, "ns.example."))
        accepted = False
        while True:
            reply = socket.recv(65535)
            if int.from_bytes(reply[:2], "big") == PROBE and reply[2] & 0x78 == 0:
                return accepted
            self.answered += 1
            accepted = accepted or (code_of(reply) == 0 and reply[2] & 0x78 == 0x28)



def is_same_to_keys(whole, changed):
    """Whether only the id or the case of letters is changed: the name of a key and of its algorithm may be in any case (RFC 8945 section 4.3.3), and
    the id of the signed message is within the TSIG record."""
    return bytes(changed[2:]).lower() == whole[2:].lower()


def changed(chosen, whole):
    """A changed update."""
    other = bytearray(whole)
    way = chosen.randrange(8)
    if way < 5:
        other[chosen.randrange(2, len(other))] ^= chosen.randint(1, 255)
    elif way == 5:
        for _ in range(chosen.randint(2, 6)):
            other[chosen.randrange(2, len(other))] = chosen.randrange(256)
    elif way == 6:
        del other[chosen.randrange(2, len(other)) :]
    else:
        at = chosen.randrange(12, len(other))
        other[at:at] = os.urandom(chosen.randint(1, 4))
    return bytes(other)


def swapped(chosen, one, two):
    """The front of an update with the TSIG record of another."""
    return one[: -chosen.randint(1, 32)] + two[-chosen.randint(1, 32) :]


def forged(chosen, number, keys):
    """An update that is signed, but that its signer may not make, or too early or too late."""
    now = int(time.time())
    own, above, below, beside, stranger, impostor = keys
    name = f"m{number}.sub.example."
    whole = update(number & 0xFFFF, "example.", name, "192.0.2.5")
    return chosen.choice(
        [
            lambda: signed(own, whole, now - chosen.randint(305, 10**9)),
            lambda: signed(own, whole, now + chosen.randint(305, 10**9)),
            lambda: signed(own, whole, now - chosen.randint(20, 1000), fudge=chosen.randint(0, 10)),
            lambda: signed(below, whole),
            lambda: signed(beside, whole),
            lambda: signed(stranger, whole),
            lambda: signed(impostor, whole),
            lambda: signed(own, update(number & 0xFFFF, "example.", f"m{number}.example.", "192.0.2.5")),
            lambda: signed(own, update(number & 0xFFFF, "example.", f"m{number}.xsub.example.", "192.0.2.5")),
            lambda: signed(above, whole),
            lambda: whole,
        ]
    )()


def mutations(given):
    """Updates that are changed, or signed by others: none is accepted."""
    chosen = random.Random()
    own, above, below, beside, stranger = (
        Key(f"{name}.keys.", chosen.choice(["hmac-sha256", "hmac-sha1", "hmac-sha512"]), os.urandom(32))
        for name in ("own", "above", "below", "beside", "stranger")
    )
    impostor = Key(own.name, own.algorithm, os.urandom(32))
    grants = ["own.keys. sub.example.", "above.keys. top.example.", "below.keys. a.sub.example.", "beside.keys. xsub.example."]
    with serving(given, [own, above, below, beside], *grants) as (server, folder):
        attacker = Attacker(server)
        rounds = 0
        while attacker.tried < given.mutations:
            rounds += 1
            wholes = [signed(own, update(chosen.randrange(65536), "example.", f"w{rounds}.{n}.sub.example.", "192.0.2.5")) for n in range(2)]
            before = (folder / "journal").read_bytes()
            for number in range(min(1000, given.mutations - attacker.tried)):
                way = chosen.randrange(10)
                message = (
                    swapped(chosen, *wholes)
                    if way == 0
                    else forged(chosen, number, (own, above, below, beside, stranger, impostor))
                    if way < 3
                    else changed(chosen, wholes[0])
                )
                if any(is_same_to_keys(whole, message) for whole in wholes):
                    continue
                if attacker.is_accepted(message):
                    yield f"accepted: {message.hex()}, from {wholes[0].hex()}"
            if (folder / "journal").read_bytes() != before:
                yield f"round {rounds}: the journal has changed"
            for whole in wholes:
                if not attacker.is_accepted(whole):
                    yield f"not accepted, though unchanged: {whole.hex()}"
    print(f"  {attacker.tried} changed updates, {attacker.answered} answered")
