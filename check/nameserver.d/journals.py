"""Journals, as a reader and a writer in Python have them, which have no code in common with the libraries.

The update with a number adds the address with this number at its end to a name, so that the addresses that a server then answers with
are those of the updates that it has read of a journal, in their order.
"""
import hashlib
import re
from functools import lru_cache
from itertools import groupby

# What is asked of a server that has read a journal.
QUESTION = b"0 127.0.0.1 tcp query a.t. A\n"
ZONE = b"t. 60 IN SOA ns.t. h.t. 1 3600 600 86400 30\n"
# What a disk writes whole or not at all, and the front of an entry, in bytes.
BLOCK, FRAME = 512, 28
NOT_A_JOURNAL = "not a journal, or its header is damaged"
FORMER = "a journal of the former format, dnsjrnl1"


@lru_cache(maxsize=None)
def siphash13(data):
    """SipHash-1-3 with a key of zeros."""
    mask = 2**64 - 1
    v0, v1, v2, v3 = 0x736F6D6570736575, 0x646F72616E646F6D, 0x6C7967656E657261, 0x7465646279746573

    def turned(x, bits):
        return (x << bits | x >> (64 - bits)) & mask

    def mixed(v0, v1, v2, v3):
        v0 = (v0 + v1) & mask
        v1 = turned(v1, 13) ^ v0
        v0 = turned(v0, 32)
        v2 = (v2 + v3) & mask
        v3 = turned(v3, 16) ^ v2
        v0 = (v0 + v3) & mask
        v3 = turned(v3, 21) ^ v0
        v2 = (v2 + v1) & mask
        v1 = turned(v1, 17) ^ v2
        return v0, v1, turned(v2, 32), v3

    whole = data + b"\0" * (-(len(data) + 1) % 8) + bytes([len(data) % 256])
    for at in range(0, len(whole), 8):
        word = int.from_bytes(whole[at : at + 8], "little")
        v0, v1, v2, v3 = mixed(v0, v1, v2, v3 ^ word)
        v0 ^= word
    v2 ^= 0xFF
    for _ in range(3):
        v0, v1, v2, v3 = mixed(v0, v1, v2, v3)
    return v0 ^ v1 ^ v2 ^ v3


def sealed(data):
    """A seal of bytes."""
    return siphash13(data).to_bytes(8, "big")


def header(text, key):
    """The header of a journal with a key that belongs to a text."""
    head = hashlib.sha256(text).digest() + key
    return b"dnsjrnl2" + head + sealed(head)


def entry(key, before, number, payload):
    """The entry with a number and a payload that follows the seal of another one."""
    front = before + number.to_bytes(8, "big") + len(payload).to_bytes(4, "big")
    return front + sealed(key + front) + payload + sealed(key + front + payload)


def journal(text, key, payloads):
    """The journal of a text with a key and these payloads."""
    out = header(text, key)
    for number, payload in enumerate(payloads, 1):
        out += entry(key, out[-8:], number, payload)
    return out


def read_entry(key, before, number, data):
    """The payload of the entry at the start of bytes that follows a seal, or None."""
    length = int.from_bytes(data[16:20], "big")
    if len(data) < 36 or length >= 2**23 or len(data) < 36 + length:
        return None
    payload = data[28 : 28 + length]
    return payload if data[: 36 + length] == entry(key, before, number, payload) else None


def may_be_torn(key, before, number, place, end):
    """Whether an interrupted write of the entry that follows a seal may leave these bytes at a place."""
    if len(end) >= 36 + 2**23:
        return False
    for at in range(1, len(end) - 27):
        if end[at + 20 : at + 28] == sealed(key + end[at : at + 20]):
            return False
    room = 512 - place % 512
    if len(end) < 28 or not any(end[:room]) or (room < 28 and not any(end[room:28])):
        return True
    length = int.from_bytes(end[16:20], "big")
    front = before + number.to_bytes(8, "big") + end[16:20]
    return (
        end[:28] == front + sealed(key + front)
        and length < 2**23
        and len(end) <= 36 + length
        and min(room, len(end)) < 36 + length
    )


def read(data):
    """The payloads of a journal and what follows them; the place of damage; or why it is not a journal."""
    if not data:
        return [], b""  # A journal is begun.
    if data[:8] == b"dnsjrnl1":
        return FORMER
    if len(data) < 64 or data[:8] != b"dnsjrnl2" or data[56:64] != sealed(data[8:56]):
        return NOT_A_JOURNAL
    key, place, before, payloads = data[40:56], 64, data[56:64], []
    while (payload := read_entry(key, before, len(payloads) + 1, data[place:])) is not None:
        payloads.append(payload)
        place += 36 + len(payload)
        before = data[place - 8 : place]
    if not may_be_torn(key, before, len(payloads) + 1, place, data[place:]):
        return place
    return payloads, data[place:]


def update(number, length=0):
    """The update with a number, as a message of 37 bytes, or with a text up to a length from 50 on."""
    text = b""
    while len(text) < length - 49:
        size = min(255, length - 50 - len(text))
        text += bytes([size]) + b"x" * size
    record = b"\xc0\x0c" + bytes.fromhex("00100001 0000003c") + len(text).to_bytes(2, "big") + text if text else b""
    address = b"\x01a\xc0\x0c" + bytes.fromhex("00010001 0000003c 0004 0a0000") + bytes([number])
    return bytes.fromhex("0001 2800 0001 0000") + bytes([0, 1 + bool(text), 0, 0]) + b"\x01t\0\0\x06\0\x01" + address + record


def payload(number, length=43):
    """The payload with the update of a number: a zero, the mark of updates that are made as this server makes them, and the update."""
    message = update(number, length - 6)
    return b"\0\0\x01\x02" + len(message).to_bytes(2, "big") + message


def number_of(found):
    """The number of the update of a payload."""
    return found[42]


def outcome(data):
    """What a server says of a journal, by the model: the numbers of its updates and the length of what follows, or why it is refused."""
    found = read(data)
    if isinstance(found, int):
        return f"damaged at byte {found}"
    if isinstance(found, str):
        return found
    payloads, end = found
    return " ".join([*(str(number_of(it)) for it in payloads), f"end {len(end)}"])


def short(text):
    """An outcome in short: how many updates are read, the place of damage, or that it is not a journal."""
    if text == NOT_A_JOURNAL:
        return "-"
    return text.replace("damaged at byte ", "at") if text.startswith("damaged") else str(len(text.split()) - 2)


def runs(outcomes):
    """Outcomes, of which equal ones in a row are counted."""
    return " ".join(f"{it} x{len(list(group))}" for it, group in groupby(outcomes))


def fronts(data):
    """Each front of a journal, from nothing on."""
    return [data[:size] for size in range(len(data) + 1)]


def changed(data):
    """A journal with a bit changed in each of its bytes."""
    return [data[:at] + bytes([data[at] ^ 1 << at % 8]) + data[at + 1 :] for at in range(len(data))]


def flipped(data):
    """A journal with each of its bits flipped."""
    return [data[:at] + bytes([data[at] ^ 1 << bit]) + data[at + 1 :] for at in range(len(data)) for bit in range(8)]


def crashed(whole, safe, chosen):
    """What a crash may leave of a journal whose last write begins at a place: some of its bytes, of blocks that were written or not."""
    written, in_block = whole[safe:], BLOCK - safe % BLOCK
    has_first, has_second = chosen.randrange(4) > 0, chosen.randrange(4) > 0
    tail = bytearray(written[: chosen.randint(0, len(written))])
    for index in range(len(tail)):
        if index < in_block:
            tail[index] *= has_first
        elif index < FRAME:
            tail[index] *= has_second
        elif chosen.randrange(40) == 0:
            tail[index] = chosen.randrange(256)
    return whole[:safe] + bytes(tail)


REFUSED = re.compile(r"^journal: (.*)\n", re.M)
ENTRIES = re.compile(r"^journal: (\d+) entries\n", re.M)
CUT = re.compile(r"^journal: (\d+) bytes of an interrupted write were moved to \S+\n", re.M)


def told(got):
    """The outcome that the output of a server says."""
    said = got["stderr"].decode()
    entries, cut = ENTRIES.search(said), CUT.search(said)
    if got["status"] == b"1\n" and not entries:
        return REFUSED.search(said)[1]
    numbers = re.findall(rb"answer a\.t\. 60 IN A 10\.0\.0\.(\d+)\n", got["stdout"])
    if got["status"] != b"0\n" or len(numbers) != int(entries[1]):
        return f"status {got['status']}, {said}"
    return " ".join([*(it.decode() for it in numbers), f"end {cut[1] if cut else 0}"])
