"""Hostile inputs of each kind: what is close to a good input, and random ones."""
from collections.abc import Iterator
from itertools import chain, islice
from typing import NamedTuple

from samples import samples

BYTES, MESSAGE, TEXT = range(3)
SHAPES = {
    "names": BYTES, "messages": MESSAGE, "frames": BYTES, "requests": MESSAGE, "zones": TEXT, "hosts": TEXT, "scripts": TEXT,
}  # fmt: skip
# The random inputs of each kind: a seed, how many, and the most bytes of each.
RANDOM = {
    "names": [(1, 8000, 24), (2, 2000, 300)],
    "messages": [(1, 8000, 64), (2, 2000, 300)],
    "frames": [(1, 4000, 16), (2, 1000, 600)],
    "requests": [(1, 3000, 80), (2, 3000, 80), (3, 3000, 80)],
    "zones": [(1, 5000, 40), (2, 2000, 200)],
    "hosts": [(1, 3500, 60), (2, 1000, 300)],
    "scripts": [(1, 4500, 60)],
}
# Inputs of at most so many bytes have each byte replaced by all others, and longer ones by those of a list: limits of label
# lengths and pointers (RFC 1035 section 4.1.4), and characters with a meaning in texts.
SHORT, CHANGES = 40, 250
REPLACEMENTS = b'\x00\xff\xc0\x3f\x40\x80\x01\n"();\\ 0#'
CHARACTERS = b'\n\n\n   \t\t";()\\@.$*-#0129:abtAIN6>q\'TXMSO{}x,'
WHOLE = 2**64 - 1


class Input(NamedTuple):
    """An input: how it is read, of which good input it is a change, and its bytes. A front is what an input begins with."""

    reader: str
    title: str
    data: bytes
    is_front: bool = False


class Random:
    """SplitMix64."""

    def __init__(self, seed: int):
        self.sum = seed

    def next(self) -> int:
        self.sum = (self.sum + 0x9E3779B97F4A7C15) & WHOLE
        number = ((self.sum ^ self.sum >> 30) * 0xBF58476D1CE4E5B9) & WHOLE
        number = ((number ^ number >> 27) * 0x94D049BB133111EB) & WHOLE
        return number ^ number >> 31

    def below(self, bound: int) -> int:
        return self.next() % bound


def random_byte(random: Random, shape: int) -> int:
    number = random.next()
    if shape != TEXT:
        return number % 256 if number // 256 % 2 == 0 else number % 16
    return number % 256 if number // 256 % 64 == 0 else CHARACTERS[random.below(len(CHARACTERS))]


def random_input(random: Random, shape: int, most: int) -> bytes:
    data = bytearray(random_byte(random, shape) for _ in range(random.below(most + 1)))
    if shape == MESSAGE and random.below(4):
        for place in range(4, min(12, len(data))):
            data[place] = data[place] % 3 if place % 2 else 0
    return bytes(data)


def edited(random: Random, shape: int, data: bytes) -> bytes:
    place = random.below(len(data) + 1)
    end = place + random.below(3)
    if random.below(4) == 0:
        start = random.below(len(data) + 1)
        added = data[start : start + random.below(9)]
    else:
        added = bytes(random_byte(random, shape) for _ in range(random.below(3)))
    return data[:place] + added + data[end:]


def random_changes(data: bytes, shape: int) -> Iterator[bytes]:
    """The inputs after one to four random changes."""
    seed = 1
    for byte in data:
        seed = (seed * 31 + byte) & WHOLE
    random = Random(seed)
    for _ in range(CHANGES):
        changed = data
        for _ in range(random.below(4) + 1):
            changed = edited(random, shape, changed)
        yield changed


def changes(data: bytes) -> Iterator[bytes]:
    """The inputs that differ in one byte."""
    for place, old in enumerate(data):
        if len(data) <= SHORT:
            new = [it for it in range(256) if it != old]
        else:
            new = [it for it in REPLACEMENTS if it != old] + [old ^ 1, old ^ 0x80]
        for byte in new:
            yield data[:place] + bytes([byte]) + data[place + 1 :]


def close_to(kind: str, good: Input) -> Iterator[Input]:
    """The inputs close to a good one: its proper fronts, those that differ in a byte, and random changes."""
    for size in range(len(good.data)):
        yield good._replace(data=good.data[:size], is_front=True)
    for data in chain(changes(good.data), random_changes(good.data, SHAPES[kind])):
        yield good._replace(data=data)


def good_ones(kind: str) -> list[Input]:
    return [Input(*it) for it in samples()[kind]]


def at_random(kind: str, good: list[Input]) -> Iterator[Input]:
    """The random inputs of a kind, each run of them for one of its readers."""
    readers = list(dict.fromkeys(it.reader for it in good))
    for nth, (seed, count, most) in enumerate(RANDOM[kind]):
        random = Random(seed)
        for _ in range(count):
            yield Input(readers[nth % len(readers)], "random", random_input(random, SHAPES[kind], most))


def all_inputs(kind: str) -> Iterator[Input]:
    """All inputs of a kind, the good ones first."""
    good = good_ones(kind)
    return chain(good, chain.from_iterable(close_to(kind, it) for it in good), at_random(kind, good))


def some_inputs(kind: str, most: int | None) -> list[Input]:
    """The good inputs of a kind, and so many of the others, at equal distances; or all of them."""
    found = list(all_inputs(kind))
    if most is None or len(found) <= most:
        return found
    count = len(good_ones(kind))
    # A distance that has no divisor in common with the number of bytes tries different bytes at each place.
    return found[:count] + list(islice(found, count, None, len(found) // most | 1))
