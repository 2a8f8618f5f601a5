"""Random changes of texts: of characters, of words, of lines, and pieces of other texts."""
import random

# Words with a meaning in zone files, hosts or scripts, and limits of their numbers.
WORDS = [
    "A", "AAAA", "CNAME", "SOA", "MX", "TXT", "NS", "PTR", "SRV", "OPT", "TYPE0", "TYPE255", "TYPE65535", "TYPE65536",
    "IN", "CH", "@", "*", ".", "..", "-", "->", "t.", "a.t.", "localhost.", "example.", "$ORIGIN", "$TTL", "$INCLUDE",
    "lookup", "ip", "clear", "clearall", "update", "create", "append", "swap", "delete-record", "delete-set",
    "delete-name", "honest", "quiet", "fail", "q0", "q1", "u0", "u1", "r0", "r1", "q18446744073709551615",
    "q18446744073709551616", "0", "1", "65535", "65536", "4294967295", "4294967296", "4611686018427387904",
    "4611686018427387905", "18446744073709551615", "18446744073709551616", "1w", "7102w", "1h30m", "10.0.0.1",
    "256.0.0.1", "::", "::1", "::ffff:1.2.3.4", "1:2:3:4:5:6:7:8", "\\", "\\255", "\\256", "\\000", "\"", "\"\"", "(",
    ")", ";", "#", "\n", "\r\n", "\r", "\t", "\u0000", "\ufeff", "\u00a0", "\u20ac", "x" * 63, "x" * 64,
    ".".join(["y" * 63] * 4), '"' + "z" * 256 + '"',
]


def changed(rng: random.Random, data: bytes, others: list[bytes]) -> bytes:
    """A text after one to six random changes."""
    for _ in range(rng.randint(1, 6)):
        data = rng.choice([change_byte, insert_word, replace_word, change_lines, splice, repeat])(rng, data, others)
    return data[:100_000]


def change_byte(rng: random.Random, data: bytes, others: list[bytes]) -> bytes:
    at = rng.randint(0, len(data))
    return data[:at] + bytes(rng.randrange(256) for _ in range(rng.randint(0, 2))) + data[at + rng.randint(0, 2) :]


def insert_word(rng: random.Random, data: bytes, others: list[bytes]) -> bytes:
    at, blank = rng.randint(0, len(data)), rng.choice([b"", b" ", b"\n"])
    return data[:at] + blank + rng.choice(WORDS).encode() + blank + data[at:]


def replace_word(rng: random.Random, data: bytes, others: list[bytes]) -> bytes:
    words = data.split(b" ")
    words[rng.randrange(len(words))] = rng.choice(WORDS).encode()
    return b" ".join(words)


def change_lines(rng: random.Random, data: bytes, others: list[bytes]) -> bytes:
    lines = data.splitlines(keepends=True)
    if lines:
        line = lines.pop(rng.randrange(len(lines)))
        for _ in range(rng.choice([0, 1, 1, 2, 40])):
            lines.insert(rng.randint(0, len(lines)), line)
    return b"".join(lines)


def splice(rng: random.Random, data: bytes, others: list[bytes]) -> bytes:
    other = rng.choice(others)
    return data[: rng.randint(0, len(data))] + other[rng.randint(0, len(other)) :]


def repeat(rng: random.Random, data: bytes, others: list[bytes]) -> bytes:
    start = rng.randint(0, len(data))
    piece = data[start : start + rng.randint(1, 30)]
    return data[:start] + piece * rng.choice([1, 2, 8, 64, 300]) + data[start:]
