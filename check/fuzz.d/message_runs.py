"""Random names, messages and requests for the programs `rows` and `nameserver`, with what the model of check/hostile has for them."""
import random
from collections import Counter
from pathlib import Path

import request_script
import wire_rows
from inputs import Input, good_ones

INPUTS = 1500
KINDS = ["names", "messages", "messages", "requests"]


def all_samples() -> dict[str, list[bytes]]:
    """The good inputs of each kind. Messages may be requests, too."""
    found = {kind: [it.data for it in good_ones(kind)] for kind in KINDS}
    return {**found, "messages": found["messages"] + found["requests"]}


def altered(rng: random.Random, inputs: list[bytes]) -> bytes:
    """A random change of a good input, byte by byte."""
    out = bytearray(rng.choice(inputs))
    for _ in range(rng.randint(1, 5)):
        at = rng.randint(0, len(out))
        small = rng.choice([rng.randrange(256), rng.randrange(8), 0, 0xC0, 0xFF, 0x0C])
        other = rng.choice(inputs)
        start = rng.randint(0, len(other))
        piece = rng.choice([bytes([small]), b"", other[start : start + 12], bytes([0xC0, rng.randint(0, len(out)) & 255])])
        out[at : at + rng.choice([0, len(piece), 1, 2])] = piece
    return bytes(out)


def fuzz(programs: tuple[Path, Path], rng: random.Random, inputs: dict[str, list[bytes]], counts: Counter) -> tuple | None:
    """One run on many random inputs of a kind. The result is the first lines that differ from the model, and the inputs."""
    kind = rng.choice(KINDS)
    reader = rng.choice([*request_script.TRANSPORTS])
    given = [Input(reader, "random", altered(rng, inputs[kind])) for _ in range(INPUTS)]
    rows, nameserver = programs
    if kind == "requests":
        found = request_script.tried(nameserver, given, Counter())
    else:
        found = wire_rows.tried(kind, rows, given, Counter())
    counts[kind] += len(given)
    text = "\n".join(it.data.hex() for it in given)
    return ("\n".join(found[:4]), {f"{kind}.hex": text.encode()}, []) if found else None
