"""How time and memory grow with the size of an input: each case at n, 2n, 4n and 8n."""
from collections.abc import Callable
from dataclasses import dataclass
from itertools import islice, product
from pathlib import Path
from string import ascii_lowercase, digits
from struct import pack

from request_script import ZONE
from runs import Run, least_space, run
from samples import at, header, query, question, record, update, wire

LIMIT = 120.0
SOA = b"t. 60 SOA ns.t. h.t. 1 3600 600 86400 30\n"
LOOKUP = b"0 lookup a.t. A\n"
LABELS = "names have more labels, too, up to 108"


@dataclass
class Case:
    title: str
    # the size n, and the files of the program `stub` at a size, or a name, a message or a request, and how often it is read
    size: int
    files: Callable[[int], dict[str, bytes]]
    reader: str = ""
    times: int = 1
    # why time grows faster than n log n, where it does
    reason: str = ""


def zone(title: str, size: int, text: Callable[[int], bytes], reason: str = "") -> Case:
    return Case(title, size, lambda n: {"zone": SOA + text(n), "script": LOOKUP, "hosts": b""}, reason=reason)


def hosts(title: str, size: int, text: Callable[[int], bytes]) -> Case:
    return Case(title, size, lambda n: {"zone": SOA, "script": LOOKUP, "hosts": text(n)})


def script(title: str, size: int, text: Callable[[int], bytes], reason: str = "") -> Case:
    files = {"zone": SOA + b"a.t. 60 A 10.0.0.1\n", "hosts": b""}
    return Case(title, size, lambda n: {**files, "script": text(n)}, reason=reason)


def wired(title: str, reader: str, size: int, data: Callable[[int], bytes], times: int = 1, reason: str = "") -> Case:
    return Case(title, size, lambda n: {"input": data(n)}, reader, times, reason)


def each(count: int, text: str) -> bytes:
    """A text so many times, with its number for each `#`, and the number as an address for `@`."""
    return "".join(
        text.replace("#", str(it)).replace("@", f"10.{it >> 16 & 255}.{it >> 8 & 255}.{it & 255}") for it in range(count)
    ).encode()


def chain(links: int, count: int) -> bytes:
    """Records of which each owner is the last pointer of a chain, which the data of the first record is."""
    first = 12 + 11
    data = b"\0" + b"".join(at(first if it == 0 else first + 2 * it - 1) for it in range(links))
    last = at(first + 2 * links - 1)
    return header((0, 1 + count, 0, 0), 0x8000) + record(b"\0", 10, data) + record(last, 10, b"x") * count


def short_names(count: int) -> list[bytes]:
    """Different names of three letters and digits."""
    return ["".join(it).encode() for it in islice(product(ascii_lowercase + digits, repeat=3), count)]


def question_chain(whole: int, short: int) -> bytes:
    """Questions of which the last ones have the last pointer of a chain as their name. The labels of the first ones are
    the chain, which begins with a count of 0 in the header."""
    body, target = bytearray(), 6
    for _ in range(whole):
        for _ in range(4):
            body.append(62)
            for _ in range(31):
                body += at(target)
                target = 12 + len(body) - 2
        body += question(b"\0")
    return header((whole + short, 0, 0, 0)) + bytes(body) + question(at(target)) * short


def mixed_chains(whole: int, short: int, chains: int, gap: int = 0) -> bytes:
    """Questions like those of `question_chain`, over several chains in turn. After each `gap` pointers of a chain comes a
    label of one byte before its next pointer, up to 126 times, if there is a gap."""
    body, ends, links = bytearray(), [6] * chains, [0] * chains
    for turn in range(whole * 4 * 15):
        if turn % 15 == 0:
            body.append(62)
        it = turn % chains
        links[it] += 1
        has_label = gap and links[it] % (gap + 1) == gap and links[it] < 126 * (gap + 1)
        start = 12 + len(body)
        body += (b"\1a" if has_label else b"") + at(ends[it])
        # Two further bytes make each link four bytes long: a pointer to the link.
        body += b"" if has_label else at(start)
        ends[it] = start if has_label else start + 2
        if turn % 15 == 14:
            body += at(ends[it])
            body += question(b"\0") if turn % 60 == 59 else b""
    return header((whole + short, 0, 0, 0)) + bytes(body) + b"".join(question(at(ends[it % chains])) for it in range(short))


def compressed(count: int) -> bytes:
    """Records whose owners are pointers to one name of 255 bytes."""
    owner = wire(".".join("a" * 127))
    return header((1, count, 0, 0), 0x8000) + question(owner) + record(at(12), 1, bytes(4)) * count


def additions(count: int) -> bytes:
    """An update that adds as many addresses to a name."""
    return update([], [record(wire("m.t"), 1, pack(">I", it)) for it in range(count)])


M = b"\1m" + at(12)
NOTHING = record(M, 255, b"", 0, 255)


def of_types(count: int) -> list[bytes]:
    """Additions of as many types to a name."""
    return [record(M, 1000 + it, b"x") for it in range(count)]


def emptied(count: int) -> bytes:
    """An update that adds as many types to a name, and deletes the name as often."""
    return update([], of_types(count) + [NOTHING] * count)


def replaced(count: int) -> bytes:
    """An update that adds as many types to a name, deletes it once, and then adds as many aliases to it."""
    return update([], of_types(count) + [NOTHING] + [record(M, 5, at(12))] * count)


def beside_types(count: int) -> bytes:
    """An update that adds as many types to a name, deletes all but the first, and adds an alias after each deletion."""
    deletions = [record(M, 1000 + it, b"", 0, 255) + record(M, 5, at(12)) for it in range(1, count)]
    return header((1, 0, 3 * count - 2, 0), 0x2800) + question(wire("t."), 6) + b"".join(of_types(count) + deletions)


def by_turns(count: int) -> bytes:
    """An update that adds and deletes one type at a name with as many others, by turns, and deletes the name each time."""
    turn = record(M, 900, b"x") + record(M, 900, b"", 0, 255) + NOTHING
    return header((1, 0, 4 * count, 0), 0x2800) + question(wire("t."), 6) + b"".join(of_types(count)) + turn * count


def owners(count: int) -> bytes:
    """An update that adds an address to as many names, and deletes each of these names."""
    names = [it + at(12) for it in (bytes([3]) + it for it in short_names(count))]
    return update([], [record(it, 1, bytes(4)) for it in names] + [record(it, 255, b"", 0, 255) for it in names])


def prerequisites(count: int) -> bytes:
    """An update that requires both addresses of a name as often."""
    return update([record(wire("a.t"), 1, bytes([10, 0, 0, 1 + it % 2]), 0) for it in range(count)], [])


def cases() -> list[Case]:
    many = lambda piece: lambda n: piece * n
    return [
        zone("zone: records of different names", 4000, lambda n: each(n, "n#.t. 60 A 10.0.0.1\n")),
        zone("zone: records of one name and type", 2000, lambda n: each(n, "m.t. 60 A @\n")),
        zone("zone: long strings of one name", 1000, lambda n: each(n, f'm.t. 60 TXT "{"x" * 240}#"\n')),
        zone("zone: strings of one name in falling order", 2000, lambda n: b"".join(each(n, "m.t. 60 TXT @\n").splitlines(True)[::-1])),
        zone("zone: equal records", 4000, many(b"m.t. 60 A 10.0.0.1\n")),
        zone("zone: names below one another", 500, lambda n: each(n, "a.b.c.d.e.f.n#.t. 60 A 10.0.0.1\n")),
        zone("zone: lines in parentheses", 40000, lambda n: b"x.t. 60 TXT (" + b"\n" * n + b" a )\n"),
        zone("zone: strings of one record", 4000, lambda n: b"x.t. 60 TXT " + b"a " * n + b"\n"),
        zone("zone: opened parentheses", 40000, lambda n: b"x.t. 60 TXT " + b"( " * n),
        zone("zone: closed and opened parentheses", 10000, lambda n: b"x.t. 60 TXT a " + b"() " * n + b"\n"),
        zone("zone: an open quoted string", 100000, lambda n: b'x.t. 60 TXT "' + b"a" * n),
        zone("zone: backslashes", 50000, lambda n: b"x.t. 60 TXT " + b"\\\\" * n),
        zone("zone: digits of a TTL", 50000, lambda n: b"x.t. " + b"0" * n + b" A 10.0.0.1\n"),
        zone("zone: units of a TTL", 50000, lambda n: b"x.t. " + b"0s" * n + b" A 10.0.0.1\n"),
        zone("zone: a long name", 50000, lambda n: b"a." * n + b" 60 A 10.0.0.1\n"),
        zone("zone: comments and empty lines", 20000, many(b" ; c\n\n")),
        zone("zone: directives", 10000, many(b"$ORIGIN t.\n$TTL 1h\n")),
        hosts("hosts: lines with different names", 4000, lambda n: each(n, "@ n#.t\n")),
        hosts("hosts: addresses of one name", 1000, lambda n: each(n, "@ m.t\n")),
        hosts("hosts: names on one line", 4000, lambda n: b"10.0.0.1" + each(n, " n#.t")),
        hosts("hosts: names of three letters on one line", 4000, lambda n: b"10.0.0.1 " + b" ".join(short_names(n))),
        hosts("hosts: one name on one line", 1000, lambda n: b"10.0.0.1" + b" m.t" * n),
        hosts("hosts: skipped lines", 40000, many(b"x # c\n")),
        hosts("hosts: a long line that is not UTF-8", 100000, lambda n: b"a" * n + b"\xff"),
        script("script: lookups of one name", 4000, many(b"0 lookup a.t. A\n")),
        script("script: lookups of different names", 250, lambda n: each(n, "0 lookup n#.t. A\n")),
        script("script: hosts", 4000, many(b"0 ip 10.0.0.1\n")),
        script("script: words of a line", 40000, lambda n: b"0 lookup" + b" a" * n + b"\n"),
        script("script: words of a link script", 10000, lambda n: b"0 lookup a.t. A ;" + b" q0" * n + b"\n"),
        script("script: replies of a link script", 10000, lambda n: b"0 lookup a.t. A ; q0" + b" r1" * n + b"\n"),
        script("script: additions to one name", 250, lambda n: each(n, "0 update append m.t. 60 A @\n")),
        script("script: additions of different names", 1000, lambda n: each(n, "0 update append n#.t. 60 A @\n")),
        script("script: strings of an update", 1000, lambda n: b"0 update append a.t. 60 TXT" + b' "a"' * n + b"\n"),
        script("script: comments", 40000, many(b" # c\n")),
        wired("message: records", "message", 400, lambda n: header((0, n, 0, 0)) + record(wire("a.t"), 1, bytes(4)) * n, 10),
        wired("message: owners of 255 bytes, by pointers", "message", 400, compressed, 3),
        wired("message: owners by a chain of pointers", "message", 450, lambda n: chain(2 * n, n), 3),
        wired("message: questions by a chain of pointers", "message", 7, lambda n: question_chain(n, 140 * n)),
        wired("message: questions by 16 chains in turn", "message", 7, lambda n: mixed_chains(n, 140 * n, 16), 3),
        wired("message: questions by chains between labels", "message", 7, lambda n: mixed_chains(n, 140 * n, 1, 30), 1, LABELS),
        wired("message: strings", "message", 7000, lambda n: header((0, 1, 0, 0)) + record(b"\0", 16, bytes(n)), 20),
        wired("message: options", "message", 1900, lambda n: header((0, 0, 0, 1)) + record(b"\0", 41, bytes(4 * n)), 20),
        wired("message: questions", "message", 1000, lambda n: header((n, 0, 0, 0)) + question(b"\0") * n, 10),
        wired("request: additions to one name", "request", 350, additions, 1),
        wired("request: prerequisites of one set", "request", 400, prerequisites),
        wired("request: deletions of a name with many types", "request", 270, emptied),
        wired("request: aliases at a name that had many types", "request", 260, replaced),
        wired("request: aliases at a name whose types are deleted in turn", "request", 150, beside_types),
        wired("request: a type that comes and goes at a name", "request", 120, by_turns),
        wired("request: additions of different names, and their deletions", "request", 220, owners),
        wired("name: 127 labels, then other bytes", "name", 1000, lambda n: b"\1" + wire(".".join("a" * 127)) + bytes(n), 10),
    ]


@dataclass
class Measure:
    """The bytes of an input, the cheaper one of two runs on it, and the least address space of such a run."""

    size: int
    run: Run
    space: int


# What a row of the program `rows` asks of an input.
ROWS = {"message": "encode 65535 {}", "name": "read {}; at 1; name"}


def process_of(programs: dict[str, Path | None], case: Case, files: dict[str, bytes]) -> tuple[Path | None, list[str], dict[str, bytes]]:
    """The program that a case is for, with its arguments and its files."""
    if not case.reader:
        return programs["stub"], ["--zone", "zone", "--script", "script", "--hosts", "hosts"], files
    digits = files["input"].hex()
    if case.reader == "request":
        script = "server zone --plain\n" + f"0 127.0.0.1 tcp hex {digits}\n" * case.times
        return programs["nameserver"], ["--replay", "script"], {"zone": ZONE.encode(), "script": script.encode()}
    row = f"{ROWS[case.reader].format(digits)} > ?\n"
    return programs["rows"], ["rows"], {"rows": (row * case.times).encode()}


def measured(programs: dict[str, Path | None], case: Case, factor: int, has_space: bool) -> Measure:
    """What a case costs at a size."""
    given = case.files(case.size * factor)
    process = process_of(programs, case, given)
    best = min((run(*process, LIMIT) for _ in range(2)), key=lambda it: it.seconds)
    return Measure(sum(map(len, given.values())), best, least_space(*process, best, LIMIT) if has_space else 0)


def print_growth(programs: dict[str, Path | None], wanted: str) -> int:
    """Prints a table, without the cases of programs that are not given. The result is how many cases grow faster than n log n without a
    known reason, or crash."""
    print("| Input | Bytes | Seconds at n, 2n, 4n, 8n | Memory at n, 8n | Growth |\n|---|---|---|---|---|")
    failed = 0
    for case in cases():
        if wanted not in case.title or not process_of(programs, case, case.files(1))[0]:
            continue
        found = [measured(programs, case, factor, factor in (1, 8)) for factor in (1, 2, 4, 8)]
        growth = growth_of(found)
        if growth.startswith("faster"):
            failed += not case.reason
            growth += f": {case.reason or 'unexpected'}"
        if any(it.run.status < 0 for it in found):
            failed += 1
            growth = f"signals: {[it.run.status for it in found]}"
        seconds = ", ".join("late" if it.run.is_late else f"{it.run.seconds:.3f}" for it in found)
        memory = f"{found[0].space / 2**20:.1f}, {found[3].space / 2**20:.1f} MB: {per_byte(found)} a byte"
        print(f"| {case.title} | {found[0].size} to {found[3].size} | {seconds} | {memory} | {growth} |", flush=True)
    return failed


def per_byte(found: list[Measure]) -> int:
    """How much memory each further byte of the input takes."""
    return round((found[3].space - found[0].space) / (found[3].size - found[0].size))


def growth_of(found: list[Measure]) -> str:
    """Whether time grows as the size does, or faster than its product with a logarithm. Little time says nothing."""
    if any(it.run.is_late for it in found):
        return "faster: not ended"
    sizes, times = [it.size for it in found], [max(it.run.seconds, 0.004) for it in found]
    if times[3] < 0.03:
        return "little time"
    # From n to 8n; and from 4n to 8n, where what does not grow matters less.
    whole, last = times[3] / times[0] / (sizes[3] / sizes[0]), times[3] / times[2] / (sizes[3] / sizes[2])
    return f"faster, {whole:.1f} and {last:.1f}" if last > 1.45 else f"n log n at most, {whole:.1f} and {last:.1f}"
