"""How the time of the program grows with the size of a zone file: each shape at n, 2n, 4n and 8n records, words or lines."""
import resource
import subprocess
import tempfile
from pathlib import Path

FRONT = "$ORIGIN t.\n$TTL 60\n@ SOA ns.u. h 1 2 3 4 5\n"
DEEP = ".".join("a" * 100)


def each(count, text):
    """A text so many times, with its number for each `#`."""
    return "".join(text.replace("#", str(number)) for number in range(count))


# The size n of a shape, and the text at a size.
SHAPES = {
    "hosts with an address and a mail server": (2500, lambda n: each(n, "h# A 10.0.0.1\nh# MX 10 h#\n")),
    "aliases": (2500, lambda n: each(n, "h# CNAME a\n")),
    "aliases beside other data": (2500, lambda n: each(n, "h# CNAME a\nh# A 10.0.0.1\n")),
    "records of one set": (2500, lambda n: each(n, "h TXT #\n")),
    "equal records": (2500, lambda n: each(n, "h TXT a\n")),
    "policies of one owner": (2500, lambda n: each(n, '@ TXT "v=spf1 #"\n')),
    "delegations with glue": (2500, lambda n: each(n, "h# NS ns.h#\nns.h# A 10.0.0.1\n")),
    "delegations without glue": (2500, lambda n: each(n, "h# NS ns.h#\n")),
    "records below a delegation": (2500, lambda n: "h NS ns.u.\n" + each(n, "a#.h TXT a\n")),
    "records of 100 labels": (500, lambda n: each(n, f"h#.{DEEP} TXT a\n")),
    "signatures that have expired": (2500, lambda n: each(n, "h# A 10.0.0.1\nh# RRSIG A 8 2 60 20100101000000 20090101000000 1 t. AAAA\n")),
    "entries with a fault": (2500, lambda n: each(n, "h# AA 10.0.0.1\n")),
    "strings that do not end": (2500, lambda n: each(n, 'h# TXT "a\n')),
    "lists that do not end": (2500, lambda n: each(n, "h# TXT ( a\n")),
    "texts that a semicolon cuts": (2500, lambda n: each(n, "h# TXT v=DKIM1; k=rsa\n")),
    "words of a text": (5000, lambda n: "h TXT ( " + "a " * n + ")\n"),
    "words of an entry, of which the last is at fault": (5000, lambda n: "h TXT ( " + "a " * n + "@ )\n"),
    "words of an entry, of which the third is at fault": (5000, lambda n: "h A ( x " + "a " * n + ")\n"),
    "words of a bitmap": (2500, lambda n: "h NSEC a ( " + each(n, "TYPE# ") + ")\n"),
    "lines of one entry": (5000, lambda n: "h TXT (\n" + "a ; b\n" * n + ")\n"),
    "numbers of a directive": (5000, lambda n: f"$GENERATE 0-{n - 1} h$ MX \"10 h$\"\n"),
    "directives of one number": (2500, lambda n: each(n, "$GENERATE #-# h$ A 10.0.0.1\n")),
    "empty lines": (20000, lambda n: "\n" * n),
}


def time_of(program, text):
    """The processor time, in seconds, that the program takes for a zone file."""
    with tempfile.TemporaryDirectory(prefix="zonecheck-") as folder:
        Path(folder, "t.zone").write_text(text)
        before = resource.getrusage(resource.RUSAGE_CHILDREN)
        done = subprocess.run([program, "t.zone"], cwd=folder, stdout=subprocess.DEVNULL, stderr=subprocess.PIPE, timeout=600, check=False)
        after = resource.getrusage(resource.RUSAGE_CHILDREN)
    if done.returncode not in (0, 1) or done.stderr:
        raise RuntimeError(f"status {done.returncode}: {done.stderr[:200]!r}")
    return after.ru_utime + after.ru_stime - before.ru_utime - before.ru_stime


def print_growth(program):
    """Prints the times of each shape, and returns how many grow by more than six from 2n to 8n."""
    slow = 0
    empty = min(time_of(program, FRONT) for _ in range(5))
    for name, (size, text) in SHAPES.items():
        times = [max(min(time_of(program, FRONT + text(size * factor)) for _ in range(3)) - empty, 0.0) for factor in (1, 2, 4, 8)]
        is_slow = times[3] > 0.1 and times[3] > 6 * times[1]
        slow += is_slow
        print(f"{name}: {', '.join(f'{it:.3f}' for it in times)} seconds for {size:,} to {8 * size:,}{', too slow' if is_slow else ''}")
    print(f"{len(SHAPES)} shapes, {slow} grow by more than six from 2n to 8n")
    return slow
