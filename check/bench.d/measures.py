"""How each operation is measured: the processor time of a repetition, in seconds."""
import resource
import subprocess
from pathlib import Path

from repeated import RepeatedRows
from zone_inputs import CUTS, hosts_text, requests, zone_text

HERE = Path(__file__).resolve().parent
# A request without a reply, in hexadecimal digits; a zone for scripts of `stub`; and a name that is in no cache.
NO_REQUEST, STUB_ZONE, ABSENT = "00", "$ORIGIN example.com.\n$TTL 3600\n@ SOA ns host 1 3600 600 86400 300\n", "absent.example.com."


def seconds(words, folder, status=0):
    """The processor time of a program, with that of the system. It ends with this status."""
    before = resource.getrusage(resource.RUSAGE_CHILDREN)
    done = subprocess.run(words, cwd=folder, stdin=subprocess.DEVNULL, stdout=subprocess.DEVNULL, stderr=subprocess.DEVNULL)
    if done.returncode != status:
        raise subprocess.CalledProcessError(done.returncode, words)
    after = resource.getrusage(resource.RUSAGE_CHILDREN)
    return after.ru_utime + after.ru_stime - before.ru_utime - before.ru_stime


class Bench:
    """The programs, and a folder for their files. `program_of` finds a program, and `prefix` is where the library for C is."""

    def __init__(self, folder, program_of, prefix):
        self.folder, self.program_of, self.prefix = Path(folder), program_of, prefix
        self.programs, self.rows = {}, None

    def program(self, name):
        """A program, which is looked for once."""
        if name not in self.programs:
            self.programs[name] = self.zone_bench() if name == "zone_bench" else self.program_of(name)
        return self.programs[name]

    def zone_bench(self):
        """The program zone_bench, with the library for C."""
        made, prefix = self.folder / "zone_bench", Path(self.prefix())
        words = ["cc", "-std=c11", "-O2", f"-I{prefix / 'include'}", HERE / "zone_bench.c", prefix / "lib" / "librumstrait.a", "-o", made]
        subprocess.run(words, check=True)
        return str(made)

    def file(self, name, text, *arguments):
        """The name of a file, which is made if it is not there, with the text that a function returns."""
        path = self.folder / name
        if not path.exists():
            path.write_text(text(*arguments), encoding="utf-8")
        return name

    def seconds(self, program, *words):
        """The processor time of a run."""
        return seconds([self.program(program), *map(str, words)], self.folder)

    def repeated(self, what, count, _size):
        """A call of a row of `rows`."""
        self.rows = self.rows or RepeatedRows(self.folder)
        times = [seconds([self.program("rows"), *self.rows.words(what, it)], self.folder, 1) for it in (count, 0)]
        return (times[0] - times[1]) / count

    def zone(self, what, count, size):
        """A zone of the library for C, that is made, or serves requests."""
        file = self.file(f"zone-{size}", zone_text, size)
        reads = what == "zone-read"
        words = [self.program("zone_bench"), file, "0" if reads else str(count), *requests("serve-a" if reads else what, size)]
        done = subprocess.run(words, cwd=self.folder, check=True, stdout=subprocess.PIPE, text=True)
        reading, serving, _ = done.stdout.split()
        return float(reading) if reads else float(serving) / count

    def answer(self, what, count, size):
        """A request of a script of `nameserver`, beside bytes without a reply."""
        zone = self.file(f"cuts-{size}", zone_text, size, CUTS)
        asked = self.file(f"{what}-{count}-{size}", replay_text, zone, requests(what, size), count)
        none = self.file(f"none-{count}-{size}", replay_text, zone, [NO_REQUEST, NO_REQUEST], count)
        times = [self.seconds("nameserver", "--replay", it) for it in (asked, none)]
        return (times[0] - times[1]) / count

    def hosts(self, what, _count, size):
        """A hosts file of `stub`, beside an empty one."""
        files = self.file(f"{what}-{size}", hosts_text, what, size), self.file("nothing", str)
        words = ["--zone", self.file("stub-zone", str, STUB_ZONE), "--script", "nothing", "--hosts"]
        times = [self.seconds("stub", *words, it) for it in files]
        return times[0] - times[1]

    def stub(self, script, cache):
        """A script of `stub`, with a cache of so many entries."""
        (self.folder / "script").write_text(script, encoding="utf-8")
        return self.seconds("stub", "--zone", self.file("stub-zone", str, STUB_ZONE), "--script", "script", "--cache", cache)

    def lookup(self, what, count, size):
        """A lookup of `stub` in a full cache, beside a `clear` of a name that it has not: of the first and the last name that the cache
        has, by turns, or of new names, each of which takes the place of another."""
        fill = lookups(range(size))
        asked = lookups(range(size, size + count)) if what == "lookup-full" else lookups([0, size - 1]) * (count // 2)
        return (self.stub(fill + asked, size) - self.stub(fill + f"0 clear {ABSENT} A\n" * count, size)) / count


def replay_text(zone, digits, count):
    """A script of `nameserver` with so many requests, two by turns."""
    lines = "".join(f"0 127.0.0.1 udp hex {it}\n" for it in digits)
    return f"server {zone}\n{lines * (count // 2)}"


def lookups(numbers):
    """Lines of a script that look up names by their numbers, which do not exist."""
    return "".join(f"0 lookup {it}.example.com. A\n" for it in numbers)


SMALL, LARGE, CACHES = (1_000, 10_000, 100_000), (1_000, 10_000, 100_000, 1_000_000), (1_024, 8_192)
# How an operation is measured, how often it is repeated, and the sizes that it is repeated at. At a size of 100,000 or more requests are
# repeated ten times as often.
OPERATIONS = {
    **{it: (Bench.repeated, 1_000_000, ()) for it in "name-read name-parse name-print name-compare name-clone".split()},
    "name-write": (Bench.repeated, 200_000, ()),
    **{it: (Bench.repeated, 200_000, ()) for it in "data-read data-write data-parse data-print".split()},
    **{it: (Bench.repeated, 200_000, ()) for it in "message-read message-view message-write message-clone".split()},
    "zone-read": (Bench.zone, 1, LARGE),
    **{it: (Bench.zone, 200_000, LARGE) for it in "serve-a serve-cname serve-nxdomain".split()},
    "serve-chain": (Bench.zone, 50_000, (1_000, 100_000)),
    **{it: (Bench.zone, 100_000, SMALL) for it in "update-add update-swap".split()},
    **{it: (Bench.answer, 100_000, SMALL) for it in "answer-a answer-referral answer-wildcard".split()},
    "lookup-hit": (Bench.lookup, 400_000, CACHES),
    "lookup-full": (Bench.lookup, 100_000, CACHES),
    **{it: (Bench.hosts, 1, SMALL) for it in "hosts-read hosts-read-addresses hosts-read-names".split()},
}
