"""A zone with names of each kind, which is drawn at random, and lookups in it."""
import random
from typing import List, NamedTuple, Optional

from wire import lower
from zones import CNAME, Name, Zone, name_of, name_text, type_text, zone_of

ORIGIN = "net.test."
TYPES = ["A", "AAAA", "CNAME", "MX", "NS", "PTR", "SOA", "SRV", "TXT"]
TTLS = [30, 60, 60, 300, 3600, 86400, 604800]
LONGEST_CHAIN = 7
# Chains that are longer than those that `nameserver` follows, so that a lookup needs more than one question.
FAR_CHAINS = [8, 9, 10]
# How their names begin.
FAR = b"far"
# A label of the greatest length, and what is left of 255 bytes in a name of the zone.
LABEL = 63
ODD_LABELS = [r"a\.dot", r"a\032space", r"\200\255", r"a\\backslash", r"semi\;colon", "under_score", "x--y", "*-star"]
ODD_STRINGS = [r"a \"quoted\" word", r"back\\slash", r"\000\001\255", "; no comment", "", "a" * 255, "=?&%", r"tab\009"]


class Question(NamedTuple):
    """A lookup: a line of standard input, the name and the type that it asks for, and whether it is outside of the zone."""

    line: str
    name: Name
    rtype: Optional[str]


class Sample:
    """A zone as the text of a file, one record a line, and as a zone."""

    def __init__(self, seed: int):
        self.random = random.Random(seed)
        self.lines: List[str] = []
        self.by_kind: dict = {}
        self.add_apex()
        self.add_hosts()
        self.add_services()
        self.add_large_sets()
        self.add_shapes()
        self.add_chains()
        self.text = "".join(f"{it}\n" for it in self.lines)
        self.zone: Zone = zone_of(self.text)
        # Where a server doesn't follow all aliases, the target of one may be asked for on the way to another.
        self.targets = {lower(self.zone.at(owner, CNAME)[0].data[0]) for owner, rtype in self.zone.sets if rtype == CNAME}
        # Of the longer chains alone those of its own kind are drawn.
        self.names = sorted({owner for owner, _ in self.zone.sets if not owner[0].startswith(FAR)}, key=repr)

    # ---- the zone

    def add(self, owner: str, rtype: str, *data: str, ttl: Optional[int] = None, kind: str = "plain") -> str:
        """Adds a set, whose records have one TTL (RFC 2181 section 5.2)."""
        owner = owner if owner.endswith(".") else f"{owner}.{ORIGIN}"
        ttl = self.random.choice(TTLS) if ttl is None else ttl
        self.lines += [f"{owner} {ttl} IN {rtype} {it}" for it in dict.fromkeys(data)]
        self.by_kind.setdefault(kind, []).append((owner, rtype))
        return owner

    def add_apex(self) -> None:
        self.add(ORIGIN, "SOA", f"ns1.{ORIGIN} host\\.master.{ORIGIN} 2024010101 7200 900 1209600 300", ttl=3600)
        self.add(ORIGIN, "NS", *(f"ns{at}.{ORIGIN}" for at in (1, 2, 3)), ttl=3600)
        # Addresses of the loopback interface, whatever a server does with them.
        for at in (1, 2, 3):
            self.add(f"ns{at}", "A", f"127.77.0.{at}", ttl=3600)
        self.add(ORIGIN, "MX", f"10 mail0.{ORIGIN}", f"20 mail1.{ORIGIN}")
        self.add(ORIGIN, "TXT", '"v=spf1 -all"', '"second" "string"')

    def add_hosts(self) -> None:
        for at in range(90):
            name, kind = f"host{at}", self.random.choice(["four", "six", "both", "both"])
            if self.random.random() < 0.3:
                name = f"{self.mixed(name)}.Sub{at % 7}"
            if kind != "six":
                self.add(name, "A", *(f"10.{at}.0.{it}" for it in range(1, self.random.randint(2, 6))))
            if kind != "four":
                self.add(name, "AAAA", *(f"2001:db8:{at:x}::{it:x}" for it in range(1, self.random.randint(2, 5))))
            if at % 5 == 0:
                self.add(name, "TXT", f'"host {at}"')
                self.add(name, "MX", f"{at} mail{at % 4}.{ORIGIN}")

    def add_services(self) -> None:
        for at in range(4):
            self.add(f"mail{at}", "A", f"10.200.0.{at}")
            self.add(f"mail{at}", "AAAA", f"2001:db8:200::{at:x}")
        for at in range(20):
            numbers = self.random.sample(range(100), self.random.randint(1, 4))
            self.add(f"domain{at}", "MX", *(f"{it * 100} mail{it % 4}.{ORIGIN}" for it in numbers))
            self.add(f"_http._tcp.svc{at}", "SRV", *(f"{it} {it % 7} {8000 + it} host{it % 90}.{ORIGIN}" for it in numbers))
            self.add(f"{at}.0.200.10.rev", "PTR", *(f"host{it % 90}.{ORIGIN}" for it in numbers[:2]))
            strings = self.random.sample(ODD_STRINGS, 3)
            self.add(f"text{at}", "TXT", *(" ".join(f'"{it}"' for it in strings[: at % 3 + 1]), f'"text {at}"'))

    def add_large_sets(self) -> None:
        """Sets that no datagram of 1,232 bytes has room for, of at most the 100 records that BIND takes."""
        sets = {
            "A": [f"10.250.0.{it}" for it in range(100)],
            "AAAA": [f"2001:db8:250::{it:x}" for it in range(100)],
            "TXT": [f'"{it} {"x" * 200}"' for it in range(40)],
            "MX": [f"{it} exchanger{it}.{ORIGIN}" for it in range(100)],
            "SRV": [f"{it} 1 443 server{it}.{ORIGIN}" for it in range(60)],
            "PTR": [f"pointer{it}.{ORIGIN}" for it in range(100)],
        }
        for rtype, data in sets.items():
            self.add(f"large-{rtype}", rtype, *data, kind="large")
            self.add(f"large", rtype, *data[:: 2], kind="large")
        for at, target in enumerate(("large-A", "large-AAAA", "large-TXT", "large")):
            self.add(f"alias-large{at}", "CNAME", f"{target}.{ORIGIN}", kind="large")

    def add_shapes(self) -> None:
        """Empty non-terminals, labels of 63 bytes, names of 255, and octets that are escaped."""
        for at in range(6):
            self.add(f"x.y.z.empty{at}", "A", f"10.251.0.{at}", kind="deep")
        for at in range(4):
            self.add(chr(97 + at) * LABEL, "A", f"10.252.0.{at}", kind="long")
            front = ".".join(chr(97 + at + it) * LABEL for it in range(3))
            rest = 255 - (3 * (LABEL + 1) + len(ORIGIN) + 1) - 1
            long = self.add(f"{front}.{'z' * rest}", "A", f"10.252.1.{at}", kind="long")
            self.add(long, "TXT", f'"long {at}"', kind="long")
            self.add(f"to-long{at}", "CNAME", long, kind="long")
            self.add(f"mx-long{at}", "MX", f"{at} {long}", kind="long")
            self.add(".".join("abcdefghijklmnopqrstuvwxyz"[at:] * 4), "A", f"10.252.2.{at}", kind="long")
        for at, label in enumerate(ODD_LABELS):
            self.add(f"{label}.odd", "A", f"10.253.0.{at}", kind="odd")
            self.add(f"to-odd{at}", "CNAME", f"{label}.odd.{ORIGIN}", kind="odd")

    def add_chains(self) -> None:
        """Aliases to each kind of end, and loops."""
        ends = ["host0", "host1", "domain3", "text4", "_http._tcp.svc5", "3.0.200.10.rev", "ns1", "large-A"]
        ends += ["nowhere", "z.empty2"]
        for length in range(1, LONGEST_CHAIN + 1):
            for which, end in enumerate(ends):
                links = [f"c{length}-{which}-{it}" for it in range(length)] + [end]
                self.add_chain(links, "chain")
        for length in FAR_CHAINS:
            for which, end in enumerate(("host0", "domain3", "nowhere")):
                self.add_chain([*(f"far{length}-{which}-{it}" for it in range(length)), end], "far")
        for length in (1, 2, 3):
            for at in range(length):
                self.add(f"loop{length}-{at}", "CNAME", f"loop{length}-{(at + 1) % length}.{ORIGIN}", kind="loop")
        self.add("into-loop", "CNAME", f"loop3-0.{ORIGIN}", kind="loop")

    def add_chain(self, links: List[str], kind: str) -> None:
        """Adds an alias of each name to the next one."""
        for name, target in zip(links, links[1:]):
            self.add(name, "CNAME", f"{self.mixed(target)}.{ORIGIN}", kind=kind)

    def mixed(self, text: str) -> str:
        """A text with letters of either case, at times."""
        if self.random.random() < 0.7:
            return text
        return "".join(self.random.choice([it.lower(), it.upper()]) for it in text)

    # ---- lookups

    def question(self, has_zone: bool = False) -> Question:
        """A random lookup: of what is there, of another type, and of what is not there. A server that has the zone is asked for
        what is outside of it, too, and for chains of aliases that others may find too long."""
        draw = self.random.random()
        if has_zone and draw < 0.02:
            return self.spelled(self.random.choice(["outside.example.", "test.", "xnet.test."]), self.any_type())
        if draw < 0.12:
            owner = name_text(self.random.choice(self.names))
            return self.spelled(self.absent(owner), self.any_type())
        if draw < 0.32:
            return self.spelled(name_text(self.random.choice(self.names)), self.any_type())
        kinds, weights = ["plain", "chain", "large", "deep", "long", "odd", "loop", "far"], [40, 25, 8, 5, 10, 10, 2, 3]
        kind = self.random.choices(kinds, weights if has_zone else [*weights[:-1], 0])[0]
        owner, rtype = self.random.choice(self.by_kind[kind])
        if rtype == type_text(CNAME) and self.random.random() < 0.9:
            rtype = self.random.choice([self.any_type(), *self.types_at_end(owner)])
        if rtype in ("A", "AAAA") and self.random.random() < 0.6:
            rtype = None
        if kind == "deep" and self.random.random() < 0.5:
            owner = owner.split(".", self.random.randint(1, 3))[-1]
        return self.spelled(owner, rtype)

    def types_at_end(self, owner: str) -> List[str]:
        """The types of what is at the end of aliases, or nothing in a loop."""
        name, seen = lower(name_of(owner)), set()
        while self.zone.at(name, CNAME) and name not in seen:
            seen.add(name)
            name = lower(self.zone.at(name, CNAME)[0].data[0])
        return [type_text(it) for it in sorted(self.zone.types_at(name)) if it != CNAME]

    def any_type(self) -> Optional[str]:
        return self.random.choice([*TYPES, "A", "AAAA", None, None, None])

    def absent(self, owner: str) -> str:
        """A name that is not there, often close to one that is."""
        label = f"absent{self.random.randrange(1000)}"
        if self.random.random() < 0.5 or len(owner) > 200:
            return f"{label}.{ORIGIN}"
        return f"{label}.{owner}"

    def spelled(self, name: str, rtype: Optional[str]) -> Question:
        """A lookup as a line, in any case, with or without its last dot."""
        key = name_of(name)
        shown = self.mixed(name)
        # A name without a dot at its end is looked up as it is if it has more labels than `ndots`.
        if len(key) > 2 and self.random.random() < 0.2:
            shown = shown[:-1]
        return Question(shown if rtype is None else f"{shown} {self.mixed(rtype)}", key, rtype)
