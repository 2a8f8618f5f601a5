"""Random zones, and the questions that they are asked."""
import random

LABELS = ["a", "b", "c", "*", "d"]


class Zones:
    """The zones of one set, and the names of their records."""

    def __init__(self, chance: random.Random, number: int):
        self.chance = chance
        self.origins = [f"z{number}.", f"y{number}."]
        if chance.random() < 0.4:
            self.origins.append(f"{chance.choice('abc')}.z{number}.")
        self.records = {origin: [] for origin in self.origins}
        self.targets = self.some_targets(number)
        for origin in self.origins:
            self.fill(origin)

    def some_targets(self, number: int) -> list[str]:
        """Names that aliases and hosts refer to."""
        names = [self.below(origin) for origin in self.origins for _ in range(6)]
        return names + [f"x.other{number}.", *self.origins]

    def below(self, origin: str) -> str:
        """A name at or below an origin."""
        depth = self.chance.choices([0, 1, 2, 3], [1, 6, 6, 3])[0]
        return "".join(self.chance.choice(LABELS) + "." for _ in range(depth)) + origin

    def fill(self, origin: str) -> None:
        """Gives a zone its records."""
        chance = self.chance
        owners = {origin: "top"}
        put = self.records[origin].append
        put((origin, 300, "SOA", f"ns.{origin} h.{origin} 1 3600 600 86400 {chance.choice([30, 900])}"))
        put((origin, 300, "NS", f"ns.{origin}"))
        put((f"ns.{origin}", 300, "A", "10.0.0.9"))
        owners[f"ns.{origin}"] = "data"
        others = [it for it in self.origins if it != origin and it.endswith("." + origin)]
        for other in others:
            put((other, 300, "NS", f"ns.{other}"))
            owners[other] = "cut"
        for _ in range(chance.randrange(3, 12)):
            self.add(origin, self.below(origin), owners)

    def add(self, origin: str, owner: str, owners: dict[str, str]) -> None:
        """Adds records of one kind at a name, where all servers take them there."""
        chance = self.chance
        if owner in owners or self.is_below(owner, owners, "dname"):
            return
        kind = chance.choices(["data", "alias", "cut", "dname"], [7, 3, 2, 2])[0]
        if kind == "cut" and owner.startswith("*."):
            kind = "data"
        if kind == "dname" and (owner.startswith("*.") or any(it.endswith("." + owner) for it in owners)):
            kind = "data"
        owners[owner] = kind
        put = self.records[origin].append
        if kind == "data":
            for name in chance.sample(["A", "AAAA", "TXT", "MX", "SRV"], chance.randrange(1, 3)):
                put((owner, chance.choice([60, 120]), name, self.data(name)))
        if kind == "alias":
            put((owner, 60, "CNAME", chance.choice(self.targets)))
        if kind == "cut":
            host = f"ns.{owner}"
            put((owner, 60, "NS", chance.choice([host, *self.targets])))
            if chance.random() < 0.6 and host not in owners:
                owners[host] = "glue"
                put((host, 60, "A", "10.0.1.1"))
        if kind == "dname":
            put((owner, 60, "DNAME", chance.choice(self.targets)))

    def is_below(self, owner: str, owners: dict[str, str], kind: str) -> bool:
        """Whether a name is below one of a kind."""
        return any(what == kind and owner.endswith("." + it) for it, what in owners.items())

    def data(self, name: str) -> str:
        """Data of a type."""
        chance = self.chance
        host = chance.choice(self.targets).replace("*", "w")
        return {
            "A": f"10.0.{chance.randrange(9)}.{chance.randrange(9)}",
            "AAAA": f"2001:db8::{chance.randrange(1, 9)}",
            "TXT": f'"t{chance.randrange(9)}"',
            "MX": f"10 {host}",
            "SRV": f"1 2 53 {host}",
        }[name]

    def questions(self, count: int) -> list[tuple[str, str]]:
        """Questions for names of records and for others, of all types."""
        chance = self.chance
        owners = [record[0] for records in self.records.values() for record in records]
        types = ["A", "AAAA", "NS", "CNAME", "SOA", "MX", "TXT", "SRV", "DNAME", "DS", "ANY"]
        asked = []
        for _ in range(count):
            name = chance.choice(owners)
            prefix = chance.choices([0, 1, 2], [4, 4, 2])[0]
            name = "".join(chance.choice([*LABELS, "q"]) + "." for _ in range(prefix)) + name
            if chance.random() < 0.2:
                name = self.below(chance.choice(self.origins))
            asked.append((name, chance.choices(types, [5] + [2] * 10)[0]))
        return asked
