"""Requests to a zone as exchanges of a script of the program `nameserver`, with the replies of the model of check/server, to the byte."""
from collections import Counter
from collections.abc import Iterator
from pathlib import Path

from inputs import Input
from folder_runs import parts_of, run
from replies import CODES, Server
from zones import zone_of

# The zone that answers each request.
ZONE = """t. 60 IN SOA ns.t. h.t. 1 3600 600 86400 30
t. 60 IN NS ns.t.
ns.t. 60 IN A 10.0.0.53
a.t. 60 IN A 10.0.0.1
a.t. 60 IN A 10.0.0.2
a.t. 60 IN TXT "one" "two"
c.t. 60 IN CNAME a.t.
d.t. 60 IN CNAME example.
x.y.t. 60 IN MX 10 a.t.
"""
NAME = "mutated.zone"
# The transport of each reader, and the greatest datagram of its server.
TRANSPORTS = {"stream": ("tcp", 4096), "datagram": ("udp", 4096), "small": ("udp", 512)}
OPCODES = (0, 2, 4, 5)
# How many exchanges a process has.
EXCHANGES = 20_000


def outcome_of(reply: bytes | None) -> str:
    """The code of a reply, or that there is none."""
    if reply is None:
        return "no reply"
    return CODES[reply[3] & 15] if reply[2] >> 3 & 15 in OPCODES else "unknown opcode"


class Script:
    """The lines of a script, which begins a server anew wherever an update has changed the zone."""

    def __init__(self) -> None:
        self.limit, self.model = None, None

    def exchange(self, given: Input) -> tuple[str, list[str]]:
        """The outcome of a request, and its lines."""
        transport, limit = TRANSPORTS[given.reader]
        lines = []
        if limit != self.limit or self.model.has_changed:
            self.limit, self.model = limit, Server([zone_of(ZONE)], limit)
            line = f"server {NAME} --plain --limit {limit}"
            lines = [line, f"#> {line}: 1 zones"]
        reply = self.model.reply(given.data, transport == "tcp")
        line = f"0 127.0.0.1 {transport} hex {given.data.hex()}"
        answer = ["no reply"] if reply is None else [f"{len(reply)} bytes", f"#>   {reply.hex()}"]
        return outcome_of(reply), [*lines, line, f"#> {line}: {answer[0]}", *answer[1:]]


def exchanges(inputs: list[Input]) -> Iterator[tuple[str, list[str]]]:
    """The outcome and the lines of each request. A script has no request without bytes."""
    script = Script()
    for given in sorted(inputs, key=lambda it: TRANSPORTS[it.reader]):
        if given.data:
            yield script.exchange(given)


def tried(program: Path, inputs: list[Input], counts: Counter) -> list[str]:
    """Tries inputs, and counts their outcomes. The result is what differs."""
    found = []
    for part in parts_of(inputs, EXCHANGES):
        script = []
        for outcome, lines in exchanges(part):
            counts[outcome] += 1
            script += lines
        files = {NAME: ZONE.encode(), "script": "".join(f"{it}\n" for it in script).encode()}
        done = run(program, ["--check", "--replay", "script"], files)
        if done.stdout or done.returncode:
            found += [f"status {done.returncode}", *done.stdout.decode().splitlines(), *done.stderr.decode().splitlines()[-3:]]
    return found
