"""How long the proofs of some crates will take, from what each took before and from what has ended so far."""
import heapq
from pathlib import Path

SECONDS = Path(__file__).with_name("proof_seconds.txt")
# What a crate takes that the table does not list.
UNKNOWN = 120


def read_seconds():
    """The processor time that the proof of each crate took, in seconds."""
    lines = [it.partition("#")[0].split() for it in SECONDS.read_text(encoding="utf-8").splitlines()]
    return {name: int(seconds) for name, seconds in filter(None, lines)}


class Estimate:
    """The proofs of crates, so many of them side by side."""

    def __init__(self, libraries, lanes):
        table = read_seconds()
        self.libraries, self.lanes = libraries, lanes
        self.costs = {it: table.get(it, UNKNOWN) for it in libraries}
        # When each proof ended, in seconds since the start.
        self.ended = {}

    def end(self, name, moment, is_kept):
        """Notes that a proof ended. It took no time if it was kept from an earlier run."""
        self.ended[name] = moment
        if is_kept:
            self.costs[name] = 0

    def left(self, moment):
        """How many seconds are left."""
        planned = finish_times(self.libraries, self.costs, self.lanes)
        last = max(self.ended, key=self.ended.get, default=None)
        # This machine is faster or slower than the one of the table.
        is_measured = last is not None and planned[last] > 60
        speed = self.ended[last] / planned[last] if is_measured else 1
        return max(0, speed * max(planned.values()) - moment)


def finish_times(libraries, costs, lanes):
    """When each proof ends, if those with the longest chain of others after them begin first."""
    after = chains(libraries, costs)
    left, running, ended, moment = set(libraries), [], {}, 0
    while left or running:
        ready = [it for it in left if all(below in ended for below in libraries[it])]
        for it in sorted(ready, key=lambda it: -after[it])[: lanes - len(running)]:
            heapq.heappush(running, (moment + costs[it], it))
            left.remove(it)
        moment, name = heapq.heappop(running)
        ended[name] = moment
    return ended


def chains(libraries, costs):
    """The time of the longest chain of proofs that begins with each crate. Libraries stand before the crates that use them."""
    found = dict(costs)
    for name in reversed(libraries):
        for it in libraries[name]:
            found[it] = max(found[it], costs[it] + found[name])
    return found
