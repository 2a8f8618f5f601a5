"""Which server is asked when, and what a lookup leads to: a model of the program's schedule, over servers with fault tables.

A lookup has a number of rounds. In each, every server is tried, in an order that is determined at the start: as configured, turned
by one more with each lookup if servers rotate, and those that failed within the last 30 seconds after all others. A try sends a
datagram and waits for the time-out, or asks over a stream, which it also does after a truncated reply. What is not the reply to
the question is dropped, and the wait goes on. The first reply whose code is not `ServFail`, `Refused` or `NotImp` is the outcome,
or else the last failure.
"""
from dataclasses import dataclass, field
from typing import Dict, List, NamedTuple, Optional, Sequence, Set, Tuple

# How long a server that failed comes after the others, in seconds.
MEMORY = 30.0
# The codes with which the next server is asked: `ServFail`, `NotImp` and `Refused`.
NEXT_SERVER = {2, 4, 5}
NO_ERROR, NX_DOMAIN = 0, 3
CODES = {0: "NoError", 1: "FormErr", 2: "ServFail", 3: "NXDomain", 4: "NotImp", 5: "Refused"}
# Actions after which nothing comes that is the reply.
SPOILED = {"wrong-id", "wrong-question", "garbage"}
# Actions that apply to one transport alone.
DATAGRAMS_ALONE, STREAMS_ALONE = {"truncate", "duplicate"}, {"close"}


@dataclass
class Rule:
    """A line of a fault table: a name, actions with their numbers, and how often it is applied, if not always."""

    name: str
    actions: Dict[str, Optional[int]]
    left: Optional[int] = None

    @property
    def text(self) -> str:
        words = [word if number is None else f"{word} {number}" for word, number in self.actions.items()]
        return " ".join([self.name, "*", *words, *([] if self.left is None else ["times", str(self.left)])])

    def actions_for(self, is_stream: bool) -> Dict[str, Optional[int]]:
        """The actions for a transport."""
        others = DATAGRAMS_ALONE if is_stream else STREAMS_ALONE
        return {word: number for word, number in self.actions.items() if word not in others}


class Data(NamedTuple):
    """What a server has for a name: a code, a text for each record, and whether no datagram has room for them."""

    code: int
    records: Tuple[str, ...] = ()
    is_large: bool = False


@dataclass
class Server:
    """A server: what it has, its rules, the requests so far, and whether it is there at all."""

    data: Dict[str, Data]
    rules: List[Rule] = field(default_factory=list)
    is_there: bool = True
    # The transport of each request, its name, and the line of the rule that was applied.
    requests: List[Tuple[str, str, Optional[int]]] = field(default_factory=list)

    def request(self, name: str, is_stream: bool) -> Dict[str, Optional[int]]:
        """What becomes of the reply to a request: the actions of the first rule that applies."""
        for line, rule in enumerate(self.rules, 1):
            actions = rule.actions_for(is_stream)
            if rule.name in ("*", name) and actions and rule.left != 0:
                rule.left = None if rule.left is None else rule.left - 1
                self.requests.append(("tcp" if is_stream else "udp", name, line))
                return actions
        self.requests.append(("tcp" if is_stream else "udp", name, None))
        return {}


class Reply(NamedTuple):
    """What a try led to: a code and records, or no reply, and how long it took."""

    seconds: float
    code: Optional[int] = None
    records: Tuple[str, ...] = ()


class Outcome(NamedTuple):
    """What a lookup led to: the place of the server that answered, if one did, and the last reply."""

    place: Optional[int]
    code: Optional[str]
    records: Tuple[str, ...]
    questions: int
    seconds: float

    @property
    def status(self) -> str:
        if self.place is None:
            return "failed"
        return "found" if self.records else "nothing" if self.code in ("NoError", "NXDomain") else "failed"


@dataclass
class Schedule:
    """The servers as a process knows them."""

    servers: Sequence[Server]
    timeout: float
    attempts: int = 2
    rotates: bool = False
    streams_alone: bool = False
    now: float = 0.0
    turn: int = 0
    failures: Dict[int, float] = field(default_factory=dict)
    questions: int = 0

    def order(self) -> List[int]:
        """The places in the order in which a lookup tries them."""
        count = len(self.servers)
        turned = [(at + self.turn) % count for at in range(count)] if self.rotates else list(range(count))
        self.turn += 1
        failed: Set[int] = {it for it, moment in self.failures.items() if self.now - moment <= MEMORY}
        return [it for it in turned if it not in failed] + [it for it in turned if it in failed]

    def look_up(self, name: str) -> Outcome:
        """A lookup of one question."""
        start, self.questions, last = self.now, 0, Reply(0)
        order = self.order()
        for place in order * self.attempts:
            last = self.attempt(self.servers[place], name)
            self.now += last.seconds
            if last.code is not None and last.code not in NEXT_SERVER:
                self.failures.pop(place, None)
                return self.outcome(place, last, start)
            self.failures[place] = self.now
        return self.outcome(None, last, start)

    def outcome(self, place: Optional[int], reply: Reply, start: float) -> Outcome:
        code = None if reply.code is None else CODES[reply.code]
        return Outcome(place, code, reply.records if place is not None else (), self.questions, self.now - start)

    def attempt(self, server: Server, name: str) -> Reply:
        """A try of a server."""
        if self.streams_alone:
            return self.ask_stream(server, name)
        self.questions += 1
        if not server.is_there:
            return Reply(0)
        actions = server.request(name, False)
        delay = (actions.get("delay") or 0) / 1000
        if "drop" in actions or SPOILED & actions.keys() or delay >= self.timeout:
            return Reply(self.timeout)
        if "code" in actions:
            return Reply(delay, actions["code"])
        data = server.data.get(name, Data(NX_DOMAIN))
        if "truncate" in actions or data.is_large:
            stream = self.ask_stream(server, name)
            return stream._replace(seconds=stream.seconds + delay)
        return Reply(delay, data.code, data.records)

    def ask_stream(self, server: Server, name: str) -> Reply:
        """A question over a stream, of which every other end than the reply is a failure at once."""
        self.questions += 1
        if not server.is_there:
            return Reply(0)
        actions = server.request(name, True)
        delay = (actions.get("delay") or 0) / 1000
        if "drop" in actions or delay >= self.timeout:
            return Reply(self.timeout)
        if SPOILED & actions.keys() or "close" in actions:
            return Reply(delay)
        if "code" in actions:
            return Reply(delay, actions["code"])
        data = server.data.get(name, Data(NX_DOMAIN))
        return Reply(delay, data.code, data.records)
