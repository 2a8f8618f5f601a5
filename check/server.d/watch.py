"""A server beside the model of it: each exchange is compared to the byte."""
import contextlib
from typing import List, Optional, Tuple

from nameserver import NameServer
from logs import logged
from relay import Exchange, Relay
from replies import Server
from report import Report
from transport import ask_datagram, ask_stream
from zones import zone_of


class Watched:
    """The program behind a relay, with the model of its zones, inside a `with` block."""

    def __init__(self, program: str, texts: List[str], options=(), limit: int = 1232, takes_updates: bool = True):
        words = [*options, "--limit", str(limit)] + ([] if takes_updates else ["--no-updates"])
        self.server = NameServer(texts, options=words, program=program, seconds=60)
        self.model = Server([zone_of(it) for it in texts], limit, takes_updates)
        # The exchanges, and whether they have changed records.
        self.exchanges: List[Tuple[Exchange, bool]] = []

    def __enter__(self) -> "Watched":
        with contextlib.ExitStack() as stack:
            stack.enter_context(self.server)
            self.relay = stack.enter_context(Relay((self.server.address, self.server.port)))
            self.stack = stack.pop_all()
        return self

    def __exit__(self, *given) -> None:
        self.stack.__exit__(*given)

    @property
    def address(self):
        """Where the server itself listens."""
        return self.server.address, self.server.port

    def compare(self, report: Report, title: str) -> List[Exchange]:
        """Compares the replies since the last call with those of the model, and queries are asked again over raw sockets."""
        found = self.relay.take()
        for number, it in enumerate(found, 1):
            wanted = self.model.reply(it.request, it.is_stream)
            self.exchanges.append((it, self.model.has_changed))
            report.check(f"{title}: reply {number} to {it.request.hex()}", wanted, it.reply)
            if it.request[2:3] and not it.request[2] & 0x78:
                report.check(f"{title}: reply {number} to the same bytes", wanted, self.ask(it.request, it.is_stream))
                self.exchanges.append((it, False))
        return found

    def ask(self, request: bytes, is_stream: bool = False) -> Optional[bytes]:
        """The reply to a request over a raw socket."""
        return ask_stream(self.address, [request])[0] if is_stream else ask_datagram(self.address, request)

    def expect(self, report: Report, title: str, request: bytes, is_stream: bool = False) -> None:
        """Asks over a raw socket, and compares the reply with that of the model."""
        report.check(
            f"{title}: reply to {request.hex()}", self.model.reply(request, is_stream), self.ask(request, is_stream)
        )

    def compare_log(self, report: Report, title: str) -> None:
        """Looks for the line of each exchange in the log."""
        lines = [
            {key: value for key, value in it.fields.items() if key not in ("moment", "peer")}
            for it in self.server.requests()
        ]
        for it, has_changed in self.exchanges:
            wanted = logged(it, has_changed=has_changed)
            if report.check(f"{title}: {wanted}", True, wanted in lines):
                lines.remove(wanted)
