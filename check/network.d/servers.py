"""The servers that are asked, all of the same zone: those that have it, and those that ask these."""
import contextlib
import os
import tempfile
from pathlib import Path
from typing import Callable, ContextManager, Dict, Iterator, NamedTuple, Sequence

from forwarders import forwarder, unbound_words
from given import Given
from messages import query
from nameserver import NameServer
from peers import PROGRAMS, other_server
from processes import free_port, running, wait_until
from sample import ORIGIN
from transport import Address, ask_datagram


class Server(NamedTuple):
    """How a server is started, which programs it wants, and whether it answers from the zone itself."""

    start: Callable[[Given, str], ContextManager[Address]]
    programs: Sequence[str] = ()
    has_zone: bool = True


@contextlib.contextmanager
def own(given: Given, zone: str) -> Iterator[Address]:
    """The name server of the project."""
    with NameServer(zone, program=given.nameserver, seconds=60, log=False) as server:
        yield server.address, server.port


def peer(name: str) -> Server:
    """BIND, Knot or NSD."""

    @contextlib.contextmanager
    def start(_given: Given, zone: str) -> Iterator[Address]:
        with other_server(name, zone, ORIGIN, is_minimal=False) as found:
            yield "127.0.0.1", found.port

    return Server(start, [PROGRAMS[name]])


def forwarding(name: str) -> Server:
    """dnsmasq or Unbound, which passes each question on to the name server of the project."""

    @contextlib.contextmanager
    def start(given: Given, zone: str) -> Iterator[Address]:
        with own(given, zone) as address, forwarder(name, address) as found:
            yield found

    return Server(start, [name], has_zone=False)


@contextlib.contextmanager
def recursive(_given: Given, zone: str) -> Iterator[Address]:
    """Unbound as a recursive server, for which BIND, Knot and NSD have the zone."""
    with contextlib.ExitStack() as started:
        ports = [started.enter_context(other_server(it, zone, ORIGIN, is_minimal=False)).port for it in PROGRAMS]
        folder = started.enter_context(tempfile.TemporaryDirectory())
        os.chmod(folder, 0o755)
        address = ("127.0.0.1", free_port())
        # What is outside of the zone is forwarded to a port that is closed.
        words = unbound_words(folder, address[1], ("127.0.0.1", free_port()))
        stub = f"stub-zone:\n    name: {ORIGIN}\n" + "".join(f"    stub-addr: 127.0.0.1@{it}\n" for it in ports)
        configuration = Path(folder, "unbound.conf")
        configuration.write_text(configuration.read_text(encoding="ascii") + stub, encoding="ascii")
        process = started.enter_context(running(words, folder))
        wait_until(lambda: ask_datagram(address, query(ORIGIN, "SOA"), 0.5), process, "Unbound")
        yield address


SERVERS: Dict[str, Server] = {
    "nameserver": Server(own),
    **{name: peer(name) for name in PROGRAMS},
    "dnsmasq": forwarding("dnsmasq"),
    "Unbound, forwarding": forwarding("unbound"),
    "Unbound, recursive": Server(recursive, ["unbound", *PROGRAMS.values()], has_zone=False),
}
