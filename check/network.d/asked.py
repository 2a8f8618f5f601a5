"""A name server with a log, and the program that asks it."""
import socket
from typing import Iterable, List, Optional, Sequence, Tuple

from asking import Outcome, Resolver
from given import Given
from nameserver import NameServer

ORIGIN = "o.test."
ZONE = "\n".join(
    [
        f"{ORIGIN} 3600 IN SOA ns.{ORIGIN} host.{ORIGIN} 7 3600 600 86400 30",
        f"{ORIGIN} 3600 IN NS ns.{ORIGIN}",
        f"ns.{ORIGIN} 3600 IN A 127.0.0.1",
        f"a.{ORIGIN} 60 IN A 10.0.0.1",
        f"a.{ORIGIN} 60 IN AAAA 2001:db8::1",
        f"b.{ORIGIN} 60 IN A 10.0.0.2",
        f"short.{ORIGIN} 2 IN A 10.0.0.3",
        f"alias.{ORIGIN} 60 IN CNAME a.{ORIGIN}",
        f"mail.{ORIGIN} 60 IN MX 10 a.{ORIGIN}",
        f"_s._tcp.{ORIGIN} 60 IN SRV 1 2 443 a.{ORIGIN}",
        f"p.{ORIGIN} 60 IN PTR a.{ORIGIN}",
        f'text.{ORIGIN} 60 IN TXT "a b" "c;d"',
        f"to-hosts.{ORIGIN} 60 IN CNAME named.{ORIGIN}",
    ]
)
# A zone for all names, so that every attempted one has an answer.
ROOT = "\n".join(
    [
        ". 3600 IN SOA ns. host. 1 3600 600 86400 30",
        "www.one.test. 60 IN A 10.1.0.1",
        "www.two.test. 60 IN A 10.1.0.2",
        "host. 60 IN A 10.1.0.3",
        "x.host.two.test. 60 IN A 10.1.0.4",
        "a.b.c.one.test. 60 IN A 10.1.0.5",
        "a.b. 60 IN A 10.1.0.6",
        'mx.one.test. 60 IN TXT "not an address"',
        "mx.two.test. 60 IN A 10.1.0.7",
    ]
)


class Asked:
    """A name server, and the program that asks it, inside a `with` block."""

    def __init__(self, given: Given, zone: str = ZONE, options: Sequence[object] = (), hosts: str = "", **more):
        self.server = NameServer(zone, program=given.nameserver, seconds=60, **more)
        self.given, self.options, self.hosts = given, options, hosts
        self.seen = 0

    def __enter__(self) -> "Asked":
        self.server.start()
        self.resolver = Resolver(self.given.program, [(self.server.address, self.server.port)], self.options)
        self.resolver.hosts = self.hosts
        self.resolver.__enter__()
        return self

    def __exit__(self, *given) -> None:
        self.resolver.__exit__(*given)
        self.server.stop()

    def requests(self, count: int) -> list:
        """The requests since the last call, as soon as there are so many."""
        found = self.server.wait_for_requests(self.seen + count)[self.seen :]
        self.seen += len(found)
        return found


def addresses_of(outcome: Outcome) -> List[str]:
    packed = (it.data[0] for it in outcome.records if it.rtype in (1, 28))
    return [socket.inet_ntop(socket.AF_INET if len(it) == 4 else socket.AF_INET6, it) for it in packed]


def why_not_bound(address: str, port: int) -> Optional[str]:
    """Why a port of an address can't be used, if it can't."""
    family = socket.AF_INET6 if ":" in address else socket.AF_INET
    for kind in (socket.SOCK_DGRAM, socket.SOCK_STREAM):
        try:
            with socket.socket(family, kind) as tried:
                tried.bind((address, port))
        except OSError as error:
            return f"port {port} of {address}: {error}"
    return None


def attempted(name: str, ndots: int, search: Sequence[str]) -> List[str]:
    """The names that a lookup attempts, in order (RFC 1123 section 6.1.4.3)."""
    if name.endswith("."):
        return [name]
    as_it_is = f"{name}."
    joined = [f"{name}.{it.rstrip('.')}." for it in search]
    found = [as_it_is, *joined] if name.count(".") >= ndots else [*joined, as_it_is]
    # Of equal names the last one stays.
    return [it for at, it in enumerate(found) if it not in found[at + 1 :]]


def found_in_root(names: Iterable[str]) -> Tuple[List[str], List[str]]:
    """The names that are asked for, up to the first with an address, and its addresses."""
    data = {it.split()[0]: [it.split()[4]] for it in ROOT.splitlines() if " A " in it}
    asked = []
    for name in names:
        asked.append(name)
        if name in data:
            return asked, data[name]
    return asked, []
