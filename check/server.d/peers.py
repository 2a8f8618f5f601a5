"""BIND, Knot and NSD as authoritative servers of one zone, with one process or worker each and without rate limits."""
import contextlib
import os
import tempfile
from pathlib import Path
from typing import Iterator, List, NamedTuple

from messages import query
from nameserver import NameServer
from packages import find
from processes import free_port, running, wait_until
from queries import ORIGIN
from transport import ask_datagram

BIND = """
options {{
    directory "{folder}";
    listen-on port {port} {{ 127.0.0.1; }};
    listen-on-v6 {{ none; }};
    pid-file none;
    session-keyfile none;
    recursion no;
    notify no;
    minimal-responses {minimal};
    check-names primary ignore;
    allow-transfer {{ none; }};
    dnssec-validation no;
}};
controls {{ }};
logging {{ category default {{ null; }}; }};
zone "{origin}" {{ type primary; file "{folder}/zone"; check-integrity no; }};
"""
KNOT = """
server:
    rundir: "{folder}"
    listen: 127.0.0.1@{port}
    udp-workers: 1
    tcp-workers: 1
    background-workers: 1
database:
    storage: "{folder}"
log:
  - target: stderr
    any: warning
zone:
  - domain: {origin}
    file: "{folder}/zone"
    zonefile-sync: -1
    journal-content: none
"""
NSD = """
server:
    server-count: 1
    ip-address: 127.0.0.1@{port}
    username: ""
    zonesdir: "{folder}"
    database: ""
    pidfile: "{folder}/nsd.pid"
    xfrdfile: "{folder}/xfrd.state"
    xfrdir: "{folder}"
    zonelistfile: "{folder}/zone.list"
    logfile: "{folder}/nsd.log"
    rrl-ratelimit: 0
    rrl-whitelist-ratelimit: 0
    minimal-responses: {minimal}
remote-control:
    control-enable: no
zone:
    name: {origin}
    zonefile: zone
"""
PROGRAMS = {"BIND": "named", "Knot": "knotd", "NSD": "nsd"}
TEXTS = {"BIND": BIND, "Knot": KNOT, "NSD": NSD}


class Peer(NamedTuple):
    """A server while it runs."""

    port: int
    process_id: int


def words_of(name: str, configuration: str) -> List[str]:
    program = find(PROGRAMS[name])
    return {
        "BIND": [program, "-n", "1", "-f", "-c", configuration],
        "Knot": [program, "-c", configuration],
        "NSD": [program, "-d", "-c", configuration],
    }[name]


@contextlib.contextmanager
def other_server(name: str, zone: str, origin: str = ORIGIN, is_minimal: bool = True) -> Iterator[Peer]:
    """One of the others while it runs. Replies that are not minimal have what a server likes to add."""
    with tempfile.TemporaryDirectory() as folder:
        os.chmod(folder, 0o755)
        port = free_port()
        Path(folder, "zone").write_text(zone, encoding="ascii")
        configuration = Path(folder, "configuration")
        text = TEXTS[name].format(
            folder=folder, port=port, origin=origin.rstrip("."), minimal="yes" if is_minimal else "no"
        )
        configuration.write_text(text, encoding="ascii")
        with running(words_of(name, str(configuration)), folder) as process:
            wait_until(lambda: is_loaded(port, origin), process, name)
            yield Peer(port, process.pid)


def is_loaded(port: int, origin: str) -> bool:
    """Whether a server answers from the zone."""
    reply = ask_datagram(("127.0.0.1", port), query(origin, "SOA"), 0.5)
    return reply is not None and reply[3] & 15 == 0 and reply[6:8] == b"\0\1"


@contextlib.contextmanager
def own_server(program: str, zone: str) -> Iterator[Peer]:
    """The program while it runs, without a log."""
    with NameServer(zone, program=program, seconds=120, log=False) as server:
        yield Peer(server.port, server.process.pid)
