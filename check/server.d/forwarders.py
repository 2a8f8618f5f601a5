"""Unbound and dnsmasq as forwarders to the server, and `getaddrinfo` through dnsmasq in a name space of its own."""
import contextlib
import json
import os
import subprocess
import sys
import tempfile
from pathlib import Path
from typing import Iterator, List

from messages import query
from packages import find
from processes import free_port, running, wait_until
from report import Report
from tools import CHILD, QUESTIONS, ZONE, Seen, decoded
from transport import Address, ask_datagram, ask_stream
from watch import Watched

NAMES = [
    "www.example.com",
    "WWW6.example.com",
    "web.example.com",
    "broken.example.com",
    "nothing.example.com",
    "many.example.com",
]
# Looks names up by the C library, and prints what each led to.
LOOKUPS = """
import json, socket, sys
found = {}
for name in sys.argv[1:]:
    try:
        found[name] = sorted({it[4][0] for it in socket.getaddrinfo(name, None, type=socket.SOCK_STREAM)})
    except socket.gaierror as error:
        found[name] = error.args[0] == socket.EAI_NONAME or error.args[0] == getattr(socket, "EAI_NODATA", None)
json.dump(found, sys.stdout)
"""


def unbound_words(folder: str, port: int, server: Address) -> List[str]:
    """The arguments of an Unbound that forwards all questions."""
    Path(folder, "unbound.conf").write_text(
        f"""
server:
    interface: 127.0.0.1
    port: {port}
    access-control: 127.0.0.0/8 allow
    do-daemonize: no
    use-syslog: no
    logfile: ""
    chroot: ""
    username: ""
    directory: "{folder}"
    pidfile: ""
    do-not-query-localhost: no
    module-config: "iterator"
    qname-minimisation: no
    num-threads: 1
    edns-buffer-size: 1232
    local-zone: "test." nodefault
remote-control:
    control-enable: no
forward-zone:
    name: "."
    forward-addr: {server[0]}@{server[1]}
""",
        encoding="ascii",
    )
    return [find("unbound"), "-d", "-p", "-c", f"{folder}/unbound.conf"]


def dnsmasq_words(port: int, server: Address) -> List[str]:
    """The arguments of a dnsmasq that forwards all questions, and keeps none."""
    return [
        find("dnsmasq"), "--keep-in-foreground", "--conf-file=/dev/null", "--no-resolv", "--no-hosts", "--no-daemon",
        "--user=root", "--listen-address=127.0.0.1", "--bind-interfaces", f"--port={port}", "--cache-size=0", "--pid-file=",
        f"--server={server[0]}#{server[1]}",
    ]  # fmt: skip


@contextlib.contextmanager
def forwarder(name: str, server: Address, port: int = 0) -> Iterator[Address]:
    """A forwarder to a server while it runs."""
    with tempfile.TemporaryDirectory() as folder:
        os.chmod(folder, 0o755)
        address = ("127.0.0.1", port or free_port())
        words = unbound_words(folder, address[1], server) if name == "unbound" else dnsmasq_words(address[1], server)
        with running(words, folder) as process:
            wait_until(lambda: ask_datagram(address, query("ready.example.com."), 0.5), process, name)
            yield address


def comparable(seen: Seen):
    """What a forwarder leaves as it is: the code, and the records of the answer, whatever their order and case."""
    count = seen.counts[1]
    records = sorted(
        (tuple(it.lower() for it in record.owner), record.rtype, repr(record.data).lower())
        for record in seen.records[:count]
    )
    return seen.code, records


def try_forwarder(report: Report, program: str, name: str) -> None:
    """Asks a forwarder all questions over UDP and TCP. A truncated reply is asked for again over TCP."""
    report.begin()
    with Watched(program, [ZONE, CHILD]) as watched, forwarder(name, watched.relay.address) as address:
        for question in QUESTIONS:
            request = query(*question, payload=1232)
            wanted = comparable(decoded(watched.model.reply(request, True)))
            if question[1] == "ANY" or wanted[0] == "REFUSED" or is_chased(question):
                # A forwarder has other answers to these, but asks the server.
                ask_datagram(address, request)
                continue
            reply = ask_datagram(address, request)
            if reply is not None and reply[2] & 2:
                (reply,) = ask_stream(address, [request])
            report.check(f"{name} {question}", wanted, comparable(decoded(reply)) if reply else None)
        seen = watched.compare(report, name)
        report.check(f"{name}: requests to the server", True, len(seen) > len(QUESTIONS) // 2)
        watched.compare_log(report, f"{name}: log")
    report.end(f"{name} as a forwarder", f", {len(seen)} requests, {sum(it.is_stream for it in seen)} of them over a stream")


def is_chased(question) -> bool:
    """Questions whose aliases lead on where the server stops, so that a resolver asks more."""
    return question[0].startswith(("far.", "chain"))


def try_getaddrinfo(report: Report, program: str) -> None:
    """Looks names up by the C library, in a network and with a resolv.conf of its own."""
    apart = ["unshare", "--net", "--mount"]
    tried = subprocess.run([*apart, "true"], capture_output=True, text=True)
    if tried.returncode:
        report.skip("getaddrinfo", f"no name space of its own: {tried.stderr.strip()}")
        return
    report.begin()
    environment = {**os.environ, "PYTHONPATH": ":".join(it for it in sys.path if it), "PYTHONDONTWRITEBYTECODE": "1"}
    words = [*apart, sys.executable, os.path.abspath(__file__), program]
    done = subprocess.run(words, env=environment, capture_output=True, text=True, timeout=120)
    if not report.check("getaddrinfo: run", (0, ""), (done.returncode, done.stderr)):
        return
    found = json.loads(done.stdout)
    wanted = {
        "www.example.com": ["10.0.0.1", "10.0.0.2"],
        "WWW6.example.com": ["2001:db8:0:1::2"],
        "web.example.com": ["10.0.0.1", "10.0.0.2"],
        "broken.example.com": True,
        "nothing.example.com": True,
        "many.example.com": sorted(f"10.1.0.{at}" for at in range(1, 121)),
    }
    for name in NAMES:
        report.check(f"getaddrinfo {name}", wanted[name], found[name])
    for title, was_wanted, was_got in found["replies"]:
        report.check(f"getaddrinfo: {title}", was_wanted, was_got)
    report.end("getaddrinfo through dnsmasq", f", {len(found['replies'])} comparisons of bytes")


class Collector(Report):
    """Collects comparisons, to be handed over to the process outside."""

    def __init__(self):
        super().__init__()
        self.found = []

    def check(self, name, wanted, got):
        self.found.append((name, *(it.hex() if isinstance(it, bytes) else it for it in (wanted, got))))
        return wanted == got


def inside(program: str) -> None:
    """What is done in the name space, where dnsmasq has the port 53 of a network without others."""
    subprocess.run(["ip", "link", "set", "lo", "up"], check=True)
    subprocess.run(["mount", "--make-rprivate", "/"], check=True)
    with tempfile.TemporaryDirectory() as folder:
        for name, text in (("resolv.conf", "nameserver 127.0.0.1\n"), ("nsswitch.conf", "hosts: dns\n")):
            Path(folder, name).write_text(text, encoding="ascii")
            Path("/etc", name).touch()
            subprocess.run(["mount", "--bind", f"{folder}/{name}", f"/etc/{name}"], check=True)
        report = Collector()
        with Watched(program, [ZONE, CHILD]) as watched, forwarder("dnsmasq", watched.relay.address, 53):
            done = subprocess.run([sys.executable, "-c", LOOKUPS, *NAMES], capture_output=True, text=True, timeout=60)
            watched.compare(report, "getaddrinfo")
    json.dump({**json.loads(done.stdout), "replies": report.found}, sys.stdout)


def try_forwarders(report: Report, program: str, missing: List[str]) -> None:
    for name in ("unbound", "dnsmasq"):
        if name in missing:
            report.skip(name, "cannot be installed")
        else:
            try_forwarder(report, program, name)
    if "dnsmasq" in missing or not find("unshare") or not find("ip"):
        report.skip("getaddrinfo", "dnsmasq, unshare or ip is not there")
    else:
        try_getaddrinfo(report, program)


if __name__ == "__main__":
    inside(sys.argv[1])
