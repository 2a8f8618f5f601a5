"""Updates that are signed (RFC 8945): taken by BIND and Knot, and false replies, of which none is accepted."""
import contextlib
import os
import random
import tempfile
import time
from pathlib import Path
from typing import Iterator, NamedTuple, Sequence

from asked import ORIGIN, ZONE, Asked
from asking import Resolver, Run
from forging import ALGORITHMS, Forger, Key, Request, tsig_start
from given import Given
from packages import find
from peers import PROGRAMS, is_loaded, words_of
from processes import free_port, running, wait_until
from report import Report
from transport import Address

UPDATE = ("--update", "append u 60 A 10.6.0.1", "--zone", ORIGIN)
FAST = ["--timeout", "0.4", "--attempts", "1"]
PATIENT = ["--timeout", "10", "--attempts", "1"]
# How many changed replies are tried, and how many of them one run of the program gets.
CHANGED, QUICK_CHANGED, CHANGED_OF_A_RUN = 20_000, 2_000, 200
# By how many seconds the program's clock differs from the server's.
OTHER_CLOCKS = [3600, -3600, 310, -310, 250, -250]
BIND = """
options {{
    directory "{folder}";
    listen-on port {port} {{ 127.0.0.1; }};
    listen-on-v6 {{ none; }};
    pid-file none;
    session-keyfile none;
    recursion no;
    notify no;
    dnssec-validation no;
}};
controls {{ }};
{keys}
zone "{origin}" {{ type primary; file "{folder}/zone"; allow-update {{ {names} }}; }};
"""
KNOT = """
server:
    rundir: "{folder}"
    listen: 127.0.0.1@{port}
database:
    storage: "{folder}"
log:
  - target: stderr
    any: warning
key:
{keys}
acl:
  - id: updates
    key: [{names}]
    action: update
zone:
  - domain: {origin}
    file: "{folder}/zone"
    acl: updates
"""


def configuration(name: str, folder: str, port: int, keys: Sequence[Key]) -> str:
    """The configuration of a server that takes updates by the holders of keys."""
    fields = {"folder": folder, "port": port, "origin": ORIGIN.rstrip(".")}
    if name == "BIND":
        names = "".join(f'key "{it.name}"; ' for it in keys)
        return BIND.format(keys="".join(it.text for it in keys), names=names, **fields)
    lines = "".join(f"  - id: {it.name}\n    algorithm: {it.algorithm}\n    secret: {it.base64}\n" for it in keys)
    return KNOT.format(keys=lines, names=", ".join(it.name for it in keys), **fields)


@contextlib.contextmanager
def signing_server(name: str, keys: Sequence[Key]) -> Iterator[Address]:
    """BIND or Knot, which takes updates by the holders of keys."""
    with tempfile.TemporaryDirectory() as folder:
        os.chmod(folder, 0o755)
        port = free_port()
        Path(folder, "zone").write_text(ZONE + "\n", encoding="ascii")
        path = Path(folder, "configuration")
        path.write_text(configuration(name, folder, port, keys), encoding="ascii")
        with running(words_of(name, str(path)), folder) as process:
            wait_until(lambda: is_loaded(port, ORIGIN), process, name)
            yield "127.0.0.1", port


@contextlib.contextmanager
def signing(given: Given, address: Address, keys: Sequence[Key], options: Sequence[object] = FAST) -> Iterator[Resolver]:
    """The program with a server and a file of keys."""
    with Resolver(given.program, [address], options) as resolver:
        resolver.key_file = resolver.write("keys", "".join(it.text for it in keys))
        os.chmod(resolver.key_file, 0o600)
        yield resolver


def update(resolver: Resolver, *words: object) -> Run:
    return resolver.run(*UPDATE, "--key", resolver.key_file, *words)


class Case(NamedTuple):
    """An update by keys of a file, and the status, the output, and what the error line has."""

    title: str
    keys: Sequence[Key]
    words: Sequence[str]
    status: int
    output: str
    error: str


def try_keys(report: Report, given: Given, name: str) -> None:
    """Each algorithm, over UDP and TCP, and keys that the server doesn't know or has with another secret."""
    keys = [Key(f"key-{it}.", it) for it in ALGORITHMS]
    good, other = Key("key-hmac-sha256.", "hmac-sha256"), Key("key-hmac-sha256.", "hmac-sha256", b"another secret, of 32 octets 1234")
    unknown = Key("unknown.", "hmac-sha256")
    another = Key("key-hmac-sha256.", "hmac-sha512")
    cases = [
        *(Case(it.algorithm, [it], words, 0, "NoError\n", "") for it in keys for words in ([], ["--tcp"])),
        Case("the first key", [good, unknown], [], 0, "NoError\n", ""),
        Case("a key by its name", [unknown, good], ["--key-name", "KEY-hmac-sha256"], 0, "NoError\n", ""),
        *(Case(f"{title} {words}", [key], words, 3, "", error) for words in ([], ["--tcp"]) for title, key, error in (
            ("another secret", other, "BADSIG"), ("an unknown key", unknown, "BADKEY"), ("another algorithm", another, "BADKEY"))),
    ]  # fmt: skip
    with signing_server(name, keys) as address:
        for case in cases:
            with signing(given, address, case.keys, PATIENT if case.status == 0 else FAST) as resolver:
                run = update(resolver, *case.words)
                wanted = (case.status, case.output, True)
                report.check(f"{name}: {case.title}", wanted, (run.status, run.output, case.error in run.errors or run.errors))
        with Resolver(given.program, [address], PATIENT) as resolver:
            run = resolver.run(*UPDATE)
            # Knot says that the requestor is not authorized (RFC 2136 section 3.3 leaves the code to the server, or says REFUSED).
            report.check(f"{name}: without a key", (1, True), (run.status, run.output in ("Refused\n", "NotAuth\n")))
            run = resolver.run(f"u.{ORIGIN}", "-t", "A")
            report.check(f"{name}: what the updates made", [f"u.{ORIGIN} 60 IN A 10.6.0.1"], run.output.splitlines())
        try_clocks(report, given, name, address, good)


def try_clocks(report: Report, given: Given, name: str, address: Address, key: Key) -> None:
    """The program with another clock than the server."""
    faketime = find("faketime")
    if not faketime:
        report.skip(f"{name} and another clock", "faketime is missing")
        return
    with signing(given, address, [key], PATIENT) as resolver:
        for seconds in OTHER_CLOCKS:
            path = resolver.write("late", f'#!/bin/sh\nexec {faketime} -f {seconds:+d}s {given.program} "$@"\n')
            os.chmod(path, 0o700)
            resolver.program = path
            is_late = abs(seconds) > 300
            for words in ([], ["--tcp"]):
                run = update(resolver, *words)
                wanted = (1, "NotAuth\n", True) if is_late else (0, "NoError\n", True)
                got = (run.status, run.output, ("BADTIME" in run.errors) == is_late or run.errors)
                report.check(f"{name}, a clock {seconds:+d} s off {words}", wanted, got)


def try_files(report: Report, given: Given) -> None:
    """Key files that are missing, wrong, without the key, or that others may read."""
    key = Key("k.", "hmac-sha256")
    with Forger(key, lambda request: [request.reply()]) as forger, signing(given, forger.address, [key]) as resolver:
        for title, text, words, error in (
            ("no key", "# none\n", [], "no such key"), ("not a key file", 'key "k" {\n algorithm x; };', [], "line 2: "),
            ("another name", key.text, ["--key-name", "other"], "no such key"), ("no file", None, [], "cannot read"),
            ("not a name", key.text, ["--key-name", "a..b"], "--key-name"),
        ):  # fmt: skip
            path = resolver.write("wrong", text) if text is not None else "/nonexistent/keys"
            run = resolver.run(*UPDATE, "--key", path, *words)
            report.check(f"key file: {title}", (2, "", True), (run.status, run.output, error in run.errors or run.errors))
        for words in (["--key", resolver.key_file, "a.test."], [*UPDATE, "--key-name", "k"]):
            report.check(f"{words}", 2, resolver.run(*words).status)
        for mode in (0o600, 0o640, 0o660, 0o604, 0o602, 0o666):
            os.chmod(resolver.key_file, mode)
            run = update(resolver)
            wanted = (0, "NoError\n", mode & 6 != 0)
            report.check(f"a key file of mode {mode:o}", wanted, (run.status, run.output, "other users" in run.errors))
        run = update(resolver, "--json")
        report.check("JSON", True, '"code":"NoError","error":null,' in run.output or run.output)


# False replies, each with what the error line says of it, and one that reports an error.
FALSE = {
    "without a signature": (lambda it: it.reply(is_signed=False), "not signed"),
    "by another secret": (lambda it: it.reply(secret=b"another secret"), "wrong"),
    "to another request": (lambda it: it.reply(prior=bytes(32)), "wrong"),
    "to no request": (lambda it: it.reply(prior=b""), "wrong"),
    "of another key": (lambda it: it.reply(name="other."), "another key"),
    "of another algorithm": (lambda it: it.reply(algorithm="hmac-sha512"), "another key"),
    "too old": (lambda it: it.reply(time=it.time - 310), "another time"),
    "too new": (lambda it: it.reply(time=it.time + 310), "another time"),
    "a fudge of 0, and 5 seconds": (lambda it: it.reply(time=it.time - 5, fudge=0), "another time"),
    "half of the code": (lambda it: it.reply(length=16), "truncated"),
    "nine bytes of the code": (lambda it: it.reply(length=9), "length"),
    "no code": (lambda it: it.reply(length=0), "length"),
    "BADKEY without a code": (lambda it: it.reply(rcode=9, error=17, length=0), "BADKEY"),
    "BADSIG without a code": (lambda it: it.reply(rcode=9, error=16, length=0), "BADSIG"),
    "BADTIME without a code": (lambda it: it.reply(rcode=9, error=18, length=0), "BADTIME"),
    "a record after the signature": (lambda it: it.with_record_after(it.reply()), "cannot be read"),
    "a byte after the signature": (lambda it: it.reply() + b"\0", "cannot be read"),
    "an uncounted signature": (lambda it: it.uncounted(it.reply()), "not signed"),
}
TRUE = {
    "a signed reply": (lambda it: it.reply(), 0, "NoError\n", ""),
    "almost too old": (lambda it: it.reply(time=it.time - 290), 0, "NoError\n", ""),
    "almost too new": (lambda it: it.reply(time=it.time + 290), 0, "NoError\n", ""),
    "a signed NXRRSET": (lambda it: it.reply(rcode=8), 1, "NXRRSet\n", ""),
    "a signed BADTIME": (lambda it: it.reply(rcode=9, error=18, other=bytes(6)), 1, "NotAuth\n", "BADTIME"),
    "names in capitals": (lambda it: it.in_capitals(it.reply()), 0, "NoError\n", ""),
}


def try_false(report: Report, given: Given) -> None:
    """False replies alone, before a true one, and over TCP; and true ones."""
    key = Key("k.", "hmac-sha256")
    for title, (make, error) in FALSE.items():
        with Forger(key, lambda request: [make(request)]) as forger, signing(given, forger.address, [key]) as resolver:
            for words in ([], ["--tcp"]):
                run = update(resolver, *words)
                report.check(f"{title} {words}", (3, "", True), (run.status, run.output, error in run.errors or run.errors))
            run = update(resolver, "--json")
            report.check(f"{title}, JSON", (3, True), (run.status, '"code":null' in run.output and error in run.output or run.output))
        with Forger(key, lambda request: [make(request), request.reply()]) as forger, signing(given, forger.address, [key]) as resolver:
            run = update(resolver)
            report.check(f"{title}, and a true reply", (0, "NoError\n", ""), (run.status, run.output, run.errors))
    for title, (make, status, output, error) in TRUE.items():
        with Forger(key, lambda request: [make(request)]) as forger, signing(given, forger.address, [key]) as resolver:
            for words in ([], ["--tcp"]):
                run = update(resolver, *words)
                report.check(f"{title} {words}", (status, output, True), (run.status, run.output, error in run.errors or run.errors))
    for name in ("another id", "an id that a forwarder changed"):
        is_forwarded = name != "another id"
        with Forger(key, lambda request: [request.reply(other_id=is_forwarded, wire_id=not is_forwarded)]) as forger:
            with signing(given, forger.address, [key]) as resolver:
                report.check(name, 0 if is_forwarded else 3, update(resolver).status)


def try_changed(report: Report, given: Given) -> int:
    """Signed replies with a changed bit, or other bytes, of which the program accepts none."""
    key, count, draws = Key("k.", "hmac-sha256"), QUICK_CHANGED if given.is_quick else CHANGED, random.Random(given.seed)
    received = 0
    for _ in range(count // CHANGED_OF_A_RUN):
        forger = Forger(key, lambda request: [changed(request, draws) for _ in range(CHANGED_OF_A_RUN)], pause=0.0005)
        with forger, signing(given, forger.address, [key], ["--timeout", "1", "--attempts", "1"]) as resolver:
            run = update(resolver, "--trace")
            report.check("changed replies", (3, ""), (run.status, run.output))
            received += sum(" received " in line for line in run.errors.splitlines())
    report.check("most of them are received", True, received > count * 0.8 or received)
    return received


def changed(request: Request, draws: random.Random) -> bytes:
    """A signed reply with a change that matters."""
    reply = request.reply(rcode=draws.choice([0, 0, 0, 8]))
    while True:
        found = bytearray(reply)
        way = draws.randrange(10)
        at = draws.randrange(len(found))
        if way < 6:
            found[at] ^= 1 << draws.randrange(8)
        elif way < 8:
            found[at] = draws.randrange(256)
        elif way == 8:
            del found[at]
        else:
            found.insert(at, draws.randrange(256))
        # No code covers the case of the names in the TSIG record.
        start = tsig_start(reply, request.key)
        if bytes(found[:start]) != reply[:start] or found[start:].lower() != reply[start:].lower():
            return bytes(found)


def try_unsigned(report: Report, given: Given) -> None:
    """A server without keys, whose replies have no signature."""
    with Asked(given) as asked:
        with signing(given, (asked.server.address, asked.server.port), [Key("k.", "hmac-sha256")]) as resolver:
            run = update(resolver)
            report.check("nameserver, without keys", (3, "", True), (run.status, run.output, bool(run.errors)))


def try_signed(report: Report, given: Given) -> None:
    """Signed updates."""
    for name in ("BIND", "Knot"):
        if PROGRAMS[name] in given.missing:
            report.skip(f"signed updates of {name}", f"{PROGRAMS[name]} is missing")
            continue
        report.begin()
        report.attempt(name, try_keys, given, name)
        report.end(f"signed updates of {name}")
    for title, work in (("key files", try_files), ("false replies", try_false), ("a server without keys", try_unsigned)):
        report.begin()
        report.attempt(title, work, given)
        report.end(title)
    report.begin()
    start, received = time.monotonic(), 0
    received = try_changed(report, given)
    report.end("changed replies", f", {received} received in {time.monotonic() - start:.0f} s, none accepted unless one failed")
