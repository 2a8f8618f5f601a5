"""The program itself: its arguments, faulty files, signals, its log, and who may update."""
import contextlib
import json
import os
import re
import signal
import socket
import subprocess
import sys
import tempfile
import time
from pathlib import Path
from typing import Dict, List, Sequence, Tuple

from logs import logged
from messages import query, update
from nameserver import NameServer
from relay import Exchange
from replies import Server
from report import Report
from transport import ask_datagram, ask_stream, connect, datagram_socket, frame, read_frame
from zones import record_of, zone_of

ZONE = "t. 60 IN SOA ns.t. h.t. 1 3600 600 86400 30\na.t. 60 IN A 10.0.0.1\n"
SECONDS = 20
# Files with a fault: the text, the line, and words of the reason.
FAULTY = [
    ("t. 60 IN SOA ns h 1 2 3 4 5\nwww AA 10.0.0.1\n", 2, ["type", "`AA`"]),
    ("t. 60 IN SOA ns h 1 2 3 4 5\nwww.t. 60 IN A 10.0.0.256\n", 2, ["`10.0.0.256`"]),
    ("t. 60 IN SOA ns h 1 2 3 4 5\n\n; comment\nx.u. 60 IN A 10.0.0.1\n", 4, ["origin"]),
    ("a.t. 60 IN A 10.0.0.1\n", None, ["SOA"]),
    ('t. 60 IN SOA ns h 1 2 3 4 5\na.t. 60 IN TXT "open\n', 2, []),
    ("t. 60 IN SOA ns h ( 1 2 3 4 5\n", 1, []),
    ("t. 60 CH SOA ns h 1 2 3 4 5\n", 1, []),
    ("t. 60 IN SOA ns h 1 2 3 4 5\na.t. 60 IN SOA ns h 1 2 3 4 5\n", 2, ["SOA"]),
]
WRONG = [
    [], ["zone", "--listen"], ["zone", "--listen", "here"], ["zone", "--listen", "127.0.0.1"], ["zone", "--listen", "127.0.0.1:65536"],
    ["zone", "--limit", "511"], ["zone", "--limit", "65536"], ["zone", "--limit", "x"], ["zone", "--unknown"], ["zone", "--origin", "a..b"],
    ["zone", "--allow-update", "10.0.0.0/33"], ["zone", "--allow-update", "x"], ["zone", "--limit", "600", "--limit", "600"],
    ["zone", "--plain", "--minimal-any"], ["zone", "--differences", "x"],
]  # fmt: skip

# Options that need another one or exclude it, and what clap says of them.
MISUSED = [
    (["--journal-limit", "8192"], "the following required arguments were not provided:\n  --journal <FILE>\n"),
    (["--compact"], "the following required arguments were not provided:\n  --journal <FILE>\n"),
    (["--compact", "--compact"], "the argument '--compact' cannot be used multiple times\n"),
    (["--journal", "j", "--compact", "--compact"], "the argument '--compact' cannot be used multiple times\n"),
    (["--compact=true"], "unexpected value 'true' for '--compact' found; no more were expected\n"),
    (["--no-updates", "--allow-update", "10.0.0.0/8"], "the argument '--no-updates' cannot be used with '--allow-update <ADDRESS/LENGTH>'\n"),
    # check/server gives --plain to every server.
    (["--minimal-any"], "the argument '--plain' cannot be used with '--minimal-any'\n"),
    (["--allow-transfer", "10.0.0.0/8"], "the argument '--plain' cannot be used with '--allow-transfer <ADDRESS/LENGTH>'\n"),
    (["--differences", "5"], "the argument '--plain' cannot be used with '--differences <N>'\n"),
    (["--keep-serials"], "the argument '--plain' cannot be used with '--keep-serials'\n"),
]
# Scripts, how their replay is compared, the status, and the lines of standard error beside those about zones.
REPLAYS = [
    ("0 127.0.0.1 udp query a.t. A\n", [], 0, ""),
    ("0 127.0.0.1 udp query a.t. A\n", ["--check"], 1, ""),
    ("0 127.0.0.1 udp query\n", [], 1, "script:1: "),
    ("0 127.0.0.1 udp query\n", ["--check"], 2, "script:1: "),
    ("0 127.0.0.1 udp query a.t. A\n #> x\n", [], 0, ""),
    ("0 127.0.0.1 udp query a.t. A\n #> x\n", ["--check"], 2, "script:2: '#> ' must be at the start of the line\n"),
    ("0 127.0.0.1 udp query a.t. A\n\t#> x\n", ["--bless"], 1, "script:2: '#> ' must be at the start of the line\n"),
    ("", ["--check", "--bless"], 2, "error: the argument '--check' cannot be used with '--bless'\n"),
]


def run(program: str, files: Dict[str, str], words: Sequence[str], seconds: float = SECONDS) -> Tuple[int, str, str]:
    """The status and both outputs of a program that ends by itself, in a folder with these files."""
    with tempfile.TemporaryDirectory() as folder:
        for name, text in files.items():
            Path(folder, name).write_text(text, encoding="utf-8")
        done = subprocess.run(
            [program, *words], cwd=folder, stdin=subprocess.DEVNULL, capture_output=True, text=True, timeout=seconds
        )
    return done.returncode, done.stdout, done.stderr


def try_arguments(report: Report, program: str) -> None:
    """`--help`, `--version`, wrong arguments, files that can't be read, and addresses that are taken."""
    for words in (["--help"], ["-h"], ["--version"], ["-V"], ["zone", "--help"]):
        status, output, errors = run(program, {"zone": ZONE}, words)
        wanted = "nameserver " if words[0] in ("--version", "-V") else "Usage: "
        report.check(f"{words}: {output!r}", (0, True, ""), (status, wanted in output, errors))
    options = "--origin --listen --limit --plain --minimal-any --faults --log --no-updates --allow-update --allow-transfer --notify --differences --keep-serials --until-stdin-closes".split()
    report.check("all options in --help", [], [it for it in options if it not in run(program, {}, ["--help"])[1]])
    for words in WRONG:
        status, output, errors = run(program, {"zone": ZONE}, words)
        report.check(f"{words}", (2, "", True), (status, output, bool(errors)))
    for words, said in MISUSED:
        status, output, errors = run(program, {"zone": ZONE}, ["zone", *words])
        report.check(f"{words}: {errors!r}", (2, "", True), (status, output, errors.startswith(f"error: {said}")))
    listen = ["--listen", "127.0.0.1:0"]
    unreadable = [
        ["none"],
        ["."],
        ["zone", "none"],
        ["zone", "--faults", "none"],
        ["zone", "zone"],
        ["zone", "--log", "none/log"],
    ]
    for words in unreadable:
        status, output, errors = run(program, {"zone": ZONE}, [*words, *listen])
        report.check(f"{words}", (1, "", True), (status, output, bool(errors)))
    with socket.socket() as one, socket.socket(socket.AF_INET, socket.SOCK_DGRAM) as other:
        one.bind(("127.0.0.1", 0))
        one.listen()
        other.bind(("127.0.0.1", 0))
        for taken in (one, other):
            words = ["zone", "--listen", f"127.0.0.1:{taken.getsockname()[1]}"]
            status, output, errors = run(program, {"zone": ZONE}, words)
            report.check("an address that is taken", (1, "", True), (status, output, bool(errors)))


def try_lost_serials(report: Report, program: str, words: List[str]) -> None:
    """Without a journal it is said that a restart loses updates that secondaries are notified of, if somebody may make them."""
    key = 'key "k" { algorithm hmac-sha256; secret "AAAA"; };\n'
    said = "nameserver: without --journal, a restart loses the updates"
    for more, wanted in (
        (["--notify", "127.0.0.1:9"], True),
        (["--notify", "127.0.0.1:9", "--no-updates"], False),
        (["--notify", "127.0.0.1:9", "--no-updates", "--key", "k"], True),
        (["--notify", "127.0.0.1:9", "--journal", "journal"], False),
        ([], False),
    ):
        status, _, errors = run(program, {"zone": ZONE, "k": key}, [*words, *more])
        told = [it.startswith(said) for it in errors.splitlines()]
        report.check(f"{more}: {errors!r}", (0, int(wanted)), (status, sum(told)))


def try_without_effect(report: Report, program: str) -> None:
    """Rules for names that no zone has are told; grants for such names, key files without keys, and two keys of one name are refused."""
    words = ["zone", "--faults", "faults", "--listen", "127.0.0.1:0", "--until-stdin-closes"]
    rules = "www A drop\n*.u A drop\n. A drop\nWWW.T. A drop\n*.a.t A drop\n*.t A drop\n* A drop\n"
    status, _, errors = run(program, {"zone": ZONE, "faults": rules}, words)
    said = [
        "faults:1: no zone here has www.: write the whole name, as www.t.",
        "faults:2: no zone here has *.u.: write the whole name, as *.u.t.",
        "faults:3: no zone here has .",
    ]
    report.check("rules for names that no zone has", (0, said), (status, errors.splitlines()[1:]))
    try_lost_serials(report, program, words[:1] + words[3:])
    status, _, errors = run(program, {"zone": ". 60 IN SOA ns. h. 1 3600 600 86400 30\n", "faults": "www A drop\n"}, words)
    report.check("a rule for a name below the root", (0, 1), (status, len(errors.splitlines())))
    key = 'key "k" { algorithm hmac-sha256; secret "AAAA"; };\n'
    files = {"zone": ZONE, "k": key, "other": key.replace('"k"', "K."), "none": "// no key\n"}
    tries = [
        (["--key", "none"], 1, "none: there is no key in this file"),
        (["--key", "k", "--key", "other"], 1, "other: another key has the same name"),
        (["--key", "k", "--grant", "k. t.u."], 2, "nameserver: invalid value 'k. t.u.' for '--grant': no zone here has this name"),
        (["--key", "k", "--grant", "k. a.t. A"], 0, None),
        (["--key", "k", "--grant", "k. ."], 0, None),
    ]
    for more, wanted, line in tries:
        status, _, errors = run(program, files, ["zone", *more, "--listen", "127.0.0.1:0", "--until-stdin-closes"])
        lines = [it for it in errors.splitlines() if ": zone t., " not in it and "other users may read" not in it]
        report.check(f"{more}", (wanted, [line] if line else []), (status, lines))


def try_replays(report: Report, program: str) -> None:
    """The status of a comparison tells what differs (1) from what is not compared (2), and no indented line is an expectation."""
    for script, words, status, said in REPLAYS:
        done = run(program, {"zone": ZONE, "script": script}, ["zone", "--replay", "script", *words])
        errors = "".join(it for it in done[2].splitlines(True) if ": zone t., " not in it)
        report.check(f"{script!r} {words}: {errors!r}", (status, True), (done[0], errors.startswith(said) if said else not errors))


def try_faulty_zones(report: Report, program: str) -> None:
    """A faulty zone file is refused with its name, its line and a reason, before anything is served."""
    for text, line, words in FAULTY:
        for files in (["faulty"], ["zone", "faulty"]):
            status, output, errors = run(
                program, {"zone": ZONE.replace("t.", "u."), "faulty": text}, [*files, "--listen", "127.0.0.1:0"]
            )
            place = f"faulty:{line}:" if line else "faulty:"
            report.check(f"{text!r}: status and output", (1, ""), (status, output))
            report.check(f"{text!r}: {errors!r}", [], [it for it in (place, "fault", *words) if it not in errors])


def try_loading(report: Report, program: str) -> None:
    """Standard error has each zone with its number of records and the time of loading, and the options of the zone."""
    text = "@ 60 SOA ns h 1 2 3 4 5\na 60 A 10.0.0.1\n"
    with NameServer(text, program=program, options=["--origin", "given.test"]) as server:
        wanted = Server(
            [zone_of("given.test. 60 IN SOA ns.given.test. h.given.test. 1 2 3 4 5\na.given.test. 60 IN A 10.0.0.1")]
        )
        request = query("a.given.test.")
        report.check("--origin", wanted.reply(request), ask_datagram((server.address, server.port), request))
        said = server.standard_error()
        report.check(f"standard error {said!r}", True, bool(re.search(r"given\.test.*\b2 records.*\d+ ms", said)))
    with NameServer([ZONE, ZONE.replace("t.", "u.")], program=program) as server:
        report.check("a line a zone", 2, len(server.standard_error().splitlines()))


def try_endings(report: Report, program: str) -> None:
    """What ends the program, and what doesn't."""
    for number in (signal.SIGTERM, signal.SIGINT):
        with NameServer(ZONE, program=program) as server:
            server.process.send_signal(number)
            report.check(f"{number.name} ends it", True, ends(server.process))
    with NameServer(ZONE, program=program) as server:
        for number in (signal.SIGSTOP, signal.SIGCONT, signal.SIGWINCH, signal.SIGCHLD, signal.SIGURG):
            server.process.send_signal(number)
        reply = ask_datagram((server.address, server.port), query("a.t."))
        report.check("other signals leave it", Server([zone_of(ZONE)]).reply(query("a.t.")), reply)
    try_input(report, program)
    try_streams_of_others(report, program)


def try_input(report: Report, program: str) -> None:
    """The end of standard input ends the program, after any text, which is not read."""
    for title, texts in {"nothing": [], "a line": [b"text\n"], "lines": [b"text\n"] * 3, "much": [b"x" * 20000]}.items():
        for pause in (0, 0.3):
            with NameServer(ZONE, program=program) as server:
                for text in texts:
                    server.process.stdin.write(text)
                    server.process.stdin.flush()
                    time.sleep(pause)
                report.check(f"{title} on standard input leaves it", None, server.process.poll())
                server.process.stdin.close()
                ended = ends(server.process), server.process.returncode
                report.check(f"the end of standard input ends it, {pause} s after {title}", (True, 0), ended)
                server.process.stdin = open(os.devnull, "wb")


def try_streams_of_others(report: Report, program: str) -> None:
    """Standard input that is at its end or closed from the start, or does not matter; standard output that is full."""
    with tempfile.TemporaryDirectory() as folder:
        Path(folder, "zone").write_text(ZONE)
        words, until = [program, f"{folder}/zone", "--listen", "127.0.0.1:0"], ["--until-stdin-closes"]
        quiet = {"stdin": subprocess.DEVNULL, "stderr": subprocess.DEVNULL}
        with ending(subprocess.Popen(words, stdout=subprocess.PIPE, **quiet)) as process:
            address = ("127.0.0.1", int(process.stdout.readline().rsplit(b":", 1)[1]))
            report.check("without --until-stdin-closes it stays", True, ask_datagram(address, query("a.t.")) is not None)
        for title, before in (("an empty file", None), ("nothing", lambda: os.close(0))):
            with ending(subprocess.Popen(words + until, stdout=subprocess.PIPE, preexec_fn=before, **quiet)) as process:
                report.check(f"{title} as standard input ends it", (True, 0), (ends(process), process.returncode))
        with open("/dev/full", "wb") as full, ending(subprocess.Popen(words, stdout=full, **quiet)) as process:
            report.check("without a place for its lines it ends", (True, 1), (ends(process), process.returncode))


@contextlib.contextmanager
def ending(process: subprocess.Popen):
    """A process that ends with the block."""
    try:
        yield process
    finally:
        process.kill()
        process.communicate()


def ends(process) -> bool:
    """Whether a process ends within two seconds."""
    try:
        process.wait(2)
        return True
    except subprocess.TimeoutExpired:
        return False


LOGGED = [
    query("a.t.", id=7), query("No.T.", "TXT"), b"", b"\1\2\3", bytes(12), query("a.t.", flags=0x8000), query("a\"\\\x07.t."),
    query(".", "NS"), query("a.t.", "TYPE65280"), query("a.t.")[:-2] + b"\1\2",
    update("t.", [], [record_of("b.t. 60 IN A 10.0.0.2")]), update("t.", [record_of("b.t. 0 IN A 10.0.0.9")], []),
    update("t.", [], [record_of("b.t. 60 IN A 10.0.0.2")]), update("t.", [], [record_of("B.t. 61 IN A 10.0.0.2")]),
    query("a.t.")[:-1],
]  # fmt: skip
FIELDS = (
    "moment peer transport id opcode question code answers authorities additionals request_bytes reply_bytes fault updated"
)
# How far the clocks may be apart, in milliseconds.
TOLERANCE = 20


def try_log(report: Report, program: str) -> None:
    """The log, line by line: its fields, their order, peers and moments; it is appended to; and it may be full."""
    before = time.monotonic()
    with NameServer(ZONE, program=program) as server:
        after = time.monotonic()
        noted = ask_logged(report, server)
        lines = server.wait_for_requests(len(LOGGED))
        for (wanted, sent, seen), line in zip(noted, lines):
            report.check("log: fields", wanted, {key: value for key, value in line.fields.items() if key != "moment"})
            report.check("log: order of the fields", FIELDS.split(), list(line.fields))
            least, most = (sent - after) * 1000 - TOLERANCE, (seen - before) * 1000 + TOLERANCE
            report.check(
                f"log: the moment {line.moment} is from {least:.0f} to {most:.0f}", True, least <= line.moment <= most
            )
        report.check("log: a line each", len(LOGGED), Path(server.path("log")).read_bytes().count(b"\n"))
    try_full_log(report, program, Server([zone_of(ZONE)]))


def ask_logged(report: Report, server: NameServer) -> list:
    """Sends the requests by turns over UDP and TCP. The result is what the log has to say of each, and when it was sent and its
    line was seen."""
    address, model, noted = (server.address, server.port), Server([zone_of(ZONE)]), []
    with datagram_socket(address) as sender, connect(address) as stream:
        for number, request in enumerate(LOGGED):
            time.sleep(0.1)
            is_stream, sent = bool(number % 2), time.monotonic()
            peer, reply = (stream if is_stream else sender).getsockname(), model.reply(request, is_stream)
            stream.sendall(frame(request)) if is_stream else sender.send(request)
            if reply is not None:
                report.check(f"log: {request.hex()}", reply, read_frame(stream) if is_stream else sender.recv(65535))
            server.wait_for_requests(number + 1)
            fields = {"peer": f"{peer[0]}:{peer[1]}", **logged(Exchange(is_stream, request, reply), has_changed=model.has_changed)}
            noted.append((fields, sent, time.monotonic()))
    return noted


def try_full_log(report: Report, program: str, model: Server) -> None:
    """A log that can't be written is told once, and the server goes on; a log that is there is appended to."""
    with tempfile.TemporaryDirectory() as folder:
        Path(folder, "zone").write_text(ZONE)
        Path(folder, "log").write_text("first\n")
        for log in ("/dev/full", f"{folder}/log"):
            words = [program, f"{folder}/zone", "--listen", "127.0.0.1:0", "--log", log]
            process = subprocess.Popen(words, stdin=subprocess.DEVNULL, stdout=subprocess.PIPE, stderr=subprocess.PIPE)
            try:
                address = ("127.0.0.1", int(process.stdout.readline().rsplit(b":", 1)[1]))
                for number in range(20):
                    request = query("a.t.", id=number)
                    report.check(f"a log in {log}", model.reply(request), ask_datagram(address, request))
            finally:
                process.terminate()
                errors = process.communicate()[1].decode()
            told = [line for line in errors.splitlines() if "log" in line.lower()]
            report.check(f"a log in {log}: told {errors!r}", 1 if log == "/dev/full" else 0, len(told))
        report.check("a log that was there", ["first"], Path(folder, "log").read_text().splitlines()[:1])
        report.check("a log that was there grows", 21, len(Path(folder, "log").read_text().splitlines()))


# An address that is not a loopback one, in a network of its own: of TEST-NET-1 (RFC 5737).
OUTSIDE = "192.0.2.1"


def try_permissions(report: Report, program: str) -> None:
    """Updates from addresses other than those of the local host, in a network of its own, on its loopback interface."""
    apart = ["unshare", "--net"]
    tried = subprocess.run([*apart, "true"], capture_output=True, text=True)
    if tried.returncode:
        report.skip("updates from other addresses", f"no network of its own: {tried.stderr.strip()}")
        return
    environment = {**os.environ, "PYTHONPATH": ":".join(it for it in sys.path if it), "PYTHONDONTWRITEBYTECODE": "1"}
    done = subprocess.run(
        [*apart, sys.executable, os.path.abspath(__file__), program],
        env=environment,
        capture_output=True,
        text=True,
        timeout=120,
    )
    if report.check("updates from other addresses: run", (0, ""), (done.returncode, done.stderr)):
        for name, wanted, got in json.loads(done.stdout):
            report.check(f"update {name}", wanted, got)


def inside(program: str) -> list:
    """Updates from each address, and the codes of their replies."""
    subprocess.run(["ip", "link", "set", "lo", "up"], check=True)
    subprocess.run(["ip", "address", "add", f"{OUTSIDE}/32", "dev", "lo"], check=True)
    subprocess.run(["ip", "address", "add", "2001:db8::1/128", "dev", "lo", "nodad"], check=True)
    found = []
    everywhere = [word for it in (f"{OUTSIDE}:0", "[::1]:0", "[2001:db8::1]:0") for word in ("--listen", it)]
    for allowed, codes in (
        ([], [0, 5, 0, 5]),
        (["192.0.2.0/24"], [0, 0, 0, 5]),
        (["192.0.2.2/31", "2001:db8::/32"], [0, 5, 0, 0]),
        ([OUTSIDE, "2001:db8::1"], [0, 0, 0, 0]),
        (["0.0.0.0/0"], [0, 0, 0, 5]),
        (["::/0"], [0, 5, 0, 0]),
    ):
        options = everywhere + [word for it in allowed for word in ("--allow-update", it)]
        with NameServer(ZONE, program=program, options=options) as server:
            for address, code in zip(server.addresses, codes):
                request = update("t.", [], [record_of("n.t. 60 IN A 10.0.0.9")])
                replies = [ask_datagram(address, request), ask_stream(address, [request])[0]]
                found.append((f"to {address[0]} with {allowed}", [code] * 2, [it[3] & 15 if it else None for it in replies]))
    return found


def try_program(report: Report, program: str, _missing: List[str]) -> None:
    for title, work in (
        ("arguments", try_arguments), ("what has no effect", try_without_effect), ("replays", try_replays), ("faulty zone files", try_faulty_zones), ("loading", try_loading), ("endings", try_endings),
        ("the log", try_log), ("who may update", try_permissions),
    ):  # fmt: skip
        report.begin()
        report.attempt(title, work, program)
        report.end(title)


if __name__ == "__main__":
    json.dump(inside(sys.argv[1]), sys.stdout)
