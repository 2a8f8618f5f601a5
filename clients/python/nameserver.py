"""Starts the program `nameserver` for a test, reads its log, changes its records, and stops it.

    from nameserver import NameServer

    ZONE = '''
    $ORIGIN example.com.
    $TTL 60
    @    SOA ns hostmaster ( 1 1h 10m 1d 30 )
    www  A   10.0.0.1
    '''

    with NameServer(ZONE, faults="www.example.com. A drop times 1") as server:
        look_up("www.example.com", server.address, server.port)
        first, second = server.wait_for_requests(2)
        assert first.fault == 1 and second.code_name == "NOERROR"
        server.update("swap www.example.com. 60 A 10.0.0.1 -> 10.0.0.2")

Plain Python 3.8 without dependencies: copy this file and `nameserver_messages.py` beside your tests. `pytest_nameserver.py` has fixtures
for pytest.

The program is the argument `program`, or else the environment variable `NAMESERVER`, or else the `./nameserver` of the
checkout that this file is in, or else `nameserver` on the PATH. It listens on a free port of 127.0.0.1, and ends with the
`with` block. It also ends with the process of the test, however that ends, since its standard input then does.
"""
import contextlib
import functools
import json
import os
import random
import select
import shutil
import socket
import struct
import subprocess
import sys
import tempfile
import time
from pathlib import Path

from nameserver_messages import CODES, Key, MessageError, Stream, Update
from nameserver_messages import decode_message, is_in, labels_of, normal_data, transfer, type_name, type_number, with_lower_names

# How long to wait for the server, in seconds. The front of a checkout compiles the program when it is first called.
START_LIMIT = 10
COMPILE_LIMIT = 600
# How long a server may take to end by itself.
END_LIMIT = 5
# What stands for all addresses of the machine, and which of them the kernel lists in which file.
EVERY_IPV4, EVERY = "0.0.0.0", "::"
IPV4_FILE, IPV6_FILE = "/proc/net/fib_trie", "/proc/net/if_inet6"


class NameServerError(Exception):
    """The server could not be started, or ended by itself, or what a test waits for did not come."""


class UpdateError(NameServerError):
    """The server did not make an update.

    `code_name` is the code of its reply, such as "NXRRSET", and `signature_error` the error of its signature, such as "BADKEY", or None.
    """

    def __init__(self, text, code_name, signature_error=None, complaint=""):
        reason = f"{code_name} ({signature_error})" if signature_error else code_name
        super().__init__(f"the server answered {reason} to the update {text.strip()!r}{complaint}")
        self.code_name, self.signature_error = code_name, signature_error


class Request:
    """A request as a line of the log has it: each field of the line is an attribute.

    `moment` is in milliseconds since the server started, `peer` the address and port that asked, `transport` "udp" or "tcp",
    `code` the number of the reply's code, or None if there was no reply, and `fault` the line of the rule that was applied, or
    None. `code_name` is the name of the code, such as "NXDOMAIN". `name`, `type` and `rclass` are those of the question, or
    None without one.
    """

    def __init__(self, fields):
        self.fields = fields
        question = fields.get("question") or {}
        self.name, self.type, self.rclass = (question.get(it) for it in ("name", "type", "class"))
        self.code_name = CODES.get(fields.get("code"))

    def __getattr__(self, name):
        try:
            return self.__dict__["fields"][name]
        except KeyError:
            raise AttributeError(name) from None

    def __repr__(self):
        return f"Request({self.fields!r})"

    def __str__(self):
        asked = f"{self.name} {self.type}" if self.name else f"{self.request_bytes} bytes"
        if self.opcode == 5:
            asked = f"update of {self.name}, which changed {'records' if self.updated else 'nothing'}"
        answers = "1 answer" if self.answers == 1 else f"{self.answers} answers"
        answered = "no reply" if self.code is None else f"{self.code_name or self.code}, {answers}"
        applied = f", by line {self.fault} of the faults" if self.fault else ""
        return f"{self.moment} ms {self.transport} {self.peer}: {asked}: {answered}{applied}"


class NameServer:
    """A name server for zones, between the begin and the end of a `with` block.

    `zone` is the text of a zone file, or a list of such texts, each of another zone. `faults` is the text of a fault table,
    and `options` are further arguments of the program, such as `["--limit", "512"]`. `address` is that to listen at, such as "::1";
    "0.0.0.0" stands for all IPv4 addresses that the machine has at the start, and "::" for all addresses. `port` 0 is any free port, and
    `seconds` how long the server may take to start. `log=False` leaves out the log, which takes time.

    Once the server is started, `address` and `port` are those to ask on this machine, and `addresses` has them and those of each further
    address and `--listen` of the options.
    """

    def __init__(self, zone, *, faults="", options=(), address="127.0.0.1", port=0, program=None, seconds=None, log=True):
        self.zones = [zone] if isinstance(zone, str) else list(zone)
        self.faults, self.options = faults, [str(it) for it in options]
        self.listen, self.address, self.port, self.has_log = address, address, port, log
        self.program, limit = find_program(program)
        self.seconds = limit if seconds is None else seconds
        self.process = self.folder = None
        self.addresses = []
        # The peers that `records` asked from, whose requests are not those of the test.
        self.readers = set()
        # The log, and what was printed on standard error, of a server that has stopped.
        self.former, self.said = [], ""

    def __enter__(self):
        self.start()
        return self

    def __exit__(self, *_):
        self.stop()

    def start(self):
        """Starts the server, and waits until it can be asked."""
        if self.folder is None:
            self.folder = tempfile.mkdtemp(prefix="nameserver-")
        try:
            with open(self.path("stderr"), "wb") as errors:
                self.process = subprocess.Popen(
                    self.words(),
                    stdin=subprocess.PIPE,
                    stdout=subprocess.PIPE,
                    stderr=errors,
                    close_fds=True,
                )
            end = time.monotonic() + self.seconds
            further = [it for it in self.options if it == "--listen" or it.startswith("--listen=")]
            self.addresses = [self.wait_for_address(end) for _ in range(len(addresses_of(self.listen)) + len(further))]
            self.address, self.port = self.addresses[0]
        except BaseException:
            self.stop()
            raise

    def words(self):
        """The program and its arguments, after their files have been written."""
        texts = {f"zone{number}": text for number, text in enumerate(self.zones)}
        if self.faults:
            texts["faults"] = self.faults
        for name, text in texts.items():
            Path(self.path(name)).write_text(text, encoding="utf-8")
        words = [self.program, *(self.path(it) for it in texts if it != "faults"), "--until-stdin-closes"]
        addresses = addresses_of(self.listen)
        port = free_port() if len(addresses) > 1 and not self.port else self.port
        for address in addresses:
            words += ["--listen", endpoint(address, port)]
        words += ["--log", self.path("log")] if self.has_log else []
        return words + (["--faults", self.path("faults")] if self.faults else []) + self.options

    def path(self, name):
        """A file of the server's folder."""
        return os.path.join(self.folder, name)

    def wait_for_address(self, end):
        """The address and the port of the next line that the server prints."""
        line = b""
        output = self.process.stdout.fileno()
        while not line.endswith(b"\n"):
            left = end - time.monotonic()
            if left <= 0 or not select.select([output], [], [], left)[0]:
                raise NameServerError(f"{self.program} printed no address within {self.seconds} seconds{self.complaint()}")
            more = os.read(output, 1)
            if not more:
                raise NameServerError(f"{self.program} ended with status {self.process.wait()}{self.complaint()}")
            line += more
        host, _, port = line.decode().split()[-1].rpartition(":")
        return host.strip("[]"), int(port)

    def stop(self):
        """Ends the server. Its log can still be read."""
        if self.process is not None:
            self.end_process()
        if self.folder is not None:
            self.former, self.said = self.read_log(), self.standard_error()
            shutil.rmtree(self.folder, ignore_errors=True)
            self.folder = None

    def end_process(self):
        """Closes the standard input of the server, and waits for its end."""
        self.process.stdin.close()
        try:
            self.process.wait(END_LIMIT)
        except subprocess.TimeoutExpired:
            self.process.kill()
            self.process.wait()
        self.process.stdout.close()
        self.process = None

    def restart(self, *, zone=None, faults=None):
        """Starts the server again at the same port, with another zone or other faults. Its updates are gone."""
        self.end_process()
        if zone is not None:
            self.zones = [zone] if isinstance(zone, str) else list(zone)
        if faults is not None:
            self.faults = faults
        if os.path.exists(self.path("log")):
            os.remove(self.path("log"))
        self.readers.clear()
        self.start()

    def is_running(self):
        """Whether the server was started, and has not ended."""
        return self.process is not None and self.process.poll() is None

    def requests(self):
        """The requests since the last start, as the log has them."""
        if not self.has_log:
            raise NameServerError("the server keeps no log")
        return self.former if self.folder is None else self.read_log()

    def read_log(self):
        """The requests of the file of the log, without those of `records`."""
        if not os.path.exists(self.path("log")):
            return []
        with open(self.path("log"), encoding="utf-8") as log:
            found = [Request(json.loads(line)) for line in log if line.endswith("\n")]
        return [it for it in found if it.peer not in self.readers or it.type != "AXFR"]

    def wait_for_requests(self, count, seconds=5):
        """The requests so far, as soon as there are this many. A reply may arrive before its line of the log."""
        found, is_there = self.poll(lambda: self.requests(), lambda it: len(it) >= count, seconds)
        if not is_there:
            raise NameServerError(f"{len(found)} requests of {count} within {seconds} seconds{self.complaint()}")
        return found

    def wait_for(self, seconds=5, **fields):
        """The first request whose fields are these, such as `name="www.example.com.", type="A"`, as soon as there is one."""

        def look():
            return [it for it in self.requests() if all(getattr(it, name) == value for name, value in fields.items())]

        found, is_there = self.poll(look, bool, seconds)
        if not is_there:
            raise NameServerError(f"no request with {fields} within {seconds} seconds{self.complaint()}")
        return found[0]

    def poll(self, look, is_wanted, seconds):
        """What `look` returns as soon as that is wanted, or at last, and whether it is. A server that has ended is looked at once more."""
        end, pause = time.monotonic() + seconds, 0.01
        while True:
            is_last = time.monotonic() >= end or not self.is_running()
            found = look()
            if is_wanted(found) or is_last:
                return found, is_wanted(found)
            time.sleep(pause)
            pause = min(1.5 * pause, 0.1)

    def unused_faults(self):
        """The rules of the fault table that were not applied since the last start, each as its line and its text."""
        used = {request.fault for request in self.requests()}
        lines = enumerate(self.faults.splitlines(), 1)
        return [(at, text.strip()) for at, text in lines if at not in used and text.strip() and not text.lstrip().startswith("#")]

    def update(self, text, zone=None, seconds=5, key=None):
        """Makes a dynamic update (RFC 2136), as a whole, and returns "NOERROR", or raises an `UpdateError` that has the code of the reply.

        Each line is a change or a prerequisite: in the words of `nsupdate`, with whole names,

            prereq yxrrset www.example.com. A 10.0.0.1
            update add www.example.com. 60 A 10.0.0.2
            update delete www.example.com. TXT

        or in those of `lookup --update`, where the zone completes names without a dot at their end that are not in it:
        `create NAME TTL TYPE DATA`, if there is none of this name and type; `append NAME TTL TYPE DATA`;
        `swap NAME TTL TYPE DATA -> DATA`, if there is no other; `delete-record NAME TYPE DATA`, `delete-set NAME TYPE` or
        `delete-name NAME`. A line that is none of them is a `ValueError`.

        The zone is that of the first zone file unless it is given. `key` signs the update: it is a `Key`, the text of a key as
        `tsig-keygen` prints it, or the path of a file with one.
        """
        made = Update(text, zone or self.origins()[0])
        message, mac = made.to_wire(random.randrange(1 << 16)), b""
        if key is not None:
            key = Key.read(key)
            message, mac = key.sign(message)
        with self.stream(f"to the update {text.strip()!r}", seconds) as stream:
            stream.send(message)
            reply = stream.receive()
            decoded = decode_message(reply)
            if decoded.id != struct.unpack_from(">H", message)[0]:
                raise MessageError("a reply to another request")
            error = key.verify(reply, mac) if key else None
        if decoded.code:
            raise UpdateError(text, CODES.get(decoded.code, str(decoded.code)), error, self.complaint())
        return CODES[0]

    def records(self, name, type):
        """The data of the records that the zone has at a name, sorted.

        They are transferred with their zone, so that no rule of the fault table is applied, and the log that a test sees has no request for
        them. Names in data are whole, as in `10 mail.example.com.`; data of a type that has no form here is `\\# LENGTH HEX`.
        """
        kind = type_name(type_number(type.upper()))
        zones = [it for it in self.origins() if is_in(name, it)]
        if not zones:
            raise NameServerError(f"no zone of the server has {name}")
        with self.stream("to a transfer", 5) as stream:
            self.readers.add(endpoint(*stream.socket.getsockname()[:2]))
            found, code_name = transfer(stream, max(zones, key=lambda it: len(labels_of(it))))
        if found is None:
            raise NameServerError(f"the server answered {code_name} to a transfer, which `records` needs{self.complaint()}")
        return sorted(it.data for it in found if it.type == kind and labels_of(it.name) == labels_of(name))

    def wait_for_records(self, name, type, data=None, seconds=5):
        """Waits until the zone has these records at a name, and no others of the type, and returns their data.

        `data` is the text of a record, or a list of them, in any order. An empty list waits until there are none, and None until there are
        some.
        """
        wanted = None if data is None else [data] if isinstance(data, str) else list(data)
        kind = type_name(type_number(type.upper()))
        compared = None if wanted is None else sorted(normal_data(kind, it) for it in wanted)

        def is_wanted(found):
            return bool(found) if compared is None else sorted(with_lower_names(kind, it) for it in found) == compared

        found, is_there = self.poll(lambda: self.records(name, type), is_wanted, seconds)
        if not is_there:
            wish = "some" if wanted is None else wanted or "none"
            told = f"{name} {type}: wanted {wish} within {seconds} seconds, and there were {found or 'none'} at last"
            raise NameServerError(told + self.complaint())
        return found

    @contextlib.contextmanager
    def stream(self, purpose, seconds):
        """A connection to the server. What goes wrong with it is an error that says what had no reply."""
        try:
            with Stream(self.address, self.port, seconds) as stream:
                yield stream
        except (OSError, MessageError) as error:
            reason = str(error) or type(error).__name__
            raise NameServerError(f"no reply {purpose}: {reason}{self.complaint()}") from None

    def origins(self):
        """The origin of each zone, as the server told it when it read the zones."""
        found = {}
        for line in self.standard_error().splitlines():
            file, is_zone, rest = line.partition(": zone ")
            if is_zone:
                found[file] = rest.split(",", 1)[0]
        files = [self.path(f"zone{number}") for number in range(len(self.zones))]
        if any(it not in found for it in files):
            raise NameServerError(f"the server told no zone{self.complaint()}")
        return [found[it] for it in files]

    def standard_error(self):
        """What the server has printed on standard error."""
        if self.folder is None:
            return self.said
        return Path(self.path("stderr")).read_text(encoding="utf-8", errors="replace")

    def complaint(self):
        """What the server has printed on standard error, as the end of a message."""
        said = self.standard_error().strip()
        return f":\n{said}" if said else ""


def endpoint(address, port):
    """An address and a port as the server reads and writes them."""
    return f"[{address}]:{port}" if ":" in address else f"{address}:{port}"


def addresses_of(address):
    """The addresses that an address stands for. The server listens at each, since a reply has to leave from the one that was asked."""
    if address not in (EVERY_IPV4, EVERY):
        return [address]
    words = Path(IPV4_FILE).read_text(encoding="ascii").replace("|--", "").splitlines()
    found = [name.strip() for name, kind in zip(words, words[1:]) if kind.strip() == "/32 host LOCAL"]
    if address == EVERY and os.path.exists(IPV6_FILE):
        lines = (line.split() for line in Path(IPV6_FILE).read_text(encoding="ascii").splitlines())
        # Addresses of a link alone (RFC 4291 section 2.5.6) are not addresses without the name of the link.
        found += [socket.inet_ntop(socket.AF_INET6, bytes.fromhex(digits)) for digits, _, _, scope, *_ in lines if scope != "20"]
    return sorted(set(found), key=lambda it: (not it.startswith("127."), it != "::1", it))


def free_port():
    """A port that is free at all addresses for both transports."""
    while True:
        with socket.socket(socket.AF_INET, socket.SOCK_STREAM) as stream, socket.socket(socket.AF_INET, socket.SOCK_DGRAM) as datagrams:
            stream.bind(("", 0))
            port = stream.getsockname()[1]
            with contextlib.suppress(OSError):
                datagrams.bind(("", port))
                return port


def find_program(given=None):
    """The path of the program, and how long it may take to start, in seconds."""
    front = Path(__file__).resolve().parent.parent.parent / "nameserver"
    found = given or os.environ.get("NAMESERVER") or (front if os.access(front, os.X_OK) else shutil.which("nameserver"))
    if not found:
        raise NameServerError("no nameserver: pass `program`, or set NAMESERVER, or copy it to the PATH")
    if is_front(found):
        # A front compares the sources with its build at each start, so that it is asked for the build once.
        built = build_of(os.fspath(found))
        return (built, START_LIMIT) if built else (os.fspath(found), COMPILE_LIMIT)
    return os.fspath(found), START_LIMIT


@functools.lru_cache(maxsize=None)
def build_of(front):
    """The build that a front starts, which is compiled if it is not there, or None if the front does not say."""
    script = Path(front).resolve().parent / "scripts" / "find_build.py"
    done = subprocess.run([sys.executable, os.fspath(script), "nameserver"], stdin=subprocess.DEVNULL, stdout=subprocess.PIPE)
    return None if done.returncode else os.fsdecode(done.stdout.rstrip(b"\n"))


def is_front(program):
    """Whether a program is the front of a checkout, which may have to compile it."""
    return (Path(program).resolve().parent / "scripts" / "run_program.py").is_file()
