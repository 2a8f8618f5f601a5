"""Replies to signed requests, true and false, made by hand (RFC 8945 sections 4.2, 4.3 and 5.3)."""
import base64
import hmac
import socket
import struct
import threading
import time
from typing import Callable, List, NamedTuple

from transport import Address, frame, read_frame

# The names of the hash functions in Python, and the lengths of their codes.
ALGORITHMS = {
    "hmac-md5": ("md5", 16), "hmac-sha1": ("sha1", 20), "hmac-sha224": ("sha224", 28), "hmac-sha256": ("sha256", 32),
    "hmac-sha384": ("sha384", 48), "hmac-sha512": ("sha512", 64),
}  # fmt: skip
SECRET = b"a secret of thirty-two octets..."
# The type TSIG, the class ANY and a TTL of 0.
HEAD = struct.pack("!2HI", 250, 255, 0)


def wire_name(text: str) -> bytes:
    labels = [it.encode() for it in text.rstrip(".").split(".")]
    return b"".join(bytes([len(it)]) + it for it in labels) + b"\0"


class Key(NamedTuple):
    """A key, and its text in a key file."""

    name: str
    algorithm: str
    secret: bytes = SECRET

    @property
    def base64(self) -> str:
        return base64.b64encode(self.secret).decode()

    @property
    def text(self) -> str:
        return f'key "{self.name}" {{\n\talgorithm {self.algorithm};\n\tsecret "{self.base64}";\n}};\n'


def algorithm_name(algorithm: str) -> bytes:
    return wire_name("hmac-md5.sig-alg.reg.int" if algorithm == "hmac-md5" else algorithm)


def tsig_start(message: bytes, key: Key) -> int:
    """Where the TSIG record of a message with a whole code and without other data begins."""
    size = len(wire_name(key.name)) + 10 + len(algorithm_name(key.algorithm)) + 16 + ALGORITHMS[key.algorithm][1]
    return len(message) - size


class Request:
    """A signed request, and replies to it."""

    def __init__(self, message: bytes, key: Key):
        self.message, self.key, self.time = message, key, int(time.time())
        length = ALGORITHMS[key.algorithm][1]
        self.mac = message[-6 - length : -6]
        self.question_end = message.index(b"\0", 12) + 5

    def reply(self, rcode=0, is_signed=True, secret=None, prior=None, name=None, algorithm=None, time=None, fudge=300,
              length=None, error=0, other=b"", other_id=False, wire_id=False) -> bytes:  # fmt: skip
        """A reply, signed by the server unless told otherwise. With another id it was signed under that one, and a wire id is changed
        after it was signed."""
        key = self.key
        algorithm, name = algorithm or key.algorithm, wire_name(name or key.name)
        number = self.message[:2]
        signed_id = bytes([number[0] ^ 1, number[1]]) if other_id else number
        flags = struct.pack("!H", 0x8000 | 5 << 11 | rcode)
        rest = flags + struct.pack("!3H", 1, 0, 0)
        question = self.message[12 : self.question_end]
        if not is_signed:
            return number + rest + b"\0\0" + question
        timers = struct.pack("!Q", self.time if time is None else time)[2:] + struct.pack("!H", fudge)
        outcome = struct.pack("!2H", error, len(other)) + other
        before = self.mac if prior is None else prior
        covered = (struct.pack("!H", len(before)) + before if before else b"") + signed_id + rest + b"\0\0" + question
        covered += name + HEAD[2:] + algorithm_name(algorithm) + timers + outcome
        mac = hmac.new(key.secret if secret is None else secret, covered, ALGORITHMS[algorithm][0]).digest()[:length]
        fields = algorithm_name(algorithm) + timers + struct.pack("!H", len(mac)) + mac + signed_id + outcome
        record = name + HEAD + struct.pack("!H", len(fields)) + fields
        shown = bytes([number[0], number[1] ^ 1]) if wire_id else number
        return shown + rest + b"\0\1" + question + record

    def with_record_after(self, reply: bytes) -> bytes:
        """A reply with an address record after its signature."""
        return reply[:10] + b"\0\2" + reply[12:] + b"\0" + struct.pack("!2HIH", 1, 1, 60, 4) + bytes(4)

    def uncounted(self, reply: bytes) -> bytes:
        """A reply whose additional section is said to be empty."""
        return reply[:10] + b"\0\0" + reply[12:]

    def in_capitals(self, reply: bytes) -> bytes:
        """A reply with the names of the key and the algorithm in capitals."""
        start = tsig_start(reply, self.key)
        name, algorithm = wire_name(self.key.name), algorithm_name(self.key.algorithm)
        middle = start + len(name) + 10
        return reply[:start] + name.upper() + reply[start + len(name) : middle] + algorithm.upper() + reply[middle + len(algorithm) :]


class Forger:
    """A server that answers signed requests with whatever it is told, inside a `with` block."""

    def __init__(self, key: Key, make: Callable[[Request], List[bytes]], pause: float = 0):
        self.key, self.make, self.pause = key, make, pause

    def __enter__(self) -> "Forger":
        self.datagrams = socket.socket(socket.AF_INET, socket.SOCK_DGRAM)
        self.datagrams.bind(("127.0.0.1", 0))
        self.listener = socket.create_server(self.datagrams.getsockname())
        self.is_closed = False
        self.threads = [threading.Thread(target=it, daemon=True) for it in (self.serve_datagrams, self.serve_streams)]
        for it in (self.datagrams, self.listener):
            it.settimeout(0.1)
        for it in self.threads:
            it.start()
        return self

    def __exit__(self, *_) -> None:
        self.is_closed = True
        for it in self.threads:
            it.join(10)
        self.datagrams.close()
        self.listener.close()

    @property
    def address(self) -> Address:
        return self.datagrams.getsockname()

    def serve_datagrams(self) -> None:
        while not self.is_closed:
            try:
                message, peer = self.datagrams.recvfrom(65535)
            except socket.timeout:
                continue
            for reply in self.make(Request(message, self.key)):
                self.datagrams.sendto(reply, peer)
                time.sleep(self.pause)

    def serve_streams(self) -> None:
        while not self.is_closed:
            try:
                stream, _ = self.listener.accept()
            except socket.timeout:
                continue
            with stream:
                stream.settimeout(5)
                message = read_frame(stream)
                if message:
                    stream.sendall(frame(self.make(Request(message, self.key))[0]))
