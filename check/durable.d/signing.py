"""Signed messages, by the hash functions of Python (RFC 8945)."""
import base64
import hmac
import struct
import time

from messages import wire_name

# The algorithms, with the names by which key files and messages know them.
ALGORITHMS = {
    "hmac-md5": ("md5", "hmac-md5.sig-alg.reg.int."),
    "hmac-sha1": ("sha1", "hmac-sha1."),
    "hmac-sha224": ("sha224", "hmac-sha224."),
    "hmac-sha256": ("sha256", "hmac-sha256."),
    "hmac-sha384": ("sha384", "hmac-sha384."),
    "hmac-sha512": ("sha512", "hmac-sha512."),
}


class Key:
    """A key that is shared with a server."""

    def __init__(self, name, algorithm, secret):
        self.name, self.algorithm, self.secret = name, algorithm, secret

    def text(self):
        """The text of a key file."""
        return f'key "{self.name}" {{\n\talgorithm {self.algorithm};\n\tsecret "{self.secret_text()}";\n}};\n'

    def secret_text(self):
        """The secret in base64."""
        return base64.b64encode(self.secret).decode()

    def word(self):
        """The key as an argument of `nsupdate -y`."""
        return f"{self.algorithm}:{self.name}:{self.secret_text()}"


def signed(key, message, moment=None, fudge=300, prior=b"", error=0, other=b""):
    """A message with a TSIG record."""
    moment = int(time.time()) if moment is None else moment
    kind, algorithm = ALGORITHMS[key.algorithm]
    name, algorithm = wire_name(key.name.lower()), wire_name(algorithm)
    times = struct.pack(">HIH", moment >> 32, moment & 0xFFFFFFFF, fudge)
    tail = struct.pack(">HH", error, len(other)) + other
    variables = name + struct.pack(">HI", 255, 0) + algorithm + times + tail
    before = struct.pack(">H", len(prior)) + prior if prior else b""
    code = hmac.new(key.secret, before + message + variables, kind).digest()
    data = algorithm + times + struct.pack(">H", len(code)) + code + message[:2] + tail
    count = struct.unpack(">H", message[10:12])[0]
    head = message[:10] + struct.pack(">H", count + 1)
    return head + message[12:] + name + struct.pack(">HHIH", 250, 255, 0, len(data)) + data
