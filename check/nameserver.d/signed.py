"""Requests that are signed (RFC 8945), and what the replies of a server say of their signatures.

A key is `NAME/ALGORITHM/SECRET`, with the secret in hexadecimal digits; `-` is a key that no request names.
"""
import base64
import re

# The errors of a TSIG record (RFC 8945 section 3) by their numbers, and the code of a malformed request.
ERRORS = {0: "verified", 16: "BadSig", 17: "BadKey", 18: "BadTime", 22: "BadTrunc"}
FORM_ERR, TSIG = 1, 250
NO_KEY = "no.such.key./hmac-sha256/00"


def key_file(word):
    """A file with a key."""
    name, algorithm, secret = (NO_KEY if word == "-" else word).split("/")
    return f'key "{name}" {{ algorithm {algorithm}; secret "{base64.b64encode(bytes.fromhex(secret)).decode()}"; }};\n'.encode()


def name_end(message, place):
    """Where a name ends that begins at a place."""
    while message[place] not in range(192, 256):
        if message[place] == 0:
            return place + 1
        place += 1 + message[place]
    return place + 2


def tsig_error(message):
    """The error of the TSIG record at the end of a message, or None without one."""
    counts = [int.from_bytes(message[at : at + 2], "big") for at in (4, 6, 8, 10)]
    place, kind, data = 12, None, b""
    for _ in range(counts[0]):
        place = name_end(message, place) + 4
    for _ in range(sum(counts[1:])):
        place = name_end(message, place)
        kind, size = int.from_bytes(message[place : place + 2], "big"), int.from_bytes(message[place + 8 : place + 10], "big")
        data, place = message[place + 10 : place + 10 + size], place + 10 + size
    if kind != TSIG:
        return None
    place = name_end(data, 0) + 8
    place += 2 + int.from_bytes(data[place : place + 2], "big") + 2
    return int.from_bytes(data[place : place + 2], "big")


def verdict(reply):
    """What a reply says of the signature of its request, in a word."""
    if reply is None:
        return "no reply"
    error = tsig_error(reply)
    if error is not None:
        return ERRORS[error]
    return "FormErr" if reply[3] & 15 == FORM_ERR else "unsigned"


def told(reply, form):
    """What is told of a reply, in the form of what is wanted: its bytes, whether its request was refused, or the verdict on this."""
    if re.fullmatch("[0-9a-f]+", form):
        return reply.hex() if reply else "no reply"
    found = verdict(reply)
    return "refused" if form == "refused" and found != "verified" else found


def script_of(lines):
    """The script of some requests, `NOW KEY,KEY.. MESSAGE`, each to a server of its own, and the files of their keys."""
    script, files = [], {}
    for line in lines:
        now, keys, message = line.split()
        names = [f"key{len(files) + i}" for i, _ in enumerate(keys.split(","))]
        files.update(zip(names, map(key_file, keys.split(","))))
        script.append(f"server at {now} zone " + " ".join(f"--key {it}" for it in names))
        script.append(f"0 192.0.2.1 udp hex {message}")
    return "".join(f"{it}\n" for it in script).encode(), files


def replies_of(output):
    """The replies that a server has printed, or None for each request without one."""
    found = re.findall(rb"(?m)^0 .*: (?:no reply|\d+ bytes\n  ([0-9a-f]*))$", output)
    return [bytes.fromhex(it.decode()) if it else None for it in found]
