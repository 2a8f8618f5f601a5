"""Streams of frames over TCP to the program `nameserver`: what a stream's whole frames ask is answered, and nothing else."""
import socket
from collections import Counter
from pathlib import Path

from inputs import Input
from nameserver import NameServer
from replies import Server
from request_script import ZONE
from samples import query
from wire_rows import frames_of, frames_row
from zones import zone_of

# The question behind each input: if the input ends after a frame, it is answered.
LAST = query("a.t")
SECONDS = 20.0


def frame(data: bytes) -> bytes:
    return len(data).to_bytes(2, "big") + data


def exchanged(address: tuple[str, int], data: bytes, cut: int) -> bytes:
    """What comes back for a stream that is sent in two pieces."""
    with socket.create_connection(address, SECONDS) as stream:
        stream.setsockopt(socket.IPPROTO_TCP, socket.TCP_NODELAY, 1)
        stream.sendall(data[:cut])
        stream.sendall(data[cut:])
        stream.shutdown(socket.SHUT_WR)
        found = bytearray()
        while more := stream.recv(65536):
            found += more
        return bytes(found)


def tried(program: Path, inputs: list[Input], counts: Counter) -> list[str]:
    """Tries inputs, and counts their outcomes. The result is what differs."""
    found = []
    with NameServer([ZONE], program=str(program), options=["--plain", "--no-updates"]) as server:
        for given in inputs:
            counts[frames_row(given)[0]] += 1
            data, model = given.data + frame(LAST), Server([zone_of(ZONE)], takes_updates=False)
            replies = (model.reply(it, True) for it in frames_of(data)[0])
            wanted = b"".join(frame(it) for it in replies if it is not None)
            try:
                got = exchanged((server.address, server.port), data, len(given.data) // 2)
            except OSError as error:
                got = str(error).encode()
            if got != wanted:
                found.append(f"stream {data.hex()}\n  wanted {wanted.hex()}\n  got    {got.hex()}")
    return found
