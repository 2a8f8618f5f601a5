"""The program `nameserver`, over the sockets of the loopback interface."""
import re
import subprocess
from pathlib import Path

from messages import CODES, ask_datagram, ask_stream, encoded_name, is_truncated, question, response

# A header of a query with so many questions and additional records, and the OPT record of a version.
HEADER = "0007 0000 {:04x} 0000 0000 {:04x}"
OPT = "00 0029 04d0 00{version:02x}0000 0000"


def started_program(program: Path, folder: Path, origins: list[str]) -> tuple[subprocess.Popen, int]:
    """The program as a server of zone files, and its port."""
    words = [program, *(folder / f"{origin}zone" for origin in origins), "--listen", "127.0.0.1:0", "--no-updates"]
    log = (folder / "nameserver.log").open("w")
    process = subprocess.Popen(words, stdout=subprocess.PIPE, stderr=log, text=True)
    found = re.match(r"listening on 127\.0\.0\.1:(\d+)", process.stdout.readline())
    if not found:
        process.kill()
        raise SystemExit(f"{program} does not listen: {(folder / 'nameserver.log').read_text()[-2000:]}")
    return process, int(found[1])


def answer_of(port: int, name: str, kind: str, number: int) -> tuple:
    """The answer of the program, which is the same over UDP and TCP where it fits a datagram of 512 bytes."""
    request = question(name, kind, number)
    streamed, datagram = ask_stream(port, request), ask_datagram(port, request)
    if streamed is None or datagram is None:
        raise SystemExit(f"no reply to {name} {kind}")
    if not is_truncated(datagram) and datagram != streamed and len(streamed) <= 512:
        raise SystemExit(f"another reply over TCP to {name} {kind}: {streamed.hex()}, {datagram.hex()}")
    return response(streamed)


def odd_requests(origin: str) -> dict[str, tuple[str, bytes]]:
    """Requests about an origin that are no plain questions, each with its code in the header."""
    name, opt = encoded_name(origin).hex(), OPT.format(version=0)
    soa = f"{name} 0006 0001"
    return {
        "version 1 of EDNS": ("0", bytes.fromhex(f"{HEADER.format(1, 1)} {soa} {OPT.format(version=1)}")),
        "two OPT records": ("FormErr", bytes.fromhex(f"{HEADER.format(1, 2)} {soa} {opt} {opt}")),
        "a name that is cut off": ("FormErr", bytes.fromhex(f"{HEADER.format(1, 0)} {soa}")[:-6]),
        "no question": ("FormErr", bytes.fromhex(HEADER.format(0, 0))),
        "two questions": ("FormErr", bytes.fromhex(f"{HEADER.format(2, 0)} {soa} {soa}")),
        "another class than IN": ("Refused", bytes.fromhex(f"{HEADER.format(1, 0)} {name} 0006 0003")),
        "version.bind in CHAOS": (
            "Refused", bytes.fromhex(f"{HEADER.format(1, 0)} {encoded_name('version.bind.').hex()} 0010 0003"),
        ),
        "a status request": ("NotImp", bytes.fromhex(f"0007 1000 0001 0000 0000 0000 {soa}")),
        "a name in no zone": ("Refused", bytes.fromhex(f"{HEADER.format(1, 0)} {encoded_name('no.zone.').hex()} 0001 0001")),
    }  # fmt: skip


def odd_failures(ports: dict[str, int], port: int, origin: str) -> int:
    """Asks what is no plain question over UDP and TCP, prints the codes of all servers, and counts wrong ones of ours."""
    failures = 0
    for title, (wanted, request) in odd_requests(origin).items():
        codes = {"ours": code_of(ask_datagram(port, request)), "TCP": code_of(ask_stream(port, request))}
        wanted = "NoError" if wanted == "0" else wanted
        if set(codes.values()) != {wanted}:
            failures += 1
        theirs = ", ".join(f"{server} {code_of(ask_stream(it, request))}" for server, it in ports.items())
        print(f"{title}: {'/'.join(sorted(set(map(str, codes.values()))))}, wanted {wanted}; {theirs}")
    return failures


def code_of(message: bytes | None) -> str | None:
    """The code in the header of a response, or None without one."""
    return message and CODES.get(message[3] & 15, str(message[3] & 15))
