"""dnsperf: what it measures of a server, and that it loses no question."""
import re
import subprocess
import tempfile
from pathlib import Path
from typing import List, NamedTuple

from nameserver import NameServer
from packages import find
from queries import big_zone, write_questions
from report import Report

LINES = {
    "sent": r"Queries sent:\s+(\d+)",
    "completed": r"Queries completed:\s+(\d+)",
    "lost": r"Queries lost:\s+(\d+)",
    "rate": r"Queries per second:\s+([\d.]+)",
}
CODES = re.compile(r"(NOERROR|NXDOMAIN|SERVFAIL|REFUSED) (\d+) \(")


class Measured(NamedTuple):
    """What dnsperf tells: its numbers, the number of each code, and the latencies of each question in seconds."""

    numbers: dict
    codes: dict
    latencies: List[float]


def dnsperf(port: int, questions: Path, seconds: float, notes_each: bool, *options: str) -> Measured:
    """Lets dnsperf ask questions for a time. It has the latency of each question only if it notes each."""
    words = [find("dnsperf"), "-s", "127.0.0.1", "-p", str(port), "-d", str(questions), "-l", str(seconds), *options]
    words += ["-v"] if notes_each else []
    done = subprocess.run(words, capture_output=True, text=True, errors="replace", timeout=seconds + 60)
    numbers = {name: float(re.search(pattern, done.stdout)[1]) for name, pattern in LINES.items()}
    latencies = [
        float(line.rsplit(None, 1)[1])
        for line in done.stdout.splitlines()
        if line.startswith("> ") and not line.endswith("T")
    ]
    return Measured(numbers, {name: int(count) for name, count in CODES.findall(done.stdout)}, latencies)


def try_dnsperf(report: Report, program: str, missing: List[str]) -> None:
    """Asks for two seconds over UDP and TCP, with and without EDNS."""
    if "dnsperf" in missing:
        report.skip("dnsperf", "cannot be installed")
        return
    with tempfile.TemporaryDirectory() as folder:
        questions = Path(folder, "questions")
        write_questions(questions, 1000, 1000)
        with NameServer(big_zone(1000), program=program, seconds=60) as server:
            for options in (["-c", "4"], ["-e"], ["-m", "tcp", "-c", "20"], ["-q", "1"]):
                report.begin()
                found = dnsperf(server.port, questions, 2, False, *options)
                answered = found.numbers["completed"]
                report.check("questions that were lost", 0, found.numbers["lost"])
                report.check("questions", True, answered > 100)
                report.check("codes", {"NOERROR", "NXDOMAIN"}, set(found.codes))
                report.check(
                    "a tenth of NXDOMAIN", True, abs(found.codes.get("NXDOMAIN", 0) - answered / 10) < 2 + answered / 100
                )
                report.end(f"dnsperf {' '.join(options)}", f", {answered:.0f} questions")
