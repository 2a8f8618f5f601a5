"""Queries and updates by dnspython, which runs in Debian's Python, beside the model."""
import json
import subprocess
from pathlib import Path
from typing import List

from packages import PYTHON
from report import Report
from tools import CHILD, QUESTIONS, ZONE
from watch import Watched

SCRIPT = Path(__file__).resolve().with_name("with_dnspython.py")


def run_script(watched: Watched, questions: List) -> List:
    """What the script says of each of its steps: a title and the reply's bytes."""
    host, port = watched.relay.address
    words = [PYTHON, str(SCRIPT), host, str(port)]
    done = subprocess.run(words, input=json.dumps(questions), capture_output=True, text=True, timeout=120)
    if done.returncode:
        raise RuntimeError(done.stderr)
    return json.loads(done.stdout)


def try_dnspython(report: Report, program: str, missing: List[str]) -> None:
    if "dns" in missing:
        report.skip("dnspython", "cannot be installed")
        return
    report.begin()
    with Watched(program, [ZONE, CHILD]) as watched:
        steps = run_script(watched, [it for it in QUESTIONS if "\\" not in it[0]])
        replies = [it.reply.hex() for it in watched.compare(report, "dnspython") if it.reply]
        for title, reply in steps:
            report.check(f"dnspython {title}: what came is what was sent", True, reply in replies)
        report.check("dnspython: steps", True, len(steps) > 3 * len(QUESTIONS) - 10)
        watched.compare_log(report, "dnspython: log")
    report.end(f"dnspython: {len(steps)} queries and updates")
