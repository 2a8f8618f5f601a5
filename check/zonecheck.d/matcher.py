"""The problem matcher `clients/github/zonecheck.json` finds in the output of zonecheck what `--json` has."""
import json
import re
import subprocess
import tempfile
from pathlib import Path

MATCHER = Path(__file__).resolve().parent.parent.parent / "clients" / "github" / "zonecheck.json"
# Zone files with faults and warnings with and without a line, in the output of which texts of zone files look like findings.
ZONES = {
    "faults.zone": '$ORIGIN t.\n@ 60 SOA ns.u. h 1 2 3 4 5\na 60 TXT "x: fault: y\n@ 60 MX 1 m\n@ 60 MX m\n',
    "no_soa.zone": "a: warning: 60 A 10.0.0.1\n",
    "warnings.zone": "$ORIGIN t.\n@ 60 SOA ns.u. h 1 2 3 4 5\n@ 60 MX 1 m\na 60 CNAME b\na 30 CNAME b\n",
    "good.zone": "$ORIGIN t.\n@ 60 SOA ns.u. h 1 2 3 4 5\n@ 60 NS ns.u.\n",
}


def found_by(matchers, output):
    """What the matchers find in an output: files, lines, kinds and messages. The first one that matches a line counts."""
    found = []
    for line in output.splitlines():
        for it in matchers:
            (pattern,) = it["pattern"]
            match = re.match(pattern["regexp"], line)
            if match:
                place = match[pattern["line"]]
                found.append((match[pattern["file"]], int(place) if place else None, it["severity"], match[pattern["message"]]))
                break
    return found


def is_right(program):
    """Whether the matchers find each finding and nothing else. Prints what differs."""
    matchers = json.loads(MATCHER.read_text(encoding="utf-8"))["problemMatcher"]
    with tempfile.TemporaryDirectory() as folder:
        for name, text in ZONES.items():
            Path(folder, name).write_text(text, encoding="utf-8")
        texts, objects = (
            subprocess.run([program, *words, *ZONES], cwd=folder, stdout=subprocess.PIPE, stderr=subprocess.DEVNULL, text=True).stdout
            for words in ([], ["--json"])
        )
    severity = {"fault": "error", "warning": "warning"}
    wanted = [(it["file"], it["line"], severity[it["kind"]], it["message"]) for it in map(json.loads, objects.splitlines())]
    got = found_by(matchers, texts)
    if got != wanted or {it[0] for it in wanted} != set(ZONES) - {"good.zone"}:
        print(f"{MATCHER.name}\n  wanted {wanted}\n     got {got}")
        return False
    return True
