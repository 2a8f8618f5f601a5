"""BIND, Knot DNS and NSD as authoritative servers of zone files, on the loopback interface."""
import shutil
import socket
import subprocess
import time
from pathlib import Path

PROGRAMS = {"BIND": "named", "Knot": "knotd", "NSD": "nsd"}


def free_port() -> int:
    """A port that no socket is bound to."""
    with socket.socket() as it:
        it.bind(("127.0.0.1", 0))
        return it.getsockname()[1]


def configuration(server: str, folder: Path, port: int, origins: list[str]) -> str:
    """The configuration of a server of the zones with these origins, each in the file `ORIGINzone`."""
    if server == "BIND":
        zones = "\n".join(
            f'zone "{origin}" {{ type primary; file "{origin}zone"; check-names ignore; }};' for origin in origins
        )
        return (
            f'options {{ directory "{folder}"; listen-on port {port} {{ 127.0.0.1; }}; listen-on-v6 {{ none; }}; recursion no; '
            "pid-file none; allow-query { any; }; notify no; minimal-responses no; minimal-any no; zero-no-soa-ttl no; };\ncontrols { };\n" + zones
        )
    if server == "Knot":
        zones = "\n".join(
            f"  - domain: {origin}\n    storage: {folder}\n    file: {origin}zone\n    semantic-checks: off" for origin in origins
        )
        return (
            f"server:\n  listen: 127.0.0.1@{port}\n  rundir: {folder}/knot\n  tcp-idle-timeout: 60\ndatabase:\n"
            f"  storage: {folder}/knot\nzone:\n{zones}\n"
        )
    zones = "\n".join(f"zone:\n  name: {origin}\n  zonefile: {origin}zone" for origin in origins)
    return (
        f'server:\n  ip-address: 127.0.0.1@{port}\n  zonesdir: {folder}\n  pidfile: ""\n  username: ""\n'
        f"  zonelistfile: {folder}/nsd.list\n  xfrdfile: {folder}/nsd.xfrd\n  xfrdir: {folder}\n  minimal-responses: no\n"
        f"  logfile: {folder}/nsd.log\n  rrl-ratelimit: 0\nremote-control:\n  control-enable: no\n{zones}\n"
    )


def started(server: str, folder: Path, origins: list[str]) -> tuple[subprocess.Popen, int]:
    """A server that listens, and its port."""
    port = free_port()
    (folder / "knot").mkdir(exist_ok=True)
    path = folder / f"{server}.conf"
    path.write_text(configuration(server, folder, port, origins))
    program = shutil.which(PROGRAMS[server]) or f"/usr/sbin/{PROGRAMS[server]}"
    arguments = {"BIND": ["-g", "-n", "1", "-c", str(path)], "Knot": ["-c", str(path)], "NSD": ["-d", "-c", str(path)]}[server]
    log = (folder / f"{server}.log").open("w")
    process = subprocess.Popen([program, *arguments], stdout=log, stderr=log)
    for _ in range(100):
        time.sleep(0.1)
        try:
            socket.create_connection(("127.0.0.1", port), timeout=1).close()
            time.sleep(2)
            return process, port
        except OSError:
            continue
    process.terminate()
    raise SystemExit(f"{server} does not listen: see {folder}/{server}.log")
