"""Hostile peers, each kind by itself against a server of its own."""
import resource

from connections import try_idle, try_many_connections, try_streams, try_turns
from datagrams import try_datagrams, try_responses, try_two_servers
from dear import try_dear, try_full_disk
from floods import try_floods
from growth import try_growth
from report import Report

KINDS = {
    "datagrams": try_datagrams,
    "responses": try_responses,
    "two-servers": try_two_servers,
    "streams": try_streams,
    "turns": try_turns,
    "idle": try_idle,
    "connections": try_many_connections,
    "dear": try_dear,
    "full-disk": try_full_disk,
    "growth": try_growth,
    "floods": try_floods,
}
# How many files this program may have open: a socket for each connection.
FILES = 4096


def try_hostile(report: Report, program: str, given) -> None:
    """Tries each kind of hostile peer."""
    soft, hard = resource.getrlimit(resource.RLIMIT_NOFILE)
    resource.setrlimit(resource.RLIMIT_NOFILE, (max(soft, min(FILES, hard)), hard))
    for name, work in KINDS.items():
        if not given.kinds or name in given.kinds:
            report.attempt(name, work, program, given)
