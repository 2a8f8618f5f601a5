"""The parts of the check, with the programs that each of them wants."""
from typing import Callable, NamedTuple, Sequence

from exact import try_bytes
from faulty import try_faults
from forwarders import try_forwarders
from libraries import try_dnspython
from performing import try_dnsperf
from program import try_program
from scripts import try_scripts
from tools import try_tools
from updates import try_updates


class Part(NamedTuple):
    """What is tried, and the programs and libraries for it."""

    run: Callable
    programs: Sequence[str] = ()


PARTS = {
    "scripts": Part(try_scripts),
    "tools": Part(try_tools, ["dig", "kdig", "drill"]),
    "updates": Part(try_updates, ["nsupdate"]),
    "dnspython": Part(try_dnspython, ["dns"]),
    "forwarders": Part(try_forwarders, ["unbound", "dnsmasq"]),
    "dnsperf": Part(try_dnsperf, ["dnsperf"]),
    "bytes": Part(try_bytes),
    "faults": Part(try_faults),
    "program": Part(try_program),
}
