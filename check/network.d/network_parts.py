"""The parts of the check, with the programs that each of them wants."""
from typing import Callable, NamedTuple, Sequence

from agreement import try_servers
from answering import try_answers
from command import try_program
from given import Given
from schedules import try_faults
from signing import try_signed
from spoofing import try_spoofer
from timing import try_times

__all__ = ["PARTS", "Given", "Part"]


class Part(NamedTuple):
    """What is tried, and the programs for it."""

    run: Callable
    programs: Sequence[str] = ()


PARTS = {
    "servers": Part(try_servers, ["named", "knotd", "nsd", "unbound", "dnsmasq"]),
    "faults": Part(try_faults),
    "answers": Part(try_answers),
    "spoofer": Part(try_spoofer),
    "times": Part(try_times),
    "program": Part(try_program),
    "signed": Part(try_signed, ["named", "knotd", "faketime"]),
}
