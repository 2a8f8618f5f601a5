"""What the check was told."""
from typing import FrozenSet, NamedTuple


class Given(NamedTuple):
    """The programs under test, how much is tried, and which other programs are missing."""

    program: str
    nameserver: str
    lookups: int
    is_quick: bool
    seed: int
    missing: FrozenSet[str]
