"""A fixture for pytest that makes zones, which are served in the process of the test.

    def test_address(zone):
        served = zone(TEXT, origin="example.com.")
        assert look_up("www.example.com", served.serve) == ["10.0.0.1"]

All of them are freed with the test.
"""
import contextlib
from typing import Callable, Iterator

import pytest

from .zone import Zone


@pytest.fixture
def zone() -> Iterator[Callable[..., Zone]]:
    """A function that makes a zone, with the arguments of `Zone.from_text`."""
    with contextlib.ExitStack() as made:
        yield lambda *given, **named: made.enter_context(Zone.from_text(*given, **named))
