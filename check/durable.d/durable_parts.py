"""The parts of check/durable."""
from collections import namedtuple

from compacted import compacted
from damaged import damaged, together
from faulty import faulty
from keys import grants, keys, modes
from kills import damage, disk, kills
from mutations import mutations
from pauses import pauses
from speed import speed
from steps import steps
from torn import torn

# The programs, and how often they are killed and tried.
Given = namedtuple("Given", "program zonecheck kills mutations")

PARTS = {
    "keys": keys,
    "grants": grants,
    "modes": modes,
    "faulty": faulty,
    "mutations": mutations,
    "damage": damage,
    "damaged": damaged,
    "together": together,
    "compacted": compacted,
    "disk": disk,
    "kills": kills,
    "steps": steps,
    "torn": torn,
    "speed": speed,
    "pauses": pauses,
}
