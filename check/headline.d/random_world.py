"""Random runs."""
import random

from names import name_text
from random_script import RandomScript
from random_zone import RandomZone
from world import World

OPTIONS = {
    "cache": ("0", "1", "2", "3", "32", "32", "32"),
    "limit": ("512", "1232", "65535"),
    "max-ttl": ("0", "1", "5", "30", "60", "120", "4294967295"),
}
MOST_EVENTS = 40


def random_world(rng: random.Random, is_honest: bool) -> World:
    """A run. If it is honest, no link misbehaves, and the cache is emptied after updates."""
    zone = RandomZone(rng)
    options = {name: rng.choice(values) for name, values in OPTIONS.items() if rng.random() < 0.5}
    if zone.completes_names or rng.random() < 0.1:
        options["origin"] = name_text(zone.origin)
    hosts = zone.hosts() if rng.random() < 0.3 else ()
    events = RandomScript(zone, rng, is_honest).events(rng.randint(5, MOST_EVENTS))
    return World(zone.origin, tuple(zone.entries), zone.lines(), events, hosts, options)
