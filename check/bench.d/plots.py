"""The pictures of the times of operations over sizes."""
import math
import re
from pathlib import Path

from svg import COLOURS, Picture

ROOT = Path(__file__).resolve().parents[2]
# The pictures: what the sizes are, and which operations they show, in words.
PLOTS = {
    "serving": (
        "owners in the zone",
        {
            "serve-a": "an address",
            "serve-cname": "an alias and its address",
            "serve-nxdomain": "a name that is not there",
            "serve-chain": "seven aliases",
            "update-add": "an added record",
            "update-swap": "a replaced record",
        },
    ),
    "reading": (
        "owners, or lines of a hosts file",
        {
            "zone-read": "a zone file",
            "hosts-read": "a hosts file",
            "hosts-read-addresses": "a host with many addresses",
            "hosts-read-names": "an address with many names",
        },
    ),
    "cache": (
        "entries",
        {
            "cache-hit": "an entry that is there",
            "cache-miss": "one that is not there",
            "cache-full": "one more in a full cache",
            "lookup-hit": "a lookup of an entry",
            "lookup-full": "a lookup in a full cache",
        },
    ),
}
UNITS = {"s": 1, "ms": 1e-3, "µs": 1e-6, "ns": 1e-9}
ROW = re.compile(r"\| `([\w-]+)` \| ([\d,]+) \| ([\d.]+) (\S+) \|")
# The edges of a plot: left, top, right, bottom.
LEFT, TOP, RIGHT, BOTTOM = 70, 20, 470, 300


def least_times(table):
    """The least time of each operation at each size, from a table that was printed."""
    found = {}
    for name, size, time, unit in ROW.findall(table):
        found.setdefault(name, {})[int(size.replace(",", ""))] = float(time) * UNITS[unit]
    return found


def decades(values):
    """The powers of ten around some values, as exponents."""
    return math.floor(math.log10(min(values))), math.ceil(math.log10(max(values)))


def power_text(exponent):
    """A power of ten as a time."""
    base, unit = next(it for it in ((0, "s"), (-3, "ms"), (-6, "µs"), (-9, "ns")) if exponent >= it[0])
    return f"{10 ** (exponent - base)} {unit}"


def place(value, ends, start, end):
    """Where a value is on an axis of powers of ten."""
    low, high = ends
    return start + (math.log10(value) - low) / (high - low) * (end - start)


def plot(title, what, series):
    """The picture of the times of some operations over sizes, both in powers of ten."""
    picture = Picture(700, 350, title)
    sizes, times = ([value for it in series.values() for value in values(it)] for values in (dict.keys, dict.values))
    across, up = decades(sizes), decades(times)
    for exponent in range(across[0], across[1] + 1):
        x = place(10**exponent, across, LEFT, RIGHT)
        picture.line((x, TOP), (x, BOTTOM), "thin")
        picture.text((x, BOTTOM + 18), f"{10**exponent:,}", "small")
    for exponent in range(up[0], up[1] + 1):
        y = place(10.0**exponent, up, BOTTOM, TOP)
        picture.line((LEFT, y), (RIGHT, y), "thin")
        picture.text((LEFT - 6, y + 4), power_text(exponent), "small", "end")
    picture.text(((LEFT + RIGHT) / 2, BOTTOM + 40), what, "small")
    for number, (name, points) in enumerate(series.items()):
        colour = COLOURS[number % len(COLOURS)]
        picture.path([(place(it, across, LEFT, RIGHT), place(time, up, BOTTOM, TOP)) for it, time in sorted(points.items())], colour)
        picture.line((RIGHT + 20, TOP + 20 * number + 6), (RIGHT + 44, TOP + 20 * number + 6), colour=colour)
        picture.text((RIGHT + 52, TOP + 20 * number + 10), name, "small", "start")
    return str(picture)


def draw_plots(file):
    """Draws all pictures of a table."""
    times = least_times(Path(file).read_text(encoding="utf-8"))
    for name, (what, operations) in PLOTS.items():
        series = {words: times[it] for it, words in operations.items() if it in times}
        if series:
            to = ROOT / "docs" / "pictures" / f"{name}-times.svg"
            to.parent.mkdir(exist_ok=True)
            to.write_text(plot(f"Times of {', '.join(series)}", what, series), encoding="utf-8")
            print(to.relative_to(ROOT))
    return 0
