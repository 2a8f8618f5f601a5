"""The rows of `rows` that repeat a call: `repeat CALL COUNT TURN || TURN ..`, each behind a comment with its name."""
import re
from pathlib import Path

FILE = Path(__file__).resolve().parent.parent / "harness" / "rows" / "data" / "repeated.rows"
ROW = re.compile(r"^# ([\w-]+): .*\n(repeat [\w-]+) \d+ (.*) > \d+$", re.MULTILINE)
# What `rows` says of a row that wants no sum.
SUM = re.compile(r"^    but came: (\d+)$", re.MULTILINE)


class RepeatedRows:
    """Files of these rows, in a folder."""

    def __init__(self, folder):
        self.folder = Path(folder)
        self.rows = {name: (call, turns) for name, call, turns in ROW.findall(FILE.read_text(encoding="utf-8"))}

    def words(self, name, count):
        """The arguments of `rows` for so many repetitions of a row. Each fails, so that the sum is printed, with status 1."""
        call, turns = self.rows[name]
        path = self.folder / f"{name}-{count}.rows"
        path.write_text(f"{call} {count} {turns} > \n", encoding="utf-8")
        return [str(path)]


def sum_of(printed):
    """The sum that `rows` printed."""
    return SUM.search(printed)[1]
