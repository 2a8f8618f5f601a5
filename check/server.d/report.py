"""What was tried, what failed, and what was skipped."""
import traceback


class Report:
    """Counts tries, and prints those that fail."""

    def __init__(self, most_shown=40):
        self.count = self.failed = 0
        self.skipped, self.most_shown, self.section_start = [], most_shown, (0, 0)

    def check(self, name, wanted, got):
        """Compares what was wanted with what came."""
        self.count += 1
        if wanted == got:
            return True
        self.failed += 1
        if self.failed <= self.most_shown:
            print(f"FAILS  {name}\n       wanted {shown(wanted)}\n          got {shown(got)}", flush=True)
        return False

    def skip(self, name, reason):
        """Notes what was not tried."""
        self.skipped.append(name)
        print(f"skipped  {name}: {reason}", flush=True)

    def attempt(self, title, work, *given):
        """Does some work on this report. An exception of it is a failure, and what comes next is tried all the same."""
        try:
            work(self, *given)
        except Exception:
            self.check(f"{title}: run", "no exception", traceback.format_exc())

    def begin(self):
        self.section_start = (self.count, self.failed)

    def end(self, title, detail=""):
        """Prints a line about all that was tried since the last beginning."""
        count, failed = self.count - self.section_start[0], self.failed - self.section_start[1]
        print(f"{'FAILS' if failed else 'holds'}  {title}: {count} comparisons, {failed} failed{detail}", flush=True)

    def status(self):
        """Prints a summary, and returns the status of the check."""
        skipped = f", skipped: {', '.join(self.skipped)}" if self.skipped else ""
        print(f"{self.count} comparisons, {self.failed} failed{skipped}")
        return 1 if self.failed or not self.count else 0


def shown(value):
    """A value, bytes in hexadecimal digits."""
    text = value.hex() or "(no bytes)" if isinstance(value, bytes) else repr(value)
    return text if len(text) < 4000 else text[:4000] + f".. ({len(text)} characters)"
