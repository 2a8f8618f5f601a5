"""How many lines each crate has, and how long its proof takes."""
import re

from crates import crates_with_sources

PARTS = (("src", "*.rt"), ("specs", "*.antt"), ("proofs", "*.antt"))
SECONDS = re.compile(r"^(\w+) (\d+)", re.M)


def lines_in(folder, pattern):
    """How many lines the files in a folder have, without blank ones."""
    texts = (it.read_text(encoding="utf-8") for it in folder.rglob(pattern))
    return sum(bool(line.strip()) for text in texts for line in text.splitlines())


def print_sizes(root):
    """Prints the lines of code with contracts, of definitions and of proofs of each crate. Returns the status, which is 0."""
    seconds = dict(SECONDS.findall((root / "scripts" / "proof_seconds.txt").read_text(encoding="utf-8")))
    totals = [0, 0, 0]
    print(f"{'crate':<24}{'code':>8}{'definitions':>13}{'proofs':>9}{'seconds':>9}")
    for crate in crates_with_sources(root):
        counts = [lines_in(root / "crates" / crate / part, pattern) for part, pattern in PARTS]
        totals = [a + b for a, b in zip(totals, counts)]
        print(f"{crate:<24}{counts[0]:>8,}{counts[1]:>13,}{counts[2]:>9,}{seconds.get(crate, ''):>9}")
    print(f"{'all':<24}{totals[0]:>8,}{totals[1]:>13,}{totals[2]:>9,}")
    return 0
