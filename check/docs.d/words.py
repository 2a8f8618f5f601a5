"""How long the pages are, and what they say twice."""
import re
from collections import defaultdict
from typing import NamedTuple

from references import prose_lines

# So many words that occur in the same order in two places are a repetition.
SHINGLE = 10
WORD = re.compile(r"[^\W_]+(?:['-][^\W_]+)*")
# What is shown to be read by itself: the rows of a table, whose cells are alike by intention.
TABLE = "|"


class Word(NamedTuple):
    """A word of a page, in lower case, with the line that it is in."""

    text: str
    page: str
    line: int


def words_of(root, page):
    """The words of a page outside blocks of code."""
    name = str(page.relative_to(root))
    return [Word(it.lower(), name, number) for number, line in prose_lines(page) for it in WORD.findall(line)]


def all_words(page):
    """How many words a page has, those of its blocks of code included."""
    return len(page.read_text(encoding="utf-8").split())


def in_tables(page):
    """How many words outside blocks of code are in the rows of tables."""
    return sum(len(WORD.findall(line)) for _, line in prose_lines(page) if line.startswith(TABLE))


def passages(texts):
    """What occurs more than once: the words of each passage, as long as possible, with where it occurs again."""
    places = defaultdict(list)
    for number, words in enumerate(texts):
        for at in range(len(words) - SHINGLE + 1):
            places[tuple(it.text for it in words[at : at + SHINGLE])].append((number, at))
    covered = set()
    for number, words in enumerate(texts):
        for at in range(len(words) - SHINGLE + 1):
            found = places[tuple(it.text for it in words[at : at + SHINGLE])]
            later = [it for it in found if it > (number, at)]
            if later and (number, at) not in covered:
                length = longest(texts, (number, at), later[0])
                for step in range(length - SHINGLE + 1):
                    covered.update((other, start + step) for other, start in [(number, at), *later])
                yield words[at : at + length], [texts[other][start] for other, start in later]


def longest(texts, first, second):
    """How many words are the same from two places on."""
    (one, at), (other, start) = first, second
    length = SHINGLE
    while (
        at + length < len(texts[one])
        and start + length < len(texts[other])
        and texts[one][at + length].text == texts[other][start + length].text
    ):
        length += 1
    return length


def print_words(root, pages, shows_all):
    """Prints the words of each page, and the passages that occur twice. Returns the status, which is 0."""
    texts = [words_of(root, it) for it in pages]
    found = [*passages(texts)]
    again = defaultdict(int)
    for words, others in found:
        again[words[0].page] += 1
        for it in others:
            again[it.page] += 1
    print(f"{'page':<28}{'words':>8}{'in tables':>11}{'with code':>11}{'passages':>10}")
    totals = [0, 0, 0]
    for page, words in sorted(zip(pages, texts), key=lambda it: len(it[1])):
        counts = (len(words), in_tables(page), all_words(page))
        totals = [total + count for total, count in zip(totals, counts)]
        name = str(page.relative_to(root))
        print(f"{name:<28}{counts[0]:>8,}{counts[1]:>11,}{counts[2]:>11,}{again[name]:>10}")
    print(f"{'all':<28}{totals[0]:>8,}{totals[1]:>11,}{totals[2]:>11,}{len(found):>10}")
    for words, others in found if shows_all else ():
        where = ", ".join(f"{it.page}:{it.line}" for it in [words[0], *others])
        print(f"{where}: {' '.join(it.text for it in words)}")
    return 0
