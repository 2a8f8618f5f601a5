"""Laws, and what the page on promises links for each: a run of which it speaks, and a wrong body that is refused."""
import re

from references import CODE, ITEM, LINK, expanded, table_rows

# What a cell says in place of a link, of all laws of its row or of those that it names.
NO_PREMISE, NO_WITNESS, NO_BODY = "no premise", "no witness yet", "no wrong body yet"
NAMES = r"(?: of ((?:`\w+`(?:, )?)+))?"
# A lemma that builds a run, as `stub_net/proofs/TimeWitness.antt: ends`.
LEMMA = re.compile(r"\w+/proofs/[\w/]+\.antt: [\w, -]+")
# The files of runs whose calls meet premises by their contracts, and of wrong bodies.
RUNS, BODY = (".rows", ".script", ".case", ".rt"), ".edit"
# How many laws have none, as the page says.
STATED = re.compile(r"(\d+) laws have no witness yet, and (\d+) no wrong body yet")
# Values of a law, in front of its premises.
VALUES = re.compile(r"\s*(?:∀\s*)?[({]\s*[\w' -]+:(?!:)")


def laws_of(library):
    """The laws of all libraries: functions without parameters, results and bodies, each with one of its paths."""
    found = {}
    for crate in library.crates.values():
        for export in crate.exports:
            if is_law(export.item):
                path = "::".join((crate.name, *export.path))
                found.setdefault(id(export.item), (path, export.item))
    return found


def is_law(item):
    if item is None or item.kind != "fn" or not any(it.kind == "ensures" for it in item.clauses):
        return False
    signature = item.signature.split(" where ")[0]
    return signature.rstrip().endswith("()")


def has_premise(item):
    """Whether a clause of a law has an arrow behind the values that it speaks of."""
    return any("→" in behind_values(it.text.partition("{")[2]) for it in item.clauses if it.kind == "ensures")


def behind_values(text):
    """A statement without the values in front of it."""
    while VALUES.match(text):
        depth, at = 0, re.search(r"[({]", text).start()
        for at in range(at, len(text)):
            depth += (text[at] in "({") - (text[at] in ")}")
            if depth == 0:
                break
        text = text[at + 1 :].lstrip().removeprefix("→")
    return text


def witness_faults(library, page):
    """What is wrong with the witnesses on a page, and how many laws have no witness and no wrong body."""
    laws, listed, faults, without = laws_of(library), set(), [], [0, 0]
    for number, row in table_rows(page):
        mine = {key: laws[key] for key in laws_in(library, row.get("Clauses", "")) if key in laws}
        if mine:
            listed |= mine.keys()
            names = {path.rpartition("::")[2]: item for path, item in mine.values()}
            lines, missing = cell_faults(row.get("Witness", ""), names)
            faults += [f"{page.name}:{number}: {it}" for it in lines]
            without = [a + b for a, b in zip(without, missing)]
    faults += [f"{page.name}: it does not list the law {path}" for key, (path, _) in laws.items() if key not in listed]
    stated = STATED.search(page.read_text(encoding="utf-8"))
    if not stated or [int(stated[1]), int(stated[2])] != without:
        faults.append(f"{page.name}: {without[0]} laws have no witness, and {without[1]} no wrong body; it says otherwise")
    return faults, without, len(laws)


def laws_in(library, cell):
    """What the references of a cell name, each by its identity."""
    for text in CODE.findall(cell):
        item = ITEM.fullmatch(text)
        for path in expanded(item[2]) if item and item[1] in library.crates and not item[3] else []:
            export, member = library.resolve(item[1], None, path.split("::"))
            if export and not member:
                yield id(export.item)


def cell_faults(cell, names):
    """What is wrong with the witnesses of a row for these laws, and how many of them have no witness and no wrong body."""
    free, bare, bodiless = (said_of(cell, words, names) for words in (NO_PREMISE, NO_WITNESS, NO_BODY))
    links = [target for target, _ in LINK.findall(cell)]
    has_run = any(it.endswith(RUNS) for it in links) or any(LEMMA.fullmatch(it) for it in CODE.findall(cell))
    has_body = any(it.endswith(BODY) for it in links)
    faults = [f"{it} is no law of this row" for it in sorted((free | bare | bodiless) - names.keys())]
    faults += [f"{it} has a premise" for it in sorted(free & names.keys()) if has_premise(names[it])]
    if names.keys() - free - bare and not has_run:
        faults.append("it has neither a witness nor the words that there is no premise or no witness yet")
    if names.keys() - bodiless and not has_body:
        faults.append("it has neither a wrong body nor the words that there is none yet")
    return faults, (len(bare & names.keys()), len(bodiless & names.keys()))


def said_of(cell, words, names):
    """The laws of which a cell says something: all, those that it names, or none."""
    found = re.search(words + NAMES, cell)
    if not found:
        return set()
    return set(CODE.findall(found[1])) if found[1] else set(names)
