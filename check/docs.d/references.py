"""References in pages to public items, clauses, definitions and files."""
import re
from functools import cache
from os.path import normpath
from pathlib import Path

CODE = re.compile(r"`([^`\n]+)`")
ITEM = re.compile(r"([a-z]\w*)::([\w:{}, ]+?)(?:#(\w+))?")
FILE = re.compile(r"(?:crates/)?(\w+/(?:specs|proofs)/[\w/{}, ]+\.antt)(?:: ([\w, -]+))?")
LINK = re.compile(r"\]\(([^)#:\s]*)(?:#([^)\s]*))?\)")
# Names that a sentence places in a file, as "`IsFresh` and `IsReached`, in `stub_laws/specs/history/Stands.antt`".
PLACED = re.compile(r"((?:`[\w-]+`(?:, | and |, and )?)+),? in `(\w+/specs/[\w/{},]+\.antt)`")
# A line that declares a definition, a field of a record or a constructor.
DECLARED = re.compile(
    r"^\s*(?:(?:abbrev|unfoldable|opaque|pub|data|record)\s+)*([^\W\d][\w-]*)\s*(?=[:({]|$)", re.M
)
# Pages whose blocks of code are contracts and definitions.
QUOTING = ("READING_CONTRACTS.md",)
# A block of code.
FENCED = re.compile(r"^\s*```.*?^\s*```$", re.M | re.S)
BRACES = re.compile(r"\{([^{}]*)\}")


def unresolved(library, page):
    """The number of references in a page, and a line for each that leads nowhere."""
    found, lines = 0, []
    rows = dict(table_rows(page))
    for number, line in prose_lines(page):
        row = rows.get(number, {})
        checked = [*references(library, page, line), *placed_by_columns(row)]
        found += len(checked)
        reasons = [(text, reason(library)) for text, reason in checked]
        lines += [f"{page.name}:{number}: {text}: {reason}" for text, reason in reasons if reason]
    lines += [f"{page.name}:{number}: the row: {it}" for number, it in misshapen(page)]
    if page.name in QUOTING:
        lines += [f"{page.name}:{number}: no source has this line: {it}" for number, it in misquoted(library.root, page)]
    return found, lines


def misquoted(root, page):
    """The lines of a page's blocks of code that no source and no file of definitions has, each with its number."""
    prose = {number for number, _ in prose_lines(page)}
    for number, line in enumerate(page.read_text(encoding="utf-8").splitlines(), 1):
        if number not in prose and not line.startswith("```") and line.strip() not in source_lines(root):
            yield number, line.strip()


@cache
def source_lines(root):
    """The lines of all sources and definitions, without indentation."""
    files = [*root.glob("crates/*/src/**/*.rt"), *root.glob("crates/*/specs/**/*.antt")]
    return {""} | {line.strip() for it in files for line in it.read_text(encoding="utf-8").splitlines()}


def prose_lines(page):
    """The lines of a page outside blocks of code, each with its number."""
    is_code = False
    for number, line in enumerate(page.read_text(encoding="utf-8").splitlines(), 1):
        is_fence = line.lstrip().startswith("```")
        if not is_code and not is_fence:
            yield number, line
        is_code ^= is_fence


def references(library, page, line):
    """The references of a line, each with what says why it leads nowhere, or says nothing."""
    for text in CODE.findall(line):
        item, file = ITEM.fullmatch(text), FILE.fullmatch(text)
        if item and item[1] in library.crates:
            for path in expanded(item[2]):
                yield text, lambda it, path=path, item=item: no_item(it, item[1], path, item[3])
        elif file:
            for path in expanded(file[1]):
                yield text, lambda it, path=path, names=file[2]: no_definitions(it, [path], names_in(names))
    for names, file in PLACED.findall(line):
        yield f"{names} in {file}", lambda it, n=names, f=file: no_definitions(it, expanded(f), CODE.findall(n))
    for target, anchor in LINK.findall(line):
        yield target or f"#{anchor}", lambda _, t=target, a=anchor: no_file(page, t, a)


def expanded(text):
    """A text with braces, once for each of their parts."""
    found = BRACES.search(text)
    if not found:
        return [text]
    before, after = text[: found.start()], text[found.end() :]
    return [it for part in found[1].split(",") for it in expanded(before + part.strip() + after)]


def names_in(text):
    return [it.strip() for it in text.split(",")] if text else []


def no_item(library, crate, path, clause):
    """Why a path names no public item, or no clause of it."""
    export, member = library.resolve(crate, None, path.split("::"))
    if not export or export.item is None:
        return "no such public item"
    items = [export.item] if not member else [it for it in library.members(export) if it.name == member]
    if not items:
        return f"{export.title()} has no public member {member}"
    if clause and clause not in clauses_of(library, export, items):
        return f"no clause {clause}"
    return ""


def clauses_of(library, export, items):
    """The names of the clauses of items. A type has those of its traits, too, and a trait its ghost members."""
    names = {it.name for item in items for it in item.clauses}
    for item in items:
        names |= {it.name for it in item.members if it.kind == "ghost"}
        if item is export.item and item.kind in ("struct", "enum"):
            impls = [impl for impl, parts, _ in library.implementations(export) if parts[0]]
            names |= {it.name for impl in impls for it in impl.members if it.kind == "ghost"}
            names |= {it.name for impl in impls for member in impl.members for it in member.clauses}
    return names


def no_definitions(library, files, names):
    """Why a file does not exist, or which names none of the files declares."""
    missing = [it for it in files if not (library.root / "crates" / it).is_file()]
    if missing:
        return f"no file {missing[0]}"
    declared = {name for it in files for name in declared_in(library.root / "crates" / it)}
    lost = [it for it in names if it not in declared]
    return f"{', '.join(lost)} not declared there" if lost else ""


@cache
def declared_in(path):
    """The names that a file of definitions declares."""
    return set(DECLARED.findall(path.read_text(encoding="utf-8")))


def no_file(page, target, anchor):
    """Why a link leads nowhere."""
    file = page.parent / target if target else page
    if not file.exists():
        return "no such file"
    is_page = file.suffix == ".md" and anchor
    return "no such place" if is_page and anchor not in anchors(file) else ""


def lost_links(folder, pages):
    """How many links the texts of pages have, by their names in a folder, and a line for each that leads nowhere."""
    count, lost, places = 0, [], {name: anchors_in(text) for name, text in pages.items()}
    for name, text in pages.items():
        for target, anchor in LINK.findall(FENCED.sub("", text)):
            count += 1
            if (target or name) in places:
                is_lost = anchor and anchor not in places[target or name]
            else:
                # The folder need not be there.
                is_lost = not Path(normpath(folder / target)).exists()
            lost += [f"{name}: {target}#{anchor}"] if is_lost else []
    return count, lost


@cache
def anchors(file):
    """The places in a page."""
    return anchors_in(file.read_text(encoding="utf-8"))


def anchors_in(text):
    """The places in the text of a page: those that are marked, and its headings."""
    headings = [re.sub(r"[^\w\- ]", "", it.lower()).replace(" ", "-") for it in re.findall(r"^#+ (.*)$", text, re.M)]
    return set(re.findall(r'<a id="([^"]*)">', text)) | set(headings)


def table_rows(page):
    """The rows of the tables in a page: the number of the line, and the cell of each column."""
    return ((number, dict(zip(columns, cells))) for number, columns, cells in table_cells(page))


def misshapen(page):
    """The rows of tables that have more or fewer cells than their tables have columns, each with its number."""
    for number, columns, cells in table_cells(page):
        if len(cells) != len(columns):
            yield number, f"it has {len(cells) - 2} cells, and its table {len(columns) - 2} columns"


def table_cells(page):
    """The rows of the tables in a page: the number of the line, the titles of the columns, and the cells."""
    columns = []
    for number, line in prose_lines(page):
        cells = [it.strip() for it in re.split(r"(?<!\\)\|", line)]
        if not line.startswith("|"):
            columns = []
        elif not columns:
            columns = cells
        elif not line.startswith("|--"):
            yield number, columns, cells


def placed_by_columns(row):
    """The definitions that a row has in the column `Definition`, in the files of its column `File`."""
    if row.get("Definition") and row.get("File"):
        names = CODE.findall(row["Definition"])
        files = [it for file in CODE.findall(row["File"]) for it in expanded(file)]
        yield f"{', '.join(names)} in {', '.join(files)}", lambda it: no_definitions(it, files, names)
