"""Which sections of RFCs the comments of the sources cite, and for what."""
import re
from typing import NamedTuple

from crates import crates_with_sources
from references import references, table_rows
from specs import DEFINITION, sentence

# A section, as 4.3.2 or A.1.
SECTION = r"(?:[A-Z]\.)?\d+(?:\.\d+)*|[A-Z]\b(?:\.\d+)*"
LIST = rf"(?:{SECTION})(?:(?:, | and |, and | or | to )(?:{SECTION}))*"
# An RFC, perhaps with sections; or sections of the RFC that was cited last.
CITED = re.compile(rf"RFC (\d{{3,4}})(?:,? (?:sections?|appendix|appendices) ({LIST}))?|\bsections? ({LIST})")
# What a line of a source declares.
ITEM = re.compile(r"\s*(?:pub(?:\([^)]*\))? )?(?:const )?(?:unsafe )?(?:fn|struct|enum|trait|type|const|mod|ghost) (\w+)")
MEMBER = re.compile(r"\s*(?:pub )?(\w+)\s*[:({,=]")
COMMENT = {".rt": re.compile(r"\s*//[/!]?(?: |$)(.*)"), ".antt": re.compile(r"\s*--(?: |$)(.*)")}


# Rules that definitions state without citing them: RFCs with their sections, the rule, and where it is stated.
STATED = "check/docs.d/stated.txt"


class Citation(NamedTuple):
    """A section of an RFC that a comment cites: the file, what the comment is above, and the comment's first sentence."""

    rfc: int
    section: str
    file: str
    name: str
    text: str


def citations(root):
    """The citations of the sources and definitions of all libraries and programs, in the order of RFCs and sections."""
    found = set()
    for crate in crates_with_sources(root):
        folder = root / "crates" / crate
        for part, ending in (("specs", ".antt"), ("src", ".rt")):
            for file in sorted((folder / part).rglob(f"*{ending}")):
                found |= {*of_file(file, str(file.relative_to(root / "crates")), COMMENT[ending])}
    return sorted(found, key=lambda it: (it.rfc, section_key(it.section), "/specs/" not in it.file, it.file, it.name))


def of_file(path, file, comment):
    """The citations of a file."""
    block = []
    for line in [*path.read_text(encoding="utf-8").splitlines(), ""]:
        found = comment.match(line)
        if found:
            block.append(found[1].strip())
            continue
        if block:
            text = sentence(block)
            name = named(line, path.suffix)
            for rfc, section in cited_in(" ".join(block)):
                yield Citation(rfc, section, file, name, first_of(text))
        block = []


def cited_in(text):
    """The RFCs and sections that a comment cites."""
    last = None
    for rfc, sections, more in CITED.findall(text):
        last = int(rfc) if rfc else last
        if last:
            yield from ((last, it) for it in re.findall(SECTION, sections or more) or [""])


def named(line, ending):
    """The name that a line declares, or an empty text."""
    found = DEFINITION.match(line.strip()) if ending == ".antt" else ITEM.match(line) or MEMBER.match(line)
    return found[1] if found and found[1] not in ("mod", "use") else ""


def first_of(text):
    """The first sentence of a comment."""
    return re.split(r"(?<=[.:?]) (?=[A-Z`])", text)[0]


def section_key(section):
    """Sections in the order of their numbers, appendices last."""
    return [(0, int(it), "") if it.isdigit() else (1, 0, it) for it in section.split(".") if it]


def uncovered(root, page):
    """How many RFCs comments cite, and which of them the tables of a page with a column "RFC" lack, or have without a comment."""
    cited = {it.rfc for it in citations(root)}
    listed = {int(it) for _, row in table_rows(page) for it in re.findall(r"\b\d{3,4}\b", row.get("RFC", ""))}
    faults = [f"it does not list RFC {it}, which comments cite" for it in sorted(cited - listed)]
    return len(cited), faults + [f"no comment cites RFC {it}" for it in sorted(listed - cited)]


def stated_lines(root):
    """The lines on rules that are stated without a citation, each with its number."""
    lines = enumerate((root / STATED).read_text(encoding="utf-8").splitlines(), 1)
    return [(number, line) for number, line in lines if not line.startswith("#")]


def stated_faults(library):
    """The references of these lines that lead nowhere."""
    for number, line in stated_lines(library.root):
        for text, reason in references(library, library.root / STATED, line):
            if reason(library):
                yield f"{STATED}:{number}: {text}: {reason(library)}"


def is_part(cited, section):
    """Whether a section is another one or a part of it, if that is asked for."""
    return not section or f"{cited}.".startswith(f"{section}.")


def is_stated_of(line, number, section):
    """Whether a line is about an RFC, and a section of it."""
    for part in line.split(" | ")[0].split(";"):
        rfc, *sections = re.findall(SECTION, part)
        if number in ("all", rfc) and (not section or any(is_part(it, section) or is_part(section, it) for it in sections)):
            return True
    return False


def print_citations(root, number, section=""):
    """Prints where an RFC, or each, or a section and its parts, is cited, and what is stated of it without a citation."""
    found = [it for it in citations(root) if number in ("all", str(it.rfc)) and is_part(it.section, section)]
    for it in found:
        place = f"{it.file}: {it.name}" if it.name else it.file
        print(f"RFC {it.rfc}{' ' if it.section else ''}{it.section} | {place} | {it.text}")
    stated = [line for _, line in stated_lines(root) if is_stated_of(line, number, section)]
    print("".join(f"RFC {it}\n" for it in stated), end="")
    print(f"{len(found)} places cite {'RFCs' if number == 'all' else 'RFC ' + number}, {len(stated)} lines state what none cites")
    return 0 if found or stated else 1
