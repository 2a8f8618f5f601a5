"""The definitions of a crate, with the comments above them."""
import re
import sys
from dataclasses import dataclass
from functools import cache

from crates import crate_names

DEFINITION = re.compile(r"(?:(?:abbrev|unfoldable|opaque) )?pub (?:(?:data|record) )?([^\W\d][\w-]*)(?=[\s:({])")
REEXPORT = re.compile(r"^pub use Rattle\.(\w+)\.specs\.([\w.]+)\.\{([^}]*)\}", re.M)
# Files that declare nothing, or only what proofs and bodies are about.
LEFT_OUT = ("Lib", "internal")


@dataclass
class Definitions:
    """A file of definitions: its module as `rdata/MX`, its path, its comment, each name with its comment, and the names
    that it exports again, each with the crate and the module that declare it."""

    module: str
    path: str
    comment: str
    names: dict
    reexports: dict


@cache
def definitions_of(root, crate):
    """The files of definitions of a crate, without those that contracts of public items don't name."""
    folder = root / "crates" / crate / "specs"
    files = sorted(folder.rglob("*.antt"))
    shown = [it for it in files if not set(it.relative_to(folder).with_suffix("").parts) & set(LEFT_OUT)]
    return [read_definitions(root, folder, it) for it in shown]


def read_definitions(root, folder, file):
    """The definitions of a file."""
    names, comment, head = {}, [], None
    text = file.read_text(encoding="utf-8")
    for line in text.splitlines():
        found = DEFINITION.match(line)
        if line.startswith("--"):
            comment += [line[2:].strip()]
            continue
        if found and found[1] not in ("mod", "use"):
            names[found[1]] = sentence(comment)
        head = sentence(comment) if head is None else head
        comment = []
    module = str(file.relative_to(folder).with_suffix(""))
    return Definitions(module, str(file.relative_to(root)), head or "", names, reexports_in(text))


def reexports_in(text):
    """The names that a file exports again, each with the crate and the module that declare it."""
    found = [(name.strip(), it) for it in REEXPORT.finditer(text) for name in it[3].split(",")]
    return {name: (it[1], it[2].replace(".", "/")) for name, it in found}


def sentence(lines):
    """The text of comment lines, without the titles of parts of the file, as a sentence."""
    text = " ".join(it for it in lines if not it.startswith("----"))
    if not text:
        return ""
    text = text[0].upper() + text[1:] if re.match(r"[a-z]+[ ,]", text) else text
    return text if text[-1] in ".:?" else text + "."


def print_definitions(root, crates):
    """Prints the definitions of these crates, or of all. Returns the status."""
    unknown = [it for it in crates if it not in crate_names(root)]
    for it in unknown:
        print(f"docs: there is no crate {it}", file=sys.stderr)
    for crate in [] if unknown else crates or crate_names(root):
        for file in definitions_of(root, crate):
            if file.names:
                print(f"\n{file.path.removeprefix('crates/')}: {file.comment}")
            for name, comment in file.names.items():
                print(f"    {name}{': ' if comment else ''}{comment}")
    return 2 if unknown else 0
