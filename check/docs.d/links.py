"""Links from documentation and contracts to items and definitions."""
import re

from specs import definitions_of

LINK = re.compile(r"\[`([\w:]+)(\(\))?`\](?:\(([\w:]+)\))?")
# A link whose text is no name, as "[in order](is_in_order)".
WORDED = re.compile(r"\[([^\]`]+)\]\(([a-z]\w*(?:::\w+)*)\)")
WORD = re.compile(r"[^\W\d][\w-]*")
HEADING = re.compile(r"^#+ (.*)$", re.M)


class Links:
    """The links of texts that a module of a crate contains, for a page in docs/api."""

    def __init__(self, library, crate, module):
        self.library, self.crate, self.module = library, crate, module

    def prose(self, text):
        """A documentation text, with the links to items that are found, and the names of the others. Its headings are no
        headings of the page."""
        return WORDED.sub(self.worded, LINK.sub(self.link, HEADING.sub(r"**\1**", text)))

    def worded(self, found):
        """A link to an item whose text is no name, or the text alone."""
        target = self.target(found[2])
        return f"[{found[1]}]({target})" if target else found[1]

    def link(self, found):
        """A link to an item."""
        name = found[1] + (found[2] or "")
        target = self.target(found[3] or found[1])
        return f"[`{name}`]({target})" if target else f"`{name}`"

    def target(self, path):
        """The place of an item in these pages, or `None`."""
        export, member = self.library.resolve(self.crate.name, self.module, path.split("::"))
        if not export or export.item is None:
            return None
        if member and member not in [it.name for it in self.library.members(export) if it.kind != "field"]:
            return None
        anchor = export.anchor() + (f".{member}" if member else "")
        page = "" if export.crate == self.crate.name else f"{export.crate}.md"
        return f"{page}#{anchor}"

    def error_of(self, member):
        """The line that names the error of a function, with a link to it."""
        error = error_type(member.words)
        target = self.target(error) if error else None
        return f"Error: [`{error}`]({target})." if target else ""

    def definitions(self, imports, texts):
        """The definitions that contracts name, each with a link to what it says."""
        used = {it for text in texts for it in WORD.findall(text)}
        names = [self.definition(it, *imports[it]) for it in sorted(used & set(imports))]
        return "\n\nDefinitions: " + ", ".join(it for it in names if it) + "." if any(names) else ""

    def definition(self, shown, imported, name):
        """A definition with its link, or an empty text if the repository has no file of it."""
        file = spec_file(imported)
        if not file or not (self.library.root / file).is_file():
            return ""
        crate, module = imported.split(".")[1], imported.split(".specs.")[1].replace(".", "/")
        target = self.definition_place(crate, module, name)
        return f"[`{shown}`]({target or '../../' + file})"

    def definition_place(self, crate, module, name):
        """The place of a definition in these pages, or `None`."""
        for it in definitions_of(self.library.root, crate):
            if it.module == module and name in it.names:
                page = "" if crate == self.crate.name else f"{crate}.md"
                return f"{page}#{definition_anchor(module, name)}"
            if it.module == module and name in it.reexports:
                return self.definition_place(*it.reexports[name], name)
        return None


def definition_anchor(module, name):
    """The anchor of a definition in its crate's page."""
    return f"spec.{module.replace('/', '.')}.{name}"


def spec_file(module):
    """The file of definitions that a module is, as `crates/dns_zone/specs/Answer.antt`, or `None`."""
    parts = module.split(".")
    if len(parts) < 4 or parts[0] != "Rattle" or parts[2] != "specs" or parts[3] == "declared":
        return None
    return f"crates/{parts[1]}/specs/{'/'.join(parts[3:])}.antt"


def error_type(words):
    """The error of the result type of a function, or `None`."""
    if "->" not in words:
        return None
    result = words[words.index("->") + 1 :]
    if result[:2] != ["Result", "<"]:
        return None
    depth, commas = 0, []
    for at, word in enumerate(result):
        depth += {"<": 1, ">": -1, "(": 1, ")": -1}.get(word, 0)
        if word == "," and depth == 1:
            commas.append(at)
    return "".join(result[commas[0] + 1 : -1]).rstrip(",") if commas else None
