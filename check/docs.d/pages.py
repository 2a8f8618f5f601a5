"""The page of a crate."""
import re
import textwrap

from library import is_type
from links import Links, definition_anchor
from specs import definitions_of

KINDS = {
    "struct": "Structs",
    "enum": "Enums",
    "trait": "Traits",
    "fn": "Functions",
    "const": "Constants",
    "type": "Type aliases",
}
# Ghost members that are proofs, or that speak of private fields.
HIDDEN_GHOSTS = (
    "laws matches_eq matches_partial_cmp respects_eq total view invariant inverse coded unambiguous not_refused "
    "has_len some is_plain label"
).split()
# A block of code in a documentation text.
FENCED = re.compile(r"^(```.*?^```)$", re.M | re.S)
NOTE = "This page is written by `check/docs api`, from the sources."


def first_sentence(docs):
    """The first sentence of a documentation text, on one line."""
    paragraph = " ".join(docs.split("\n\n")[0].split())
    found = re.match(r".*?[.?](?=\s|$)", paragraph)
    return found[0] if found else paragraph


def block(language, *texts):
    """A block of code."""
    return "\n".join([f"```{language}", *texts, "```"])


def folded(summary, text):
    """A text that is shown when its summary is chosen."""
    return f"<details><summary>{summary}</summary>\n\n{text}\n\n</details>"


class Page:
    """Writes the page of a crate."""

    def __init__(self, library, crate):
        self.library, self.crate, self.parts = library, crate, []
        self.exports = sorted(crate.exports, key=lambda it: (it.path[:-1], it.path[-1].lower(), it.path[-1]))

    def add(self, *texts):
        self.parts += [it for it in texts if it]

    def links(self, module):
        return Links(self.library, self.crate, module)

    def text(self):
        """The whole page."""
        links = self.links(self.crate.root)
        self.add(f"# Crate `{self.crate.name}`", NOTE + " [All crates and items](README.md).")
        self.add(links.prose(self.crate.root.docs))
        self.add_reexports()
        modules = [()] + [it.path for it in self.exports if it.item and it.item.kind == "mod"]
        for path in modules:
            self.add_contents(path)
        for path in modules:
            self.add_module(path)
        self.add_definitions()
        return "\n\n".join(self.parts) + "\n"

    def of_module(self, path):
        """The items that a module declares, by kind."""
        return [it for it in self.exports if it.path[:-1] == path and not it.origin and it.item.kind != "mod"]

    def add_reexports(self):
        """The items of other crates."""
        lines = []
        for it in self.exports:
            if it.origin:
                crate, *path = self.source_of(it)
                lines.append(f"- `{it.title()}` is [`{'::'.join((crate, *path))}`]({crate}.md#{'.'.join(path)}).")
        self.add("## Re-exports" if lines else "", "\n".join(lines))

    def source_of(self, export):
        """The path of an item of another crate, from its crate on, also where a private module of this one exports it again."""
        module = self.crate.modules.get((export.origin,))
        used = module.uses.get(export.source[-1]) if module and export.origin not in self.library.crates else None
        return used if used else (export.origin, *export.source)

    def add_contents(self, path):
        """The tables of the items of a module."""
        items = self.of_module(path)
        for kind, title in KINDS.items():
            rows = [self.content_row(it) for it in items if it.item.kind == kind]
            if rows:
                title = "Laws" if path == ("laws",) and kind == "fn" else title
                where = f" of module `{'::'.join(path)}`" if path and title != "Laws" else ""
                self.add(f"## {title}{where}", "\n".join(["| Name | |", "|---|---|", *rows]))

    def content_row(self, export):
        """The line of an item in the table of its kind."""
        links = self.links(export.module)
        sentence = links.prose(first_sentence(export.item.docs)).replace("|", "\\|")
        return f"| [`{export.path[-1]}`](#{export.anchor()}) | {sentence} |"

    def add_module(self, path):
        """The items of a module, each in a section."""
        items = self.of_module(path)
        if path:
            module = self.crate.modules[path]
            self.add(f'## <a id="{".".join(path)}"></a>Module `{"::".join(path)}`')
            self.add(self.links(module).prose(module.docs))
        elif items:
            self.add("## Items")
        for export in items:
            self.add_item(export)

    def add_definitions(self):
        """What the definitions are that contracts name."""
        files = [it for it in definitions_of(self.library.root, self.crate.name) if it.names]
        if files:
            self.add("## Definitions", "What the names in contracts mean, by the file that has the definition.")
        for it in files:
            self.add(f"### [`{it.path.removeprefix('crates/')}`](../../{it.path})", it.comment)
            rows = [definition_row(it.module, name, comment) for name, comment in it.names.items()]
            self.add("\n".join(["| Definition | |", "|---|---|", *rows]))

    def add_item(self, export):
        """The section of an item."""
        item, links = export.item, self.links(export.module)
        self.add(f'### <a id="{export.anchor()}"></a>`{export.title()}`')
        self.add(block("rust", declaration(item)), links.prose(item.docs))
        self.add(displayed(item), self.members(export, links), links.error_of(item), self.contract(item, links))
        if item.kind == "trait":
            self.add_trait(export, links)
        if is_type(export):
            self.add_type(export, links)

    def members(self, export, links):
        """The public fields or the variants of a type, each with its text."""
        lines = []
        for it in export.item.members:
            if it.kind == "variant" or it.kind == "field" and it.is_public() and it.docs:
                lines.append(member_line(field_anchor(export, it), it, links))
                anchor = field_anchor(export, it)
                fields = [field for field in it.members if field.kind == "field" and field.docs]
                lines += ["  " + member_line(f"{anchor}.{field.name}", field, links) for field in fields]
        title = {"enum": "**Variants**", "struct": "**Fields**"}.get(export.item.kind)
        return f"{title}\n\n" + "\n".join(lines) if lines else ""

    def invariants(self, item, links):
        """What always holds of the fields of a type."""
        fields = item.members + [field for it in item.members if it.kind == "variant" for field in it.members]
        ghosts = [it for it in fields if it.kind == "ghost"] if item.kind in ("struct", "enum") else []
        if not ghosts:
            return ""
        texts = [it.signature.removeprefix("ghost ") for it in ghosts]
        return folded("Invariants", block("text", *texts) + links.definitions(item.imports, texts))

    def contract(self, item, links):
        """The preconditions and the postconditions of a function."""
        needed = [it for it in item.clauses if it.kind == "requires"]
        ensured = [it for it in item.clauses if it.kind == "ensures"]
        parts = []
        if needed:
            texts = [it.text for it in needed]
            parts.append("**Preconditions**\n\n" + block("text", *texts) + links.definitions(item.imports, texts))
        if ensured:
            texts = [it.text for it in ensured]
            names = ", ".join(f"`{it.name}`" for it in ensured if it.name)
            summary = f"Contract: {names}" if names else "Contract"
            parts.append(folded(html_code(summary), block("text", *texts) + links.definitions(item.imports, texts)))
        return "\n\n".join(parts)

    def add_trait(self, export, links):
        """The members of a trait, and what implements it."""
        ghosts = [it for it in export.item.members if it.kind == "ghost"]
        lines = [f"- `{it.name}`: {links.prose(it.docs) or 'a ghost member.'}" for it in ghosts]
        if lines:
            texts = [it.signature for it in ghosts]
            code = block("text", *texts) + links.definitions(export.item.imports, texts)
            self.add("**What an implementation states**, for contracts", "\n".join(lines), folded("Types", code))
        for member in export.item.members:
            self.add_member(export, member, links)
        found = self.library.implementors(export)
        names = sorted({f"- `{impl.signature}` in `{crate.name}`" for crate, impl, *_ in found})
        self.add("**Implementations**" if names else "", "\n".join(names))

    def add_member(self, export, member, links):
        """A function, a constant or a type of a trait or an `impl`."""
        if member.kind not in ("fn", "const", "type"):
            return
        anchor = f"{export.anchor()}.{member.name}"
        self.add(f'#### <a id="{anchor}"></a>`{export.path[-1]}::{member.name}`')
        self.add(block("rust", member.signature), links.prose(member.docs))
        self.add(links.error_of(member), self.contract(member, links))

    def add_type(self, export, links):
        """What contracts see of a type, its constants, its methods and the traits that it implements."""
        traits, members = [], []
        for impl, parts, module in self.library.implementations(export):
            links = self.links(module)
            if parts[0]:
                traits.append((impl, parts, links))
                continue
            members += [(it, links, impl) for it in impl.members if it.is_public()]
        self.add_model(traits)
        self.add(self.invariants(export.item, links), method_list(export, [it for it, *_ in members]))
        for member, links, impl in members:
            self.add_member(export, bounded(member, impl), links)
        self.add_traits(export, traits)

    def add_model(self, traits):
        """What contracts see of a type."""
        for impl, parts, links in traits:
            if parts[0] == "Model":
                values = [it for it in impl.members if it.name == "Value"]
                text = " ".join(values[0].signature.split()).removeprefix("ghost Value = {").removesuffix("}").strip()
                self.add(f"**In contracts** a value is seen as `{text}`." + links.definitions(impl.imports, [text]))

    def add_traits(self, export, traits):
        """The implemented traits of a type, with what they state."""
        derived = derived_traits(export.item)
        traits = [it for it in traits if it[1][0] != "Model"]
        if derived:
            self.add("**Derived traits:** " + ", ".join(f"`{it}`" for it in derived))
        if traits:
            lines = [trait_line(*it) for it in traits]
            self.add("**Implemented traits**", "\n".join(lines), self.trait_contracts(traits))

    def trait_contracts(self, traits):
        """The contracts of implemented traits."""
        parts = []
        for impl, _, links in traits:
            texts = [it.signature for it in impl.members if it.kind == "ghost" and it.name not in HIDDEN_GHOSTS]
            texts += [it.text for member in impl.members for it in member.clauses]
            if texts:
                parts.append(block("text", impl.signature, *texts) + links.definitions(impl.imports, texts))
        return folded("Contracts of these implementations", "\n\n".join(parts)) if parts else ""


def definition_row(module, name, comment):
    """The line of a definition in the table of its file."""
    text = comment.replace("|", "\\|")
    return f'| <a id="{definition_anchor(module, name)}"></a>`{name}` | {text} |'


def html_code(text):
    """A text for a summary, in which Markdown isn't read everywhere."""
    return re.sub(r"`([^`]*)`", r"<code>\1</code>", text)


def derived_traits(item):
    """The traits that a type derives, but for those that tell a caller nothing."""
    names = [it for text in item.attributes for it in re.findall(r"\w+", text)[1:] if text.startswith("#[derive")]
    return [it for it in names if it not in ("Drop",)]


def bounded(member, impl):
    """A member of an `impl` with bounds, below the head of that."""
    if "<" not in impl.signature or ":" not in impl.signature:
        return member
    copy = type(member)(**vars(member))
    copy.signature = f"// {impl.signature}\n{member.signature}"
    return copy


def trait_line(impl, _, links):
    """The line of an implemented trait: its head, and what its documentation says."""
    docs = impl.docs or " ".join(it.docs for it in impl.members if it.kind == "fn" and it.docs)
    head = re.sub(r"\bfmt::", "", impl.signature)
    parts = FENCED.split(links.prose(docs))
    texts = [textwrap.indent(f"\n\n{it}\n\n", "  ") if at % 2 else " ".join(it.split()) for at, it in enumerate(parts)]
    text = "".join(texts).rstrip()
    return f"- `{head}`" + (f": {text}" if text else "")


def method_list(export, members):
    """The names of the methods of a type, if there are several, each with a link."""
    names = [f"[`{it.name}`](#{export.anchor()}.{it.name})" for it in members if it.kind == "fn"]
    return "Methods: " + ", ".join(names) + "." if len(names) > 2 else ""


def field_anchor(export, member):
    """The anchor of a field or of a variant. A field can have the name of a method."""
    infix = "field." if member.kind == "field" else ""
    return f"{export.anchor()}.{infix}{member.name}"


def displayed(item):
    """The text that an error is displayed as."""
    shown = [it[8:-2] for it in item.attributes if it.startswith("#[error(")]
    if not shown:
        return ""
    return "Displayed as its content." if shown[0] == '"{0}"' else f"Displayed as {shown[0]}."


def member_line(anchor, item, links):
    """The line of a field or a variant."""
    name = " ".join(item.signature.removeprefix("pub ").split()) if item.kind == "field" else item.name
    text = " ".join(links.prose(item.docs).split())
    text = f"{text} {displayed(item)}".strip() or content_of(item, links)
    return f'- <a id="{anchor}"></a>`{name}`' + (f": {text}" if text else "")


def content_of(item, links):
    """The types that a variant without documentation holds, each with a link."""
    types = [it.signature for it in item.members if it.kind == "field" and it.name.isdigit()]
    found = [(it, links.target(it)) for it in types if it.isidentifier()]
    return ", ".join(f"[`{it}`]({target})" for it, target in found if target)


def declaration(item):
    """The declaration of an item as a user sees it: without private fields and without documentation."""
    if item.kind == "trait":
        return trait_declaration(item)
    if item.kind not in ("struct", "enum") or not item.members:
        semicolon = ";" if item.kind in ("struct", "const", "type") else ""
        return item.signature + semicolon
    if item.kind == "enum":
        lines = [f"    {variant_text(it)}," for it in item.members]
        return "\n".join([item.signature + " {", *lines, "}"])
    fields = [it for it in item.members if it.kind == "field"]
    shown = [it for it in fields if it.is_public()]
    if fields and fields[0].name == "0":
        return item.signature + "(" + ", ".join(it.signature if it.is_public() else "_" for it in fields) + ");"
    lines = [f"    {it.signature}," for it in shown]
    lines += ["    // private fields"] if len(shown) < len(fields) else []
    return "\n".join([item.signature + " {", *lines, "}"]) if lines else item.signature + " {}"


def trait_declaration(item):
    """A trait with the signatures of its members, without what is for contracts alone."""
    members = [it for it in item.members if it.kind != "ghost"]
    texts = [it.signature + (" { .. }" if it.has_body else ";") for it in members]
    lines = [f"    {line}" for text in texts for line in text.split("\n")]
    return "\n".join([item.signature + " {", *lines, "}"]) if lines else item.signature + " {}"


def variant_text(item):
    """A variant without documentation and ghost fields."""
    fields = [it.signature for it in item.members if it.kind == "field"]
    if not item.members:
        return item.signature
    if item.members[0].name == "0":
        return f"{item.name}({', '.join(fields)})"
    return f"{item.name} {{ {', '.join(fields)} }}"
