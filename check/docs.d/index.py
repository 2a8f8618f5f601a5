"""The index of all pages."""
from pages import NOTE, first_sentence
from links import Links

HEAD = """# API reference

For Rust programmers who use a library of this repository. Each crate has a page with its public items: their
signatures, what they are for, when each error occurs, and their contracts, whose clauses say exactly what is proved.
[READING_CONTRACTS.md](../READING_CONTRACTS.md) explains contracts in ten minutes. Where a page says "Preconditions", the
prover requires every caller to meet them."""
WORDS = {"fn": "function", "const": "constant", "mod": "module", "type": "type alias"}


def index_page(library):
    """The page that lists the crates, and their items by name."""
    parts = [HEAD, NOTE, "## Crates", crate_table(library, library.crates), "## Index"]
    entries = sorted(set(index_entries(library)), key=lambda it: (it[0].lower(), it[1]))
    for letter in sorted({it[0][0].upper() for it in entries}):
        lines = [line for name, line in entries if name[0].upper() == letter]
        parts += [f"### {letter}", "\n".join(lines)]
    return "\n\n".join(parts) + "\n"


def crate_table(library, names):
    """These crates, from those below to those above, with the first sentence of each."""
    rows = ["| Crate | |", "|---|---|"]
    for name in names:
        crate = library.crates[name]
        sentence = Links(library, crate, crate.root).prose(first_sentence(crate.root.docs))
        rows.append(f"| [`{name}`]({name}.md) | {sentence} |")
    return "\n".join(rows)


def index_entries(library):
    """The items and methods, each with its name and its line."""
    for crate in library.crates.values():
        for export in crate.exports:
            if export.origin:
                continue
            kind = WORDS.get(export.item.kind, export.item.kind)
            kind = "law" if "laws" in export.path[:-1] and kind == "function" else kind
            yield entry(crate, export.path[-1], export.anchor(), kind)
            for member in [it for it in library.members(export) if it.kind == "fn"]:
                yield entry(crate, member.name, f"{export.anchor()}.{member.name}", f"method of `{export.path[-1]}`")


def entry(crate, name, anchor, kind):
    """A line of the index, with its name."""
    return name, f"- [`{name}`]({crate.name}.md#{anchor}), {kind}, `{crate.name}`"
