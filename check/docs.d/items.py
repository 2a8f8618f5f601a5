"""The items of a source file, with their documentation and contracts."""
from dataclasses import dataclass, field

from rattle_source import Tokens

# What begins a clause of a contract.
CLAUSES = ("requires", "ensures", "measure")
MODIFIERS = ("final", "unsafe", "async", "default")


@dataclass
class Clause:
    """A clause of a contract: its keyword, its name, which may be empty, and its text."""

    kind: str
    name: str
    text: str


@dataclass
class Item:
    """An item, or a member of one."""

    kind: str
    name: str
    visibility: str = ""
    docs: str = ""
    attributes: list = field(default_factory=list)
    # The text of the declaration, without contract and body.
    signature: str = ""
    clauses: list = field(default_factory=list)
    members: list = field(default_factory=list)
    # The definitions that the item's contract may name, each with its module and its name there: those of `ghost use`.
    imports: dict = field(default_factory=dict)
    # The tokens of the declaration.
    words: list = field(default_factory=list)
    has_body: bool = False

    def is_public(self):
        return self.visibility == "pub"


def doc_text(lines):
    """The text of documentation lines."""
    return "\n".join(it[3:].removeprefix(" ") for it in lines).strip()


class Reader:
    """Reads the items of a text."""

    def __init__(self, text):
        self.tokens = Tokens(text)

    def file(self):
        """The documentation of the file, and its items."""
        docs = [it for it in self.tokens.words if it.startswith("//!")]
        items = [it for it in self.items(0, len(self.tokens.words))]
        return doc_text(docs), items

    def items(self, at, end):
        """The items from a place up to another."""
        found = []
        while at < end:
            item, after = self.item(at)
            if item:
                found.append(item)
            at = max(after, at + 1)
        return found

    def prelude(self, at):
        """The documentation, attributes and visibility at a place, and the place after them."""
        item, docs, tokens = Item("", ""), [], self.tokens
        while tokens.word(at).startswith("//") or tokens.word(at) == "#":
            if tokens.word(at) == "#":
                after = tokens.after(tokens.find(at + 1, "["))
                item.attributes.append(tokens.slice(at, after))
                at = after
            else:
                docs += [tokens.word(at)] if tokens.word(at).startswith("///") else []
                at += 1
        item.docs = doc_text(docs)
        if tokens.word(at) == "pub":
            after = tokens.after(at + 1) if tokens.word(at + 1) == "(" else at + 1
            # A parenthesis after `pub` is the type of a field of a tuple, unless it restricts the visibility.
            is_restricted = after > at + 1 and tokens.word(at + 2) in ("crate", "super", "self", "in")
            after = after if is_restricted else at + 1
            item.visibility = "".join(tokens.words[at:after])
            at = after
        return item, at

    def item(self, at):
        """The item at a place, if there is one, and the place after it."""
        tokens = self.tokens
        item, start = self.prelude(at)
        at = start
        while tokens.word(at) in MODIFIERS or tokens.word(at) == "const" and tokens.word(at + 1) == "fn":
            at += 1
        item.kind = tokens.word(at)
        item.name = tokens.word(at + 1)
        readers = {
            "fn": self.function,
            "struct": self.struct,
            "enum": self.enum,
            "trait": self.block,
            "impl": self.block,
            "ghost": self.ghost,
            "use": self.until_semicolon,
            "type": self.until_semicolon,
            "const": self.until_semicolon,
            "static": self.until_semicolon,
            "mod": self.module,
        }
        reader = readers.get(item.kind)
        return reader(item, start, at) if reader else (None, self.tokens.after(at))

    def declare(self, item, start, end):
        """Sets the declaration of an item."""
        item.words = self.tokens.words[start:end]
        prefix = item.visibility + " " if item.visibility else ""
        item.signature = prefix + self.tokens.slice(start, end)

    def until_semicolon(self, item, start, at):
        end = self.tokens.find(at, ";")
        self.declare(item, start, end)
        return item, end + 1

    def module(self, item, start, at):
        end = self.tokens.find(at, ";", "{")
        self.declare(item, start, end)
        return item, self.tokens.after(end)

    def function(self, item, start, at):
        tokens, end = self.tokens, at
        while tokens.word(end) not in ("{", ";", "") + CLAUSES:
            end = tokens.after(end)
        self.declare(item, start, end)
        while tokens.word(end) in CLAUSES:
            opened = tokens.find(end, "{")
            after = tokens.after(opened)
            name = "".join(tokens.words[end + 1 : opened])
            item.clauses.append(Clause(tokens.word(end), name, tokens.slice(end, after)))
            end = after
        item.has_body = tokens.word(end) == "{"
        return item, tokens.after(end)

    def ghost(self, item, start, at):
        """A ghost member, or what a `ghost use` imports."""
        tokens = self.tokens
        end = tokens.find(at, ";", ",")
        self.declare(item, start, end)
        if item.name == "use":
            item.imports = imports_of(tokens.words[at + 2 : end])
        return item, end + 1

    def struct(self, item, start, at):
        tokens = self.tokens
        opened = tokens.find(at, "{", "(", ";")
        self.declare(item, start, opened)
        if tokens.word(opened) == ";":
            return item, opened + 1
        item.members = self.fields(opened)
        after = tokens.after(opened)
        return item, after + 1 if tokens.word(opened) == "(" else after

    def fields(self, opened):
        """The fields between brackets."""
        tokens, fields, at = self.tokens, [], opened + 1
        is_tuple = tokens.word(opened) == "("
        while at < tokens.close_of[opened]:
            item, start = self.prelude(at)
            end = min(tokens.find_outside_angles(start, ","), tokens.close_of[opened])
            item.kind = "ghost" if tokens.word(start) == "ghost" else "field"
            name = tokens.word(start + 1) if item.kind == "ghost" else tokens.word(start)
            item.name = str(len(fields)) if is_tuple else name
            self.declare(item, start, end)
            fields += [item] if end > start else []
            at = end + 1
        return fields

    def enum(self, item, start, at):
        tokens = self.tokens
        opened = tokens.find(at, "{")
        self.declare(item, start, opened)
        at = opened + 1
        while at < tokens.close_of[opened]:
            variant, name_at = self.prelude(at)
            end = min(tokens.find(name_at, ","), tokens.close_of[opened])
            variant.kind, variant.name = "variant", tokens.word(name_at)
            self.declare(variant, name_at, end)
            if tokens.word(name_at + 1) in ("{", "("):
                variant.members = self.fields(name_at + 1)
            item.members += [variant] if end > name_at else []
            at = end + 1
        return item, tokens.after(opened)

    def block(self, item, start, at):
        """A trait or an `impl`."""
        tokens = self.tokens
        opened = tokens.find(at, "{")
        self.declare(item, start, opened)
        item.members = self.items(opened + 1, tokens.close_of[opened])
        share_imports(item)
        return item, tokens.after(opened)


def share_imports(item):
    """Takes the imports out of the members of a block, and hands them to each member and to the block."""
    for member in item.members:
        item.imports.update(member.imports if member.name == "use" else {})
    item.members = [it for it in item.members if it.name != "use" or it.kind != "ghost"]
    for member in item.members:
        member.imports = dict(item.imports)


def imports_of(words):
    """The names that a `ghost use` imports, each with its module, as `Rattle.dns_zone.specs.Answer`, and its name there."""
    text = " ".join(words)
    module, _, names = text.partition(" . { ")
    found = {}
    for part in names.removesuffix("}").split(","):
        name, _, local = part.partition(" as ")
        name = name.replace(" ", "")
        found[local.replace(" ", "") or name] = (module.replace(" ", ""), name)
    return found


def read_items(text):
    """The documentation and the items of a file. The imports at its top hold for all its items."""
    docs, items = Reader(text).file()
    shared = {}
    for item in items:
        shared.update(item.imports if item.kind == "ghost" else {})
    for item in items:
        for it in [item, *item.members]:
            it.imports = {**shared, **it.imports}
    return docs, [it for it in items if it.kind != "ghost"]
