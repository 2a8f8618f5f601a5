"""All libraries together: which items a name or a path means, and what is implemented for a type."""
from crates import Crate, TYPES, crate_names

# Traits that every type may implement without telling a caller anything.
SILENT_TRAITS = ("Drop", "Error")


class Library:
    """The libraries of the repository."""

    def __init__(self, root):
        self.root, self.comments = root, crate_names(root)
        crates = [Crate(root, name) for name in self.comments]
        self.crates = {it.name: it for it in crates if it.exports}
        self.complete_exports()

    def complete_exports(self):
        """Gives each item that is exported again from another crate its declaration there."""
        for crate in self.crates.values():
            for export in crate.exports:
                if export.origin in self.crates:
                    self.complete(export)

    def complete(self, export):
        """Gives an item of another crate its declaration."""
        other = self.find(export.origin, export.source)
        if other and other.origin:
            self.complete(other)
            export.origin, export.source = other.origin, other.source
        if other:
            export.item, export.module = other.item, other.module

    def find(self, crate, path):
        """The export at a path of a crate, or `None`."""
        found = [it for it in self.crates[crate].exports if it.path == tuple(path)]
        return found[0] if found else None

    def home(self, crate, path):
        """The export at a path, in the crate that declares the item."""
        export = self.find(crate, path)
        if export and export.origin in self.crates:
            return self.find(export.origin, export.source) or export
        return export

    def resolve(self, crate, module, words):
        """What a path written in a module means: an export and a member's name, which may be empty, or `(None, "")`."""
        words = [it for it in words if it != "crate"]
        if words and words[0] in self.crates:
            crate, words, module = words[0], words[1:], None
        for member in (0, 1):
            path, rest = words[: len(words) - member], words[len(words) - member :]
            export = self.home(crate, path) if path else None
            if not export and module and path:
                export = self.imported(module, path)
            if export:
                return export, "".join(rest)
        return None, ""

    def imported(self, module, path):
        """The export that a module imports under the first name of a path."""
        used = module.uses.get(path[0], ())
        if used and used[0] in self.crates and len(used) > 1:
            return self.home(used[0], (*used[1:], *path[1:]))
        return None

    def by_name(self, crate, name):
        """The export of this name, in the crate or in the only other one that has it."""
        own = self.home(crate, (name,)) or self.nested(crate, name)
        if own:
            return own
        found = [self.home(it, (name,)) for it in self.crates]
        homes = {it.crate: it for it in found if it and it.item}
        return next(iter(homes.values())) if len(homes) == 1 else None

    def nested(self, crate, name):
        """The export of this name in a module of a crate."""
        found = [it for it in self.crates[crate].exports if len(it.path) > 1 and it.path[-1] == name]
        return found[0] if len(found) == 1 else None

    def implementations(self, export):
        """The `impl` items of a type, each with its parts and its module, those beside the type first."""
        found = [(impl, heads(impl.words), module) for impl, module in self.crates[export.crate].impls()]
        found = [it for it in found if self.belongs(export, it[1], it[2])]
        return sorted(found, key=lambda it: (it[2] is not export.module, it[2].path))

    def members(self, export):
        """What a path can name in an item: variants and public fields, and methods or the members of a trait."""
        item = export.item
        found = [it for it in item.members if item.kind == "trait" or it.kind == "variant" or it.is_public()]
        if item.kind in TYPES:
            impls = [it for it in self.implementations(export) if not it[1][0]]
            found += [it for impl, *_ in impls for it in impl.members if it.is_public()]
        return found

    def implementors(self, export):
        """Each `impl` of a trait, in any crate, with its parts and its module."""
        for crate in self.crates.values():
            for impl, module in crate.impls():
                parts = heads(impl.words)
                if parts[0] == export.path[-1] and self.means(crate, module, parts[0], export):
                    yield crate, impl, parts, module

    def means(self, crate, module, name, export):
        """Whether a name means an export in a module of a crate."""
        item, _ = crate.named(module, name)
        found = self.imported(module, (name,))
        return item is export.item or found is not None and found.item is export.item

    def belongs(self, export, parts, module):
        """Whether an `impl` is listed with an item: with its type, or with its trait if that is of this crate."""
        trait, subject, argument = parts
        crate = self.crates[export.crate]
        meant = [crate.named(module, it)[0] for it in (subject, trait, argument)]
        if trait in SILENT_TRAITS or meant[1] and not self.is_exported(crate, meant[1]):
            return False
        own = next((it for it in meant if it and self.is_exported(crate, it)), None)
        return own is export.item

    def is_exported(self, crate, item):
        return any(it.item is item for it in crate.exports)


def heads(words):
    """The trait of an `impl`, its type, and the argument of its trait, each by its last name or empty."""
    at = after_angles(words, 1)
    paths, path, argument = [], "", ""
    while at < len(words) and words[at] != "where":
        if words[at] == "for":
            paths, path = [path], ""
        elif words[at] == "<":
            end = after_angles(words, at)
            argument = argument or first_name(words[at + 1 : end]) if not paths else argument
            at = end - 1
        elif is_name(words[at]):
            path = words[at]
        at += 1
    return (paths[0], path, argument) if paths else ("", path, "")


def first_name(words):
    """The name of the type that tokens denote."""
    names = [it for at, it in enumerate(words) if is_name(it) and words[at - 1 : at] != ["'"]]
    return names[0] if names else ""


def is_name(word):
    return word[0].isalpha() and word not in ("mut", "dyn", "const", "std", "fmt")


def after_angles(words, at):
    """The place after angle brackets that open at a place, or the place itself."""
    depth = 0
    for place in range(at, len(words)):
        depth += {"<": 1, ">": -1}.get(words[place], 0)
        if depth == 0:
            return place + 1 if place > at else at
    return at


def is_type(export):
    return export.item is not None and export.item.kind in TYPES
