"""The libraries of the repository, and what each of them exports."""
import re
from dataclasses import dataclass, field
from pathlib import Path

from items import read_items

TYPES = ("struct", "enum", "type")


@dataclass
class Module:
    """A module of a crate: a file."""

    path: tuple
    file: str
    docs: str
    items: list
    # The names that `use` items import: each with its path and whether it is exported again.
    uses: dict = field(default_factory=dict)


@dataclass
class Export:
    """An item under the path that a user writes, such as `dns_zone::laws::answers_are_alias_chains`."""

    crate: str
    path: tuple
    item: object
    module: Module
    # The crate that an item of another crate comes from, and its path there.
    origin: str = ""
    source: tuple = ()

    def title(self):
        return "::".join(self.path)

    def anchor(self):
        return ".".join(self.path)


class Crate:
    """A library: its modules, and the items that it exports."""

    def __init__(self, root, name):
        self.name, self.modules = name, {}
        folder = Path(root, "crates", name, "src")
        for file in sorted(folder.rglob("*.rt")):
            path = module_path(file.relative_to(folder))
            docs, items = read_items(file.read_text(encoding="utf-8"))
            module = Module(path, str(file.relative_to(root)), docs, items)
            module.uses = uses_of(items)
            self.modules[path] = module
        self.root = self.modules[()]
        self.exports = self.exports_of(self.root)

    def exports_of(self, module):
        """What a public module exports: its public items, what it exports again, and its public modules."""
        found = []
        for item in module.items:
            if item.kind == "mod" and item.is_public() and (*module.path, item.name) in self.modules:
                found.append(Export(self.name, (*module.path, item.name), item, module))
                found += self.exports_of(self.modules[(*module.path, item.name)])
            elif item.kind == "use" and item.is_public():
                found += [self.export(module, *it) for it in use_paths(item.words)]
            elif item.is_public() and item.kind not in ("impl", "use"):
                found.append(Export(self.name, (*module.path, item.name), item, module))
        return found

    def export(self, module, name, path):
        """The export of the item at a path under a name."""
        item, home = self.resolve(module, path)
        if item:
            return Export(self.name, (*module.path, name), item, home)
        return Export(self.name, (*module.path, name), None, module, path[0], path[1:])

    def resolve(self, module, path):
        """The item at a path of a module, with the module that declares it, or `(None, None)`."""
        at = module
        if path[0] == "crate":
            at, path = self.root, path[1:]
        while path and path[0] in ("super", "self"):
            at, path = self.modules[at.path[: len(at.path) - (path[0] == "super")]], path[1:]
        while len(path) > 1 and (*at.path, path[0]) in self.modules:
            at, path = self.modules[(*at.path, path[0])], path[1:]
        return self.named(at, path[0]) if len(path) == 1 else (None, None)

    def named(self, module, name):
        """The item that a name means in a module, with the module that declares it."""
        for item in module.items:
            if item.name == name and item.kind not in ("use", "impl", "mod"):
                return item, module
        path = module.uses.get(name)
        return self.resolve(module, path) if path else (None, None)

    def impls(self):
        """Each `impl` of the crate, with its module."""
        for module in self.modules.values():
            for item in module.items:
                if item.kind == "impl":
                    yield item, module


def module_path(file):
    """The path of the module in a file, as `("zone", "load")`."""
    parts = file.with_suffix("").parts
    if parts[-1] in ("lib", "mod") or parts == ("main",):
        parts = parts[:-1]
    return tuple(parts)


def use_paths(words):
    """The names that a `use` declares, each with its path."""
    paths, _ = use_tree(words, 1, ())
    return paths


def use_tree(words, at, prefix):
    """The names of the tree at a place, and the place after it."""
    path = prefix
    while at < len(words):
        if words[at] == "{":
            return use_list(words, at + 1, path)
        if words[at] in (",", "}"):
            break
        if words[at] == "as":
            return [(words[at + 1], path)], at + 2
        path += () if words[at] == "::" else (words[at],)
        at += 1
    path = path[:-1] if path[-1] == "self" else path
    return [(path[-1], path)], at


def use_list(words, at, prefix):
    """The names of a list of trees, and the place after its bracket."""
    found = []
    while words[at] != "}":
        names, at = use_tree(words, at, prefix)
        found += names
        at += words[at] == ","
    return found, at + 1


def uses_of(items):
    """The paths that `use` items give names to."""
    return {name: path for item in items if item.kind == "use" for name, path in use_paths(item.words)}


def crate_names(root):
    """The crates of crates.txt that are libraries, each with its line's comment, in order."""
    names, comment = {}, ""
    for line in Path(root, "crates.txt").read_text(encoding="utf-8").splitlines():
        if line.startswith("#"):
            comment = line.lstrip("# ")
        elif re.match(r"\w+:", line):
            name = line.split(":")[0]
            if Path(root, "crates", name, "src", "lib.rt").is_file():
                names[name] = comment
    return names


def crates_with_sources(root):
    """The names of all libraries and programs of crates.txt below crates/, in order."""
    names = re.findall(r"^(\w+):", Path(root, "crates.txt").read_text(encoding="utf-8"), re.M)
    return [it for it in names if Path(root, "crates", it, "src").is_dir()]
