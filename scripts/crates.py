"""The crates of crates.txt, and the libraries that each uses.

The folder check/harness has programs that measure and try the libraries, and are no part of what is proved: its file programs.txt has their
lines, and their sources have the ending `.rattle`, so that the prover does not look for the crates that they belong to. A copy of such a
program has the ending of the others.
"""
from pathlib import Path

HARNESS = Path("check", "harness")


def read_crates(root):
    """The libraries of each crate, by its name, in the order of the file."""
    return {name: libraries.split() for name, libraries in map(parts_of, lines_of(root))}


def lines_of(root):
    """The lines that name a crate, without comments: those of the repository, and those of check/harness."""
    files = [Path(root, "crates.txt"), Path(root, HARNESS, "programs.txt")]
    texts = [it.read_text(encoding="utf-8") for it in files if it.is_file()]
    lines = [it.partition("#")[0].strip() for text in texts for it in text.splitlines()]
    return [it for it in lines if ":" in it]


def is_harness(root, name):
    """Whether a program is one of check/harness."""
    return Path(root, HARNESS, name).is_dir()


def folder_of(root, name):
    """The folder of a crate."""
    return Path(root, HARNESS, name) if is_harness(root, name) else Path(root, "crates", name)


def parts_of(line):
    """The name and the libraries of a line."""
    head, _, libraries = line.partition(":")
    return head.split()[0], libraries


def in_order(crates, names):
    """These crates and all that they use, each after its libraries. The libraries of the toolchain are left out."""
    found = {}
    for name in names:
        add_with_libraries(crates, name, found)
    return [*found]


def add_with_libraries(crates, name, found):
    """Adds a crate after its libraries."""
    if name in crates and name not in found:
        for it in crates[name]:
            add_with_libraries(crates, it, found)
        found[name] = True
