"""The programs, their sources, and the builds of them that are made of today's sources."""
import hashlib
import os
from pathlib import Path

from crates import folder_of, in_order, is_harness, lines_of, parts_of, read_crates

# The programs that have a front at the top of the repository, which are those that `./install` installs.
PROGRAMS = ("lookup", "nameserver", "zonecheck", "stub")
# Their version.
VERSION = "0.1.0"
# What is compiled of a crate, and what is proved of it.
CODE, ALL = ("src",), ("src", "specs", "proofs")


def checksum(root, name, parts):
    """The checksum of these parts of a program's crate and of all crates that it uses."""
    found = hashlib.sha256()
    crates = in_order(read_crates(root), [name])
    for line in lines_of(root):
        if parts_of(line)[0] in crates:
            found.update(f"{line}\n".encode())
    for crate in sorted(crates):
        for part in parts:
            add_folder(found, os.fspath(folder_of(root, crate).parent), f"{crate}/{part}")
    return found.hexdigest()


def add_folder(found, top, below):
    """Adds the sources of a folder to a checksum, with their names."""
    folder = os.path.join(top, below)
    for name in sorted(os.listdir(folder)) if os.path.isdir(folder) else ():
        path = os.path.join(folder, name)
        if os.path.isdir(path):
            add_folder(found, top, f"{below}/{name}")
        elif name.endswith((".rt", ".antt", ".rattle")):
            content = read_bytes(path)
            # A copy of a program of check/harness has the ending of the others, and the same checksum.
            name = name.replace(".rattle", ".rt")
            found.update(f"{below}/{name} {len(content)}\n".encode(errors="surrogateescape") + content)


def read_bytes(path):
    """The content of a file."""
    with open(path, "rb") as file:
        return file.read()


def is_program(root, name):
    """Whether crates.txt names this program."""
    main = "main.rattle" if is_harness(root, name) else "main.rt"
    return name in read_crates(root) and (folder_of(root, name) / "src" / main).is_file()


def kept_build(root, name):
    """Where the build without proofs of today's sources is kept."""
    return Path(root, "build", f"{name}-{checksum(root, name, CODE)[:32]}")


def proved_place(root, name):
    """Where `./prove` leaves a program."""
    return folder_of(root, name) / "out" / name


def proved_program(root, name):
    """The proved program, if it is there and was proved from today's sources."""
    program = proved_place(root, name)
    try:
        noted = note_place(program).read_text(encoding="utf-8")
    except OSError:
        return None
    is_current = os.access(program, os.X_OK) and noted == note(checksum(root, name, ALL), program)
    return program if is_current else None


def note_proved(program, sources):
    """Notes beside a proved program from which sources it was proved."""
    note_place(program).write_text(note(sources, program), encoding="utf-8")


def note_place(program):
    """The file that says from which sources a program was proved."""
    return program.with_name(f"{program.name}.proved")


def note(sources, program):
    """What is noted of a program. It names the program itself, since other commands of the toolchain replace it."""
    return f"sources {sources}\nprogram {hashlib.sha256(read_bytes(program)).hexdigest()}\n"
