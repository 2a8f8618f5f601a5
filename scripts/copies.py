"""Copies of crates and files."""
import contextlib
import os
import shutil
import tempfile
from pathlib import Path

from crates import folder_of, is_harness, lines_of, parts_of
from processes import start_apart

# What commands leave in a crate, and what they try on copies of it.
LEFT_OUT = ("out", "must-fail", "wrong-bodies")


def copy_crates(root, names, to, parts=None):
    """Copies these parts of crates, or all that is no trial of a wrong body, to a repository of their own."""
    for name in names:
        folder = folder_of(root, name)
        for it in sorted(folder.iterdir()):
            if it.name in parts if parts else it.name not in LEFT_OUT:
                (to / "crates" / name).mkdir(parents=True, exist_ok=True)
                (shutil.copytree if it.is_dir() else shutil.copyfile)(it, to / "crates" / name / it.name)
        if is_harness(root, name):
            for it in (to / "crates" / name).rglob("*.rattle"):
                it.rename(it.with_suffix(".rt"))
    lines = [it for it in lines_of(root) if parts_of(it)[0] in names]
    (to / "crates.txt").write_text("".join(f"{it}\n" for it in lines), encoding="utf-8")
    shutil.copyfile(Path(root, "HANDLES"), to / "HANDLES")


@contextlib.contextmanager
def folder_for_a_while(prefix):
    """Makes a folder, and removes it in the end: if an exception leaves, such as that of an interrupt, in a process of its own."""
    room = tempfile.mkdtemp(prefix=prefix)
    try:
        yield room
    except BaseException:
        start_apart(["rm", "-rf", "--", room])
        raise
    shutil.rmtree(room, ignore_errors=True)


def copy_file(file, to, mode):
    """Copies a file in one step: nobody finds a part of it in its place."""
    write_content(Path(file).read_bytes(), to, mode)


def write_file(text, to, mode):
    """Writes a text file in one step, and makes its folder."""
    to.parent.mkdir(parents=True, exist_ok=True)
    write_content(text.encode(), to, mode)


def write_content(content, to, mode):
    """Writes a file in one step: nobody finds a part of it in its place."""
    part = to.with_name(f"{to.name}.{os.getpid()}.new")
    try:
        with open(part, "wb") as copy:
            copy.write(content)
            copy.flush()
            os.fsync(copy.fileno())
        part.chmod(mode)
        part.replace(to)
    finally:
        with contextlib.suppress(FileNotFoundError):
            part.unlink()
