"""Compiles a program without its proofs: natively, optimised, and with run-time checks.

The toolchain has no command for this. `rt try` compiles a program with run-time checks, but also with a sanitizer, and
for a single run. So it is run over a copy of the toolchain whose compiler keeps the module that it is given and fails.
Then the toolchain's own compiler and linker make the program of this module.
"""
import os
import shlex
import shutil
import subprocess
from pathlib import Path

from processes import start

TARGET = "x86_64-unknown-linux-gnu"
# How the toolchain compiles a module of its own for this target, with traps after what does not return.
CODE_FLAGS = """-march=x86-64-v2 -mllvm -no-trap-after-noreturn -mllvm -trap-unreachable -ffunction-sections -fdata-sections
--no-default-config -fPIE -O2""".split()
# The commands of the toolchain that find it by their own place, so that they are copied; the rest is linked.
COPIED = ("rt", "rtlib.py")
# The compiler of the copied toolchain. It keeps the module that is to be compiled with the sanitizer.
KEEPING_CLANG = """\
#!/bin/sh
case " $* " in
*" -fsanitize=address "*)
    for word in "$@"; do case $word in *.bc) cp "$word" {1}; exit 1;; esac; done;;
esac
exec {0} "$@"
"""


class CompileFault(Exception):
    """Why a program is not compiled."""


class Compiler:
    """The toolchain, whose commands work in a folder, write to a log, and have a function called meanwhile."""

    def __init__(self, room, log, show):
        self.kit, self.room, self.log, self.show = kit_folder(), room, log, show

    def compile(self, crate):
        """Compiles the program in the folder of its crate, and returns the file of the program."""
        module, made, program = (self.room / it for it in ("module.bc", "module.o", "program"))
        self.keep_module(crate, module)
        tools, c = self.kit / "toolchain", self.kit / "c"
        clang = [tools / "bin" / "clang", f"--target={TARGET}", f"--sysroot={tools}", *CODE_FLAGS]
        self.succeed([*clang, "-c", "-x", "ir", module, "-o", made])
        link = [self.kit / "bin" / "rattle-link", "--target", TARGET, "--toolchain", tools]
        self.succeed([*link, "-o", program, made, c / "libos_c.a", c / "liblibc_c.a"])
        return program

    def keep_module(self, crate, module):
        """Keeps the module of a program."""
        copied = self.room / "kit"
        copy_kit(self.kit, copied, module)
        # This fails in any case: either the sources do not compile, or the module is kept.
        self.run([copied / "bin" / "rt", "try", "--steps", "1", "--seconds", "1", "--"], crate)
        if not module.exists():
            raise CompileFault("the sources do not compile")
        self.log.write(b"\nThe failure of clang above is meant: it kept the module, of which the program is made now.\n")
        self.log.flush()

    def succeed(self, words):
        """Runs a command that must succeed."""
        if self.run(words, self.room):
            raise CompileFault(f"{words[0].name} failed")

    def run(self, words, folder):
        """Runs a command to its end, and returns its status."""
        where = {"cwd": folder, "env": {**os.environ, "TMPDIR": str(self.room)}}
        command = start(words, stdout=self.log, stderr=subprocess.STDOUT, **where)
        while True:
            try:
                return command.wait(timeout=1)
            except subprocess.TimeoutExpired:
                self.show()


def kit_folder():
    """The folder of the toolchain."""
    said = subprocess.run(["rt", "doc"], stdin=subprocess.DEVNULL, stdout=subprocess.PIPE)
    if said.returncode:
        raise CompileFault("`rt doc` failed")
    return Path(os.fsdecode(said.stdout.rstrip(b"\n"))).parent


def copy_kit(kit, to, module):
    """Makes a copy of the toolchain, mostly of links, whose compiler keeps the module."""
    link_all(kit, to, ("bin", "toolchain"))
    link_all(kit / "bin", to / "bin", COPIED)
    link_all(kit / "toolchain", to / "toolchain", ("bin",))
    link_all(kit / "toolchain" / "bin", to / "toolchain" / "bin", ("clang",))
    for name in COPIED:
        shutil.copy(kit / "bin" / name, to / "bin" / name)
    clang, places = to / "toolchain" / "bin" / "clang", (kit / "toolchain" / "bin" / "clang", module)
    clang.write_text(KEEPING_CLANG.format(*(shlex.quote(str(it)) for it in places)), encoding="utf-8")
    clang.chmod(0o755)


def link_all(folder, to, but):
    """Makes a folder with links to all in another, but for these names."""
    to.mkdir()
    for it in folder.iterdir():
        if it.name not in but:
            (to / it.name).symlink_to(it)
