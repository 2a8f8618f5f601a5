"""Makes the library for C without its proofs, and prints the file of its object code.

usage: python3 scripts/make_library.py

The toolchain compiles a static library only with its proofs. So the crate of the exports is compiled as a program that calls
each export once, as `make_build.py` compiles a program: with run-time checks in place of the proofs. Then its exports, and
nothing else, get the names that C calls, and are compiled to position-independent code.

The object is kept in build/, by the checksum of the sources. The status is 0 if it is there, else 1.
"""
import os
import re
import sys
from pathlib import Path

sys.dont_write_bytecode = True

from compiler import CompileFault, Compiler, TARGET
from copies import copy_crates, copy_file, folder_for_a_while
from crates import in_order, read_crates
from make_build import BuildFault, Progress, end_of, only_one, reason_of
from processes import end_descendants, ending_together, exit_as_told
from programs import CODE, checksum

ROOT = Path(__file__).resolve().parent.parent
CRATE = "rumstrait_c"
# A program that calls each export, so that the toolchain compiles all of them. It is never run.
MAIN = """
fn main(rt: HostRuntime) {{
    let alloc = rt.alloc();
    let (mut number, mut line, mut bytes, mut lookup) = (0_usize, 0_usize, [0_u8; 4], 0_u64);
    let (text, ids) = (b"text".as_slice(), [1_u16].as_slice());
    let (mut zone, mut update, mut resolver) = (std::ptr::null_mut(), std::ptr::null_mut(), std::ptr::null_mut());
    let mut wait = wait::Wait {{ exchanges: 0, number: 0, deadline: 0, transport: 0, server: [0; 18] }};
{calls}
}}
"""
CODE_FLAGS = """-march=x86-64-v2 -mllvm -no-trap-after-noreturn -mllvm -trap-unreachable -ffunction-sections -fdata-sections
--no-default-config""".split()
EXPORT = re.compile(r'pub (?:unsafe )?extern "C" fn (rumstrait_\w+)\((.*?)\)', re.S)
# What is passed for a parameter of each type.
VALUES = {
    "Global": "alloc",
    "&[u8]": "text",
    "&[u16]": "ids",
    "&mut [u8]": "bytes.as_mut_slice()",
    "&mut u64": "&mut lookup",
    "&mut Wait": "&mut wait",
    "bool": "false",
    "u16": "1",
    "u32": "0",
    "u64": "0",
    "*mut ZoneHandle": "zone",
    "&mut *mut ZoneHandle": "&mut zone",
    "*mut UpdateHandle": "update",
    "&mut *mut UpdateHandle": "&mut update",
    "*mut ResolverHandle": "resolver",
    "&mut *mut ResolverHandle": "&mut resolver",
}


def value_of(parameter):
    """What is passed for a parameter."""
    name, kind = (it.strip() for it in parameter.split(":"))
    return f"&mut {'line' if name == 'line' else 'number'}" if kind == "&mut usize" else VALUES[kind]


def exports(folder):
    """The exports of a crate, as pairs of a module and a match."""
    for file in sorted((folder / "src").glob("*.rt")):
        for found in EXPORT.finditer(file.read_text(encoding="utf-8")):
            yield file.stem, found


def call_of(module, found):
    """A call of an export."""
    passed = ", ".join(value_of(it) for it in found[2].split(",") if it.strip())
    return f"    let _ = unsafe {{ {module}::{found[1]}({passed}) }};"


def make_program(sources):
    """Turns the crate of the exports into a program, and returns the names of the exports with their modules."""
    folder = sources / "crates" / CRATE
    found = list(exports(folder))
    library = folder / "src" / "lib.rt"
    calls = "\n".join(call_of(*it) for it in found)
    (folder / "src" / "main.rt").write_text(library.read_text(encoding="utf-8") + MAIN.format(calls=calls), encoding="utf-8")
    library.unlink()
    lines = sources / "crates.txt"
    lines.write_text(lines.read_text(encoding="utf-8").replace(f"{CRATE} staticlib:", f"{CRATE}:"), encoding="utf-8")
    return [(module, it[1]) for module, it in found]


def export_names(text, names):
    """Gives the exports in the text of a module the names that C calls, and takes that of the program away."""
    text = re.sub(r"^define (\w+ )@main\(", r"define internal \1@unused_main(", text, flags=re.M).replace("@main(", "@unused_main(")
    for module, name in names:
        compiled = f'@"{CRATE}::{module}::{name}"'
        if compiled not in text:
            raise CompileFault(f"{name} is not compiled")
        text = text.replace(f"{compiled}(", f"@{name}(").replace(compiled, f"@{name}")
        text = re.sub(rf"^define internal (.*@{name}\()", r"define \1", text, flags=re.M)
    return text


def compile_object(compiler, folder, names):
    """Compiles the exports, and returns the file of their object code."""
    module, text, made = (compiler.room / it for it in ("module.bc", "module.ll", "library.o"))
    compiler.keep_module(folder, module)
    tools = compiler.kit / "toolchain"
    clang = [tools / "bin" / "clang", f"--target={TARGET}", f"--sysroot={tools}", *CODE_FLAGS]
    compiler.succeed([*clang, "-S", "-emit-llvm", "-O0", "-Xclang", "-disable-llvm-passes", "-x", "ir", module, "-o", text])
    text.write_text(export_names(text.read_text(encoding="utf-8"), names), encoding="utf-8")
    compiler.succeed([*clang, "-fPIC", "-O2", "-c", "-x", "ir", text, "-o", made])
    return made


def library_object():
    """The object code of today's sources, which is made if it is not there."""
    made = ROOT / "build" / f"{CRATE}-{checksum(ROOT, CRATE, CODE)[:32]}.o"
    if made.exists():
        return made
    with only_one(made.parent, CRATE) as progress:
        return made if made.exists() else make_object(made, progress)


def make_object(made, progress):
    """Compiles the library, and returns the file of its object code."""
    log = ROOT / "build" / f"{CRATE}.log"
    with folder_for_a_while(f"{CRATE}-") as room, open(log, "wb") as said:
        sources = Path(room, "sources")
        copy_crates(ROOT, in_order(read_crates(ROOT), [CRATE]), sources, CODE)
        names = make_program(sources)
        progress.tell("compiling the sources, which is done once and takes two to three minutes")
        try:
            compiler = Compiler(Path(room), said, progress.show)
            copy_file(compile_object(compiler, sources / "crates" / CRATE, names), made, 0o644)
        except CompileFault as fault:
            raise BuildFault(f"{fault}; the end of build/{log.name}:\n{end_of(log)}") from None
        finally:
            end_descendants()
    progress.tell(f"compiled in {progress.clock()}")
    return made


def main(words):
    if words:
        print(__doc__, end="")
        return 0 if words in (["--help"], ["-h"]) else 2
    progress = Progress(CRATE)
    try:
        with ending_together():
            made = library_object()
    except BuildFault as fault:
        progress.tell(fault)
        return 1
    except OSError as error:
        progress.tell(f"no build can be made: {reason_of(error)}")
        return 1
    sys.stdout.buffer.write(os.fsencode(made) + b"\n")
    return 0


if __name__ == "__main__":
    exit_as_told(main, sys.argv[1:])
