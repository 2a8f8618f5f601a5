"""A copy of the repository, over a toolchain that only does what the scripts ask of one."""
import os
import shutil
import signal
import subprocess
import sys
from pathlib import Path

from crates import in_order, read_crates

ROOT = Path(__file__).resolve().parent.parent.parent
# What is copied of each crate. Only one has its proofs, since they are most of all files.
PARTS, WITH_PROOFS = ("src", "specs"), "dns_wire"
# `rt`, as FAKE has it: its proofs or its builds fail, or they hang, in processes that no signal but KILL ends.
RT = """\
#!/bin/sh
hang() {{ (trap '' INT TERM HUP; setsid sleep 4321 & sleep 4321); }}
case $1/$FAKE in
doc/*) echo '{kit}/START-HERE.md';;
ci/fail) echo 'rt: dns_codes NOT PROVED'; exit 1;;
ci/hang)
    echo 'rt: dns_codes proved'
    echo 'rt: dns_wire is kept: an earlier run proved the same'
    hang;;
ci/*)
    sed 's/:.*//; s/.*/rt: & proved/' crates.txt
    for main in crates/*/src/main.rt; do
        crate=${{main%/src/main.rt}}
        mkdir "$crate/out"
        cp '{kit}/program' "$crate/out/${{crate#crates/}}"
    done;;
try/fail) echo 'error: this source does not compile' >&2; exit 1;;
try/hang) echo try >>'{kit}/tries'; hang;;
try/*)
    echo try >>'{kit}/tries'
    sleep "${{FAKE:-0}}"
    mkdir "$TMPDIR/tried"
    cp '{kit}/program' "$TMPDIR/tried/module.bc"
    "$(dirname "$0")/../toolchain/bin/clang" -O0 -c "$TMPDIR/tried/module.bc" -o "$TMPDIR/tried/module.o" || exit 1
    "$(dirname "$0")/../toolchain/bin/clang" -fsanitize=address -c "$TMPDIR/tried/module.bc" && exit 1
    exit 2;;
esac
"""
# Its compiler and its linker copy what they are given.
CLANG = """\
#!/bin/sh
for word in "$@"; do case $word in *.bc) from=$word;; *.o) to=$word;; esac; done
cp "$from" "$to"
"""
LINK = """\
#!/bin/sh
cp "$7" "$6" && chmod +x "$6"
"""
# The program says how it was called, or, called with `wait`, is there until a signal ends it.
PROGRAM = """\
#!/bin/sh
case $1 in wait) echo ready; exec /bin/sleep 4322;; esac
printf '<%s>' "$@"
echo
pwd
while read -r line; do case $line in SigBlk*|SigIgn*) echo "$line";; esac; done </proc/$$/status
set -- /proc/$$/fd/*
echo "$#"
/bin/cat
exit 7
"""


class Copy:
    """A copy of the repository and a toolchain, in a folder."""

    def __init__(self, folder):
        self.root, self.kit, self.tools = (Path(folder, it) for it in ("copy", "kit", "tools"))
        self.make_copy()
        self.make_toolchain()

    def make_copy(self):
        """Copies what the scripts need."""
        for crate in in_order(read_crates(ROOT), ["stub", "zonecheck"]):
            for part in (*PARTS, *["proofs"] * (crate == WITH_PROOFS)):
                if (ROOT / "crates" / crate / part).is_dir():
                    shutil.copytree(ROOT / "crates" / crate / part, self.root / "crates" / crate / part)
        shutil.copytree(ROOT / "scripts", self.root / "scripts")
        shutil.copytree(ROOT / "docs" / "man", self.root / "docs" / "man")
        for name in ("crates.txt", "HANDLES", "stub", "zonecheck", "prove", "install"):
            shutil.copy(ROOT / name, self.root / name)

    def make_toolchain(self):
        """Makes the toolchain, and a folder of commands without it."""
        files = {"bin/rt": RT.format(kit=self.kit), "bin/rtlib.py": "", "bin/rattle-link": LINK, "program": PROGRAM}
        for name, text in {**files, "toolchain/bin/clang": CLANG, "c/libos_c.a": "", "toolchain/lib/libc.so.6": ""}.items():
            (self.kit / name).parent.mkdir(parents=True, exist_ok=True)
            (self.kit / name).write_text(text)
            (self.kit / name).chmod(0o755)
        for folder in ("with", "without"):
            (self.tools / folder).mkdir(parents=True)
            (self.tools / folder / "python3").symlink_to(sys.executable)
        (self.tools / "with" / "rt").symlink_to(self.kit / "bin" / "rt")

    def tries(self):
        """How many builds were begun."""
        tries = self.kit / "tries"
        return len(tries.read_text().splitlines()) if tries.exists() else 0

    def builds(self, name="stub"):
        """The builds that are kept of a program, and all else that begins like one."""
        return sorted(it.name for it in (self.root / "build").glob(f"{name}-*"))

    def sleepers(self):
        """The processes that are left of a toolchain or a program that hangs, by the environment that `start` gave them."""
        return [words for words, given in processes() if self.mark() in given and (b"4321" in words or b"4322" in words)]

    def mark(self):
        """What the environment of all processes has that a command of the repository starts."""
        return b"FRONT_COPY=" + os.fsencode(self.root)

    def start(self, *words, fake="", tools="with", temporary=None, **how):
        """Starts a command of the repository over the toolchain."""
        search = f"{self.tools / tools}:/usr/bin:/bin" if tools == "with" else str(self.tools / tools)
        streams = {"stdin": subprocess.DEVNULL, "stdout": subprocess.PIPE, "stderr": subprocess.PIPE}
        how = {"preexec_fn": have_signals, **streams, **how}
        environment = {**os.environ, "PATH": search, "FAKE": fake, "FRONT_COPY": str(self.root)}
        environment.update({"TMPDIR": str(temporary)} if temporary else {})
        return subprocess.Popen([self.root / words[0], *words[1:]], env=environment, **how)

    def run(self, *words, given=None, **how):
        """The status, standard output and standard error of a command of the repository."""
        if given is not None:
            how["stdin"] = subprocess.PIPE
        with self.start(*words, **how) as started:
            out, err = started.communicate(given, timeout=120)
        return started.returncode, out.decode(errors="replace"), (err or b"").decode(errors="replace")


def have_signals():
    """Has a command end by the signals, also if this program was started to ignore some."""
    for it in (signal.SIGINT, signal.SIGTERM, signal.SIGHUP):
        signal.signal(it, signal.SIG_DFL)


def processes():
    """The words and the environment of each process."""
    for it in Path("/proc").glob("[0-9]*"):
        try:
            yield (it / "cmdline").read_bytes(), (it / "environ").read_bytes()
        except OSError:
            continue
