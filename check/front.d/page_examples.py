"""The examples of the pages: what each shows is what comes of it."""
import os
import re
import select
import shutil
import signal
import subprocess
import sys
import tempfile
import time
from pathlib import Path
from typing import NamedTuple

ROOT = Path(__file__).resolve().parent.parent.parent
# The languages of blocks that other checks read, and their checks.
ELSEWHERE = {
    "rust": "check/examples",
    "mermaid": "check/docs",
}
# Pages whose blocks belong to a check of their own.
OWN_CHECKS = {"TUTORIAL.md": "check/tutorial", "READING_CONTRACTS.md": "check/docs references"}
# What the language of a block says less well than its page.
BY_PAGE = {("EMBEDDING.md", "rust"): "", ("LIBRARIES.md", "text"): "check/examples"}
FENCE = re.compile(r"^```(\w*)(?: (\S+))?\n(.*?)^```$", re.M | re.S)
# What the front of a program says before the program runs, and the shell of a job that was killed.
FRONT = re.compile(r"^\w+: (?:this build is |compiling|compiled in |waiting for another start)|^bash: line \d+: +\d+ Killed ")
# What differs from run to run, and what stands for it.
VARYING = [
    (re.compile(r"\b\d+(?:\.\d+)?(?= ms\b)"), "N"),
    (re.compile(r'(?<="moment":)\d+|(?<="milliseconds":)\d+|(?<="id":)\d+|(?<=127\.0\.0\.1:)[3-6]\d{4}(?=")'), "N"),
]
# How long a command may take, in seconds: the front of a program may have to compile it first.
LIMIT = 900
# How long to wait for what a command in the background prints.
SOON = 20
PYTHON_START = f"import sys; sys.path[:0] = [{str(ROOT / 'check' / 'front.d')!r}, {str(ROOT / 'clients' / 'python')!r}]\n"
MARK = "\x01end "


class Block(NamedTuple):
    """A block of code of a page: its language, its file if it shows one, its text, and the line that it begins at."""

    language: str
    name: str
    text: str
    line: int


def blocks_of(page):
    """The blocks of code of a page."""
    text = page.read_text(encoding="utf-8")
    return [Block(it[1], it[2] or "", it[3], text.count("\n", 0, it.start()) + 1) for it in FENCE.finditer(text)]


def commands_of(block):
    """The commands of a block, each with what it prints, and its line."""
    found, lines = [], block.text.splitlines()
    for number, line in enumerate(lines, block.line + 1):
        if line.startswith("$ "):
            found.append([line[2:], [], number])
        elif found and line.startswith("> ") and not found[-1][1]:
            found[-1][0] += f"\n{line[2:]}"
        elif found:
            found[-1][1].append(line)
    return [(command, output, number) for command, output, number in found]


def plain(text):
    """The lines of an output without what the fronts say, and with a stand-in for what varies."""
    lines = [it for it in text.splitlines() if not FRONT.match(it)]
    for pattern, stand_in in VARYING:
        lines = [pattern.sub(stand_in, it) for it in lines]
    return [it.rstrip() for it in lines]


class Shell:
    """A shell with the loopback interface alone, in a folder in which the commands of the repository are at hand."""

    def __init__(self, folder):
        for it in ROOT.iterdir():
            if it.name not in (".git", "build"):
                (folder / it.name).symlink_to(it)
        words = ["bash", "--norc", "--noprofile"]
        if can_unshare():
            words = ["unshare", "--net", "sh", "-c", 'ip link set lo up; exec "$0" "$@"', *words]
        streams = {"stdin": subprocess.PIPE, "stdout": subprocess.PIPE, "stderr": subprocess.STDOUT}
        server = {"NAMESERVER": str(ROOT / "nameserver"), "NAMESERVER_SECONDS": str(LIMIT)}
        environment = {**os.environ, **server, "PYTHONDONTWRITEBYTECODE": "1", "LC_ALL": "C.UTF-8"}
        self.process = subprocess.Popen(words, cwd=folder, start_new_session=True, env=environment, **streams)
        self.rest = ""

    def run(self, command, wanted):
        """Runs a command, and returns its output: the lines, plain. One in the background may take a moment."""
        heredoc = "\n".join(command.splitlines()[1:])
        words = command.splitlines()[0]
        text = f"{words} <<'EOF'\n{heredoc}\nEOF\n" if heredoc else f"{words}\n"
        self.process.stdin.write(f"{text}printf '{MARK}%s\\n' $?\n".encode())
        self.process.stdin.flush()
        output = self.read_until(time.monotonic() + LIMIT, lambda it: MARK in it)
        output, _, self.rest = output.partition(MARK)
        self.rest = self.rest.partition("\n")[2]
        last = time.monotonic() + (LIMIT if "compiling" in output + self.rest else SOON)
        if len(plain(output + self.rest)) < len(wanted):
            self.rest = self.read_until(last, lambda it: len(plain(output + it)) >= len(wanted) and it.endswith("\n"))
        output, self.rest = output + self.rest, ""
        return plain(output)

    def read_until(self, last, is_enough):
        """Reads output until there is enough of it, or it ends, or time is up."""
        output, pipe = self.rest, self.process.stdout.fileno()
        while not is_enough(output) and time.monotonic() < last:
            if select.select([pipe], [], [], 0.2)[0]:
                more = os.read(pipe, 65536)
                if not more:
                    break
                output += more.decode(errors="replace")
        return output

    def end(self):
        """Ends the shell, and all that it started."""
        try:
            os.killpg(self.process.pid, signal.SIGTERM)
        except ProcessLookupError:
            pass
        self.process.stdin.close()
        self.process.stdout.close()
        self.process.wait()


def can_unshare():
    """Whether a shell may have a network of its own."""
    words = ["unshare", "--net", "ip", "link", "set", "lo", "up"]
    return bool(shutil.which("unshare") and shutil.which("ip")) and not subprocess.run(words, capture_output=True).returncode


def first_word(command):
    """The program of a command."""
    return next(it for it in command.split() if "=" not in it)


class PageRun:
    """Runs the examples of a page in a folder of their own."""

    def __init__(self, report, page):
        self.report, self.page, self.python, self.count, self.skipped = report, page, [], 0, []

    def run(self):
        """Runs all of them, in their order, and returns how many there are."""
        blocks = blocks_of(self.page)
        with tempfile.TemporaryDirectory(prefix="front-page-") as room:
            folder = Path(room)
            for it in blocks:
                if it.name and it.language in ("text", "zone", "python"):
                    (folder / it.name).write_text(it.text, encoding="utf-8")
            shell = Shell(folder)
            try:
                for it in blocks:
                    self.run_block(shell, folder, it)
            finally:
                shell.end()
        return self.count

    def run_block(self, shell, folder, block):
        """Runs a block, if its language is one that is run here."""
        if block.language == "console":
            self.run_console(shell, block)
        elif block.language == "sh":
            self.run_script(shell, folder, block)
        elif block.language == "python" and not block.name:
            self.run_python(shell, folder, block)
        elif block.language == "c":
            self.compile_c(block)

    def title(self, line):
        return f"{self.page.relative_to(ROOT)}:{line}"

    def skip(self, line, reason):
        self.skipped.append(f"{self.title(line)}: {reason}")

    def run_console(self, shell, block):
        """Runs commands, and compares what they print."""
        for command, output, line in commands_of(block):
            program = first_word(command)
            if not program.startswith("./") and "/" not in program and not has_command(program):
                self.skip(line, f"there is no {program}")
                continue
            self.count += 1
            wanted = plain("\n".join(output))
            self.report.check(f"{self.title(line)}: {command.splitlines()[0]}", wanted, shell.run(command, wanted))

    def run_script(self, shell, folder, block):
        """Runs a script, which must succeed."""
        (folder / "block.sh").write_text(block.text, encoding="utf-8")
        self.count += 1
        output = shell.run("bash -eu block.sh && echo done", ["done"])
        self.report.check(f"{self.title(block.line)}: a script", "done", (output or [""])[-1])

    def compile_c(self, block):
        """Has the compiler look at a function in C, with the header of the library."""
        words = ["cc", "-std=c11", "-Wall", "-Wextra", "-Werror", "-fsyntax-only", f"-I{ROOT / 'include'}", "-xc", "-"]
        if not shutil.which("cc"):
            self.skip(block.line, "there is no cc")
            return
        self.count += 1
        ran = subprocess.run(words, input=block.text, capture_output=True, text=True, timeout=LIMIT)
        self.report.check(f"{self.title(block.line)}: in C", (0, ""), (ran.returncode, ran.stderr))

    def run_python(self, shell, folder, block):
        """Runs a program in Python after those before it on the page, or a test by pytest."""
        self.python.append(block.text)
        text = PYTHON_START + "from given_names import *\n" + "\n".join(self.python)
        missing = [it for it, needs in (("pytest", "pytest"), ("RUMSTRAIT_LIBRARY", "import Zone")) if needs in block.text and not given(it)]
        if missing:
            self.skip(block.line, f"there is no {missing[0]}")
            self.python.pop()
            return
        self.count += 1
        (folder / "test_block.py").write_text(text, encoding="utf-8")
        runner = f"{with_library('pytest')} -m pytest -q -p no:cacheprovider" if "def test_" in block.text else sys.executable
        output = shell.run(f"{runner} test_block.py && echo done", ["done"])
        self.report.check(f"{self.title(block.line)}: in Python", "done", (output or [""])[-1])


def given(name):
    """Whether a library for Python, or a variable of the environment, is there."""
    return name in os.environ if name.isupper() else with_library(name) is not None


def with_library(name):
    """A Python that has a library, or nothing: this one, or that of the system."""
    pythons = [sys.executable, "/usr/bin/python3"]
    return next((it for it in pythons if not subprocess.run([it, "-c", f"import {name}"], capture_output=True).returncode), None)


def has_command(program):
    """Whether the shell has a command."""
    return not subprocess.run(["bash", "-c", f"type {program}"], capture_output=True).returncode


def other_blocks(page):
    """The blocks of a page that are not run here: each with the check that reads it, or nothing."""
    for it in blocks_of(page):
        if page.name in OWN_CHECKS:
            yield it, OWN_CHECKS[page.name]
        elif (page.name, it.language) in BY_PAGE:
            yield it, BY_PAGE[page.name, it.language]
        elif it.language in ELSEWHERE:
            yield it, ELSEWHERE[it.language]
        elif it.language not in ("console", "sh", "python", "c") and not it.name:
            yield it, ""


def check_pages(report, names):
    """Runs the examples of these pages, or of all."""
    first = [ROOT / "README.md", ROOT / "clients" / "README.md"]
    pages = [Path(it).resolve() for it in names] or [*first, *sorted((ROOT / "docs").glob("*.md"))]
    total = 0
    for page in pages:
        run = PageRun(report, page)
        if page.name not in OWN_CHECKS:
            total += run.run()
        for it in run.skipped:
            print(f"skipped: {it}", flush=True)
        for block, check in other_blocks(page):
            if not check:
                print(f"shown, not run: {page.relative_to(ROOT)}:{block.line}", flush=True)
    print(f"{total} examples of {len(pages)} pages", flush=True)
