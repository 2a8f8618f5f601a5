"""What the checks share that run a program on cases in the form that check/program describes."""
import importlib.machinery
import importlib.util
import os
import subprocess
import sys
import tempfile
from concurrent.futures import ThreadPoolExecutor
from pathlib import Path

CHECK = Path(__file__).resolve().parent.parent / "check"
# How long a run may take, in seconds.
SECONDS = 300
# Where the files of a run are: in memory, where there is such a folder, since a program may wait for each write to a disk.
MEMORY = "/dev/shm" if os.access("/dev/shm", os.W_OK) else None


def module_of(path):
    """The module of a Python file whose name has no ending."""
    sys.dont_write_bytecode = True
    loader = importlib.machinery.SourceFileLoader(path.name, str(path))
    module = importlib.util.module_from_spec(importlib.util.spec_from_loader(loader.name, loader))
    loader.exec_module(module)
    return module


program_check = module_of(CHECK / "program")


def read_case(path, kind):
    """The runs of a file, each of a kind of cases."""
    program_check.Case, whole = kind, program_check.Case
    try:
        return program_check.read_case(path)
    finally:
        program_check.Case = whole


def write_files(folder, files):
    """Writes the files of a case, which may be in folders. No other user may read them, as it should be with keys."""
    for name, data in files.items():
        path = Path(folder, name)
        path.parent.mkdir(parents=True, exist_ok=True)
        path.write_bytes(data)
        path.chmod(0o600)


def run(program, name, words, files, stdin=b""):
    """What a program gives in a folder with these files: status, standard output, standard error, and the files that it leaves."""
    with tempfile.TemporaryDirectory(dir=MEMORY) as folder:
        write_files(folder, files)
        done = subprocess.run(
            [name, *words],
            executable=program,
            cwd=folder,
            env={"PATH": "/usr/bin:/bin"},
            input=stdin,
            capture_output=True,
            timeout=SECONDS,
            check=False,
        )
        left = {it.name: it.read_bytes() for it in Path(folder).iterdir() if it.is_file()}
    return {"status": b"%d\n" % done.returncode, "stdout": done.stdout, "stderr": done.stderr, "files": left}


def try_cases(folder, kind, names, faults_of):
    """Tries the cases of these names, or all of a folder, and prints how each run differs, by a function of a case. Returns the status."""
    names, runs, failed = names or program_check.names_in(folder, ".case"), 0, 0
    with ThreadPoolExecutor(len(os.sched_getaffinity(0))) as pool:
        for name in names:
            try:
                cases = read_case(os.path.join(folder, name + ".case"), kind)
                runs += len(cases)
                wrong = [f"  run {i}\n{it}" for i, found in enumerate(pool.map(faults_of, cases), 1) for it in found]
            except (OSError, program_check.BadCase, subprocess.TimeoutExpired) as error:
                wrong = [f"  {error}"]
            if wrong:
                failed += 1
                print(name, *wrong, sep="\n")
    print(f"{len(names)} cases, {runs} runs, {failed} failed")
    return 1 if failed else 0
