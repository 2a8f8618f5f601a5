"""Debian's packages, which the check installs by itself where a program is missing, and says so."""
import os
import shutil
import subprocess

# The programs that are tried, and their packages.
PACKAGES = {
    "dig": "bind9-dnsutils",
    "valgrind": "valgrind",
    "go": "golang-go",
    "nsupdate": "bind9-dnsutils",
    "named": "bind9",
    "kdig": "knot-dnsutils",
    "knotd": "knot",
    "nsd": "nsd",
    "drill": "ldnsutils",
    "unbound": "unbound",
    "dnsmasq": "dnsmasq-base",
    "dnsperf": "dnsperf",
    "faketime": "faketime",
    "pytest-3": "python3-pytest",
    "/usr/bin/cargo": "cargo",
    "gcc": "gcc",
}
# The packages of Python, by what is imported.
LIBRARIES = {"dns": "python3-dnspython"}
# The packages of Rust's libraries, whose sources are in a folder.
CRATES = {"trust-dns-proto-0.22.0": "librust-trust-dns-proto-dev"}
CARGO_REGISTRY = "/usr/share/cargo/registry"
# The packages of C's libraries, by their headers.
HEADERS = {"/usr/include/ldns/ldns.h": "libldns-dev", "/usr/include/libknot/libknot.h": "libknot-dev"}
# Debian's Python, which has its packages.
PYTHON = "/usr/bin/python3"
PATH = os.environ.get("PATH", "") + ":/usr/sbin:/sbin"


def find(program):
    """The path of a program, or `None`."""
    return shutil.which(program, path=PATH)


def has_library(name):
    """Whether Debian's Python can import a library."""
    found = subprocess.run([PYTHON, "-c", f"import {name}"], stdout=subprocess.DEVNULL, stderr=subprocess.DEVNULL)
    return found.returncode == 0


def has(name):
    if name in CRATES:
        return os.path.isdir(f"{CARGO_REGISTRY}/{name}")
    if name in HEADERS:
        return os.path.isfile(name)
    return has_library(name) if name in LIBRARIES else find(name) is not None


def install(names):
    """Installs what is missing of some programs and libraries, one package at a time, and returns what is missing still."""
    missing = [it for it in names if not has(it)]
    if missing and os.geteuid() == 0 and shutil.which("apt-get"):
        print("apt-get update", flush=True)
        run_apt("update", "-q")
        for package in dict.fromkeys({**PACKAGES, **LIBRARIES, **CRATES, **HEADERS}[it] for it in missing):
            print(f"apt-get install {package}", flush=True)
            run_apt("install", "-y", "-q", "--no-install-recommends", package)
    return [it for it in missing if not has(it)]


def run_apt(*words):
    """Runs apt-get without questions. What it could not do shows in what is missing afterwards."""
    environment = {**os.environ, "DEBIAN_FRONTEND": "noninteractive"}
    subprocess.run(["apt-get", *words], env=environment, stdout=subprocess.DEVNULL, stderr=subprocess.DEVNULL, timeout=900)
