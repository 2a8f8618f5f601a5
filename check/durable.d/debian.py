"""Debian's packages, which are installed where a program or a library is missing."""
import os
import shutil
import subprocess

PACKAGES = {"nsupdate": "bind9-dnsutils", "dig": "bind9-dnsutils", "knsupdate": "knot-dnsutils", "strace": "strace"}
# The packages of Python, by what is imported.
LIBRARIES = {"dns": "python3-dnspython", "certbot_dns_rfc2136": "python3-certbot-dns-rfc2136"}
# Debian's Python, which has its packages.
PYTHON = "/usr/bin/python3"


def has(name):
    """Whether there is a program, or a library of Debian's Python."""
    if name in LIBRARIES:
        return subprocess.run([PYTHON, "-c", f"import {name}"], capture_output=True).returncode == 0
    return shutil.which(name) is not None


def run_apt(*words):
    """Runs apt-get without questions. What it could not do shows in what is missing afterwards."""
    environment = {**os.environ, "DEBIAN_FRONTEND": "noninteractive"}
    subprocess.run(["apt-get", *words], env=environment, stdout=subprocess.DEVNULL, stderr=subprocess.DEVNULL, timeout=900)


def install(names):
    """Installs what is missing of some programs and libraries, and returns what is missing still."""
    missing = [it for it in names if not has(it)]
    if missing and os.geteuid() == 0 and shutil.which("apt-get"):
        run_apt("update", "-q")
        for package in dict.fromkeys({**PACKAGES, **LIBRARIES}[it] for it in missing):
            print(f"  apt-get install {package}", flush=True)
            run_apt("install", "-y", "-q", "--no-install-recommends", package)
    return [it for it in missing if not has(it)]
