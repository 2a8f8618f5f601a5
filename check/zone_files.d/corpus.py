"""The zone files in the sources of other name servers, and their origins."""
import re
import shutil
import subprocess

# What a configuration says of a zone: its name, and its file.
ZONE = re.compile(r'zone\s+"?([^\s"{;]+)"?\s*(?:IN\s*)?\{[^{}]*?file\s+"([^"]+)"', re.S)
ORIGIN = re.compile(r"^\$ORIGIN\s+(\S+)", re.M)
SOA = re.compile(rb"\sSOA\s", re.I)
MOST = 4_000_000
LEFT_OUT = {".c", ".h", ".py", ".sh", ".in.h", ".conf", ".rst", ".html", ".md", ".pl", ".pm", ".jinja", ".xml", ".rb", ".txt", ".good", ".ok"}


KEYS = "/usr/share/keyrings/debian-archive-keyring.gpg"
TARGETS = ["apt-get", "indextargets", "--format", "$(REPO_URI) $(RELEASE) $(COMPONENT)", "Created-By: Packages"]


def lists(room):
    """The options of apt for lists of sources in a folder, beside those of the machine, which are left as they are."""
    done = subprocess.run(TARGETS, capture_output=True, text=True, check=False)
    entries = sorted({line for line in done.stdout.splitlines() if "debian" in line})
    for folder in ("lists/partial", "cache"):
        (room / folder).mkdir(parents=True)
    (room / "sources.list").write_text("".join(f"deb-src [signed-by={KEYS}] {entry}\n" for entry in entries))
    words = ["Dir::Etc::sourceparts=-", f"Dir::Etc::sourcelist={room}/sources.list", f"Dir::State::lists={room}/lists", f"Dir::Cache={room}/cache"]
    options = [part for word in words for part in ("-o", word)]
    subprocess.run(["apt-get", "update", "-q", *options], capture_output=True, check=False)
    return options


def unpack(room, packages):
    """Downloads and unpacks the sources of Debian's packages, and says which cannot be had."""
    options, tree = lists(room), room / "tree"
    tree.mkdir()
    for package in packages:
        done = subprocess.run(["apt-get", "source", "-q", *options, package], cwd=tree, capture_output=True, check=False)
        if done.returncode and not unpack_original(tree, options, package):
            print(f"skipped: the sources of {package} cannot be had")
    for archive in tree.glob("*.tar.*"):
        archive.unlink()
    return tree


def unpack_original(tree, options, package):
    """Downloads and unpacks the archive that the authors of a package published, without Debian's changes."""
    words = ["apt-get", "source", "-q", "--tar-only", *options, package]
    if subprocess.run(words, cwd=tree, capture_output=True, check=False).returncode:
        return False
    archives = list(tree.glob(f"{package}_*.orig.tar.*[!c]"))
    return bool(archives) and all(subprocess.run(["tar", "-xf", it.name], cwd=tree, check=False).returncode == 0 for it in archives)


def configured(folder):
    """The origins of the files of a folder, by the configurations in it."""
    found = {}
    for conf in sorted(folder.glob("*.conf*")):
        for name, file in ZONE.findall(conf.read_text(encoding="latin-1")):
            found.setdefault(file.rsplit("/", 1)[-1], name)
    return found


def guessed(file):
    """The origin that the name of a file hints at."""
    name = file.name
    for end in (".in", ".db", ".zone", ".signed", ".unsigned"):
        name = name.removesuffix(end)
    return name.removeprefix("zone.").removeprefix("db.") or "."


def origin_of(file, text, names):
    """The origin of a zone file."""
    for name in (file.name, file.name.removesuffix(".in")):
        if name in names:
            return names[name]
    stated = ORIGIN.search(text)
    if stated and stated[1].endswith(".") and not re.search(r"^\S*\s.*\sSOA\s", text[: stated.start()], re.M | re.I):
        return stated[1]
    return guessed(file)


def zone_files(sources):
    """Each file below a folder that looks like a zone file, with its origin."""
    known = {}
    for file in sorted(it for it in sources.rglob("*") if it.is_file() and it.suffix not in LEFT_OUT):
        if file.stat().st_size > MOST:
            continue
        content = file.read_bytes()
        if not SOA.search(content) or b"\0" in content:
            continue
        if file.parent not in known:
            known[file.parent] = configured(file.parent)
        yield file, origin_of(file, content.decode("latin-1"), known[file.parent])
