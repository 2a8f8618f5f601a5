"""The contracts of public functions, and what has become of those of a revision."""
import re
import subprocess
from collections import defaultdict
from dataclasses import dataclass

from rattle_source import Tokens

SOURCE = re.compile(r"crates/([^/]+)/src/.*\.rt")


@dataclass
class Contract:
    """A public function by the file that it is in, and its clauses: pairs of a kind and the words of the clause."""

    file: str
    clauses: list

    def lost_in(self, other):
        """What another contract for this function lacks: clauses of `ensures` that it has not, and a `requires` of its own."""
        gone = [f"- ensures {words}" for kind, words in self.clauses if kind == "ensures" and (kind, words) not in other.clauses]
        more = [f"+ requires {words}" for kind, words in other.clauses if kind == "requires" and (kind, words) not in self.clauses]
        return gone + more


def report(root, revision):
    """Lists what the contracts of a revision have lost since, and returns the status."""
    before, now = contracts_of(sources_at(root, revision)), contracts_of(sources_in(root))
    same, found = 0, []
    for name, contracts in sorted(before.items()):
        for contract in contracts:
            lost = least_lost(contract, now.get(name, []))
            same += not lost
            found += [f"{contract.file}: {'::'.join(it for it in name if it)}: {it}" for it in lost]
    print("".join(f"{it}\n" for it in found), end="")
    total = sum(map(len, before.values()))
    print(f"{same} of {total} public functions of {revision} have all of their clauses")
    return 0 if same == total else 1


def least_lost(contract, others):
    """What the likest of the contracts for a function lacks."""
    return min((contract.lost_in(it) for it in others), key=len, default=["it is gone"])


def contracts_of(sources):
    """The contracts of the public functions of sources, by the type of the impl, or the trait, and the name."""
    found = defaultdict(list)
    for file, text in sources:
        source = Tokens(text, has_docs=False)
        for at in range(len(source.words) - 1):
            if source.word(at) == "fn" and re.fullmatch(r"\w+", source.word(at + 1)):
                owner, is_public = owner_of(source, at)
                if is_public:
                    found[owner, source.word(at + 1)].append(Contract(file, clauses_of(source, at)))
    return found


def owner_of(source, at):
    """The type of the impl, or the trait, that a function is in, if any, and whether it is public. A method of an impl of a trait has the
    clauses of the trait."""
    head = source.before(at)
    opener = source.opener_of[at]
    owner = source.before(opener) if opener is not None else []
    if "test" in head or "test" in owner:
        return "", False
    if "trait" in owner:
        return owner[owner.index("trait") + 1], "pub" in owner
    is_public = "pub" in head and "crate" not in head and "for" not in owner
    return (type_of(owner) if "impl" in owner else ""), is_public


def type_of(head):
    """The type that an impl is of, without its parameters."""
    depth = 0
    for word in head[head.index("impl") + 1 :]:
        depth += {"<": 1, ">": -1}.get(word, 0)
        if not depth and re.fullmatch(r"\w+", word):
            return word
    return ""


def clauses_of(source, at):
    """The clauses of a function. A name of a clause does not count."""
    at, found = source.after(source.find_outside_angles(at, "(")), []
    while source.word(at) not in ("{", ";", ""):
        if source.word(at) in ("requires", "ensures"):
            kind, at = source.word(at), source.find(at, "{")
            found.append((kind, " ".join(source.words[at + 1 : source.after(at) - 1])))
        at = source.after(at)
    return found


def sources_in(root):
    """The sources of the crates, with their texts."""
    for path in sorted((root / "crates").glob("*/src/**/*.rt")):
        yield str(path.relative_to(root)), path.read_text(encoding="utf-8")


def sources_at(root, revision):
    """The sources of the crates at a revision, with their texts."""
    git = lambda words, given=b"": subprocess.run(["git", "-C", root, *words], input=given, capture_output=True, check=True).stdout
    files = [it for it in git(["ls-tree", "-r", "--name-only", revision]).decode().splitlines() if SOURCE.fullmatch(it)]
    output, at = git(["cat-file", "--batch"], "".join(f"{revision}:{it}\n" for it in files).encode()), 0
    for file in files:
        start = output.index(b"\n", at) + 1
        end = start + int(output[at:start].split()[2])
        yield file, output[start:end].decode()
        at = end + 1
