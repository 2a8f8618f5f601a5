"""A source of the language as tokens, and its functions by their layout: for the checks that read sources."""
import re

TOKEN = re.compile(
    r"""(?P<doc>///[^\n]*|//![^\n]*)
      | (?P<comment>//[^\n]*|/\*.*?\*/)
      | (?P<literal>b?r(?P<hashes>\#*)".*?"(?P=hashes)|b?"(?:\\.|[^"\\])*"|b?'(?:\\[^\n]+?|[^\\'\n])')
      | (?P<word>[^\W\d]\w*)
      | (?P<sign>->|=>|==|!=|<=|>=|::|\S)""",
    re.S | re.X,
)
CLOSING = {"(": ")", "[": "]", "{": "}"}
OWNER = re.compile(r"(?:pub(?:\([^)]*\))? )?(?:unsafe )?(?:impl|trait)\b")
FUNCTION = re.compile(r'( *)(?:pub(?:\([^)]*\))? )?(?:(?:const|unsafe|final|extern(?: "C")?) )*fn (\w+)')


class Tokens:
    """The tokens of a text, where each is, where each bracket closes, and in which bracket each token is. Comments are no
    tokens; documentation is, unless `has_docs` is false. A literal is its text, or `literal` if that is given."""

    def __init__(self, text, has_docs=True, literal=None):
        self.text, self.words, self.starts, self.ends, self.comments = text, [], [], [], []
        for found in TOKEN.finditer(text):
            if found["comment"] or found["doc"] and not has_docs:
                self.comments.append(found)
                continue
            self.words.append(literal if literal and found["literal"] else found[0])
            self.starts.append(found.start())
            self.ends.append(found.end())
        self.close_of, self.opener_of = brackets(self.words)

    def word(self, at):
        """The token at a place, or an empty text beyond the ends."""
        return self.words[at] if 0 <= at < len(self.words) else ""

    def before(self, at):
        """The tokens in front of a place, back to the end of the item or statement before."""
        start = at
        while start > 0 and self.words[start - 1] not in (";", "{", "}"):
            start -= 1
        return self.words[start:at]

    def after(self, at):
        """The place after a bracket's group, or after a single token."""
        return self.close_of.get(at, at) + 1

    def find(self, at, *wanted):
        """The first place of one of these tokens from a place on, outside brackets."""
        while at < len(self.words) and self.words[at] not in wanted:
            at = self.after(at)
        return at

    def find_outside_angles(self, at, *wanted):
        """The same within a type, outside angle brackets, too."""
        depth = 0
        while at < len(self.words) and (depth or self.words[at] not in wanted):
            depth += {"<": 1, ">": -1}.get(self.words[at], 0)
            at = self.after(at)
        return at

    def slice(self, at, end):
        """The text of the tokens from a place up to another, without the indentation of its first line."""
        if at >= end:
            return ""
        start = self.starts[at]
        line_start = self.text.rfind("\n", 0, start) + 1
        margin = re.match(r" *", self.text[line_start:])[0]
        lines = self.text[start : self.ends[end - 1]].split("\n")
        return "\n".join([lines[0]] + [it.removeprefix(margin) for it in lines[1:]])


def brackets(words):
    """The place at which each bracket closes, and the bracket that each token is in, or None."""
    close_of, opener_of, opened = {}, {}, []
    for at, word in enumerate(words):
        opener_of[at] = opened[-1] if opened else None
        if word in CLOSING:
            opened.append(at)
        elif opened and word == CLOSING[words[opened[-1]]]:
            close_of[opened.pop()] = at
    return close_of, opener_of


class Function:
    """A function of a source file by the layout of `rt fmt`: its name, lines from 1 on, and the type of its impl."""

    def __init__(self, file, name, first, body, last, owner):
        self.file, self.name, self.first, self.body, self.last, self.owner = file, name, first, body, last, owner

    def has_proof(self, path):
        """Whether a file of proofs/ belongs to a function of this name: its folder has the name."""
        return path.split("/")[-2] == self.name


def functions_of(file, text):
    """The functions of a source file that are in no other function."""
    lines, found, at = text.split("\n"), [], 0
    while at < len(lines):
        head = FUNCTION.match(lines[at])
        last = head and end_of(lines, at, head[1])
        if last:
            opens = [it for it in range(at, last) if is_opening(lines[it], head[1], it == at)]
            owner = owner_of(lines, at) if head[1] else None
            found += [Function(file, head[2], at + 1, opens[0] + 1, last + 1, owner)] if opens else []
        at = (last or at) + 1
    return found


def owner_of(lines, at):
    """The name of the type, or of the trait, whose impl a line lies in, or None."""
    while at > 0 and not OWNER.match(lines[at]):
        at -= 1
    head = re.split(r"\bwhere\b|\{", " ".join(lines[at : at + 4]))[0]
    while "<" in head and head != (head := re.sub(r"<[^<>]*>", "", head)):
        pass
    words = re.findall(r"\w+", head)
    return words[-1] if len(words) > 1 else None


def end_of(lines, at, indent):
    """The line that closes the function whose head is at a line, or None if it has no body of its own lines."""
    for end in range(at + 1, len(lines)):
        line = lines[end]
        if line == f"{indent}}}":
            return end
        again = FUNCTION.match(line)
        if again and len(again[1]) <= len(indent) or line and not line.startswith(indent):
            return None
    return None


def is_opening(line, indent, is_head):
    """Whether a line opens a function's body: alone after the clauses, or at the end of the signature."""
    return line == f"{indent}{{" or line.endswith("{") and (is_head or line.startswith(f"{indent})"))
