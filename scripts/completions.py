"""Completions of the programs' options for shells, made from the man pages, which are their one source."""
import re
from pathlib import Path

OPTION = re.compile(r"--[a-z][a-z0-9-]*")
ESCAPE = re.compile(r"\\f[BIRP]|\\(.)")
REQUEST = re.compile(r"^\.(?:B|I|BI|BR|IB|IR|RB|RI|SM)\s+")


BOLD = re.compile(r"^\.BR? (\S+)", re.MULTILINE)
# The types that are looked up most often. Others have no completion.
TYPES = "A AAAA ANY CAA CNAME DNAME DNSKEY DS HTTPS MX NAPTR NS PTR SOA SRV SSHFP SVCB TLSA TXT".split()


class Option:
    """An option of a program: its name, what its argument is called (nothing if it has none), what it is for, and values to offer."""

    def __init__(self, name, argument, about, values=()):
        self.name, self.argument, self.about, self.values = name, argument, about, values

    def is_file(self):
        """Whether its argument is the path of a file."""
        return "FILE" in self.argument


def plain(line):
    """A line of a man page without its requests and escapes."""
    return ESCAPE.sub(lambda found: found[1] or "", REQUEST.sub("", line))


def sections(page):
    """The lines of each section of a man page."""
    found, name = {}, ""
    for line in page.splitlines():
        if line.startswith(".SH "):
            name = line[4:].strip().strip('"')
        else:
            found.setdefault(name, []).append(line)
    return found


def first_sentence(lines):
    """The first sentence of the text that follows a tag."""
    text = []
    for line in lines:
        if line.startswith((".TP", ".PP", ".SH", ".nf")):
            break
        text.append(plain(line))
    return re.split(r"(?<=[.:])\s", " ".join(text).strip(), maxsplit=1)[0].rstrip(".:")


def options_of(page):
    """The options that a man page lists."""
    lines, found = sections(page).get("OPTIONS", []), []
    for at, line in enumerate(lines):
        if line != ".TP" or at + 1 == len(lines):
            continue
        tag = plain(lines[at + 1])
        for name in OPTION.findall(tag):
            argument = re.sub(r'["\s,]', "", tag.partition(name)[2])
            found.append(Option(name, argument, first_sentence(lines[at + 2:]), values_of(argument, lines[at + 2:])))
    return found


def values_of(argument, lines):
    """The values of an argument: types, or, of a strategy, the words in bold of the text that follows the tag."""
    if argument == "TYPE":
        return TYPES
    text = "\n".join(lines).partition("\n.TP")[0]
    return [plain(it) for it in BOLD.findall(text)] if argument == "STRATEGY" else []


def bash(program, options):
    """The completion of a program for bash."""
    names = " ".join(it.name for it in options)
    files = "|".join(it.name for it in options if it.is_file())
    others = "|".join(it.name for it in options if it.argument and not it.values and not it.is_file())
    cases = [f"        {names_}) {then} ;;" for names_, then in (
        (files, "COMPREPLY=($(compgen -f -- \"$word\")); return"),
        (others, "COMPREPLY=(); return"),
        *((it.name, f"COMPREPLY=($(compgen -W \"{' '.join(it.values)}\" -- \"$word\")); return") for it in options if it.values),
    ) if names_]
    return "\n".join([
        f"# bash completion for {program}",
        f"_{program}() {{",
        "    local word=${COMP_WORDS[COMP_CWORD]}",
        "    case ${COMP_WORDS[COMP_CWORD - 1]} in",
        *cases,
        "    esac",
        "    case $word in",
        f"        -*) COMPREPLY=($(compgen -W \"{names}\" -- \"$word\")) ;;",
        "        *) COMPREPLY=($(compgen -f -- \"$word\")) ;;",
        "    esac",
        "}",
        f"complete -o filenames -F _{program} {program}",
        "",
    ])


def zsh(program, options):
    """The completion of a program for zsh."""
    def spec(option):
        about = option.about.replace("'", "").replace("[", "(").replace("]", ")").replace(":", "")
        argument = ""
        if option.argument:
            values = f"({' '.join(option.values)})" if option.values else "_files" if option.is_file() else " "
            argument = f":{option.argument.replace(':', ' ')}:{values}"
        return f"    '*{option.name}[{about}]{argument}' \\"
    return "\n".join([f"#compdef {program}", "_arguments \\", *map(spec, options), "    '*:file:_files'", ""])


def fish(program, options):
    """The completion of a program for fish."""
    def line(option):
        about = option.about.replace("'", "")
        argument = "" if not option.argument else " -r -F" if option.is_file() else " -x"
        argument += f" -a '{' '.join(option.values)}'" if option.values else ""
        return f"complete -c {program} -l {option.name[2:]}{argument} -d '{about}'"
    return "\n".join([f"# fish completion for {program}", *map(line, options), ""])


# Where the completion of each shell is installed below a prefix, by the program's name, and what makes it.
SHELLS = (
    ("share/bash-completion/completions/{}", bash),
    ("share/zsh/site-functions/_{}", zsh),
    ("share/fish/vendor_completions.d/{}.fish", fish),
)


def completions(root, program):
    """The completions of a program: where each is installed below a prefix, and its text."""
    options = options_of(Path(root, "docs", "man", f"{program}.1").read_text(encoding="utf-8"))
    return [(place.format(program), make(program, options)) for place, make in SHELLS]
