"""What is said of a build: how it was made, and from what."""
import os

from processes import output_of


def first_line(words):
    """The first line that a command prints, or nothing if it fails."""
    try:
        status, output = output_of(words)
    except OSError:
        return ""
    return "" if status else os.fsdecode(output).partition("\n")[0]


def build_note(root, made):
    """How a program was made: whether it is proved, with which toolchain, and from which commit."""
    commit = first_line(["git", "-C", root, "describe", "--always", "--dirty", "--abbrev=40"])
    toolchain = first_line(["rt", "version"])
    return f"{made}\ntoolchain: {toolchain or 'unknown'}\ncommit: {commit or 'unknown'}\n"
