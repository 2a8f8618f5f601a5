"""Scripts for the zone `t.`, as docs/REPLAY.md describes them."""
from text import address, labels, name, number, record_type
from wire import OPT, Refusal
from zone_text import data_of

ORIGIN = (b"t",)
GREATEST = 2**64 - 1


def split_words(text: bytes) -> tuple[list[bytes], int] | None:
    """The words of a line, and the place of the semicolon that ends them. Strings in quotes are words of their own."""
    words, word, at, is_quoted = [], b"", 0, False
    while at < len(text):
        character = text[at : at + 1]
        if character == b"\\":
            if at + 1 == len(text):
                return None
            word, at = word + text[at : at + 2], at + 2
            continue
        if character == b";" and not is_quoted:
            break
        if character == b'"':
            if is_quoted:
                words, word = [*words, word + character], b""
            else:
                words, word = [*words, word], character
            is_quoted = not is_quoted
        elif character in b" \t" and not is_quoted:
            words, word = [*words, word], b""
        else:
            word += character
        at += 1
    if is_quoted:
        return None
    return [it for it in [*words, word] if it], at


def is_link_script(text: bytes) -> bool:
    split = split_words(text)
    if split is None or split[1] < len(text):
        return False
    words = split[0]
    return words in ([], [b"honest"]) or all(map(is_link_word, words))


def is_link_word(word: bytes) -> bool:
    return word in (b"quiet", b"fail") or word[:1] in (b"q", b"u", b"r") and number(word[1:], GREATEST) is not None


def has_data(rtype: int | None, words: list[bytes]) -> bool:
    """Whether words are the data of a type."""
    tokens = [("quoted", it[1:-1]) if it[:1] == b'"' else ("at" if it == b"@" else "word", it) for it in words]
    try:
        return rtype is not None and bool(data_of(rtype, tokens, ORIGIN))
    except Refusal:
        return False


def is_update(words: list[bytes]) -> bool:
    if len(words) < 2:
        return False
    action, owner, rest = words[0], name(words[1], ORIGIN), words[2:]
    if owner is None or owner[-1:] != ORIGIN:
        return False
    if action == b"delete-name":
        return not rest
    if action == b"delete-set":
        return len(rest) == 1 and record_type(rest[0]) not in (None, OPT)
    if action == b"delete-record":
        return len(rest) > 0 and has_data(record_type(rest[0]), rest[1:])
    if len(rest) < 2 or number(rest[0], 2**32 - 1) is None:
        return False
    rtype, data = record_type(rest[1]), rest[2:]
    if action == b"swap":
        arrow = data.index(b"->") if b"->" in data else -1
        return arrow >= 0 and has_data(rtype, data[:arrow]) and has_data(rtype, data[arrow + 1 :])
    return action in (b"create", b"append") and has_data(rtype, data)


def is_event(words: list[bytes]) -> bool:
    if len(words) < 2 or number(words[0], GREATEST) is None:
        return False
    keyword, rest = words[1], words[2:]
    if keyword in (b"lookup", b"clear"):
        return len(rest) == 2 and labels(rest[0]) is not None and record_type(rest[1]) is not None
    if keyword == b"ip":
        return len(rest) == 1 and (labels(rest[0]) is not None or bool(address(rest[0], 4) or address(rest[0], 6)))
    if keyword == b"clearall":
        return not rest
    return keyword == b"update" and is_update(rest)


def is_event_line(line: bytes) -> bool:
    split = split_words(line)
    return split is not None and is_link_script(line[split[1] + 1 :]) and is_event(split[0])


def faulty_line(data: bytes) -> int | None:
    """The number of the first line that is none of a script."""
    # A carriage return ends a line only with a line feed after it.
    for number, line in enumerate(data.replace(b"\r\n", b"\n").split(b"\n"), 1):
        if line.strip(b" \t")[:1] not in (b"", b"#") and not is_event_line(line):
            return number
    return None
