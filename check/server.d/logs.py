"""What the log says of a request and its reply, as docs/NAMESERVER.md describes its fields."""
from relay import Exchange
from replies import read_request
from wire import Refusal
from zones import IN, name_text, type_text

CLASSES = {IN: "IN", 3: "CH", 4: "HS", 254: "NONE", 255: "ANY"}


def question_of(data: bytes):
    """The question of a request that has exactly one, as the log spells it."""
    try:
        questions = read_request(data).questions
    except Refusal:
        return None
    if len(questions) != 1:
        return None
    name, rtype, rclass = questions[0]
    return {"name": name_text(name), "type": type_text(rtype), "class": CLASSES.get(rclass, f"CLASS{rclass}")}


def code_of(reply: bytes) -> int:
    """The code of a reply: four bits of its header, and eight of the OPT record at its end (RFC 6891 section 6.1.3)."""
    has_opt = reply[10:12] != b"\0\0"
    return (reply[-6] << 4 if has_opt else 0) | reply[3] & 15


def logged(exchange: Exchange, fault=None, has_changed: bool = False) -> dict:
    """The fields of a line, but for the moment and the peer, of a request that has changed records or not."""
    request, reply = exchange.request, exchange.reply or b""
    has_header = len(request) >= 12
    opcode = request[2] >> 3 & 15 if has_header else None
    counts = [int.from_bytes(reply[at : at + 2], "big") for at in (6, 8, 10)]
    code = code_of(reply) if len(reply) >= 12 else None
    return {
        "transport": "tcp" if exchange.is_stream else "udp",
        "id": int.from_bytes(request[:2], "big") if len(request) >= 2 else None,
        "opcode": opcode,
        "question": question_of(request),
        "code": code,
        "answers": counts[0],
        "authorities": counts[1],
        "additionals": counts[2],
        "request_bytes": len(request),
        "reply_bytes": len(reply),
        "fault": fault,
        "updated": has_changed,
    }
