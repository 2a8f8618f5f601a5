"""What a fault of the table makes of a reply, to the byte, as docs/NAMESERVER.md describes each action."""
from replies import OWN_PAYLOAD, Request


def coded(request: Request, number: int, data: bytes) -> bytes:
    """A reply with a response code, with the question and without records. `data` has the bytes of the request's question."""
    flags = 0x8000 | request.flags & 0x7910
    opt = b""
    if request.edns:
        opt = b"\0\0\x29" + OWN_PAYLOAD.to_bytes(2, "big") + bytes([number >> 4 & 255, 0])
        opt += (request.edns[1] & 0x8000).to_bytes(2, "big") + b"\0\0"
    counts = [len(request.questions), 0, 0, int(bool(opt))]
    header = [request.id, flags | number & 15, *counts]
    return b"".join(it.to_bytes(2, "big") for it in header) + data + opt


def truncated(reply: bytes, question_end: int) -> bytes:
    """A reply with TC and without records but the OPT record, which is the last one and has no options here."""
    has_opt = reply[10:12] != b"\0\0"
    flags = int.from_bytes(reply[2:4], "big") | 0x0200
    head = reply[:2] + flags.to_bytes(2, "big") + reply[4:6] + bytes(5) + bytes([has_opt])
    return head + reply[12:question_end] + (reply[-11:] if has_opt else b"")


def with_wrong_id(reply: bytes) -> bytes:
    return ((int.from_bytes(reply[:2], "big") + 1) % 65536).to_bytes(2, "big") + reply[2:]


def with_wrong_question(reply: bytes) -> bytes:
    """A reply whose question has another first octet. It has a question for a name other than the root."""
    octet = b"y" if reply[13:14] in (b"x", b"X") else b"x"
    return reply[:13] + octet + reply[14:]


def garbage(request_id: int, count: int) -> bytes:
    return (request_id.to_bytes(2, "big") + b"\xff" * count)[:count]
