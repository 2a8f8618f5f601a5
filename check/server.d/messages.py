"""Requests as bytes (RFC 1035 section 4.1, RFC 2136 section 2, RFC 6891 section 6.1)."""
from typing import Optional, Sequence

from replies import whole_form
from zones import IN, OPT, SOA, Name, Record, name_of, type_of

UPDATE_FLAGS = 5 << 11


def numbers(*values: int) -> bytes:
    return b"".join(it.to_bytes(2, "big") for it in values)


def question(name: Name, rtype: int, rclass: int = IN) -> bytes:
    return whole_form(name) + numbers(rtype, rclass)


def opt_record(payload: int = 1232, flags: int = 0, options: bytes = b"") -> bytes:
    return b"\0" + numbers(OPT, payload, 0, flags, len(options)) + options


def query(name: str, rtype: str = "A", id: int = 1, flags: int = 0x0100, payload: Optional[int] = None) -> bytes:
    """A question, with an OPT record if it announces a payload size."""
    opt = opt_record(payload) if payload is not None else b""
    return numbers(id, flags, 1, 0, 0, int(bool(opt))) + question(name_of(name), type_of(rtype)) + opt


def record(it: Record) -> bytes:
    """A record without compression."""
    data = b"".join(whole_form(part) if isinstance(part, tuple) else part for part in it.data or ())
    head = whole_form(it.owner) + numbers(it.rtype, it.rclass) + it.ttl.to_bytes(4, "big")
    return head + numbers(len(data)) + data


def update(origin: str, prerequisites: Sequence[Record], changes: Sequence[Record], id: int = 1) -> bytes:
    """An update of a zone."""
    head = numbers(id, UPDATE_FLAGS, 1, len(prerequisites), len(changes), 0) + question(name_of(origin), SOA)
    return head + b"".join(record(it) for it in [*prerequisites, *changes])
