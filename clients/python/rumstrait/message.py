"""Messages: queries, and any others as text."""
import secrets
from typing import Optional, Union

from ._library import LIBRARY, bytes_of
from .types import number_of_type

# Ids have 16 bits (RFC 1035 section 4.1.1).
IDS = range(1 << 16)


class Message:
    """A message in wire format (RFC 1035 section 4), which decodes.

    `str` has it in the layout of dig.
    """

    def __init__(self, wire: bytes) -> None:
        """Takes the bytes of a message. Raises `RumstraitError` if they do not decode."""
        self._text = bytes_of(LIBRARY.rumstrait_message_text, wire, len(wire)).decode()
        self._wire = bytes(wire)

    @classmethod
    def query(
        cls,
        name: str,
        record_type: Union[int, str],
        *,
        id: Optional[int] = None,
        recursion_desired: bool = True,
        use_edns: bool = True,
    ) -> "Message":
        """Makes a query for the records of a name and a type, by its name or its number, in the class IN.

        Without an id it has a random one. With `use_edns` it has an OPT record (RFC 6891). Raises `RumstraitError` if the name
        is no domain name.
        """
        text = name.encode()
        given = (id_of(id), text, len(text), number_of_type(record_type), recursion_desired, use_edns)
        return cls(bytes_of(LIBRARY.rumstrait_question, *given))

    def to_wire(self) -> bytes:
        """Returns the bytes of the message as they came."""
        return self._wire

    def encoded(self) -> bytes:
        """Returns the bytes that the message is encoded as, with names compressed (RFC 1035 section 4.1.4)."""
        return bytes_of(LIBRARY.rumstrait_message_encode, self._wire, len(self._wire))

    def __str__(self) -> str:
        return self._text

    def __repr__(self) -> str:
        return f"Message(bytes.fromhex({self._wire.hex()!r}))"

    def __eq__(self, other: object) -> bool:
        return isinstance(other, Message) and self._wire == other._wire

    def __hash__(self) -> int:
        return hash(self._wire)


def id_of(given: Optional[int]) -> int:
    """Returns an id, or a random one."""
    if given is None:
        return secrets.randbelow(len(IDS))
    if given not in IDS:
        raise ValueError(f"the id {given} does not have 16 bits")
    return given
