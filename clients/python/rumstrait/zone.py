"""Zones, and their server."""
import ctypes
from enum import IntEnum
from types import TracebackType
from typing import Optional, Type, Union

from ._library import LIBRARY, Handle, Refusal, RumstraitError, bytes_of, check

# The greatest length of a reply (RFC 1035 section 4.2.2).
MOST = 65_535


class Transport(IntEnum):
    """How a request arrived."""

    DATAGRAM = 0
    STREAM = 1


def fault_of(text: bytes, origin: bytes) -> RumstraitError:
    """Returns the error of a text that is not the zone file of a zone."""
    line = ctypes.c_size_t()
    sentence = bytes_of(LIBRARY.rumstrait_zone_fault, text, len(text), origin, len(origin), line).decode()
    text = f"line {line.value}: {sentence}" if line.value else sentence
    return RumstraitError(Refusal.INVALID_ZONE, text, line.value or None)


class Zone:
    """A zone, and the server of it (RFC 1034, RFC 2136).

    A zone is used by one thread at a time. It is freed by `close`, at the end of a `with` block, or with the object.
    """

    def __init__(self, handle: Handle) -> None:
        self._handle: Optional[Handle] = handle
        self._reply = ctypes.create_string_buffer(MOST)
        self._room = ctypes.cast(self._reply, ctypes.c_void_p)
        self._len = ctypes.c_size_t()
        self._len_place = ctypes.byref(self._len)

    @classmethod
    def from_text(cls, text: Union[str, bytes], origin: str = "") -> "Zone":
        """Makes a zone of a zone file (RFC 1035 section 5.1).

        The origin completes relative names and is the zone's. Without one, relative names end at the root, and the origin is
        the owner of the first SOA record. Raises `RumstraitError` if the text is not the zone file of a zone, with the reason
        and its line.
        """
        given, name = text.encode() if isinstance(text, str) else text, origin.encode()
        handle = Handle()
        code = LIBRARY.rumstrait_zone_new(given, len(given), name, len(name), ctypes.byref(handle))
        if code == Refusal.INVALID_ZONE:
            raise fault_of(given, name)
        check(code)
        return cls(handle)

    def serve(self, request: bytes, transport: Transport = Transport.DATAGRAM, limit: int = 1232) -> Optional[bytes]:
        """Serves a request, and returns its reply, or `None` if the bytes do not decode or are a response.

        `limit` is the maximum size of a reply in a datagram, from 512 to 65,535 bytes. An update changes the zone if the
        response code of its reply is NOERROR.
        """
        if not 0 <= limit <= MOST:
            raise RumstraitError(Refusal.INVALID_LIMIT)
        code = LIBRARY.rumstrait_zone_serve(
            self._opened(), transport, limit, request, len(request), self._room, MOST, self._len_place
        )
        if code == 0:
            return ctypes.string_at(self._room, self._len.value)
        if code == Refusal.NO_REPLY:
            return None
        check(code)
        return None

    def text(self) -> str:
        """Returns the zone as a zone file, with each record on a line."""
        return bytes_of(LIBRARY.rumstrait_zone_text, self._opened()).decode()

    def close(self) -> None:
        """Frees the zone, which is not used from then on."""
        handle, self._handle = self._handle, None
        if handle:
            LIBRARY.rumstrait_zone_free(handle)

    def _opened(self) -> Handle:
        """Returns the handle of a zone that is not closed."""
        if self._handle is None:
            raise ValueError("the zone is closed")
        return self._handle

    def __enter__(self) -> "Zone":
        return self

    def __exit__(
        self, kind: Optional[Type[BaseException]], error: Optional[BaseException], trace: Optional[TracebackType]
    ) -> None:
        self.close()

    def __del__(self) -> None:
        self.close()
