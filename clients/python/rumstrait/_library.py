"""The C library: its functions, and what they return."""
import ctypes
import os
from enum import IntEnum
from pathlib import Path
from typing import Callable, Optional

Handle = ctypes.c_void_p
Bytes, Room = ctypes.c_char_p, ctypes.c_void_p
Size, SizePointer = ctypes.c_size_t, ctypes.POINTER(ctypes.c_size_t)
Short, Number, Long, Flag = ctypes.c_uint16, ctypes.c_uint32, ctypes.c_uint64, ctypes.c_bool
# The room of the first call: most replies and texts fit it, and the call is made again for those that do not.
FIRST_ROOM = 4096


class Refusal(IntEnum):
    """Why a call of the library does not do what it was asked for."""

    NO_REPLY = 1
    TOO_SMALL = 2
    OUT_OF_MEMORY = 3
    NULL_HANDLE = 4
    INVALID_TRANSPORT = 5
    INVALID_LIMIT = 6
    INVALID_ENCODING = 7
    INVALID_NAME = 8
    INVALID_ZONE = 9
    INVALID_MESSAGE = 10
    TOO_LONG = 11
    INVALID_UPDATE = 12
    INVALID_ITEM = 13
    INVALID_DATA = 14
    INVALID_ENDPOINT = 15
    NO_LOOKUP = 16
    WAITING = 17
    ENDED = 18
    NO_NAME = 19
    NO_RECORDS = 20
    SERVER_ERROR = 21
    NO_SERVER = 22
    NO_ID = 23
    UNSUPPORTED = 24
    NO_NUMBER = 25


TEXTS = {
    Refusal.NO_REPLY: "no reply",
    Refusal.TOO_SMALL: "the buffer is too small",
    Refusal.OUT_OF_MEMORY: "out of memory",
    Refusal.NULL_HANDLE: "the handle is null",
    Refusal.INVALID_TRANSPORT: "no such transport",
    Refusal.INVALID_LIMIT: "a limit of less than 512 bytes",
    Refusal.INVALID_ENCODING: "the text is not UTF-8",
    Refusal.INVALID_NAME: "no domain name",
    Refusal.INVALID_ZONE: "not the zone file of a zone",
    Refusal.INVALID_MESSAGE: "not a message",
    Refusal.TOO_LONG: "a message of more than 65,535 bytes",
    Refusal.INVALID_UPDATE: "an item that no message can have",
    Refusal.INVALID_ITEM: "no such item of an update",
    Refusal.INVALID_DATA: "not record data of the type",
    Refusal.INVALID_ENDPOINT: "not an address and a port",
    Refusal.NO_LOOKUP: "no lookup has the number",
    Refusal.WAITING: "the lookup waits for a reply",
    Refusal.ENDED: "the lookup has ended",
    Refusal.NO_NAME: "the name does not exist",
    Refusal.NO_RECORDS: "the name has no records of the type",
    Refusal.SERVER_ERROR: "the server replied with an error",
    Refusal.NO_SERVER: "no server gave a reply",
    Refusal.NO_ID: "no id is left",
    Refusal.UNSUPPORTED: "the question can't be asked",
    Refusal.NO_NUMBER: "no number is left for a lookup",
}


class Wait(ctypes.Structure):
    """What a lookup waits for."""

    _fields_ = [
        ("exchanges", Long),
        ("number", Long),
        ("deadline", Long),
        ("transport", Number),
        ("server", ctypes.c_uint8 * 18),
    ]


class RumstraitError(Exception):
    """A call of the library is refused.

    `line` is the line of a zone file, from 1, on which its first fault is, or `None`.
    """

    def __init__(self, refusal: Refusal, text: Optional[str] = None, line: Optional[int] = None) -> None:
        super().__init__(text or TEXTS[refusal])
        self.refusal = refusal
        self.line = line


def check(code: int) -> None:
    """Raises the error of a code, unless it is 0."""
    if code == Refusal.OUT_OF_MEMORY:
        raise MemoryError
    if code:
        raise RumstraitError(Refusal(code))


def load() -> ctypes.CDLL:
    """Loads the library, and declares its functions."""
    beside = Path(__file__).with_name("librumstrait.so")
    place = os.environ.get("RUMSTRAIT_LIBRARY") or (str(beside) if beside.exists() else "librumstrait.so")
    try:
        library = ctypes.CDLL(place)
    except OSError as error:
        hint = "set RUMSTRAIT_LIBRARY to the path of librumstrait.so, which ./library PREFIX installs in PREFIX/lib"
        raise ImportError(f"cannot load the library: {error}; {hint}") from None
    declare(library, "rumstrait_zone_new", Bytes, Size, Bytes, Size, ctypes.POINTER(Handle))
    declare(library, "rumstrait_zone_fault", Bytes, Size, Bytes, Size, SizePointer, Room, Size, SizePointer)
    declare(library, "rumstrait_zone_serve", Handle, Number, Short, Bytes, Size, Room, Size, SizePointer)
    declare(library, "rumstrait_zone_text", Handle, Room, Size, SizePointer)
    declare(library, "rumstrait_zone_free", Handle)
    library.rumstrait_zone_free.restype = None
    declare(library, "rumstrait_message_text", Bytes, Size, Room, Size, SizePointer)
    declare(library, "rumstrait_message_encode", Bytes, Size, Room, Size, SizePointer)
    declare(library, "rumstrait_question", Short, Bytes, Size, Short, Flag, Flag, Room, Size, SizePointer)
    declare(library, "rumstrait_update_new", Bytes, Size, ctypes.POINTER(Handle))
    declare(library, "rumstrait_update_item", Handle, Number, Bytes, Size, Short, Number, Bytes, Size)
    declare(library, "rumstrait_update_bytes", Handle, Short, Room, Size, SizePointer)
    declare(library, "rumstrait_update_free", Handle)
    library.rumstrait_update_free.restype = None
    declare(library, "rumstrait_resolver_new", Bytes, Size, Number, Number, Number, ctypes.POINTER(Handle))
    declare(library, "rumstrait_resolver_free", Handle)
    library.rumstrait_resolver_free.restype = None
    declare(library, "rumstrait_lookup_begin", Handle, Bytes, Size, Short, ctypes.POINTER(Short), Size, Long, ctypes.POINTER(Long))
    declare(library, "rumstrait_lookup_wait", Handle, Long, ctypes.POINTER(Wait), Room, Size, SizePointer)
    declare(library, "rumstrait_lookup_received", Handle, Long, Bytes, Size, Bytes, Size, Long)
    declare(library, "rumstrait_lookup_timed_out", Handle, Long, Long)
    declare(library, "rumstrait_lookup_failed", Handle, Long, Long)
    declare(library, "rumstrait_lookup_records", Handle, Long, Room, Size, SizePointer)
    declare(library, "rumstrait_lookup_free", Handle, Long)
    return library


def declare(library: ctypes.CDLL, name: str, *parameters: object) -> None:
    """Declares a function that returns a code."""
    function = getattr(library, name)
    function.argtypes, function.restype = parameters, ctypes.c_int32


def bytes_of(call: Callable[..., int], *arguments: object) -> bytes:
    """Calls a function that writes bytes, with as much room as it needs, and returns them."""
    room, size = FIRST_ROOM, ctypes.c_size_t()
    while True:
        buffer = ctypes.create_string_buffer(room)
        code = call(*arguments, buffer, room, size)
        if code != Refusal.TOO_SMALL:
            check(code)
            return buffer.raw[: size.value]
        room = size.value


LIBRARY = load()
