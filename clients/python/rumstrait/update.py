"""Updates of a zone (RFC 2136)."""
import ctypes
from enum import IntEnum
from typing import Optional, Union

from ._library import LIBRARY, Handle, bytes_of, check
from .message import Message, id_of
from .types import number_of_type

TTLS = range(1 << 32)


class Item(IntEnum):
    """A prerequisite (RFC 2136 section 2.4) or a change (section 2.5)."""

    REQUIRE_SET = 1
    REQUIRE_RECORD = 2
    FORBID_SET = 3
    REQUIRE_NAME = 4
    FORBID_NAME = 5
    ADD_RECORD = 11
    DELETE_SET = 12
    DELETE_NAME = 13
    DELETE_RECORD = 14


class Update:
    """An update of a zone: prerequisites, all of which must hold, and changes, which are made in their order.

        update = Update("example.com.").forbid_name("www.example.com.").add("www.example.com.", 60, "A", "10.0.0.1")
        request = update.message().to_wire()

    Each method that adds something returns the update, and raises `RumstraitError` if a name is no domain name, or if data is not
    that of its type. Data is a text as in a zone file, whose relative names end in the zone's name.

    An update is used by one thread at a time. It is freed with the object.
    """

    def __init__(self, zone: str) -> None:
        """Makes an update of the zone with a name. Raises `RumstraitError` if it is no domain name."""
        self._handle: Optional[Handle] = None
        name, handle = zone.encode(), Handle()
        check(LIBRARY.rumstrait_update_new(name, len(name), ctypes.byref(handle)))
        self._handle = handle

    def require_name(self, name: str) -> "Update":
        """Requires that a name has records, else the server answers NXDOMAIN."""
        return self._item(Item.REQUIRE_NAME, name)

    def forbid_name(self, name: str) -> "Update":
        """Requires that a name has no records, else the server answers YXDOMAIN."""
        return self._item(Item.FORBID_NAME, name)

    def require_set(self, name: str, record_type: Union[int, str]) -> "Update":
        """Requires that a name has records of a type, else the server answers NXRRSET."""
        return self._item(Item.REQUIRE_SET, name, record_type)

    def forbid_set(self, name: str, record_type: Union[int, str]) -> "Update":
        """Requires that a name has no records of a type, else the server answers YXRRSET."""
        return self._item(Item.FORBID_SET, name, record_type)

    def require_record(self, name: str, record_type: Union[int, str], data: str) -> "Update":
        """Requires that a name has a record, and no others of its type but those that are required, else the server answers NXRRSET."""
        return self._item(Item.REQUIRE_RECORD, name, record_type, data)

    def add(self, name: str, ttl: int, record_type: Union[int, str], data: str) -> "Update":
        """Adds a record, with a TTL in seconds."""
        return self._item(Item.ADD_RECORD, name, record_type, data, ttl)

    def delete_record(self, name: str, record_type: Union[int, str], data: str) -> "Update":
        """Deletes a record."""
        return self._item(Item.DELETE_RECORD, name, record_type, data)

    def delete_set(self, name: str, record_type: Union[int, str]) -> "Update":
        """Deletes the records of a name and a type."""
        return self._item(Item.DELETE_SET, name, record_type)

    def delete_name(self, name: str) -> "Update":
        """Deletes all records of a name."""
        return self._item(Item.DELETE_NAME, name)

    def message(self, id: Optional[int] = None) -> Message:
        """Returns the message of the update. Without an id it has a random one."""
        return Message(bytes_of(LIBRARY.rumstrait_update_bytes, self._handle, id_of(id)))

    def _item(self, item: Item, name: str, record_type: Union[int, str] = "ANY", data: str = "", ttl: int = 0) -> "Update":
        """Adds an item."""
        if ttl not in TTLS:
            raise ValueError(f"the TTL {ttl} does not have 32 bits")
        owner, text = name.encode(), data.encode()
        kind = number_of_type(record_type)
        check(LIBRARY.rumstrait_update_item(self._handle, item, owner, len(owner), kind, ttl, text, len(text)))
        return self

    def __del__(self) -> None:
        handle, self._handle = self._handle, None
        if handle:
            LIBRARY.rumstrait_update_free(handle)
