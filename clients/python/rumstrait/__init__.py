"""Rumstrait: DNS zones, served in the process of a test, messages, updates, and lookups over asyncio.

    from rumstrait import Message, Zone

    with Zone.from_text(text, origin="example.com.") as zone:
        reply = zone.serve(Message.query("www.example.com.", "A").to_wire())
    print(Message(reply))

The library `librumstrait.so` is the one beside this package, or that of the environment variable RUMSTRAIT_LIBRARY, or the
one that the system's linker finds. `./library PREFIX` of the repository makes it.
"""
from ._library import Refusal, RumstraitError
from .message import Message
from .resolver import Record, Resolver
from .update import Item, Update
from .zone import Transport, Zone

__all__ = ["Item", "Message", "Record", "Refusal", "Resolver", "RumstraitError", "Transport", "Update", "Zone"]
__version__ = "0.1.0"
