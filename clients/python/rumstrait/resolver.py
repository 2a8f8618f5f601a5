"""Lookups at name servers, over asyncio."""
import asyncio
import ctypes
import ipaddress
import re
import secrets
import socket
import time
from types import TracebackType
from typing import Iterable, List, NamedTuple, Optional, Tuple, Type, Union

from ._library import LIBRARY, Handle, Refusal, RumstraitError, Wait, bytes_of, check
from .message import IDS
from .types import number_of_type

# The port of name servers (RFC 1035 section 4.2).
PORT = 53
# A lookup asks at most so many questions.
MOST_QUESTIONS = 8
# The bytes of an IPv6 address before the four of an IPv4 address that is mapped to it (RFC 4291 section 2.5.5.2).
MAPPED = bytes(10) + b"\xff\xff"
# A word of a line of a record, in which blanks may be escaped.
WORD = r"((?:\\.|[^\\ ])+)"
LINE = re.compile(rf"{WORD} (\d+) {WORD} {WORD} (.*)", re.S)

Server = Union[str, Tuple[str, int]]


class Record(NamedTuple):
    """A record that a lookup found. The TTL is in seconds, and the data a text as in a zone file."""

    name: str
    ttl: int
    record_class: str
    record_type: str
    data: str


class Arrivals(asyncio.DatagramProtocol):
    """What comes to the socket of a message: datagrams, or the error of the socket."""

    def __init__(self) -> None:
        self.queue: "asyncio.Queue[Union[bytes, OSError]]" = asyncio.Queue()

    def datagram_received(self, data: bytes, addr: object) -> None:
        self.queue.put_nowait(data)

    def error_received(self, exc: Exception) -> None:
        self.queue.put_nowait(exc if isinstance(exc, OSError) else OSError(str(exc)))


def endpoint_of(server: Server) -> bytes:
    """Returns the 18 bytes of the address and the port of a server: a text, or a pair. Raises `ValueError` if it is none."""
    address, port = (server, PORT) if isinstance(server, str) else server
    if not 0 <= port < 1 << 16:
        raise ValueError(f"the port {port} does not have 16 bits")
    packed = ipaddress.ip_address(address).packed
    return (packed if len(packed) == 16 else MAPPED + packed) + port.to_bytes(2, "big")


def server_of(endpoint: bytes) -> Tuple[str, int]:
    """Returns the address and the port that the 18 bytes of an endpoint are."""
    octets = endpoint[:16]
    address = ipaddress.ip_address(octets[12:] if octets[:12] == MAPPED else octets)
    return str(address), int.from_bytes(endpoint[16:], "big")


def record_of(line: str) -> Record:
    """Returns the record of a line."""
    found = LINE.fullmatch(line)
    assert found, line
    return Record(found[1], int(found[2]), found[3], found[4], found[5])


def clock() -> int:
    """Returns the moment, in milliseconds of a clock that does not go back."""
    return time.monotonic_ns() // 1_000_000


class Resolver:
    """A stub resolver with a cache (RFC 1034 section 5.3.1), for lookups in one event loop at a time.

        async with Resolver(["192.0.2.1", ("192.0.2.2", 5353)]) as resolver:
            for record in await resolver.look_up("www.example.com.", "A"):
                print(record.data)

    Without an event loop:

        with Resolver(["192.0.2.1"]) as resolver:
            print(resolver.look_up_now("www.example.com.", "A"))

    Lookups may run at the same time. A server is asked over UDP, each time from a port of its own, and over TCP if its reply is
    truncated; after one that does not reply the next is asked. Aliases are followed, and replies are cached.

    The decisions are those of the library: this class only moves bytes between it and the sockets. It is freed by `close`, at the
    end of a `with` block, or with the object.
    """

    def __init__(self, servers: Iterable[Server], *, timeout: float = 5.0, attempts: int = 2, cache_size: int = 8192) -> None:
        """Makes a resolver of servers: addresses, with the port 53, or pairs of an address and a port.

        `timeout` is how long to wait for a reply, in seconds, `attempts` how many rounds are made through the servers, and
        `cache_size` how many replies are cached. Raises `ValueError` if an address or a number is none.
        """
        self._handle: Optional[Handle] = None
        endpoints = b"".join(map(endpoint_of, servers))
        numbers = (round(timeout * 1000), attempts, cache_size)
        if not all(0 <= it < 1 << 32 for it in numbers):
            raise ValueError("a number that does not have 32 bits")
        handle = Handle()
        check(LIBRARY.rumstrait_resolver_new(endpoints, len(endpoints), *numbers, ctypes.byref(handle)))
        self._handle = handle

    async def look_up(self, name: str, record_type: Union[int, str]) -> List[Record]:
        """Looks up the records of a name and a type, by its name or its number: those, and the aliases that lead to them.

        Raises `RumstraitError` if there are none. Its `refusal` is NO_NAME if the name does not exist, NO_RECORDS if it has no
        records of the type, SERVER_ERROR if a server replied with an error, NO_SERVER if none gave a reply, and INVALID_NAME if
        the name is no domain name. Its text begins with the name and the type.
        """
        try:
            return await self._records_of(name, record_type)
        except RumstraitError as error:
            asked = f"TYPE{record_type}" if isinstance(record_type, int) else record_type
            raise RumstraitError(error.refusal, f"{name} {asked}: {error}") from None

    def look_up_now(self, name: str, record_type: Union[int, str]) -> List[Record]:
        """Looks up records as `look_up` does, and returns when they are there: for programs without an event loop."""
        return asyncio.run(self.look_up(name, record_type))

    async def _records_of(self, name: str, record_type: Union[int, str]) -> List[Record]:
        """Looks up the records of a name and a type."""
        lookup = self._begin(name.encode(), number_of_type(record_type))
        try:
            while True:
                waited = self._waited(lookup)
                if waited is None:
                    break
                wait, message = waited
                if wait.transport:
                    await self._ask_stream(lookup, wait, message)
                else:
                    await self._ask(lookup, wait, message)
            text = bytes_of(LIBRARY.rumstrait_lookup_records, self._opened(), lookup).decode()
        finally:
            if self._handle:
                LIBRARY.rumstrait_lookup_free(self._handle, lookup)
        return [record_of(line) for line in text.split("\n")[:-1]]

    def close(self) -> None:
        """Frees the resolver, which is not used from then on."""
        handle, self._handle = self._handle, None
        if handle:
            LIBRARY.rumstrait_resolver_free(handle)

    def _opened(self) -> Handle:
        """The handle. Raises `ValueError` if the resolver is closed."""
        if self._handle is None:
            raise ValueError("the resolver is closed")
        return self._handle

    def _begin(self, name: bytes, number: int) -> int:
        """Begins a lookup, and returns its number."""
        ids = (ctypes.c_uint16 * MOST_QUESTIONS)(*(secrets.randbelow(len(IDS)) for _ in range(MOST_QUESTIONS)))
        lookup = ctypes.c_uint64()
        given = (self._opened(), name, len(name), number, ids, len(ids), clock())
        check(LIBRARY.rumstrait_lookup_begin(*given, ctypes.byref(lookup)))
        return lookup.value

    def _waited(self, lookup: int) -> Optional[Tuple[Wait, bytes]]:
        """What a lookup waits for, and the message to send, or `None` if it has ended."""
        wait, room, size = Wait(), 512, ctypes.c_size_t()
        while True:
            buffer = ctypes.create_string_buffer(room)
            code = LIBRARY.rumstrait_lookup_wait(self._opened(), lookup, ctypes.byref(wait), buffer, room, size)
            if code == Refusal.ENDED:
                return None
            if code != Refusal.TOO_SMALL:
                check(code)
                return wait, buffer.raw[: size.value]
            room = size.value

    def _has_moved(self, lookup: int, wait: Wait) -> bool:
        """Whether a lookup has ended, or waits for the reply to another message."""
        waited = self._waited(lookup)
        return waited is None or (waited[0].exchanges, waited[0].number) != (wait.exchanges, wait.number)

    def _received(self, lookup: int, wait: Wait, message: bytes) -> None:
        """Tells a lookup that a message came from the server that it was sent to."""
        server = bytes(wait.server)
        check(LIBRARY.rumstrait_lookup_received(self._opened(), lookup, message, len(message), server, len(server), clock()))

    def _timed_out(self, lookup: int, wait: Wait) -> None:
        """Tells a lookup that nothing came."""
        check(LIBRARY.rumstrait_lookup_timed_out(self._opened(), lookup, max(clock(), wait.deadline)))

    def _failed(self, lookup: int) -> None:
        """Tells a lookup that the socket failed."""
        check(LIBRARY.rumstrait_lookup_failed(self._opened(), lookup, clock()))

    async def _ask(self, lookup: int, wait: Wait, message: bytes) -> None:
        """Sends a message as a datagram, and waits until the lookup has ended or wants another message to be sent.

        The socket is connected, so that the system drops what comes from other servers.
        """
        try:
            loop = asyncio.get_running_loop()
            transport, arrivals = await loop.create_datagram_endpoint(Arrivals, remote_addr=server_of(bytes(wait.server)))
        except OSError:
            return self._failed(lookup)
        try:
            transport.sendto(message)
            while True:
                left = max(wait.deadline - clock(), 0) / 1000
                arrival = await asyncio.wait_for(arrivals.queue.get(), left)
                if isinstance(arrival, OSError):
                    return self._failed(lookup)
                self._received(lookup, wait, arrival)
                if self._has_moved(lookup, wait):
                    return None
        except asyncio.TimeoutError:
            return self._timed_out(lookup, wait)
        finally:
            transport.close()

    async def _ask_stream(self, lookup: int, wait: Wait, message: bytes) -> None:
        """Sends a message over a stream of its own, and waits for one reply (RFC 7766)."""
        try:
            left = max(wait.deadline - clock(), 0) / 1000
            reply = await asyncio.wait_for(reply_over_stream(server_of(bytes(wait.server)), message), left)
        except asyncio.TimeoutError:
            return self._timed_out(lookup, wait)
        except (OSError, EOFError):
            return self._failed(lookup)
        return self._received(lookup, wait, reply)

    def __enter__(self) -> "Resolver":
        return self

    def __exit__(
        self, kind: Optional[Type[BaseException]], error: Optional[BaseException], trace: Optional[TracebackType]
    ) -> None:
        self.close()

    async def __aenter__(self) -> "Resolver":
        return self

    async def __aexit__(
        self, kind: Optional[Type[BaseException]], error: Optional[BaseException], trace: Optional[TracebackType]
    ) -> None:
        self.close()

    def __del__(self) -> None:
        self.close()


async def reply_over_stream(server: Tuple[str, int], message: bytes) -> bytes:
    """Sends a message over a stream, and returns the first message that comes back (RFC 1035 section 4.2.2)."""
    reader, writer = await asyncio.open_connection(*server, flags=socket.AI_NUMERICHOST)
    try:
        writer.write(len(message).to_bytes(2, "big") + message)
        await writer.drain()
        size = int.from_bytes(await reader.readexactly(2), "big")
        return await reader.readexactly(size)
    finally:
        writer.close()
