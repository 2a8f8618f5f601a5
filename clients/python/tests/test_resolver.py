"""Lookups over the loopback interface, at zones that this process serves, and at the program `nameserver`."""
import asyncio
import contextlib
import os
import sys
from pathlib import Path

import pytest

from rumstrait import Record, Refusal, Resolver, RumstraitError, Transport, Zone
from rumstrait.resolver import endpoint_of, record_of, server_of

sys.path.insert(0, str(Path(__file__).resolve().parent.parent))
from nameserver import NameServer

LONG = "".join(f'long TXT "{number}{"a" * 200}"\n' for number in range(8))
TEXT = f"""$TTL 60
@ SOA ns h 1 3600 600 86400 30
www A 10.0.0.1
www A 10.0.0.2
alias CNAME www
{LONG}"""
WWW = [Record("www.t.", 60, "IN", "A", "10.0.0.1"), Record("www.t.", 60, "IN", "A", "10.0.0.2")]


class Served(asyncio.DatagramProtocol):
    """A zone on a free port of 127.0.0.1, over UDP and TCP. It counts requests, and does not reply to the first `silent` ones."""

    def __init__(self, zone, silent=0, strays=False):
        self.zone, self.silent, self.strays, self.count, self.streams = zone, silent, strays, 0, 0

    def connection_made(self, transport):
        self.transport = transport

    def datagram_received(self, data, addr):
        self.count += 1
        if self.count <= self.silent:
            return
        reply = self.zone.serve(data, Transport.DATAGRAM, 512)
        if self.strays:
            self.transport.sendto(b"garbage", addr)
            self.transport.sendto(bytes([data[0] ^ 1]) + reply[1:], addr)
        self.transport.sendto(reply, addr)

    async def stream(self, reader, writer):
        self.streams += 1
        request = await reader.readexactly(int.from_bytes(await reader.readexactly(2), "big"))
        reply = self.zone.serve(request, Transport.STREAM)
        writer.write(len(reply).to_bytes(2, "big") + reply)
        await writer.drain()
        writer.close()


@contextlib.asynccontextmanager
async def served(**options):
    """Serves the zone, and yields the server with its address and port."""
    with Zone.from_text(TEXT, "t.") as zone:
        loop = asyncio.get_running_loop()
        server = Served(zone, **options)
        streams = await asyncio.start_server(server.stream, "127.0.0.1", 0)
        port = streams.sockets[0].getsockname()[1]
        transport, _ = await loop.create_datagram_endpoint(lambda: server, local_addr=("127.0.0.1", port))
        server.place = ("127.0.0.1", port)
        try:
            yield server
        finally:
            transport.close()
            streams.close()


async def refusal_of(resolver, name, record_type):
    """Why a lookup finds nothing."""
    with pytest.raises(RumstraitError) as raised:
        await resolver.look_up(name, record_type)
    return raised.value.refusal


def test_records_are_found_and_cached():
    async def run():
        async with served() as server, Resolver([server.place]) as resolver:
            assert await resolver.look_up("www.t", "A") == WWW
            again = await resolver.look_up("WWW.t.", "A")
            assert [(it.name.lower(), it.data) for it in again] == [(it.name, it.data) for it in WWW]
            assert server.count == 1

    asyncio.run(run())


def test_aliases_are_followed():
    async def run():
        async with served() as server, Resolver([server.place]) as resolver:
            found = await resolver.look_up("alias.t.", "A")
            assert found[0] == Record("alias.t.", 60, "IN", "CNAME", "www.t.") and found[1:] == WWW

    asyncio.run(run())


def test_why_there_are_no_records():
    async def run():
        async with served() as server, Resolver([server.place], attempts=1) as resolver:
            assert await refusal_of(resolver, "none.t.", "A") == Refusal.NO_NAME
            assert await refusal_of(resolver, "www.t.", "MX") == Refusal.NO_RECORDS
            assert await refusal_of(resolver, "www.other.", "A") == Refusal.SERVER_ERROR
            assert await refusal_of(resolver, "a..b", "A") == Refusal.INVALID_NAME
        async with Resolver([]) as resolver:
            assert await refusal_of(resolver, "www.t.", "A") == Refusal.NO_SERVER

    asyncio.run(run())


def test_errors_name_what_was_asked():
    async def run():
        async with served() as server, Resolver([server.place], attempts=1) as resolver:
            for name, record_type, text in (
                ("none.t.", "A", "none.t. A: the name does not exist"),
                ("www.t.", 15, "www.t. TYPE15: the name has no records of the type"),
                ("a..b", "A", "a..b A: no domain name"),
            ):
                with pytest.raises(RumstraitError) as raised:
                    await resolver.look_up(name, record_type)
                assert str(raised.value) == text

    asyncio.run(run())


def test_a_truncated_reply_is_asked_for_over_a_stream():
    async def run():
        async with served() as server, Resolver([server.place]) as resolver:
            found = await resolver.look_up("long.t.", "TXT")
            assert len(found) == 8 and server.streams == 1

    asyncio.run(run())


def test_a_server_that_is_silent_is_passed_over():
    async def run():
        async with served(silent=9) as silent, served() as server:
            async with Resolver([silent.place, server.place], timeout=0.2) as resolver:
                assert await resolver.look_up("www.t.", "A") == WWW
                assert (silent.count, server.count) == (1, 1)
                # The server that did not reply is asked after the other one.
                assert len(await resolver.look_up("alias.t.", "A")) == 3
                assert silent.count == 1

    asyncio.run(run())


def test_a_server_that_is_not_there_is_passed_over():
    async def run():
        async with served() as gone:
            place = gone.place
        async with served() as server, Resolver([place, server.place], timeout=2) as resolver:
            assert await resolver.look_up("www.t.", "A") == WWW

    asyncio.run(run())


def test_what_is_not_the_reply_is_dropped():
    async def run():
        async with served(strays=True) as server, Resolver([server.place], attempts=1) as resolver:
            assert await resolver.look_up("www.t.", "A") == WWW
            assert server.count == 1

    asyncio.run(run())


def test_lookups_run_at_the_same_time():
    async def run():
        async with served() as server, Resolver([server.place], cache_size=0) as resolver:
            found = await asyncio.gather(*(resolver.look_up("www.t.", "A") for _ in range(200)))
            assert found == [WWW] * 200 and server.count == 200

    asyncio.run(run())


def test_a_lookup_that_is_cancelled_leaves_nothing():
    async def run():
        async with served(silent=9) as server, Resolver([server.place]) as resolver:
            with pytest.raises(asyncio.TimeoutError):
                await asyncio.wait_for(resolver.look_up("www.t.", "A"), 0.1)
        with pytest.raises(ValueError):
            await resolver.look_up("www.t.", "A")

    asyncio.run(run())


def test_endpoints_and_lines():
    assert endpoint_of("192.0.2.1").hex() == "00000000000000000000ffffc00002010035"
    for server in (("192.0.2.1", 53), ("2001:db8::1", 5353)):
        assert server_of(endpoint_of(server)) == server
    for wrong in ("a", ("192.0.2.1", 1 << 16)):
        with pytest.raises(ValueError):
            endpoint_of(wrong)
    assert record_of(r"a\ b.t. 5 IN TXT " + '"x y"') == Record(r"a\ b.t.", 5, "IN", "TXT", '"x y"')


@pytest.mark.skipif("NAMESERVER" not in os.environ, reason="the environment variable NAMESERVER names no program")
def test_the_program_nameserver():
    async def run(address, port):
        async with Resolver([(address, port)]) as resolver:
            assert await resolver.look_up("www.t.", "A") == WWW
            assert len(await resolver.look_up("alias.t.", "A")) == 3
            assert len(await resolver.look_up("long.t.", "TXT")) == 8
            assert await refusal_of(resolver, "none.t.", "A") == Refusal.NO_NAME

    with NameServer("$ORIGIN t.\n" + TEXT, options=["--limit", "512"]) as server:
        asyncio.run(run(server.address, server.port))
        with Resolver([(server.address, server.port)]) as resolver:
            assert resolver.look_up_now("www.t.", "A") == resolver.look_up_now("www.t.", 1) == WWW
            with pytest.raises(RumstraitError, match="none.t. A: the name does not exist"):
                resolver.look_up_now("none.t.", "A")
