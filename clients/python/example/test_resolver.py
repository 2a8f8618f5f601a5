"""Tests of the resolver of this folder against a name server, with the fixture for pytest.

To run them: `NAMESERVER=.. PYTHONPATH=clients/python pytest clients/python/example`
"""
import pytest

from nameserver import UpdateError
from pytest_nameserver import nameserver, nameserver_of_session  # noqa: F401
from resolver import LookupFailed, look_up

ZONE = """
$ORIGIN example.com.
$TTL 60
@     SOA   ns hostmaster ( 1 1h 10m 1d 30 )
ns    A     10.0.0.53
www   A     10.0.0.1
web   CNAME www
"""
MANY = ZONE + "".join(f"many A 10.1.0.{number}\n" for number in range(1, 101))


def test_answers(nameserver):
    server = nameserver(ZONE)
    assert look_up("www.example.com", server.address, server.port) == ["10.0.0.1"]
    assert look_up("web.example.com", server.address, server.port) == ["10.0.0.1"]


def test_log(nameserver):
    """The log says what the resolver asked, and what it was told."""
    server = nameserver(ZONE)
    with pytest.raises(LookupFailed, match="code 3"):
        look_up("nothing.example.com", server.address, server.port)
    (request,) = server.wait_for_requests(1)
    assert (request.transport, request.name, request.type) == ("udp", "nothing.example.com.", "A")
    assert (request.code_name, request.answers, request.authorities) == ("NXDOMAIN", 0, 1)


def test_truncated_reply(nameserver):
    """A reply that does not fit a datagram is asked for again over a stream."""
    server = nameserver(MANY)
    assert len(look_up("many.example.com", server.address, server.port)) == 100
    assert [it.transport for it in server.wait_for_requests(2)] == ["udp", "tcp"]


def test_lost_replies(nameserver):
    """The third try is answered."""
    server = nameserver(ZONE, faults="www.example.com. A drop times 2")
    assert look_up("www.example.com", server.address, server.port) == ["10.0.0.1"]
    assert [it.fault for it in server.wait_for_requests(3)] == [1, 1, None]


def test_all_replies_lost(nameserver):
    server = nameserver(ZONE, faults="*.example.com. * drop")
    with pytest.raises(LookupFailed, match="no reply"):
        look_up("www.example.com", server.address, server.port, timeout=0.1)
    assert len(server.wait_for_requests(3)) == 3


@pytest.mark.parametrize("action", ["wrong-id", "wrong-question", "garbage 20", "garbage 1", "delay 2000"])
def test_bad_first_reply(nameserver, action):
    """A reply that is not the one to the question, or comes late, is not taken for it."""
    server = nameserver(ZONE, faults=f"www.example.com. A {action} times 1")
    assert look_up("www.example.com", server.address, server.port) == ["10.0.0.1"]
    assert [it.fault for it in server.wait_for_requests(2)] == [1, None]


def test_code(nameserver):
    server = nameserver(ZONE, faults="* * code SERVFAIL")
    with pytest.raises(LookupFailed, match="code 2"):
        look_up("www.example.com", server.address, server.port)


def test_truncation_and_closed_stream(nameserver):
    """The stream ends within the reply, so all is asked again."""
    server = nameserver(ZONE, faults="www.example.com. A truncate close 10 times 2")
    assert look_up("www.example.com", server.address, server.port) == ["10.0.0.1"]
    assert [(it.transport, it.fault) for it in server.wait_for_requests(3)] == [("udp", 1), ("tcp", 1), ("udp", None)]


def test_duplicate(nameserver):
    """A reply that comes twice is the reply to one question only."""
    server = nameserver(ZONE, faults="www.example.com. A duplicate")
    for name, addresses in (("www", ["10.0.0.1"]), ("ns", ["10.0.0.53"])):
        assert look_up(f"{name}.example.com", server.address, server.port) == addresses


def test_restart(nameserver):
    """Another zone at the same port."""
    server = nameserver(ZONE)
    port = server.port
    server.restart(zone=ZONE.replace("10.0.0.1\n", "10.0.0.2\n"))
    assert server.port == port
    assert look_up("www.example.com", server.address, port) == ["10.0.0.2"]


def test_update(nameserver):
    """A record that changes while the server runs."""
    server = nameserver(ZONE)
    server.update("swap www 60 A 10.0.0.1 -> 10.0.0.2")
    assert look_up("www.example.com", server.address, server.port) == ["10.0.0.2"]
    with pytest.raises(UpdateError, match="NXRRSET"):
        server.update("swap www 60 A 10.0.0.1 -> 10.0.0.3")
    server.update("update add new.example.com. 60 A 10.0.0.4\nupdate delete www.example.com.")
    assert server.wait_for_records("new.example.com", "A") == ["10.0.0.4"]
    with pytest.raises(LookupFailed, match="code 3"):
        look_up("www.example.com", server.address, server.port)


def test_unused_faults(nameserver):
    """A test of a fault can say that the fault came."""
    server = nameserver(ZONE, faults="www.example.com. A drop times 1\nwww.example.com. AAAA drop")
    assert look_up("www.example.com", server.address, server.port) == ["10.0.0.1"]
    assert server.wait_for(name="www.example.com.", code_name="NOERROR").fault is None
    assert server.unused_faults() == [(2, "www.example.com. AAAA drop")]


@pytest.fixture(scope="session")
def shared(nameserver_of_session):  # noqa: F811
    return nameserver_of_session(ZONE)


@pytest.mark.parametrize("name", ["www", "web"])
def test_server_of_session(shared, name):
    """One server for several tests."""
    assert look_up(f"{name}.example.com", shared.address, shared.port) == ["10.0.0.1"]
