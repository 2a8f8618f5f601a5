"""The examples of the package, and each error."""
import pytest

from rumstrait import Refusal, RumstraitError, Transport, Zone

TEXT = "$TTL 60\n@ SOA ns h 1 3600 600 86400 30\nwww A 10.0.0.1\n"
QUERY = bytes.fromhex("123401000001000000000000") + b"\3www\1t\0\0\1\0\1"


def test_a_query_has_its_answer(zone):
    reply = zone(TEXT, "t.").serve(QUERY)
    assert reply[:2] == QUERY[:2] and reply[-4:] == bytes([10, 0, 0, 1])


def test_a_response_has_no_reply(zone):
    served = zone(TEXT, origin="t.")
    assert served.serve(served.serve(QUERY)) is None
    assert served.serve(b"") is None


def test_a_zone_is_the_one_of_its_text(zone):
    text = zone(TEXT, "t.").text()
    assert "www.t. 60 IN A 10.0.0.1\n" in text
    assert zone(text).text() == text


@pytest.mark.parametrize(
    "text, origin, refusal",
    [
        (b"\xff", "t.", Refusal.INVALID_ENCODING),
        (TEXT, "a..b", Refusal.INVALID_NAME),
        ("www A 10.0.0.1", "t.", Refusal.INVALID_ZONE),
    ],
)
def test_what_is_no_zone_is_refused(text, origin, refusal):
    with pytest.raises(RumstraitError) as raised:
        Zone.from_text(text, origin)
    assert raised.value.refusal == refusal


@pytest.mark.parametrize("added, line", [("", None), ("@ SOA ns h 1 1 1 1 1\nwww A 1\n", 3)])
def test_a_fault_has_its_line(added, line):
    with pytest.raises(RumstraitError) as raised:
        Zone.from_text("$TTL 60\n" + added, "t.")
    assert raised.value.line == line
    assert str(raised.value).startswith(f"line {line}: " if line else "no SOA record at the zone's origin; ")


@pytest.mark.parametrize("limit", [0, 511, 65_536])
def test_a_limit_is_refused(zone, limit):
    with pytest.raises(RumstraitError) as raised:
        zone(TEXT, "t.").serve(QUERY, Transport.DATAGRAM, limit)
    assert raised.value.refusal == Refusal.INVALID_LIMIT


def test_a_zone_that_is_closed_is_not_used():
    with Zone.from_text(TEXT, "t.") as zone:
        pass
    with pytest.raises(ValueError):
        zone.text()
