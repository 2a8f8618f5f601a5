"""Messages and updates, and each error."""
import pytest

from rumstrait import Message, Refusal, RumstraitError, Transport, Update

TEXT = "$TTL 60\n@ SOA ns h 1 3600 600 86400 30\nwww A 10.0.0.1\n"
QUERY = bytes.fromhex("123400000001000000000000") + b"\3www\1t\0\0\1\0\1"
NOERROR, YXDOMAIN = 0, 6


def test_a_query_has_its_bytes():
    query = Message.query("www.t.", "A", id=0x1234, recursion_desired=False, use_edns=False)
    assert query.to_wire() == QUERY and query == Message(QUERY)
    assert Message.query("t", "TYPE257", id=1).to_wire() == Message.query("t.", 257, id=1).to_wire()


def test_a_reply_has_the_text_of_dig(zone):
    reply = Message(zone(TEXT, "t.").serve(QUERY))
    assert ";; ANSWER SECTION:\nwww.t. 60 IN A 10.0.0.1\n" in str(reply)
    assert reply.encoded() == reply.to_wire()


def test_an_update_is_taken_once(zone):
    served = zone(TEXT, "t.")
    update = Update("t.").forbid_name("new.t.").add("new.t.", 60, "A", "10.0.0.3").add("t.", 30, "MX", "10 new")
    request = update.message(id=7).to_wire()
    assert [served.serve(request, Transport.STREAM)[3] & 15 for _ in range(2)] == [NOERROR, YXDOMAIN]
    assert "new.t. 60 IN A 10.0.0.3\n" in served.text() and "t. 30 IN MX 10 new.t.\n" in served.text()


def test_an_update_has_each_item(zone):
    update = Update("t").require_name("www.t").require_set("www.t", "A").require_record("www.t", 1, "10.0.0.1")
    update.forbid_set("www.t", "AAAA").delete_record("www.t", "A", "10.0.0.1").add("www.t", 5, "CAA", '0 issue "a"')
    update.delete_set("t", "MX").delete_name("other.t")
    served = zone(TEXT, "t.")
    assert served.serve(update.message().to_wire(), Transport.STREAM)[3] & 15 == NOERROR
    assert "10.0.0.1" not in served.text() and "www.t. 5 IN CAA" in str(update.message())


def test_ids_are_random():
    assert len({Message.query("t.", "SOA").to_wire()[:2] for _ in range(100)}) > 50


@pytest.mark.parametrize(
    "make, refusal",
    [
        (lambda: Message(b"no message"), Refusal.INVALID_MESSAGE),
        (lambda: Message.query("a..b", "A"), Refusal.INVALID_NAME),
        (lambda: Update("a..b"), Refusal.INVALID_NAME),
        (lambda: Update("t.").delete_name("a..b"), Refusal.INVALID_NAME),
        (lambda: Update("t.").add("new.t.", 60, "A", "ten"), Refusal.INVALID_DATA),
        (lambda: Update("t.").delete_set("t.", 41).message(), Refusal.INVALID_UPDATE),
    ],
)
def test_what_is_wrong_is_refused(make, refusal):
    with pytest.raises(RumstraitError) as raised:
        make()
    assert raised.value.refusal == refusal


@pytest.mark.parametrize(
    "make",
    [
        lambda: Message.query("t.", -1),
        lambda: Message.query("t.", 65_536),
        lambda: Message.query("t.", "NONE"),
        lambda: Message.query("t.", "A", id=65_536),
        lambda: Update("t.").add("t.", -1, "A", "10.0.0.1"),
        lambda: Update("t.").add("t.", 1 << 32, "A", "10.0.0.1"),
    ],
)
def test_numbers_have_their_bits(make):
    with pytest.raises(ValueError):
        make()
