//! A program that resolves names, tested against a zone in the same process.

use rumstrait::{
    encode_again, message_text, query, zone_fault, Data, Item, QueryOptions, Refusal, Transport,
    Update, Zone,
};

const TEXT: &str = "$TTL 60\n@ SOA ns h 1 3600 600 86400 30\nwww A 10.0.0.1\nwww A 10.0.0.2\n";

/// The addresses of a name of one label below `t.`, by whatever carries a query to a server.
fn addresses(label: &str, mut ask: impl FnMut(&[u8]) -> Option<Vec<u8>>) -> Vec<[u8; 4]> {
    let mut query = b"\x12\x34\x01\0\0\x01\0\0\0\0\0\0".to_vec();
    query.push(label.len() as u8);
    query.extend_from_slice(label.as_bytes());
    query.extend_from_slice(b"\x01t\0\0\x01\0\x01");
    let reply = ask(&query).unwrap();
    let count = usize::from(reply[7]);
    let records = &reply[reply.len() - 16 * count..];
    records.chunks(16).map(|it| it[12..].try_into().unwrap()).collect()
}

#[test]
fn a_name_has_its_addresses() {
    let mut zone = Zone::from_text(TEXT, "t.").unwrap();
    let found = addresses("www", |query| {
        zone.serve(query, Transport::Datagram { limit: 512 }).unwrap()
    });
    assert_eq!(found, [[10, 0, 0, 1], [10, 0, 0, 2]]);
}

#[test]
fn what_is_wrong_is_refused() {
    assert_eq!(Zone::from_text("www A 1", "t.").unwrap_err(), Refusal::InvalidZone);
    assert_eq!(Zone::from_text(TEXT, "a..b").unwrap_err(), Refusal::InvalidName);
    let mut zone = Zone::from_text(TEXT, "t.").unwrap();
    assert_eq!(zone.serve(b"", Transport::Stream), Ok(None));
    let limit = Transport::Datagram { limit: 511 };
    assert_eq!(zone.serve(b"", limit), Err(Refusal::InvalidLimit));
}

#[test]
fn a_fault_has_its_line() {
    let fault = zone_fault("$TTL 60\n@ SOA ns h 1 1 1 1 1\nwww A 1\n", "t.").unwrap().unwrap();
    assert_eq!(fault.line, Some(3));
    assert!(fault.sentence.contains("; "));
    assert_eq!(zone_fault("", "t.").unwrap().unwrap().line, None);
    assert_eq!(zone_fault(TEXT, "t."), Ok(None));
    assert_eq!(zone_fault(TEXT, "a..b"), Err(Refusal::InvalidName));
}

#[test]
fn a_zone_moves_to_a_thread() {
    let zone = Zone::from_text(TEXT, "t.").unwrap();
    let text = std::thread::spawn(move || { let mut zone = zone; zone.text() }).join().unwrap();
    assert!(text.unwrap().contains("www.t. 60 IN A 10.0.0.2\n"));
}

const PLAIN: QueryOptions = QueryOptions { recursion_desired: false, use_edns: false };

#[test]
fn a_query_is_made_and_answered() {
    let asked = query(0x1234, "www.t.", 1, PLAIN).unwrap();
    assert_eq!(asked, b"\x12\x34\0\0\0\x01\0\0\0\0\0\0\x03www\x01t\0\0\x01\0\x01");
    let mut zone = Zone::from_text(TEXT, "t.").unwrap();
    let reply = zone.serve(&asked, Transport::Datagram { limit: 512 }).unwrap().unwrap();
    assert!(message_text(&reply).unwrap().contains("10.0.0.2"));
    assert_eq!(encode_again(&reply), Ok(reply));
    assert_eq!(query(1, "a..b", 1, PLAIN), Err(Refusal::InvalidName));
    assert_eq!(message_text(b"no message"), Err(Refusal::InvalidMessage));
}

#[test]
fn an_update_is_made_and_taken_once() {
    let mut zone = Zone::from_text(TEXT, "t.").unwrap();
    let address = Data { name: "new.t.", record_type: 1, text: "10.0.0.3" };
    let mut update = Update::new("t").unwrap();
    update.add(Item::ForbidName("new.t.")).unwrap();
    update.add(Item::Add(address, 60)).unwrap();
    let request = update.to_bytes(7).unwrap();
    let mut code = || zone.serve(&request, Transport::Stream).unwrap().unwrap()[3] & 15;
    assert_eq!([code(), code()], [0, 6]);
    assert!(zone.text().unwrap().contains("new.t. 60 IN A 10.0.0.3\n"));
}

#[test]
fn each_item_is_added_or_refused() {
    let known = Data { name: "www.t.", record_type: 1, text: "10.0.0.1" };
    let other = Data { name: "www.t.", record_type: 1, text: "10.0.0.2" };
    let mut update = Update::new("t").unwrap();
    for item in [
        Item::RequireSet("www.t", 1),
        Item::RequireRecord(known),
        Item::RequireRecord(other),
        Item::ForbidSet("www.t", 28),
        Item::RequireName("www.t"),
        Item::ForbidName("new.t"),
        Item::DeleteSet("t", 15),
        Item::DeleteName("old.t"),
        Item::DeleteRecord(known),
    ] {
        update.add(item).unwrap();
    }
    let mut zone = Zone::from_text(TEXT, "t.").unwrap();
    let request = update.to_bytes(7).unwrap();
    assert_eq!(zone.serve(&request, Transport::Stream).unwrap().unwrap()[3] & 15, 0);
    assert!(!zone.text().unwrap().contains("10.0.0.1\n"));
    let wrong = Data { text: "ten", ..known };
    assert_eq!(update.add(Item::Add(wrong, 60)), Err(Refusal::InvalidData));
    assert_eq!(update.add(Item::DeleteName("a..b")), Err(Refusal::InvalidName));
    assert_eq!(update.to_bytes(7).unwrap(), request);
    assert_eq!(Update::new("a..b").err(), Some(Refusal::InvalidName));
}
