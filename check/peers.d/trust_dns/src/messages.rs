//! The operations on messages: a reply with an alias and its address, the start of authority and an OPT record, and replies with
//! one address and with ten.

use crate::opaque;
use std::error::Error;
use trust_dns_proto::op::Message;

/// The parts of the reply with an alias, as in repeated.rows.
const PARTS: [&[u8]; 7] = [
    b"\x00\x07\x85\x80\x00\x01\x00\x02\x00\x01\x00\x01",
    b"\x03www\x07example\x03com\x00\x00\x01\x00\x01",
    b"\xC0\x0C\x00\x05\x00\x01\x00\x00\x01\x2C\x00\x07\x04host\xC0\x10",
    b"\xC0\x2D\x00\x01\x00\x01\x00\x00\x01\x2C\x00\x04\xC0\x00\x02\x01",
    b"\xC0\x10\x00\x06\x00\x01\x00\x00\x0E\x10\x00\x26\x02ns\xC0\x10\x0Ahostmaster\xC0\x10",
    b"\x00\x00\x00\x01\x00\x00\x0E\x10\x00\x00\x02\x58\x00\x01\x51\x80\x00\x00\x01\x2C",
    b"\x00\x00\x29\x04\xD0\x00\x00\x00\x00\x00\x00",
];

/// The header of a reply with addresses up to the number of its answers; the rest of its header, and its question; and an address up
/// to its last byte.
const START: &[u8] = b"\x00\x07\x85\x80\x00\x01\x00";
const QUESTION: &[u8] = b"\x00\x00\x00\x00\x03www\x07example\x03com\x00\x00\x01\x00\x01";
const ADDRESS: &[u8] = b"\xC0\x0C\x00\x01\x00\x01\x00\x00\x01\x2C\x00\x04\xC0\x00\x02";

pub fn read(count: u64, what: &str) -> Result<u64, Box<dyn Error>> {
    let bytes = reply(what);
    let mut checksum = 0_u64;
    for _ in 0..count {
        checksum += sum_of(&Message::from_vec(&bytes)?);
    }
    Ok(checksum)
}

pub fn write(count: u64, what: &str) -> Result<u64, Box<dyn Error>> {
    let message = Message::from_vec(&reply(what))?;
    let mut checksum = 0_u64;
    for _ in 0..count {
        checksum += message.to_vec()?.len() as u64;
    }
    Ok(checksum)
}

pub fn clone(count: u64, what: &str) -> Result<u64, Box<dyn Error>> {
    let message = Message::from_vec(&reply(what))?;
    let mut checksum = 0_u64;
    for _ in 0..count {
        checksum += sum_of(opaque(&message.clone()));
    }
    Ok(checksum)
}

/// The reply that an operation is about, by the end of its name: ten addresses, one, or the alias.
fn reply(what: &str) -> Vec<u8> {
    let count = match what.rsplit('-').next() {
        Some("ten") => 10,
        Some("one") => 1,
        _ => return PARTS.concat(),
    };
    let mut bytes = [START, &[count], QUESTION].concat();
    for number in 0..count {
        bytes.extend_from_slice(ADDRESS);
        bytes.push(number);
    }
    bytes
}

/// The sum of the number of questions and records, and the payload size.
fn sum_of(message: &Message) -> u64 {
    let records = message.answers().len() + message.queries().len() + message.name_servers().len();
    records as u64 + u64::from(message.max_payload())
}
