//! The operations on names.

use crate::opaque;
use std::error::Error;
use trust_dns_proto::rr::Name;
use trust_dns_proto::serialize::binary::{BinDecodable, BinDecoder, BinEncodable, BinEncoder};

/// Two names of four labels, equal up to ASCII case.
const TEXTS: [&str; 2] = ["Host.www.example.com.", "host.WWW.Example.com."];

/// The names of a message: a question, and what answers it.
const MESSAGE: [&str; 10] = [
    "example.com.",
    "example.com.",
    "mail.example.com.",
    "example.com.",
    "www.example.com.",
    "www.example.com.",
    "web.example.com.",
    "ns1.example.net.",
    "ns2.example.net.",
    "ns1.example.net.",
];

/// The names of four labels at 21 and 25, each over three pointers.
const BYTES: &[u8; 29] = b"\x03com\x00\x07example\xC0\x00\x03www\xC0\x05\x01a\xC0\x0F\x01b\xC0\x0F";

pub fn read(count: u64) -> Result<u64, Box<dyn Error>> {
    let mut checksum = 0_u64;
    for turn in 0..count {
        let place = if turn % 2 == 0 { 21 } else { 25 };
        let mut decoder = BinDecoder::new(BYTES).clone(place);
        let name = Name::read(&mut decoder)?;
        checksum += name.len() as u64 + decoder.index() as u64;
    }
    Ok(checksum)
}

pub fn write(count: u64) -> Result<u64, Box<dyn Error>> {
    let names = MESSAGE
        .iter()
        .map(|text| Name::from_ascii(text))
        .collect::<Result<Vec<Name>, _>>()?;
    let mut checksum = 0_u64;
    let mut buffer = Vec::new();
    for _ in 0..count {
        buffer.clear();
        let mut encoder = BinEncoder::new(&mut buffer);
        for name in &names {
            name.emit(&mut encoder)?;
        }
        checksum += buffer.len() as u64;
    }
    Ok(checksum)
}

pub fn parse(count: u64) -> Result<u64, Box<dyn Error>> {
    let mut checksum = 0_u64;
    for turn in 0..count {
        checksum += Name::from_ascii(TEXTS[(turn % 2) as usize])?.len() as u64;
    }
    Ok(checksum)
}

pub fn print(count: u64) -> Result<u64, Box<dyn Error>> {
    let names = two_names()?;
    let mut checksum = 0_u64;
    for turn in 0..count {
        checksum += names[(turn % 2) as usize].to_ascii().len() as u64;
    }
    Ok(checksum)
}

pub fn compare(count: u64) -> Result<u64, Box<dyn Error>> {
    let names = two_names()?;
    let mut checksum = 0_u64;
    for turn in 0..count {
        let (one, other) = (&names[(turn % 2) as usize], &names[((turn + 1) % 2) as usize]);
        checksum += u64::from(opaque(one) == opaque(other));
    }
    Ok(checksum)
}

pub fn clone(count: u64) -> Result<u64, Box<dyn Error>> {
    let names = two_names()?;
    let mut checksum = 0_u64;
    for turn in 0..count {
        checksum += opaque(&names[(turn % 2) as usize].clone()).len() as u64;
    }
    Ok(checksum)
}

fn two_names() -> Result<[Name; 2], Box<dyn Error>> {
    Ok([Name::from_ascii(TEXTS[0])?, Name::from_ascii(TEXTS[1])?])
}
