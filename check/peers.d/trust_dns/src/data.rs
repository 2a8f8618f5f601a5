//! The operations on record data: an SOA, an MX, an SRV record, and a text of two strings, one after another.

use std::error::Error;
use trust_dns_proto::rr::rdata::{MX, SOA, SRV, TXT};
use trust_dns_proto::rr::{Name, RData, RecordType};
use trust_dns_proto::serialize::binary::{BinDecoder, BinEncoder, Restrict};

/// The data.
fn items() -> Result<Vec<RData>, Box<dyn Error>> {
    let name = |text: &str| Name::from_ascii(text);
    Ok(vec![
        RData::SOA(SOA::new(
            name("ns.example.com.")?,
            name("host.example.com.")?,
            1,
            3600,
            600,
            86400,
            300,
        )),
        RData::MX(MX::new(10, name("mail.example.com.")?)),
        RData::SRV(SRV::new(1, 2, 5060, name("sip.example.com.")?)),
        RData::TXT(TXT::new(vec!["v=spf1 -all".into(), "second".into()])),
    ])
}

/// The bytes of an item, and its type.
fn encoded(item: &RData) -> Result<(RecordType, Vec<u8>), Box<dyn Error>> {
    let mut bytes = Vec::new();
    item.emit(&mut BinEncoder::new(&mut bytes))?;
    Ok((item.to_record_type(), bytes))
}

pub fn read(count: u64) -> Result<u64, Box<dyn Error>> {
    let encodings = items()?.iter().map(encoded).collect::<Result<Vec<_>, _>>()?;
    let mut checksum = 0_u64;
    for _ in 0..count {
        for (record_type, bytes) in &encodings {
            let mut decoder = BinDecoder::new(bytes);
            let len = Restrict::new(bytes.len() as u16);
            let rdata = RData::read(&mut decoder, *record_type, len)?;
            checksum += u64::from(u16::from(rdata.to_record_type())) + decoder.index() as u64;
        }
    }
    Ok(checksum)
}

pub fn write(count: u64) -> Result<u64, Box<dyn Error>> {
    let items = items()?;
    let mut checksum = 0_u64;
    let mut buffer = Vec::new();
    for _ in 0..count {
        buffer.clear();
        let mut encoder = BinEncoder::new(&mut buffer);
        for item in &items {
            item.emit(&mut encoder)?;
        }
        checksum += buffer.len() as u64;
    }
    Ok(checksum)
}

pub fn print(count: u64) -> Result<u64, Box<dyn Error>> {
    let items = items()?;
    let mut checksum = 0_u64;
    for _ in 0..count {
        for item in &items {
            checksum += item.to_string().len() as u64;
        }
    }
    Ok(checksum)
}
