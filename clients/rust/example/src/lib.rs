//! A small resolver, as the code that the example tests: it asks one server for the addresses of a name.

use std::io::{self, ErrorKind};
use std::net::{Ipv4Addr, SocketAddr, UdpSocket};
use std::time::Duration;

/// Returns the IPv4 addresses of a name, in their order.
///
/// It fails if the server sends no reply within a second, or one with a code other than NOERROR.
pub fn addresses(name: &str, server: SocketAddr) -> io::Result<Vec<Ipv4Addr>> {
    let query = query(name);
    let socket = UdpSocket::bind((Ipv4Addr::UNSPECIFIED, 0))?;
    socket.set_read_timeout(Some(Duration::from_secs(1)))?;
    socket.connect(server)?;
    socket.send(&query)?;
    let mut buffer = [0; 512];
    loop {
        let reply = socket.recv(&mut buffer).map(|len| &buffer[..len])?;
        // The id and the question are those of the query (RFC 5452 section 9.1).
        if reply.get(..2) == query.get(..2) && reply.get(12..query.len()) == query.get(12..) {
            return addresses_in(reply, query.len()).ok_or_else(|| ErrorKind::InvalidData.into());
        }
    }
}

/// A query for the IPv4 addresses of a name (RFC 1035 section 4.1).
fn query(name: &str) -> Vec<u8> {
    let id = std::process::id().to_be_bytes();
    let mut bytes = vec![id[2], id[3], 1, 0, 0, 1, 0, 0, 0, 0, 0, 0];
    for label in name.trim_end_matches('.').split('.') {
        bytes.push(label.len() as u8);
        bytes.extend(label.as_bytes());
    }
    bytes.extend([0, 0, 1, 0, 1]);
    bytes
}

/// The addresses in the answers of a reply with the code NOERROR, which begin at a place.
fn addresses_in(reply: &[u8], mut at: usize) -> Option<Vec<Ipv4Addr>> {
    let mut found = Vec::new();
    if reply[3] & 15 != 0 {
        return None;
    }
    for _ in 0..u16::from_be_bytes([reply[6], reply[7]]) {
        at = after_name(reply, at)?;
        let head = reply.get(at..at + 10)?;
        let end = at + 10 + usize::from(u16::from_be_bytes([head[8], head[9]]));
        let data = reply.get(at + 10..end)?;
        if head[..2] == [0, 1] {
            found.push(<[u8; 4]>::try_from(data).ok()?.into());
        }
        at = end;
    }
    Some(found)
}

/// The place after a name, whose end may be compressed (RFC 1035 section 4.1.4).
fn after_name(reply: &[u8], mut at: usize) -> Option<usize> {
    loop {
        match *reply.get(at)? {
            0 => return Some(at + 1),
            192.. => return Some(at + 2),
            len => at += 1 + usize::from(len),
        }
    }
}
