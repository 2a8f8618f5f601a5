//! DNS zones, served in process: bytes of a request in, bytes of its reply out; and messages as text, queries and updates.
//!
//! Requests and replies are messages in wire format, as [`hickory_proto`](https://docs.rs/hickory-proto)'s
//! `Message::to_vec` and `domain`'s builders make them, without the length that precedes a message in a stream.
//!
//! ```
//! use rumstrait::{Transport, Zone};
//!
//! let text = "$TTL 60\n@ SOA ns h 1 3600 600 86400 30\nwww A 10.0.0.1\n";
//! let mut zone = Zone::from_text(text, "t.")?;
//! let query = b"\x12\x34\x01\0\0\x01\0\0\0\0\0\0\x03www\x01t\0\0\x01\0\x01";
//! let reply = zone.serve(query, Transport::Datagram { limit: 1232 })?.unwrap();
//! assert_eq!(reply[reply.len() - 4..], [10, 0, 0, 1]);
//! # Ok::<(), rumstrait::Refusal>(())
//! ```
#![deny(missing_docs)]

use std::fmt;
use std::ptr::NonNull;

/// What the library exports, as `rumstrait.h` declares it.
mod ffi {
    #[repr(C)]
    pub struct Zone {
        _opaque: [u8; 0],
    }

    #[repr(C)]
    pub struct Update {
        _opaque: [u8; 0],
    }

    extern "C" {
        pub fn rumstrait_zone_new(
            text: *const u8,
            text_len: usize,
            origin: *const u8,
            origin_len: usize,
            out: *mut *mut Zone,
        ) -> i32;
        pub fn rumstrait_zone_fault(
            text: *const u8,
            text_len: usize,
            origin: *const u8,
            origin_len: usize,
            line: *mut usize,
            out: *mut u8,
            room: usize,
            len: *mut usize,
        ) -> i32;
        pub fn rumstrait_zone_serve(
            zone: *mut Zone,
            transport: u32,
            limit: u16,
            request: *const u8,
            request_len: usize,
            out: *mut u8,
            room: usize,
            len: *mut usize,
        ) -> i32;
        pub fn rumstrait_zone_text(
            zone: *mut Zone,
            out: *mut u8,
            room: usize,
            len: *mut usize,
        ) -> i32;
        pub fn rumstrait_zone_free(zone: *mut Zone);
        pub fn rumstrait_message_text(
            message: *const u8,
            message_len: usize,
            out: *mut u8,
            room: usize,
            len: *mut usize,
        ) -> i32;
        pub fn rumstrait_message_encode(
            message: *const u8,
            message_len: usize,
            out: *mut u8,
            room: usize,
            len: *mut usize,
        ) -> i32;
        pub fn rumstrait_question(
            id: u16,
            name: *const u8,
            name_len: usize,
            query_type: u16,
            recursion_desired: bool,
            use_edns: bool,
            out: *mut u8,
            room: usize,
            len: *mut usize,
        ) -> i32;
        pub fn rumstrait_update_new(zone: *const u8, zone_len: usize, out: *mut *mut Update)
            -> i32;
        pub fn rumstrait_update_item(
            update: *mut Update,
            item: u32,
            name: *const u8,
            name_len: usize,
            record_type: u16,
            ttl: u32,
            data: *const u8,
            data_len: usize,
        ) -> i32;
        pub fn rumstrait_update_bytes(
            update: *mut Update,
            id: u16,
            out: *mut u8,
            room: usize,
            len: *mut usize,
        ) -> i32;
        pub fn rumstrait_update_free(update: *mut Update);
    }
}

/// Why a call is refused.
#[derive(Clone, Copy, Debug, PartialEq, Eq)]
#[non_exhaustive]
pub enum Refusal {
    /// Memory was refused.
    OutOfMemory,
    /// The maximum size of a datagram is below 512 bytes (RFC 1035 section 4.2.1).
    InvalidLimit,
    /// A text is not UTF-8.
    InvalidEncoding,
    /// A text is no domain name (RFC 1035 section 2.3.4).
    InvalidName,
    /// A text is not the zone file of a zone.
    InvalidZone,
    /// Bytes are no message.
    InvalidMessage,
    /// A message would have more than 65,535 bytes.
    TooLong,
    /// An update has an item that no message can have, such as one of the type `OPT`.
    InvalidUpdate,
    /// A text is not record data of the type.
    InvalidData,
    /// A code that this version of the wrapper does not know.
    Other(i32),
}

impl Refusal {
    fn of_code(code: i32) -> Refusal {
        match code {
            3 => Refusal::OutOfMemory,
            6 => Refusal::InvalidLimit,
            7 => Refusal::InvalidEncoding,
            8 => Refusal::InvalidName,
            9 => Refusal::InvalidZone,
            10 => Refusal::InvalidMessage,
            11 => Refusal::TooLong,
            12 => Refusal::InvalidUpdate,
            14 => Refusal::InvalidData,
            other => Refusal::Other(other),
        }
    }
}

impl fmt::Display for Refusal {
    fn fmt(&self, f: &mut fmt::Formatter<'_>) -> fmt::Result {
        match self {
            Refusal::OutOfMemory => f.write_str("out of memory"),
            Refusal::InvalidLimit => f.write_str("a limit of less than 512 bytes"),
            Refusal::InvalidEncoding => f.write_str("the text is not UTF-8"),
            Refusal::InvalidName => f.write_str("no domain name"),
            Refusal::InvalidZone => f.write_str("not the zone file of a zone"),
            Refusal::InvalidMessage => f.write_str("not a message"),
            Refusal::TooLong => f.write_str("a message of more than 65,535 bytes"),
            Refusal::InvalidUpdate => f.write_str("an item that no message can have"),
            Refusal::InvalidData => f.write_str("not record data of the type"),
            Refusal::Other(code) => write!(f, "code {code}"),
        }
    }
}

impl std::error::Error for Refusal {}

/// How a request arrived.
#[derive(Clone, Copy, Debug, PartialEq, Eq)]
pub enum Transport {
    /// A datagram. `limit` is the maximum size of a reply, at least 512 bytes.
    Datagram {
        /// The maximum size of a reply, in bytes.
        limit: u16,
    },
    /// A stream. Messages come and go without the two bytes of their length (RFC 1035 section 4.2.2).
    Stream,
}

/// The code of a call for which there is no reply.
const NO_REPLY: i32 = 1;
/// The code of a call whose buffer is too small.
const TOO_SMALL: i32 = 2;
/// The room of the first call. A reply to a datagram of the usual size fits it.
const FIRST_ROOM: usize = 1232;

/// A zone, and the server of it (RFC 1034, RFC 2136).
#[derive(Debug)]
pub struct Zone {
    handle: NonNull<ffi::Zone>,
}

// SAFETY: the zone behind the handle is owned by it alone, and nothing in it belongs to a thread.
unsafe impl Send for Zone {}

impl Zone {
    /// Makes a zone of a zone file (RFC 1035 section 5.1). The origin completes relative names and is the zone's. If it is
    /// empty, relative names end at the root, and the origin is the owner of the first SOA record.
    pub fn from_text(text: &str, origin: &str) -> Result<Zone, Refusal> {
        let mut handle = std::ptr::null_mut();
        // SAFETY: the slices are valid, and `handle` is written.
        let code = unsafe {
            ffi::rumstrait_zone_new(
                text.as_ptr(),
                text.len(),
                origin.as_ptr(),
                origin.len(),
                &mut handle,
            )
        };
        match NonNull::new(handle) {
            Some(handle) if code == 0 => Ok(Zone { handle }),
            _ => Err(Refusal::of_code(code)),
        }
    }

    /// Serves a request, and returns its reply, or `None` if the bytes do not decode or are a response. An update changes the
    /// zone if the response code of its reply is NOERROR.
    pub fn serve(
        &mut self,
        request: &[u8],
        transport: Transport,
    ) -> Result<Option<Vec<u8>>, Refusal> {
        let (number, limit) = match transport {
            Transport::Datagram { limit } => (0, limit),
            Transport::Stream => (1, 0),
        };
        // SAFETY: the handle is live, `&mut self` gives it to this call alone, and the slices are valid and apart.
        bytes_of(|out, room, len| unsafe {
            ffi::rumstrait_zone_serve(
                self.handle.as_ptr(),
                number,
                limit,
                request.as_ptr(),
                request.len(),
                out,
                room,
                len,
            )
        })
    }

    /// Returns the zone as a zone file, with each record on a line.
    pub fn text(&mut self) -> Result<String, Refusal> {
        // SAFETY: as for `serve`.
        let text = bytes_of(|out, room, len| unsafe {
            ffi::rumstrait_zone_text(self.handle.as_ptr(), out, room, len)
        })?;
        String::from_utf8(text.unwrap_or_default()).map_err(|_| Refusal::InvalidEncoding)
    }
}

impl Drop for Zone {
    fn drop(&mut self) {
        // SAFETY: the handle is live, and is not used after this.
        unsafe { ffi::rumstrait_zone_free(self.handle.as_ptr()) }
    }
}

/// What is wrong in a text that is not the zone file of a zone.
#[derive(Clone, Debug, PartialEq, Eq)]
pub struct ZoneFault {
    /// The line of the fault, from 1, or `None` if it is of no line, such as a missing SOA record.
    pub line: Option<usize>,
    /// A sentence on the fault.
    pub sentence: String,
}

/// Returns the first fault of a text that [`Zone::from_text`] refuses with [`Refusal::InvalidZone`], or `None` if nothing is
/// wrong.
pub fn zone_fault(text: &str, origin: &str) -> Result<Option<ZoneFault>, Refusal> {
    let mut line = 0;
    // SAFETY: the slices are valid and apart, and `line` is written.
    let found = bytes_of(|out, room, len| unsafe {
        ffi::rumstrait_zone_fault(
            text.as_ptr(),
            text.len(),
            origin.as_ptr(),
            origin.len(),
            &mut line,
            out,
            room,
            len,
        )
    })?;
    let sentence = String::from_utf8(found.unwrap_or_default()).map_err(|_| Refusal::InvalidEncoding)?;
    let line = (line > 0).then_some(line);
    Ok((!sentence.is_empty()).then(|| ZoneFault { line, sentence }))
}

/// Returns a message in the layout of dig: its header, its OPT record, and the records of its sections.
pub fn message_text(message: &[u8]) -> Result<String, Refusal> {
    // SAFETY: the slices are valid and apart.
    let text = bytes_of(|out, room, len| unsafe {
        ffi::rumstrait_message_text(message.as_ptr(), message.len(), out, room, len)
    })?;
    String::from_utf8(text.unwrap_or_default()).map_err(|_| Refusal::InvalidEncoding)
}

/// Decodes a message, and returns the bytes that it is encoded as, with names compressed (RFC 1035 section 4.1.4). Records that
/// would pass 65,535 bytes are left out.
pub fn encode_again(message: &[u8]) -> Result<Vec<u8>, Refusal> {
    // SAFETY: the slices are valid and apart.
    let bytes = bytes_of(|out, room, len| unsafe {
        ffi::rumstrait_message_encode(message.as_ptr(), message.len(), out, room, len)
    })?;
    Ok(bytes.unwrap_or_default())
}

/// What a query asks for beside its name and its type.
#[derive(Clone, Copy, Debug, Default, PartialEq, Eq)]
pub struct QueryOptions {
    /// The bit RD (RFC 1035 section 4.1.1).
    pub recursion_desired: bool,
    /// Whether the query has an OPT record (RFC 6891), which offers 1,232 bytes.
    pub use_edns: bool,
}

/// Makes a query for the records of a name and a type, by its number, in the class `IN`.
pub fn query(
    id: u16,
    name: &str,
    query_type: u16,
    options: QueryOptions,
) -> Result<Vec<u8>, Refusal> {
    // SAFETY: the slices are valid and apart.
    let bytes = bytes_of(|out, room, len| unsafe {
        ffi::rumstrait_question(
            id,
            name.as_ptr(),
            name.len(),
            query_type,
            options.recursion_desired,
            options.use_edns,
            out,
            room,
            len,
        )
    })?;
    Ok(bytes.unwrap_or_default())
}

/// A record with data: of an update, or that an update requires.
#[derive(Clone, Copy, Debug, PartialEq, Eq)]
pub struct Data<'a> {
    /// The owner.
    pub name: &'a str,
    /// The number of the type.
    pub record_type: u16,
    /// The data as in a zone file, such as `10 mail`. Its relative names end in the zone's name.
    pub text: &'a str,
}

/// A prerequisite (RFC 2136 section 2.4) or a change (section 2.5) of an update.
#[derive(Clone, Copy, Debug, PartialEq, Eq)]
pub enum Item<'a> {
    /// The name has records of the type, else the server answers NXRRSET.
    RequireSet(&'a str, u16),
    /// The name has exactly the records of the type that are required, else the server answers NXRRSET.
    RequireRecord(Data<'a>),
    /// The name has no records of the type, else the server answers YXRRSET.
    ForbidSet(&'a str, u16),
    /// The name has records, else the server answers NXDOMAIN.
    RequireName(&'a str),
    /// The name has no records, else the server answers YXDOMAIN.
    ForbidName(&'a str),
    /// The record is added, with a TTL in seconds.
    Add(Data<'a>, u32),
    /// The records of the name and the type are deleted.
    DeleteSet(&'a str, u16),
    /// All records of the name are deleted.
    DeleteName(&'a str),
    /// The record is deleted.
    DeleteRecord(Data<'a>),
}

impl<'a> Item<'a> {
    /// The number of an item, and what it has: name, type, TTL and data.
    fn parts(self) -> (u32, &'a str, u16, u32, &'a str) {
        match self {
            Item::RequireSet(name, record_type) => (1, name, record_type, 0, ""),
            Item::RequireRecord(it) => (2, it.name, it.record_type, 0, it.text),
            Item::ForbidSet(name, record_type) => (3, name, record_type, 0, ""),
            Item::RequireName(name) => (4, name, ANY, 0, ""),
            Item::ForbidName(name) => (5, name, ANY, 0, ""),
            Item::Add(it, ttl) => (11, it.name, it.record_type, ttl, it.text),
            Item::DeleteSet(name, record_type) => (12, name, record_type, 0, ""),
            Item::DeleteName(name) => (13, name, ANY, 0, ""),
            Item::DeleteRecord(it) => (14, it.name, it.record_type, 0, it.text),
        }
    }
}

/// The type that an item of a name alone has, and which the library ignores (RFC 1035 section 3.2.3).
const ANY: u16 = 255;

/// An update of a zone (RFC 2136): prerequisites, all of which must hold, and changes, which are made in their order.
///
/// ```
/// use rumstrait::{Data, Item, Update};
///
/// let address = Data { name: "www.t.", record_type: 1, text: "10.0.0.1" };
/// let mut update = Update::new("t.")?;
/// update.add(Item::ForbidName("www.t."))?;
/// update.add(Item::Add(address, 60))?;
/// let request = update.to_bytes(7)?;
/// # Ok::<(), rumstrait::Refusal>(())
/// ```
#[derive(Debug)]
pub struct Update {
    handle: NonNull<ffi::Update>,
}

// SAFETY: the update behind the handle is owned by it alone, and nothing in it belongs to a thread.
unsafe impl Send for Update {}

impl Update {
    /// Makes an update of the zone with a name, of the class `IN`, without prerequisites and changes.
    pub fn new(zone: &str) -> Result<Update, Refusal> {
        let mut handle = std::ptr::null_mut();
        // SAFETY: the slice is valid, and `handle` is written.
        let code = unsafe { ffi::rumstrait_update_new(zone.as_ptr(), zone.len(), &mut handle) };
        match NonNull::new(handle) {
            Some(handle) if code == 0 => Ok(Update { handle }),
            _ => Err(Refusal::of_code(code)),
        }
    }

    /// Adds a prerequisite or a change. After a refusal the update is as it was.
    pub fn add(&mut self, item: Item) -> Result<(), Refusal> {
        let (number, name, record_type, ttl, text) = item.parts();
        // SAFETY: the handle is live, `&mut self` gives it to this call alone, and the slices are valid.
        let code = unsafe {
            ffi::rumstrait_update_item(
                self.handle.as_ptr(),
                number,
                name.as_ptr(),
                name.len(),
                record_type,
                ttl,
                text.as_ptr(),
                text.len(),
            )
        };
        if code == 0 {
            Ok(())
        } else {
            Err(Refusal::of_code(code))
        }
    }

    /// Returns the message of the update, with an id.
    pub fn to_bytes(&mut self, id: u16) -> Result<Vec<u8>, Refusal> {
        // SAFETY: as for `add`.
        let bytes = bytes_of(|out, room, len| unsafe {
            ffi::rumstrait_update_bytes(self.handle.as_ptr(), id, out, room, len)
        })?;
        Ok(bytes.unwrap_or_default())
    }
}

impl Drop for Update {
    fn drop(&mut self) {
        // SAFETY: the handle is live, and is not used after this.
        unsafe { ffi::rumstrait_update_free(self.handle.as_ptr()) }
    }
}

/// Calls a function with as much room as it needs for the bytes that it writes, and returns them, or `None` for no reply.
fn bytes_of(
    mut call: impl FnMut(*mut u8, usize, *mut usize) -> i32,
) -> Result<Option<Vec<u8>>, Refusal> {
    let mut out = vec![0; FIRST_ROOM];
    loop {
        let mut len = 0;
        match call(out.as_mut_ptr(), out.len(), &mut len) {
            0 => {
                out.truncate(len);
                return Ok(Some(out));
            }
            NO_REPLY => return Ok(None),
            TOO_SMALL => out.resize(len, 0),
            code => return Err(Refusal::of_code(code)),
        }
    }
}
