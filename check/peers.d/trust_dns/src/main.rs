//! `trust_dns_bench WHAT COUNT`: repeats a call of the rows of repeated.rows on the same inputs, by trust-dns, and prints the same
//! checksum.

mod data;
mod messages;
mod names;

use std::error::Error;

fn main() -> Result<(), Box<dyn Error>> {
    let words: Vec<String> = std::env::args().skip(1).collect();
    let (what, count) = match words.as_slice() {
        [what, count] => (what.as_str(), count.parse()?),
        _ => return Err("usage: trust_dns_bench WHAT COUNT".into()),
    };
    let checksum = repeat(what, count)?;
    println!("{what} {checksum}");
    Ok(())
}

/// Repeats an operation so often, and returns its checksum.
fn repeat(what: &str, count: u64) -> Result<u64, Box<dyn Error>> {
    match what {
        "name-read" => names::read(count),
        "name-write" => names::write(count),
        "name-parse" => names::parse(count),
        "name-print" => names::print(count),
        "name-compare" => names::compare(count),
        "name-clone" => names::clone(count),
        "data-read" => data::read(count),
        "data-write" => data::write(count),
        "data-print" => data::print(count),
        "message-read" | "message-read-one" | "message-read-ten" => messages::read(count, what),
        "message-write" | "message-write-one" | "message-write-ten" => messages::write(count, what),
        "message-clone" | "message-clone-one" | "message-clone-ten" => messages::clone(count, what),
        _ => Err("no such operation".into()),
    }
}

/// A value of which the compiler cannot know that it is this one, as `std::hint::black_box` of later compilers.
fn opaque<T>(value: &T) -> &T {
    // A reference may be read, and is copied.
    unsafe { std::ptr::read_volatile(&value) }
}
