//! Prints the public symbols of a program database: their addresses in the image, and their names.
//!
//!     cd rust && cargo run --example publics -- ../examples/sample.pdb
//!
//! The records of symbols are read here; the library moves their places to addresses.

use std::error::Error;

use pdb_container::{Address, Pdb};

const DEBUG_INFORMATION: u32 = 3; // the stream whose header says which stream has the records of symbols
const RECORDS_AT: usize = 20;
const S_PUB32: u16 = 0x110e;

/// The 16 bits at a place.
fn word(bytes: &[u8], at: usize) -> Option<u16> {
    Some(u16::from_le_bytes(*bytes.get(at..)?.first_chunk()?))
}

/// The address of a public symbol, None if it is nowhere in the image, and its name.
pub type Public = (Option<u32>, String);

/// The public symbols, in the order of their records.
pub fn publics(pdb: &Pdb) -> Result<Vec<Public>, Box<dyn Error>> {
    let number = word(&pdb.stream(DEBUG_INFORMATION)?, RECORDS_AT).ok_or("no symbols")?;
    let (stream, map) = (pdb.stream(number.into())?, pdb.address_map()?);
    let (mut rest, mut found) = (&stream[..], Vec::new());
    while let (Some(length), Some(kind)) = (word(rest, 0), word(rest, 2)) {
        let end = rest.len().min(2 + usize::from(length));
        if let (S_PUB32, Some(record)) = (kind, rest.get(8..end)) {
            if let (Some(low), Some(high), Some(section)) = (word(record, 0), word(record, 2), word(record, 4)) {
                let offset = u32::from(high) << 16 | u32::from(low);
                let name = record[6..].split(|it| *it == 0).next().unwrap_or_default();
                let address = map.translate(Address::InternalPlace((section, offset)))?.rva;
                found.push((address, String::from_utf8_lossy(name).into_owned()));
            }
        }
        rest = &rest[end..];
    }
    Ok(found)
}

#[allow(dead_code)] // where another example has the function
fn main() -> Result<(), Box<dyn Error>> {
    let bytes = std::fs::read(std::env::args_os().nth(1).ok_or("usage: publics FILE")?)?;
    for (address, name) in publics(&Pdb::parse(&bytes)?)? {
        println!("{} {name}", address.map_or("-".into(), |it| format!("{it:#x}")));
    }
    Ok(())
}
