//! Prints the sections of a program, the frames of its functions with their programs, and the streams that have names.
//!
//!     frames FILE
//!
//! A program as a user of the crate `pdb` writes it: with that crate, the first line alone is another one.
use pdb_container::pdb;

use std::error::Error;
use std::fmt::Write;

use pdb::FallibleIterator;

fn sections(sections: &[pdb::ImageSectionHeader], out: &mut String) -> Result<(), Box<dyn Error>> {
    for section in sections {
        let start = pdb::Rva(section.virtual_address);
        let flags = section.characteristics;
        let words = [(flags.execute(), 'x'), (flags.read(), 'r'), (flags.write(), 'w')];
        let words: String = words.iter().filter(|(is_set, _)| *is_set).map(|(_, letter)| *letter).collect();
        writeln!(out, "section {}: {start} to {}, {words}", section.name(), start + section.virtual_size)?;
    }
    Ok(())
}

fn frames(
    table: &pdb::FrameTable<'_>,
    map: &pdb::AddressMap<'_>,
    strings: Option<&pdb::StringTable<'_>>,
    out: &mut String,
) -> Result<(), Box<dyn Error>> {
    let mut frames = table.iter();
    while let Some(frame) = frames.next()? {
        let place = frame.code_start.to_rva(map).map_or("nowhere".to_string(), |it| it.to_string());
        write!(out, "frame {} at {place}, {} bytes, {}:", frame.code_start, frame.code_size, frame.ty)?;
        write!(out, " locals {}, parameters {}", frame.locals_size, frame.params_size)?;
        write!(out, ", prolog {}, registers {}", frame.prolog_size, frame.saved_regs_size)?;
        if frame.is_function_start {
            write!(out, ", starts a function")?;
        }
        if frame.has_structured_eh || frame.has_cpp_eh {
            write!(out, ", handles exceptions")?;
        }
        writeln!(out)?;
        if let (Some(program), Some(strings)) = (frame.program, strings) {
            writeln!(out, "    {}", program.to_string_lossy(strings)?.trim_end())?;
        }
    }
    Ok(())
}

/// What is printed of a file.
pub fn listing(path: &str) -> Result<String, Box<dyn Error>> {
    let mut file = pdb::PDB::open(std::fs::File::open(path)?)?;
    let mut out = String::new();
    sections(&file.sections()?.unwrap_or_default(), &mut out)?;
    let strings = match file.string_table() {
        Ok(strings) => Some(strings),
        Err(pdb::Error::StreamNameNotFound) => None,
        Err(error) => return Err(error.into()),
    };
    let (table, map) = (file.frame_table()?, file.address_map()?);
    frames(&table, &map, strings.as_ref(), &mut out)?;
    let longest = table.iter().max_by_key(|it| Ok(it.code_size))?;
    if let Some(longest) = longest {
        let behind = table.iter_at_rva(longest.code_start).skip(1).count()?;
        writeln!(out, "longest {}, {behind} frames behind it", longest.code_start)?;
    }
    let information = file.pdb_information()?;
    for name in information.stream_names()?.iter() {
        let size = name.stream_id.get(&mut file)?.map_or(0, |stream| stream.as_slice().len());
        writeln!(out, "stream {} {}: {size} bytes", name.stream_id, name.name)?;
    }
    Ok(out)
}

#[allow(dead_code)] // where it is a part of another program
fn main() -> Result<(), Box<dyn Error>> {
    print!("{}", listing(&std::env::args().nth(1).ok_or("usage: frames FILE")?)?);
    Ok(())
}
