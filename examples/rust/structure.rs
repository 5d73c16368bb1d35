//! Prints a class as a structure, with the offset of each member, and the bytes that no member takes.
//!
//!     cd rust && cargo run --example structure -- ../examples/sample.pdb Derived

use std::error::Error;

use pdb_container::{Extent, LayoutKind, Pdb};

fn main() -> Result<(), Box<dyn Error>> {
    let words: Vec<_> = std::env::args().collect();
    let [_, path, name] = &words[..] else { return Err("usage: structure FILE CLASS".into()) };
    let bytes = std::fs::read(path)?;
    let types = Pdb::parse(&bytes)?.types()?;
    let (layout, definitions) = (types.layout(name)?.ok_or("no such class")?, types.definitions()?);
    println!("struct {name} {{ // {} bytes", layout.size());
    for row in layout.iter() {
        let text = match (row.kind, row.extent) {
            (LayoutKind::Member { name, type_index }, _) => definitions.text_of(type_index, name)? + ";",
            (LayoutKind::Base { class }, _) => format!("// {}", definitions.text_of(class, "")?),
            (LayoutKind::VirtualBasePointer { pointer, .. }, _) => definitions.text_of(pointer, "vbptr")? + ";",
            (LayoutKind::VirtualFunctionPointer { pointer }, _) => definitions.text_of(pointer, "vfptr")? + ";",
            (_, Extent::Bytes(count)) => format!("// {count} bytes"),
            (_, Extent::Bits { count, .. }) => format!("// {count} bits"),
            _ => continue,
        };
        println!("    {text} // {:#x}", row.offset);
    }
    println!("}};");
    Ok(())
}
