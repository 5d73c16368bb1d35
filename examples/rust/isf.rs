//! Writes the types and the public symbols of a program database as JSON, in Volatility's format ISF.
//!     cd rust && cargo run --example isf -- ../examples/sample.pdb

use pdb_container::{Pdb, Shape, Types};
use references::{Entries, base_type, key_of, quoted, reference};
use std::error::Error;

#[path = "publics.rs"]
mod publics;
mod references;

/// The members of a class, or the values of an enumeration, as numbers of the type under it.
fn fields(types: &Types, base: &mut Entries, list: u32, under: Option<u32>) -> Result<String, Box<dyn Error>> {
    let mut fields = Vec::new();
    let found = under.map_or_else(|| types.fields(list), |under| types.enumerators(list, under))?;
    for it in found.iter() {
        let (offset, of) = (it.row.offset().unwrap_or_default(), it.row.field_type().unwrap_or_default());
        let text = match it.shape() {
            Shape::Member => format!(r#"{{"offset":{offset},"type":{}}}"#, reference(types, base, of)?),
            Shape::Enumerate => it.row.value().unwrap_or_default().to_string(),
            _ => continue,
        };
        fields.push(format!("{}:{text}", quoted(&it.name.unwrap_or_default().to_string_lossy())));
    }
    Ok(format!("{{{}}}", fields.join(",")))
}

fn main() -> Result<(), Box<dyn Error>> {
    let bytes = std::fs::read(std::env::args_os().nth(1).ok_or("usage: isf FILE")?)?;
    let (pdb, [mut base, mut users, mut enums, mut symbols]) = (Pdb::parse(&bytes)?, [const { Entries::new() }; 4]);
    let size = if pdb.identity()?.debug.is_some_and(|it| matches!(it.machine, 0x8664 | 0xaa64)) { 8 } else { 4 };
    base.insert(quoted("pointer"), format!(r#"{{"kind":"int","size":{size},"signed":false,"endian":"little"}}"#));
    let types = pdb.types()?;
    for it in types.iter().flatten().filter(|it| matches!(it.shape(), Shape::Class | Shape::Union | Shape::Enumeration))
    {
        if types.definitions()?.definition_of(it.index)?.is_none_or(|definition| definition == it.index) {
            let size = types.definitions()?.size_of(it.index)?.unwrap_or_default();
            let (list, under) = (it.row.fields().filter(|list| *list != 0), it.row.underlying_type());
            let fields = list.map_or(Ok("{}".into()), |list| fields(&types, &mut base, list, under))?;
            if let (Shape::Enumeration, Some(of)) = (it.shape(), under) {
                let of = base_type(&types, &mut base, of, size)?;
                enums.insert(key_of(&it)?, format!(r#"{{"size":{size},"base":{of},"constants":{fields}}}"#));
            } else {
                let kind = if it.shape() == Shape::Union { "union" } else { "struct" };
                users.insert(key_of(&it)?, format!(r#"{{"kind":"{kind}","size":{size},"fields":{fields}}}"#));
            }
        }
    }
    for (address, name) in publics::publics(&pdb)? {
        address.map(|it| symbols.insert(quoted(&name), format!(r#"{{"address":{it}}}"#)));
    }
    let producer = format!(r#"{{"name":"pdb_container","version":"{}"}}"#, env!("CARGO_PKG_VERSION"));
    println!(r#"{{"metadata":{{"format":"6.2.0","producer":{producer}}}"#);
    for (name, entries) in [("base_types", base), ("user_types", users), ("enums", enums), ("symbols", symbols)] {
        let lines: Vec<_> = entries.iter().map(|(key, value)| format!("{key}:{value}")).collect();
        println!(",\"{name}\":{{{}}}", lines.join(",\n"));
    }
    println!("}}");
    Ok(())
}
