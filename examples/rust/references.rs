//! What a type is where it is used, in Volatility's format ISF.

use std::collections::BTreeMap;
use std::error::Error;

use pdb_container::{Shape, Type, Types};

/// The parts of an object in JSON, by their keys.
pub type Entries = BTreeMap<String, String>;

/// A text in JSON.
pub fn quoted(text: &str) -> String {
    let escaped =
        |it| if matches!(it, '"' | '\\' | '\0'..' ') { format!("\\u{:04x}", u32::from(it)) } else { it.into() };
    format!("\"{}\"", text.chars().map(escaped).collect::<String>())
}

/// What a type is called: by its index if it has no name in the source.
pub fn key_of(it: &Type) -> Result<String, Box<dyn Error>> {
    let name = it.name()?.unwrap_or_default().to_string();
    Ok(quoted(&if name.contains("<unnamed-") { format!("__unnamed_{:x}", it.index) } else { name }))
}

/// A type where it is used. A base type is put among those that were met.
pub fn reference(types: &Types, base: &mut Entries, index: u32) -> Result<String, Box<dyn Error>> {
    let size_of = |index| types.definitions()?.size_of(index).map(Option::unwrap_or_default);
    let (it, size) = (types.get(index)?, size_of(index)?);
    let inner = it.row.type_index().unwrap_or_default();
    let mut of = |inner| match inner < index {
        true => reference(types, base, inner),
        false => Err(format!("the type {index:#x} is made of a later one").into()),
    };
    let (kind, rest) = match it.shape() {
        Shape::Primitive if index & 0x700 != 0 => ("pointer", format!(r#""subtype":{}"#, of(index & 0xff)?)),
        Shape::Primitive => ("base", format!(r#""name":{}"#, base_type(types, base, index, size)?)),
        Shape::Class => ("struct", format!(r#""name":{}"#, key_of(&it)?)),
        Shape::Union => ("union", format!(r#""name":{}"#, key_of(&it)?)),
        Shape::Enumeration => ("enum", format!(r#""name":{}"#, key_of(&it)?)),
        Shape::Pointer => ("pointer", format!(r#""subtype":{}"#, of(inner)?)),
        Shape::Array => ("array", format!(r#""count":{},"subtype":{}"#, size / size_of(inner)?.max(1), of(inner)?)),
        Shape::Bitfield => {
            let (at, count) = (it.row.position().unwrap_or_default(), it.row.length().unwrap_or_default());
            ("bitfield", format!(r#""bit_position":{at},"bit_length":{count},"type":{}"#, of(inner)?))
        }
        Shape::Procedure | Shape::MemberFunction => return Ok(r#"{"kind":"function"}"#.into()),
        _ => return of(inner),
    };
    Ok(format!(r#"{{"kind":"{kind}",{rest}}}"#))
}

/// The key of a base type.
pub fn base_type(types: &Types, base: &mut Entries, index: u32, size: u64) -> Result<String, Box<dyn Error>> {
    let kind = ["void", "int", "int", "bool", "float", "float", "int", "int"][index as usize >> 4 & 7];
    let kind = if matches!(index, 0x10 | 0x20 | 0x70 | 0x71 | 0x7a..=0x7c) { "char" } else { kind };
    let signed = matches!(index, 8 | 0x10..=0x14 | 0x40..=0x46 | 0x68 | 0x70 | 0x72 | 0x74 | 0x76 | 0x78);
    let name = quoted(&types.definitions()?.text_of(index, "")?);
    base.insert(name.clone(), format!(r#"{{"kind":"{kind}","size":{size},"signed":{signed},"endian":"little"}}"#));
    Ok(name)
}
