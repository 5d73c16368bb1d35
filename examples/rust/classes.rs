//! Prints the largest classes of a program database, each with its members.
//!
//!     cd rust && cargo run --example classes -- ../examples/sample.pdb

use std::cmp::Reverse;
use std::error::Error;

use pdb_container::{Pdb, Shape};

const MOST: usize = 5;

fn main() -> Result<(), Box<dyn Error>> {
    let path = std::env::args_os().nth(1).ok_or("usage: classes FILE")?;
    let bytes = std::fs::read(path)?;
    let types = Pdb::parse(&bytes)?.types()?;
    // Records of a kind that is not read are passed over.
    let mut classes: Vec<_> =
        types.iter().flatten().filter(|it| it.shape() == Shape::Class && it.is_definition()).collect();
    classes.sort_by_key(|it| Reverse(it.row.size()));
    for class in classes.iter().take(MOST) {
        println!("{} {}", class.row.size().unwrap_or_default(), class.name()?.unwrap_or_default());
        let Some(list) = class.row.fields() else {
            continue;
        };
        for field in types.fields(list)?.iter().filter(|it| it.shape() == Shape::Member) {
            println!("  +{} {}", field.row.offset().unwrap_or_default(), field.name.unwrap_or_default());
        }
    }
    Ok(())
}
