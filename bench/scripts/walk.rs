//! Times the walk over all types of a file: the iterator beside the loop over the calls of the library for C, in
//! turns. Prints the number of types, the median of each in ms, and the median of the ratios.
//!
//!     cd rust && cargo run --release --example walk -- FILE [TURNS]

use std::error::Error;
use std::hint::black_box;
use std::time::Instant;

use pdb_container::{Pdb, Types, sys};

/// The sum of what each record says, by the iterator.
fn by_iterator(types: &Types) -> (u64, u64) {
    let (mut count, mut sum) = (0, 0_u64);
    for ty in types.iter() {
        count += 1;
        if let Ok(ty) = ty {
            sum = sum
                .wrapping_add(ty.row.number().unwrap_or_default())
                .wrapping_add(ty.index.into())
                .wrapping_add(ty.record.len() as u64);
        }
    }
    (count, sum)
}

/// The same by the calls.
fn by_calls(table: &mut sys::Handle) -> (u64, u64) {
    let (mut count, mut sum) = (0, 0_u64);
    let mut batch = [sys::Type::default(); 64];
    let mut filled = 0;
    // SAFETY: the table is open, and the array is as long as it says.
    unsafe { sys::pdb_types_rewind(table) };
    loop {
        // SAFETY: the same.
        let status = unsafe { sys::pdb_types_read(table, batch.as_mut_ptr(), batch.len(), &mut filled) };
        for it in &batch[..filled] {
            count += 1;
            if it.fault.status == sys::PDB_OK {
                sum = sum
                    .wrapping_add(it.info.number)
                    .wrapping_add(it.position.index.into())
                    .wrapping_add(it.position.length.into());
            }
        }
        if status != sys::PDB_OK {
            return (count, sum);
        }
    }
}

fn median(mut of: Vec<f64>) -> f64 {
    of.sort_by(f64::total_cmp);
    of[of.len() / 2]
}

fn main() -> Result<(), Box<dyn Error>> {
    let path = std::env::args_os().nth(1).ok_or("usage: walk FILE [TURNS]")?;
    let turns: usize = std::env::args().nth(2).map_or(Ok(15), |it| it.parse())?;
    let bytes = std::fs::read(path)?;
    let types = Pdb::parse(&bytes)?.types()?;
    // SAFETY: handles may be all zero.
    let (mut file, mut table): (sys::File, sys::Handle) = unsafe { std::mem::zeroed() };
    // SAFETY: the handles are all zero, and the file is as long as it says.
    unsafe {
        sys::pdb_file_open(bytes.as_ptr(), bytes.len(), &mut file);
        sys::pdb_types_open(&mut file, sys::PDB_TYPES, &mut table);
    }
    let (mut ours, mut theirs, mut ratios) = (Vec::new(), Vec::new(), Vec::new());
    for _ in 0..turns {
        let start = Instant::now();
        let one = black_box(by_iterator(&types));
        let middle = Instant::now();
        let other = black_box(by_calls(&mut table));
        let end = Instant::now();
        if one != other {
            return Err(format!("the sums differ: {one:?} and {other:?}").into());
        }
        ours.push((middle - start).as_secs_f64() * 1e3);
        theirs.push((end - middle).as_secs_f64() * 1e3);
        ratios.push((middle - start).as_secs_f64() / (end - middle).as_secs_f64());
    }
    // SAFETY: the handles are open, and these are their last calls.
    unsafe {
        sys::pdb_handle_close(&mut table);
        sys::pdb_handle_close(&mut file.handle);
    }
    let count = types.iter().count();
    println!(
        "{count} types: {:.1} ms by the iterator, {:.1} ms by the calls, ratio {:.3}",
        median(ours),
        median(theirs),
        median(ratios)
    );
    Ok(())
}
