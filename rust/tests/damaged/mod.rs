//! Files with damage.

use std::path::PathBuf;

/// The names and bytes of files with damage: of copies of a file, and of what the folder holds that `PDB_CONTAINER_DAMAGED`
/// names.
pub fn damaged(file: &[u8]) -> Vec<(String, Vec<u8>)> {
    let mut number = 1_usize;
    let mut random = |below: usize| {
        number = number.wrapping_mul(6364136223846793005).wrapping_add(1442695040888963407);
        (number >> 33) % below
    };
    let mut copy_of = |at: usize| {
        let mut copy = file.to_vec();
        for _ in 0..[1, 4, 40][random(3)] {
            // The first pages have the header, the directory and short streams.
            let within = [file.len(), 16384][random(2)];
            copy[random(within)] = [0, 1, 0x80, 0xff][random(4)];
        }
        (format!("copy {at}"), copy)
    };
    let mut found: Vec<_> = (0..1000).map(&mut copy_of).collect();
    if let Some(folder) = std::env::var_os("PDB_CONTAINER_DAMAGED") {
        let mut paths: Vec<PathBuf> = std::fs::read_dir(folder).unwrap().map(|it| it.unwrap().path()).collect();
        paths.sort();
        found.extend(paths.iter().map(|path| (path.display().to_string(), std::fs::read(path).unwrap())));
    }
    found
}
