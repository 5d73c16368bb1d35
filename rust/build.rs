//! Links the static library of the target: that in `dist/` of the package or of the repository around it, or the one in
//! the folder that `PDB_CONTAINER_LIB_DIR` names.

use std::env;
use std::path::PathBuf;

fn main() {
    println!("cargo::rerun-if-env-changed=PDB_CONTAINER_LIB_DIR");
    // Pages are written without linking anything.
    if env::var_os("DOCS_RS").is_some() {
        return;
    }
    let word = |name: &str| env::var(name).unwrap_or_default();
    let [machine, system, kind] = ["ARCH", "OS", "ENV"].map(|part| word(&format!("CARGO_CFG_TARGET_{part}")));
    let here = PathBuf::from(word("CARGO_MANIFEST_DIR"));
    // What is built is for glibc and for MinGW.
    let dist = format!("{machine}-{system}{}", if kind == "gnu" { "" } else { "-other" });
    let built = || ["dist", "../dist"].map(|folder| here.join(folder).join(&dist).join("lib")).to_vec();
    let folders = env::var_os("PDB_CONTAINER_LIB_DIR").map_or_else(built, |chosen| vec![chosen.into()]);
    match folders.iter().find(|folder| folder.join("libpdb_container.a").is_file()) {
        Some(folder) => {
            println!("cargo::rerun-if-changed={}", folder.display());
            println!("cargo::rustc-link-search=native={}", folder.display());
            println!("cargo::rustc-link-lib=static=pdb_container");
        }
        None => println!(
            "cargo::error=libpdb_container.a is missing for {machine}-{system}-{kind}: PDB_CONTAINER_LIB_DIR may name the folder that has it"
        ),
    }
}
