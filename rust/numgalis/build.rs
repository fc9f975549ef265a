//! Links the archive with the calls: in the folder that `NUMGALIS_LIB_DIR` names, else where the repository builds it.

use std::env;
use std::path::PathBuf;

const FOLDER: &str = "NUMGALIS_LIB_DIR";
const BUILT: &str = concat!(env!("CARGO_MANIFEST_DIR"), "/../../target/staticlib");

fn main() {
    let named = env::var_os(FOLDER).filter(|folder| !folder.is_empty());
    let folder = named.map_or_else(|| PathBuf::from(BUILT), PathBuf::from);
    let archive = folder.join("libnumgalis.a");
    println!("cargo:rerun-if-env-changed={FOLDER}");
    println!("cargo:rerun-if-changed={}", archive.display());
    if !archive.is_file() {
        println!(
            "cargo::error=there is no {}: `bin/build library` in the repository builds it; {FOLDER} names another folder",
            archive.display()
        );
        return;
    }
    println!("cargo:rustc-link-search=native={}", folder.display());
    println!("cargo:rustc-link-lib=static=numgalis");
}
