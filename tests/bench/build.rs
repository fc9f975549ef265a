//! Links the proved walk and calls, two archives that `tests/bench/run` has built.

fn main() {
    link("bench", concat!(env!("CARGO_MANIFEST_DIR"), "/../../target/bench"));
    link(
        "numgalis",
        concat!(env!("CARGO_MANIFEST_DIR"), "/../../target/staticlib"),
    );
}

fn link(name: &str, folder: &str) {
    println!("cargo:rustc-link-search=native={folder}");
    println!("cargo:rustc-link-lib=static={name}");
    println!("cargo:rerun-if-changed={folder}/lib{name}.a");
}
