//! Writes the header's numbers as constants of Rust, and finds the library that the crate is linked with.

mod header;
mod library;

use std::env;
use std::fs;
use std::path::PathBuf;
use std::process;

fn main() {
    if let Err(why) = run() {
        eprintln!("{why}");
        process::exit(1);
    }
}

fn run() -> Result<(), String> {
    let folder = |name: &str| env::var_os(name).map(PathBuf::from).ok_or(format!("cargo sets no {name}"));
    let (manifest, out) = (folder("CARGO_MANIFEST_DIR")?, folder("OUT_DIR")?);
    let header = library::linked(&manifest)?;
    let numbers = out.join("numbers.rs");
    fs::write(&numbers, header.in_rust()?).map_err(|why| format!("can't write {numbers:?}: {why}"))
}
