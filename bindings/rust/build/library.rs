//! Finds the library for C: in the folder that ASSISE_LIB_DIR names, else in the repository's `out/lib`, where `./build` puts it; where
//! nothing stands there, `./build` is called. A packaged crate has no repository, and needs the variable.

use crate::header::Header;
use std::env;
use std::path::{Path, PathBuf};
use std::process::{Command, Stdio};

const VARIABLE: &str = "ASSISE_LIB_DIR";
const LIBRARY: &str = "libassise.a";

/// The two structs that a request crosses in, as `src/desk.rs` has them.
const DESK: &str = "struct assise_request { uint32_t call; uint32_t client; uint32_t node; uint32_t path_bytes; \
    uint32_t other_bytes; uint32_t kind; uint64_t first; uint64_t second; } struct assise_desk { struct assise_request request; \
    int64_t result; uint64_t stands; uint8_t bytes[ASSISE_BYTES]; void *cluster[4]; }";

/// Has the crate linked with the library, and answers the header that stands beside it.
pub fn linked(manifest: &Path) -> Result<Header, String> {
    println!("cargo:rerun-if-env-changed={VARIABLE}");
    let folder = match env::var_os(VARIABLE) {
        Some(named) => PathBuf::from(named),
        None => built(&manifest.join("../..")),
    };
    let library = folder.join(LIBRARY);
    if !library.is_file() {
        return Err(format!("no library at {library:?}: the repository's `./build` makes it, and {VARIABLE} may name another folder"));
    }
    // Another desk would be served beyond its end.
    let header = Header::read(&folder.join("../include/assise.h"))?;
    if header.desk()? != DESK {
        return Err(format!("the library at {library:?} has another desk than this crate: `./build` makes it anew"));
    }
    println!("cargo:rerun-if-changed={}", library.display());
    println!("cargo:rustc-link-search=native={}", folder.display());
    println!("cargo:rustc-link-lib=static=assise");
    Ok(header)
}

/// The folder with the repository's library, which is built first where it isn't there.
fn built(repository: &Path) -> PathBuf {
    let folder = repository.join("out/lib");
    let build = repository.join("build");
    if build.is_file() && !folder.join(LIBRARY).is_file() {
        // What it says goes to standard error: cargo reads standard output.
        let done = Command::new(build).stdout(Stdio::null()).status();
        if !done.is_ok_and(|status| status.success()) {
            eprintln!("`./build` made no library in {folder:?}");
        }
    }
    folder
}
