//! Finds libtl.a and tells cargo to link it.

use std::env;
use std::path::{Path, PathBuf};
use std::process::exit;

fn main() {
    println!("cargo:rerun-if-env-changed=TL_ARCHIVE_DIR");
    println!("cargo:rerun-if-changed=build.rs");
    let dir = match env::var_os("TL_ARCHIVE_DIR") {
        Some(dir) => PathBuf::from(dir),
        None => {
            let manifest = env::var_os("CARGO_MANIFEST_DIR").expect("cargo sets it");
            Path::new(&manifest).join("../../target/staticlib")
        }
    };
    let archive = dir.join("libtl.a");
    println!("cargo:rerun-if-changed={}", archive.display());
    // cargo looks for the archive from another folder than the caller's, so the path that goes to it is whole
    let found = archive.canonicalize().ok().filter(|path| path.is_file());
    let Some(found) = found else {
        eprintln!("error: there is no archive {}", archive.display());
        eprintln!();
        eprintln!("Make it with `tools/archive` in the folder of the repository, or set TL_ARCHIVE_DIR to a");
        eprintln!("folder (a whole path) that holds libtl.a.");
        exit(1);
    };
    let dir = found.parent().expect("the archive lies in a folder");
    println!("cargo:rustc-link-search=native={}", dir.display());
    println!("cargo:rustc-link-lib=static=tl");
}
