//! Links the version before beside this one, where `tools/bench/run --before` has made an archive of it with other names.

use std::env;
use std::fs;
use std::path::Path;

/// The C declarations of the library's own crate.
const SYS: &str = "../../bindings/rust/src/sys.rs";

fn main() {
    println!("cargo:rustc-check-cfg=cfg(before)");
    println!("cargo:rerun-if-changed=build.rs");
    println!("cargo:rerun-if-changed={SYS}");
    println!("cargo:rerun-if-env-changed=TL_BEFORE_DIR");
    if let Ok(dir) = env::var("TL_BEFORE_DIR") {
        println!("cargo:rerun-if-changed={dir}/libtl_before.a");
        println!("cargo:rustc-link-search=native={dir}");
        println!("cargo:rustc-link-lib=static=tl_before");
        println!("cargo:rustc-cfg=before");
        let sys = fs::read_to_string(SYS).expect("the crate's declarations");
        let out = env::var("OUT_DIR").expect("cargo names a folder");
        fs::write(Path::new(&out).join("before.rs"), declared(&sys)).expect("it can be written");
    }
}

/// The calls that a text declares, each as the one that has its name with `before_` in front in the archive.
fn declared(sys: &str) -> String {
    const BLOCK: &str = "extern \"C\" {";
    const CALL: &str = "pub fn ";
    let (_, block) = sys.split_once(BLOCK).expect("a block of declarations");
    let mut parts = block.split(CALL);
    let first = parts.next().unwrap_or_default();
    let mut all = format!("{BLOCK}{first}");
    for part in parts {
        let (name, _) = part.split_once('(').expect("a call has arguments");
        all += &format!("#[link_name = \"before_{name}\"]\n    {CALL}{part}");
    }
    all
}
