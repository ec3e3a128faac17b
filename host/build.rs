//! Links the proved functions: the archive that `rt lib` writes in crates/server_c.

use std::path::Path;

fn main() {
    let archives = Path::new(env!("CARGO_MANIFEST_DIR")).join("../crates/server_c/out");
    let archive = archives.join("libserver_c.a");
    if !archive.exists() {
        panic!("crates/server_c/out/libserver_c.a is missing: run `rt lib` in crates/server_c first");
    }
    println!("cargo:rerun-if-changed={}", archive.display());
    println!("cargo:rustc-link-search=native={}", archives.display());
    println!("cargo:rustc-link-lib=static=server_c");
}
