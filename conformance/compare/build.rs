//! Links the proved code: each crate that libraries.txt names, as the archive that `rt lib` wrote in its folder. The functions open to the
//! host come with the host's crate.

use std::fs;
use std::path::Path;

fn main() {
    let conformance = Path::new(env!("CARGO_MANIFEST_DIR")).join("..");
    let list = conformance.join("libraries.txt");
    let crates = conformance.join("../crates");
    println!("cargo:rerun-if-changed={}", list.display());
    let names = fs::read_to_string(&list).expect("conformance/libraries.txt");
    for name in names.lines().map(str::trim) {
        if name.is_empty() || name.starts_with('#') || name == "server_c" {
            continue;
        }
        let out = crates.join(name).join("out");
        let archive = out.join(format!("lib{name}.a"));
        if !archive.exists() {
            panic!("crates/{name}/out/lib{name}.a is missing: run `rt lib` in crates/{name} first");
        }
        println!("cargo:rerun-if-changed={}", archive.display());
        println!("cargo:rustc-link-search=native={}", out.display());
        println!("cargo:rustc-link-lib=static={name}");
    }
}
