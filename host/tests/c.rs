//! Programs in C over the header, compiled with warnings as errors, linked with the archive and run.

use std::env;
use std::fs;
use std::path::Path;
use std::process::Command;

use kivzurg::{BUFFER, STACK_BYTES};

/// What a program prints.
fn printed(source: &str) -> String {
    let root = Path::new(env!("CARGO_MANIFEST_DIR"));
    let program = env::temp_dir().join(format!("kivzurg-{}-{}", source.replace('/', "-"), std::process::id()));
    let compiled = Command::new("cc")
        .args(["-std=c99", "-pedantic", "-Wall", "-Wextra", "-Werror", "-I"])
        .arg(root.join("include"))
        .arg(root.join(source))
        .arg(root.join("../crates/server_c/out/libserver_c.a"))
        .arg("-o")
        .arg(&program)
        .status()
        .expect("a C compiler");
    assert!(compiled.success());
    let output = Command::new(&program).output().expect("the program runs");
    fs::remove_file(&program).expect("the program goes");
    assert!(output.status.success());
    String::from_utf8(output.stdout).expect("ASCII")
}

#[test]
fn the_header() {
    let version = env!("CARGO_PKG_VERSION");
    let expected = format!(
        "version {version}, buffer {BUFFER}, stack {STACK_BYTES}\nmade 48\nran 16, 2 lines, 53 bytes\n{{\"status\":\"SET\"}}\n\
         {{\"status\":\"RETURNING\",\"output\":\"1\"}}\nasked 32, 0 long\nrefused 6\nrefused 3\nrefused 1\nran 19, 1 lines\n\
         listed 64, 2 lines, 80 bytes\n{:34} rwad\n{:34} ....\nrefused 1\nrefused 2\nrefused 4\nrefused 7\nrefused 1\n\
         brought 48\nO\nP\tadmin\tpppp\t0\nN\tanyone\t0\nD\tanyone\nrefused 11\nrefused 10\nrefused 2\n",
        "admin", "anyone"
    );
    assert_eq!(printed("tests/header.c"), expected);
}

#[test]
fn the_example() {
    let lines = "{\"status\":\"CREATE_PRINCIPAL\"}\n{\"status\":\"SET\"}\n{\"status\":\"SET_DELEGATION\"}\n\
                 {\"status\":\"RETURNING\",\"output\":[]}\n{\"status\":\"APPEND\"}\n{\"status\":\"RETURNING\",\"output\":\"ok\"}\n\
                 rosa: yes, by a chain of 1\nanyone: no\nnobody: refused with number 6\n";
    let sheet = format!("queue, 3 names:\n{:34} rwad\n{:34} ....\n{:34} ..a.\n", "admin", "anyone", "rosa");
    assert_eq!(printed("examples/evening.c"), lines.to_string() + &sheet);
}
