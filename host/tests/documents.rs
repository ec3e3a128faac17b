//! Figures that documents repeat are those of the code, and links lead somewhere.

use std::fs;
use std::path::Path;

use kivzurg::{BUFFER, LONGEST_PROGRAM, STACK_BYTES};

fn document(path: &str) -> String {
    fs::read_to_string(Path::new(env!("CARGO_MANIFEST_DIR")).join(path)).expect("the document")
}

/// As in 65,536.
fn grouped(number: usize) -> String {
    match number {
        0..1_000 => number.to_string(),
        _ => format!("{},{:03}", grouped(number / 1_000), number % 1_000),
    }
}

#[test]
fn limits() {
    let limits = document("README.md");
    for number in [BUFFER, LONGEST_PROGRAM, STACK_BYTES] {
        assert!(limits.contains(&grouped(number)), "host/README.md does not name {}", grouped(number));
    }
}

/// Every other document names the constant and leaves the figure to host/README.md.
#[test]
fn the_stack_is_told_once() {
    for path in ["../README.md", "../docs/ARCHITECTURE.md", "../docs/DECISIONS.md", "../docs/performance.md", "../docs/LANGUAGE.md"] {
        assert!(!document(path).contains(&grouped(STACK_BYTES)), "{path} repeats the figure of STACK_BYTES");
    }
    assert!(document("../docs/DECISIONS.md").contains("STACK_BYTES"));
}

#[test]
fn the_version_has_its_changes() {
    let version = env!("CARGO_PKG_VERSION");
    assert!(document("../CHANGELOG.md").contains(&format!("## {version}")), "CHANGELOG.md has no section {version}");
}

const PAGES: &[&str] = &[
    "README.md",
    "../README.md",
    "../CONTRIBUTING.md",
    "../CHANGELOG.md",
    "../conformance/README.md",
    "../docs/README.md",
    "../docs/ARCHITECTURE.md",
    "../docs/DECISIONS.md",
    "../docs/LANGUAGE.md",
    "../docs/THEOREMS.md",
    "../docs/performance.md",
    "../docs/state-check.md",
];

#[test]
fn links() {
    let root = Path::new(env!("CARGO_MANIFEST_DIR"));
    let mut missing = Vec::new();
    for page in PAGES {
        let text = document(page);
        let folder = root.join(page).parent().expect("a folder").to_owned();
        for link in text.split("](").skip(1).filter_map(|rest| rest.split(')').next()) {
            let file = link.split('#').next().unwrap_or_default();
            if !folder.join(file).exists() {
                missing.push(format!("{page}: {link}"));
            }
        }
    }
    assert!(missing.is_empty(), "these lead nowhere: {missing:#?}");
}
