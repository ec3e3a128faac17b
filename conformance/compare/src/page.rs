//! A page of the documents with figures in it, which a benchmark writes anew.

use std::fs;
use std::path::Path;

/// The page with this text between the lines that say where `what` begins and where it ends.
pub fn with(page: &str, what: &str, text: &str) -> String {
    let (begin, end) = (
        format!("<!-- {what} -->\n"),
        format!("<!-- end of {what} -->"),
    );
    let (before, rest) = page
        .split_once(&begin)
        .unwrap_or_else(|| panic!("no line says where {what} begin"));
    let (_, after) = rest
        .split_once(&end)
        .unwrap_or_else(|| panic!("no line says where {what} end"));
    format!("{before}{begin}{text}{end}{after}")
}

/// Writes the page anew.
pub fn write(path: &Path, what: &str, text: &str) {
    let old = fs::read_to_string(path).expect("the page");
    fs::write(path, with(&old, what, text)).expect("the page is written");
}
