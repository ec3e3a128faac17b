//! The pages into which the benchmarks write have the lines that say where, and keep everything else.

use std::fs;
use std::path::Path;

use compare::page::with;

/// A page of the folder docs, and what is written into it.
const FIGURES: [(&str, &str); 3] = [
    ("performance.md", "figures"),
    ("performance.md", "search figures"),
    ("performance.md", "login figures"),
];

#[test]
fn figures_are_written_between_their_lines() {
    for (name, what) in FIGURES {
        let path = Path::new(env!("CARGO_MANIFEST_DIR"))
            .join("../../docs")
            .join(name);
        let page = fs::read_to_string(path).expect("the page");
        let written = with(&page, what, "one line\n");
        let (begin, end) = (
            format!("<!-- {what} -->\n"),
            format!("<!-- end of {what} -->"),
        );
        assert!(
            written.contains(&format!("{begin}one line\n{end}")),
            "{name}: {what}"
        );
        let around = |page: &str| {
            [
                page.split(&begin).next().map(str::to_string),
                page.split(&end).last().map(str::to_string),
            ]
        };
        assert_eq!(around(&written), around(&page), "{name}: {what}");
        assert_eq!(
            with(&written, what, "one line\n"),
            written,
            "{name}: {what}"
        );
    }
}
