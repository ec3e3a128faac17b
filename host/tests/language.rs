//! What docs/LANGUAGE.md shows, tried on the server.

use std::fs;
use std::path::Path;

use kivzurg::{Kind, Server};

fn page() -> String {
    fs::read_to_string(Path::new(env!("CARGO_MANIFEST_DIR")).join("../docs/LANGUAGE.md")).expect("the page")
}

/// The indented block that follows a text, its lines without the indent.
fn block(page: &str, before: &str) -> String {
    let (_, after) = page.split_once(before).expect("the text before the block");
    let lines = after.lines().skip_while(|line| !line.starts_with("    ")).take_while(|line| line.starts_with("    "));
    lines.map(|line| format!("{}\n", &line[4..])).collect()
}

#[test]
fn the_first_program_and_its_state() {
    let page = page();
    let mut server = Server::make(b"desk").expect("a good password");
    let report = server.run(block(&page, "## A first program").as_bytes()).expect("a right call");
    assert_eq!(String::from_utf8_lossy(report.output), block(&page, "It prints one line for each command"));
    let appending = b"as principal rosa password \"r1\" do\nappend to queue with {song=\"Blue Moon\",key=\"F\"}\nreturn \"\"\n***";
    assert!(server.run(appending).expect("a right call").is_completed());
    let text = String::from_utf8_lossy(server.state()).trim_end_matches('\0').replace('\t', "|");
    assert_eq!(text, block(&page, "the state is this"));
}

/// Whether admin may make a variable of this name.
fn is_name(word: &str) -> bool {
    let mut server = Server::make(b"p").expect("a good password");
    let program = format!("as principal admin password \"p\" do\nset {word} = \"\"\nreturn {word}\n***");
    server.run(program.as_bytes()).map(|report| report.kind) == Ok(Kind::Returned)
}

#[test]
fn keywords() {
    let words = block(&page(), "Keywords are no names");
    for word in ["split", "let", "filtereach", "equal", "notequal", "add", "sub", "times", "per"] {
        assert!(words.split_whitespace().any(|listed| listed == word), "{word} is not listed");
    }
    for word in words.split_whitespace() {
        assert!(!is_name(word), "{word} is no keyword");
        assert!(is_name(&format!("{word}_")), "{word}_ is a keyword");
    }
    assert!(is_name("admin") && is_name("anyone") && is_name("if"));
}

/// What a program of admin's prints that returns an expression.
fn returned(expression: &str) -> String {
    let mut server = Server::make(b"p").expect("a good password");
    let program = format!("as principal admin password \"p\" do\nreturn {expression}\n***");
    let report = server.run(program.as_bytes()).expect("a right call");
    String::from_utf8_lossy(report.output).into_owned()
}

/// A row of a table that shows a call or a let and what it gives, perhaps with a remark behind.
fn call_of(row: &str) -> Option<(&str, &str)> {
    let (call, rest) = row.strip_prefix("| `")?.split_once("` | `")?;
    let (value, _) = rest.split_once('`')?;
    Some((call, value))
}

#[test]
fn functions() {
    let page = page();
    let (_, after) = page.split_once("so they are printed by `return`").expect("the text before the tables");
    let (shown, _) = after.split_once("\n## Rights").expect("the section behind the functions");
    let rows: Vec<(&str, &str)> = shown.lines().filter_map(call_of).collect();
    for start in ["split(", "concat(", "tolower(", "add(", "sub(", "times(", "per(", "equal(", "notequal(", "let "] {
        assert!(rows.iter().any(|(call, _)| call.starts_with(start)), "no row starts with {start}");
    }
    for (call, value) in rows {
        assert_eq!(returned(call), format!("{{\"status\":\"RETURNING\",\"output\":{value}}}\n"), "{call}");
    }
}
