//! The functions equal and notequal (02, M-106; 001, Filtering lists). The
//! worked cases are `replays/equal.replay`.

mod common;

use common::{is_read, program, returning, Server};
use model::engine::End;
use model::parse::parse;
use model::syntax::{Call, Comparison, Operand};

const FUNCTIONS: [(&str, Comparison); 2] = [
    ("equal", Comparison::Equal),
    ("notequal", Comparison::Notequal),
];

/// Admin's server with strings, records and a list; bob may read r only.
fn desk() -> Server {
    let mut server = Server::new("desk");
    server.prepare(&[
        "create principal bob \"b\"",
        "set s = \"1\"",
        "set r = {a=\"1\",b=\"2\",c=\"3\"}",
        "set turned = {c=\"3\",a=\"1\",b=\"2\"}",
        "set swapped = {a=\"2\",b=\"1\",c=\"3\"}",
        "set text = {a=\"1\",b=\"2\",c=\"\"}",
        "set label = {a=\"1\",b=\"2\",d=\"3\"}",
        "set less = {a=\"1\",b=\"2\"}",
        "set l = []",
        "set delegation r admin read -> bob",
    ]);
    server
}

#[test]
fn every_call_is_read() {
    let [x, field, text] = [
        Operand::Variable(b"x"),
        Operand::Field(b"x", b"y"),
        Operand::Text(b""),
    ];
    for (word, comparison) in FUNCTIONS {
        for (written, first, second) in [
            (format!("{word}(x,x.y)"), x, field),
            (format!("  {word}  ( \"\"  ,  x )"), text, x),
        ] {
            is_read(&written, Call::Compare(comparison, first, second));
        }
        for rest in [
            "()",
            "(x)",
            "(x,y,z)",
            "(x,[])",
            "(x,{a=\"\"})",
            "(x,equal(x,y))",
            "(x y)",
            " x,y",
        ] {
            let text = program("p", "", &[&format!("return {word}{rest}")]);
            assert_eq!(parse(text.as_bytes()), None, "{word}{rest}");
        }
    }
}

/// Whichever comes first, and notequal the other way round.
#[test]
fn answers() {
    let mut server = desk();
    for (first, second, are_equal) in [
        ("s", "r.a", true),
        ("s", "\"1\"", true),
        ("s", "\"\"", false),
        ("s", "\"11\"", false),
        ("\"a\"", "\"A\"", false),
        ("\"\"", "\"\"", true),
        ("r", "r", true),
        ("r", "turned", true),
        ("r", "swapped", false),
        ("turned", "swapped", false),
        ("r", "text", false),
        ("r", "label", false),
        ("r", "less", false),
        ("r", "s", false),
        ("less", "\"\"", false),
    ] {
        for (first, second) in [(first, second), (second, first)] {
            for (word, comparison) in FUNCTIONS {
                let is_so = are_equal == (comparison == Comparison::Equal);
                let value = if is_so { "\"\"" } else { "\"0\"" };
                let line = format!("return {word}({first},{second})");
                assert_eq!(server.admin(&[&line]).1, returning(value), "{line}");
            }
        }
    }
}

#[test]
fn what_goes_before_what() {
    let mut server = desk();
    let heavy = format!("\"{}\"", "a".repeat(8_193));
    for (word, _) in FUNCTIONS {
        for (name, first, second, expected) in [
            ("admin", "l", "s", End::Failed),
            ("admin", "s", "l", End::Failed),
            ("admin", "l", "l", End::Failed),
            ("admin", "nosuch", "s", End::Failed),
            ("admin", "r.d", "s", End::Failed),
            ("admin", &heavy, "s", End::Full),
            ("admin", "r", &heavy, End::Full),
            ("admin", &heavy, "l", End::Failed),
            ("bob", "l", "nosuch", End::Denied),
            ("bob", "nosuch", "l", End::Denied),
            ("bob", &heavy, "s", End::Denied),
            ("bob", "r", "r.a", End::Returned),
        ] {
            let line = format!("return {word}({first},{second})");
            server.ends(name, &[&line], expected);
        }
    }
}

/// Two records of as many fields as may be, the one in the opposite order.
#[test]
fn large_records() {
    let record = |names: &[String], last: &str| {
        let fields: Vec<String> = names.iter().map(|name| format!("{name}=\"\"")).collect();
        format!("{{{},zz=\"{last}\"}}", fields.join(","))
    };
    let mut names = model::replay::shortest_names(1_350);
    let first = record(&names, "");
    names.reverse();
    let mut server = Server::new("desk");
    server.prepare(&[&format!("set x = {first}")]);
    for (last, value) in [("", "\"\""), ("1", "\"0\"")] {
        let line = format!("local y = {}", record(&names, last));
        let (_, text) = server.admin(&[&line, "return equal(x,y)"]);
        assert!(text.ends_with(&returning(value)));
    }
}
