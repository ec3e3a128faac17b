//! The command filtereach (02, M-106; 001, Filtering lists). The worked cases
//! are `replays/filtereach.replay`.

mod common;

use common::{program, returning, statuses, Server};
use model::engine::End;
use model::parse::parse;

#[test]
fn what_does_not_parse() {
    for line in [
        "filtereach y in l replacewith y",
        "filtereach y in l",
        "filtereach y in l with",
        "filtereach y l with y",
        "filtereach y in l.a with y",
        "filtereach y.a in l with y",
        "filtereach \"y\" in l with y",
        "filtereach in l with y",
        "filtereach y in [] with y",
        "filtereach y in all with y",
        "filter y in l with y",
        "foreach y in l with y",
    ] {
        let text = program("p", "", &[line, "exit"]);
        assert_eq!(parse(text.as_bytes()), None, "{line}");
    }
    let text = program("p", "", &["  filtereach  y in l  with\"\"// all", "exit"]);
    assert!(parse(text.as_bytes()).is_some());
}

/// The elements "", "a", {a=""} and {a="b"}, and what is left of them.
#[test]
fn what_it_keeps() {
    let [empty, text] = ["\"\"", "\"a\""];
    let [first, second] = ["{\"a\":\"\"}", "{\"a\":\"b\"}"];
    let all = [empty, text, first, second];
    for (expression, kept) in [
        ("\"\"", &all[..]),
        ("\" \"", &[]),
        ("\"0\"", &[]),
        ("y", &[empty]),
        ("{a=\"\"}", &[]),
        ("[]", &[]),
        ("l", &[]),
        ("equal(y,\"a\")", &[text]),
        ("notequal(y,\"a\")", &[empty, first, second]),
        ("equal(y,r)", &[first]),
        ("let z=y in equal(z,r)", &[first]),
        ("let r=y in equal(r,r)", &all),
    ] {
        let mut server = Server::new("desk");
        let mut lines = vec![
            "set l = []",
            "append to l with \"\"",
            "append to l with \"a\"",
            "append to l with {a=\"\"}",
            "append to l with {a=\"b\"}",
        ];
        if expression.contains(",r)") && !expression.contains("r=") {
            lines.push("set r = {a=\"\"}");
        }
        server.prepare(&lines);
        let line = format!("filtereach y in l with {expression}");
        let (_, text) = server.admin(&[&line, "return l"]);
        let value = format!("[{}]", kept.join(","));
        assert_eq!(
            text,
            statuses(&["FILTEREACH"]) + &returning(&value),
            "{line}"
        );
    }
}

#[test]
fn rights() {
    let line = "filtereach y in l with \"\"";
    let mut server = Server::venue();
    for (right, expected) in [
        ("append", End::Denied),
        ("read", End::Denied),
        ("write", End::Returned),
    ] {
        server.one("bob", line, End::Denied);
        server.prepare(&[&format!("set delegation l admin {right} -> bob")]);
        server.one("bob", line, expected);
    }
    server.prepare(&["delete delegation l admin read -> bob"]);
    server.one("bob", line, End::Denied);
    // What is no list needs them too, and what is missing needs none.
    server.one("bob", "filtereach y in s with \"\"", End::Denied);
    server.one("bob", "filtereach y in nosuch with s", End::Failed);
}

/// Bob may read and write l, of a string and a record, and may not read s.
#[test]
fn what_goes_before_what() {
    let mut server = Server::venue();
    server.prepare(&[
        "set delegation l admin read -> bob",
        "set delegation l admin write -> bob",
    ]);
    let heavy = "a".repeat(8_193);
    for (line, expected) in [
        ("filtereach y in l with s", End::Denied),
        ("filtereach y in l with {a=nosuch,b=s}", End::Denied),
        ("filtereach s in l with s", End::Failed),
        ("filtereach l in l with s", End::Failed),
        ("filtereach y in l with y.a", End::Failed),
        ("filtereach y in l with nosuch", End::Failed),
        ("filtereach y in l with {a=y,a=y}", End::Failed),
        (&format!("filtereach y in l with \"{heavy}\""), End::Full),
        (
            &format!("filtereach y in l with concat(y,\"{heavy}\")"),
            End::Failed,
        ),
        // FAILED for the first, and nothing else for the second.
        ("filtereach y in l with let z=y.a in \"\"", End::Failed),
        // FAILED for the first and DENIED for the second.
        ("filtereach y in l with let z=y.a in s", End::Denied),
    ] {
        server.one("bob", line, expected);
    }
}

/// A list that cannot grow heavier is never FULL by what is left.
#[test]
fn at_the_weight_limit() {
    let mut server = Server::new("desk");
    let mut lines = vec![
        "set l = []",
        "append to l with \"1\"",
        "append to l with \"\"",
    ];
    lines.extend(["append to l with l"; 11]);
    server.prepare(&lines);
    let filler = format!("set x = \"{}\"", "x".repeat(8_192 - server.weight() - 2));
    server.prepare(&[&filler]);
    assert_eq!(server.weight(), 8_192);
    server.one("admin", "filtereach y in l with equal(y,y)", End::Returned);
    assert_eq!(server.weight(), 8_192);
    server.one("admin", "filtereach y in l with y", End::Returned);
    assert_eq!(server.weight(), 8_192 - 2 * 2_048);
    // On a local, and on a list that is empty.
    server.ends(
        "admin",
        &[
            "local e = []",
            "filtereach y in e with nosuch",
            "append to e with \"\"",
            "filtereach y in e with y",
            "return e",
        ],
        End::Returned,
    );
}
