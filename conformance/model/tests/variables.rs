//! Values, set, append and local (01, Values and Commands).

mod common;

use common::{returning, statuses, Server};
use model::engine::End;

#[test]
fn values_read() {
    let mut server = Server::venue();
    let (_, text) = server.admin(&["return r.b"]);
    assert_eq!(text, returning("\"2\""));
    let (_, text) = server.admin(&["return {x=r.a,y=s,z=\"q\"}"]);
    assert_eq!(text, returning("{\"x\":\"1\",\"y\":\"text\",\"z\":\"q\"}"));
    let (_, text) = server.admin(&["return l"]);
    assert_eq!(text, returning("[\"x\",{\"a\":\"y\"}]"));
    for failing in [
        "nosuch",
        "nosuch.a",
        "r.c",
        "s.a",
        "l.a",
        "{x=r}",
        "{x=l}",
        "{x=nosuch}",
        "{x=r.c}",
        "{x=s,x=s}",
        "{x=s,y=s,x=r.a}",
        "admin",
    ] {
        server.ends("admin", &[&format!("return {failing}")], End::Failed);
    }
}

#[test]
fn reading_without_the_right() {
    let mut server = Server::venue();
    for (expression, end) in [
        ("s", End::Denied),
        ("s.a", End::Denied),
        ("r.c", End::Denied),
        ("l.a", End::Denied),
        ("{a=\"\",b=s}", End::Denied),
        ("{a=nosuch.x,b=r.a}", End::Denied),
        ("{a=l,a=l}", End::Denied),
        ("nosuch", End::Failed),
        ("{a=nosuch}", End::Failed),
        ("[]", End::Returned),
        ("\"s\"", End::Returned),
    ] {
        let line = format!("return {expression}");
        server.ends("bob", &[&line], end);
    }
}

#[test]
fn set() {
    let mut server = Server::venue();
    server.one("bob", "set s = \"\"", End::Denied);
    server.one("bob", "set s = nosuch", End::Denied);
    server.one("bob", "set new = s", End::Denied);
    server.one("bob", "set new = new", End::Failed);
    server.prepare(&["set delegation s admin append -> bob"]);
    server.one("bob", "set s = \"\"", End::Denied);
    server.prepare(&["set delegation s admin write -> bob"]);
    server.one("bob", "set s = []", End::Returned);
    // Writing is no reading, and admin makes no assertion to itself.
    server.ends("bob", &["return s"], End::Denied);
    server.prepare(&["set fresh = \"\""]);
    assert!(!server.text().contains("A|fresh"));
    // Set again, a variable keeps its place and gives no new rights.
    server.prepare(&["set delegation fresh admin write -> bob"]);
    server.one("bob", "set fresh = \"z\"", End::Returned);
    assert_eq!(server.text().matches("A|fresh").count(), 1);
    assert!(server.text().contains("V|fresh|S|z\nA|"));
}

#[test]
fn set_copies() {
    let (end, text) = Server::new("desk").admin(&[
        "set x = []",
        "append to x with \"a\"",
        "set y = x",
        "append to x with \"b\"",
        "append to x with x",
        "append to y with \"c\"",
        "set z = x",
        "append to z with y",
        "return z",
    ]);
    assert_eq!(end, End::Returned);
    let done = [
        "SET", "APPEND", "SET", "APPEND", "APPEND", "APPEND", "SET", "APPEND",
    ];
    assert_eq!(
        text,
        statuses(&done) + &returning("[\"a\",\"b\",\"a\",\"b\",\"a\",\"c\"]")
    );
}

#[test]
fn append() {
    let mut server = Server::venue();
    server.one("bob", "append to l with \"z\"", End::Denied);
    server.one("bob", "append to s with \"z\"", End::Denied);
    server.one("bob", "append to nosuch with \"z\"", End::Failed);
    server.one("bob", "append to nosuch with s", End::Denied);
    for line in ["append to s with \"z\"", "append to r with \"z\""] {
        server.one("admin", line, End::Failed);
    }
    for right in ["read", "delegate"] {
        server.prepare(&[&format!("set delegation l admin {right} -> carol")]);
        server.one("carol", "append to l with \"z\"", End::Denied);
    }
    server.prepare(&["set delegation l admin append -> carol"]);
    server.one("carol", "append to l with \"z\"", End::Returned);
    server.one("carol", "append to l with l", End::Returned);
    server.prepare(&["set delegation l admin write -> bob"]);
    server.one("bob", "append to l with []", End::Returned);
    server.one("bob", "append to l with l", End::Denied);
    let (_, text) = server.admin(&["return l"]);
    let three = "\"x\",{\"a\":\"y\"},\"z\"";
    assert_eq!(text, returning(&format!("[{three},{three}]")));
}

#[test]
fn local() {
    let mut server = Server::venue();
    let (end, text) = server.run(
        "bob",
        "b",
        &[
            "local x = []",
            "append to x with {a=\"1\",b=\"2\"}",
            "foreach y in x replacewith y.b",
            "local y = x",
            "set x = \"new\"",
            "append to y with x",
            "return y",
        ],
    );
    assert_eq!(end, End::Returned);
    let done = ["LOCAL", "APPEND", "FOREACH", "LOCAL", "SET", "APPEND"];
    assert_eq!(text, statuses(&done) + &returning("[\"2\",\"new\"]"));
    assert!(!server.text().contains("V|x"));
    server.ends("bob", &["return x"], End::Failed);
    server.one("bob", "local s = \"\"", End::Failed);
    server.one("bob", "local s = r", End::Denied);
    server.one("bob", "local x = x", End::Failed);
    server.ends(
        "bob",
        &["local x = \"\"", "local x = \"\"", "return x"],
        End::Failed,
    );
    server.ends(
        "bob",
        &["set x = \"\"", "local x = \"\"", "return x"],
        End::Failed,
    );
}

#[test]
fn a_local_is_no_shared_variable() {
    let mut server = Server::venue();
    for line in [
        "set delegation x admin read -> bob",
        "delete delegation x admin read -> bob",
    ] {
        server.ends(
            "admin",
            &["local x = \"\"", line, "return \"\""],
            End::Failed,
        );
    }
}
