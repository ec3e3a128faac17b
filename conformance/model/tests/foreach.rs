//! The command foreach (01, Commands).

mod common;

use common::{returning, Server};
use model::engine::End;

#[test]
fn foreach() {
    let mut server = Server::venue();
    let (_, text) = server.admin(&[
        "set l = []",
        "append to l with {a=\"1\",b=\"2\"}",
        "append to l with {b=\"3\"}",
        "foreach y in l replacewith {c=y.b,d=s}",
        "return l",
    ]);
    assert!(text.ends_with(&returning(
        "[{\"c\":\"2\",\"d\":\"text\"},{\"c\":\"3\",\"d\":\"text\"}]"
    )));
    server.prepare(&[
        "foreach y in l replacewith y",
        "foreach y in l replacewith y.c",
    ]);
    let (_, text) = server.admin(&["foreach y in l replacewith {v=y}", "return l"]);
    assert!(text.ends_with(&returning("[{\"v\":\"2\"},{\"v\":\"3\"}]")));
    let (_, text) = server.admin(&["foreach y in l replacewith r", "return l"]);
    assert!(text.ends_with(&returning(
        "[{\"a\":\"1\",\"b\":\"2\"},{\"a\":\"1\",\"b\":\"2\"}]"
    )));
}

#[test]
fn foreach_fails() {
    let mut server = Server::venue();
    for line in [
        "foreach y in s replacewith y",
        "foreach y in r replacewith y",
        "foreach y in nosuch replacewith y",
        "foreach s in l replacewith \"\"",
        "foreach l in l replacewith \"\"",
        "foreach y in l replacewith []",
        "foreach y in l replacewith l",
        "foreach y in l replacewith l.a",
        "foreach y in l replacewith {a=l}",
        "foreach y in l replacewith nosuch",
        "foreach y in l replacewith y.a",
        "foreach y in l replacewith {v=y}",
        "foreach y in l replacewith {v=s,v=s}",
        "foreach y in l replacewith y.nosuch",
    ] {
        server.one("admin", line, End::Failed);
    }
    server.ends(
        "admin",
        &[
            "local y = \"\"",
            "foreach y in l replacewith \"\"",
            "return l",
        ],
        End::Failed,
    );
}

#[test]
fn foreach_rights() {
    let mut server = Server::venue();
    server.one("bob", "foreach y in l replacewith y", End::Denied);
    server.one("bob", "foreach y in s replacewith y", End::Denied);
    server.prepare(&["set delegation l admin read -> bob"]);
    server.one("bob", "foreach y in l replacewith y", End::Denied);
    server.prepare(&["set delegation l admin append -> bob"]);
    server.one("bob", "foreach y in l replacewith y", End::Denied);
    server.prepare(&["set delegation l admin write -> bob"]);
    server.one("bob", "foreach y in l replacewith y", End::Returned);
    server.prepare(&["delete delegation l admin read -> bob"]);
    server.one("bob", "foreach y in l replacewith y", End::Denied);
}

#[test]
fn foreach_reads_only_what_it_evaluates() {
    let mut server = Server::venue();
    let start = "local x = []";
    let more = "append to x with \"a\"";
    // An element, and y undefined: s is read.
    let line = "foreach y in x replacewith s";
    server.ends("bob", &[start, more, line, "return x"], End::Denied);
    let line = "foreach y in x replacewith {a=nosuch,b=s}";
    server.ends("bob", &[start, more, line, "return x"], End::Denied);
    // No element: nothing is read.
    let line = "foreach y in x replacewith {a=nosuch,b=s}";
    server.ends("bob", &[start, line, "return x"], End::Returned);
    // y defined, or x no list: nothing is read, and the command fails.
    let line = "foreach x in x replacewith s";
    server.ends("bob", &[start, more, line, "return x"], End::Failed);
    let line = "foreach s in x replacewith s";
    server.ends("bob", &[start, more, line, "return x"], End::Failed);
    let line = "foreach y in z replacewith s";
    server.ends("bob", &["local z = \"\"", line, "return z"], End::Failed);
    server.ends("bob", &[line, "return \"\""], End::Failed);
}

#[test]
fn foreach_failed_goes_before_full() {
    let heavy = format!("{{a=y.a,b=\"{}\"}}", "b".repeat(5_000));
    let line = format!("foreach y in x replacewith {heavy}");
    let mut good = vec!["set x = []"];
    good.extend(["append to x with {a=\"1\"}"; 3]);
    let mut bad = good.clone();
    bad.push("append to x with {c=\"1\"}");
    good.extend([line.as_str(), "return \"\""]);
    bad.extend([line.as_str(), "return \"\""]);
    let mut server = Server::new("desk");
    server.ends("admin", &good, End::Full);
    server.ends("admin", &bad, End::Failed);
}
