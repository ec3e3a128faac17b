//! The examples of source document 001 that 01 keeps. Where 001 leaves out
//! the first line of an example, it is added.

mod common;

use common::{returning, statuses, Server};
use model::engine::End;

fn server() -> Server {
    Server::new("admin")
}

fn admin(server: &mut Server, lines: &[&str]) -> (End, String) {
    server.run("admin", "admin", lines)
}

#[test]
fn overview() {
    let mut server = server();
    let (end, text) = server.send(
        b"as principal admin password \"admin\" do
    create principal alice \"alices_password\"
    set msg = \"Hi Alice. Good luck in Build-it, Break-it, Fix-it!\"
    set delegation msg admin read -> alice
    return \"success\"
***
",
    );
    assert_eq!(end, End::Returned);
    assert_eq!(
        text,
        "{\"status\":\"CREATE_PRINCIPAL\"}\n\
         {\"status\":\"SET\"}\n\
         {\"status\":\"SET_DELEGATION\"}\n\
         {\"status\":\"RETURNING\",\"output\":\"success\"}\n"
    );
    let (_, text) = server.run("alice", "alices_password", &["    return msg"]);
    assert_eq!(
        text,
        returning("\"Hi Alice. Good luck in Build-it, Break-it, Fix-it!\"")
    );
}

/// The server after the program of 001's command language overview.
fn with_bob() -> Server {
    let mut server = server();
    let (end, text) = server.send(
        b"as principal admin password \"admin\" do
    create principal bob \"B0BPWxxd\"
    set x = \"my string\"
    set y = { f1 = x, f2 = \"field2\" }
    set delegation x admin read -> bob
    return y.f1
***
",
    );
    assert_eq!(end, End::Returned);
    let done = ["CREATE_PRINCIPAL", "SET", "SET", "SET_DELEGATION"];
    assert_eq!(text, statuses(&done) + &returning("\"my string\""));
    server
}

#[test]
fn bob_reads_x() {
    let mut server = with_bob();
    let (_, text) = server.run("bob", "B0BPWxxd", &["    return x"]);
    assert_eq!(text, returning("\"my string\""));
    let (end, _) = server.run("bob", "B0BPWxxd", &["return y"]);
    assert_eq!(end, End::Denied);
}

#[test]
fn bob_may_not_write_x_and_z_is_rolled_back() {
    let mut server = with_bob();
    // The apostrophe of 001's example is no character of a string.
    let lines = [
        "set z = \"bob's string\"",
        "set x = \"another string\"",
        "return x",
    ];
    let (end, _) = server.run("bob", "B0BPWxxd", &lines);
    assert_eq!(end, End::Failed);
    let lines = [
        "set z = \"bobs string\"",
        "set x = \"another string\"",
        "return x",
    ];
    let (end, _) = server.run("bob", "B0BPWxxd", &lines);
    assert_eq!(end, End::Denied);
    let (end, _) = admin(&mut server, &["return z"]);
    assert_eq!(end, End::Failed);
}

#[test]
fn reformatted() {
    let mut server = server();
    let (end, text) = server.send(
        b"as principal admin password \"admin\" do
create principal bob \"B0BPWxxd\"
set x = \"my string\"
set y ={f1=x,f2=\"field2\"}
set     delegation x admin read-> bob
return y . f1
***",
    );
    assert_eq!(end, End::Returned);
    assert!(text.ends_with(&returning("\"my string\"")));
}

#[test]
fn a_command_is_on_one_line() {
    let (end, _) = server()
        .send(b"as principal admin password \"admin\" do\nset x =\n\"my string\"\nreturn x\n***\n");
    assert_eq!(end, End::Failed);
}

#[test]
fn deep_copy() {
    let (_, text) = admin(
        &mut server(),
        &[
            "set x = \"hello\"",
            "set y = x",
            "set x = \"there\"",
            "return y",
        ],
    );
    assert_eq!(text, statuses(&["SET"; 3]) + &returning("\"hello\""));
}

#[test]
fn names_of_records() {
    let mut server = server();
    let (end, text) = server.send(
        b"as principal admin password \"admin\" do
  set records = []
  append to records with { name = \"mike\", date = \"1-1-90\" }
  append to records with { name = \"dave\", date = \"1-1-85\" }
  local names = records
  foreach rec in names replacewith rec.name
  return names
***
",
    );
    assert_eq!(end, End::Returned);
    let done = ["SET", "APPEND", "APPEND", "LOCAL", "FOREACH"];
    assert_eq!(text, statuses(&done) + &returning("[\"mike\",\"dave\"]"));
    let (_, text) = admin(&mut server, &["return records"]);
    assert_eq!(
        text,
        returning(
            "[{\"name\":\"mike\",\"date\":\"1-1-90\"},{\"name\":\"dave\",\"date\":\"1-1-85\"}]"
        )
    );
}

#[test]
fn enforcing_command_permissions() {
    let mut server = with_bob();
    // 001 takes it that the statements are executed successfully: bob needs
    // delegate for the first.
    let (end, _) = admin(
        &mut server,
        &[
            "create principal alice \"a\"",
            "set delegation x admin delegate -> bob",
            "set delegation x bob read -> alice",
            "set delegation x admin append -> anyone",
            "return \"\"",
        ],
    );
    assert_eq!(end, End::Returned);
    assert_eq!(server.ask("alice", "x", b'r'), Ok(Some(2)));
    assert_eq!(server.ask("alice", "x", b'a'), Ok(Some(2)));
    assert_eq!(server.ask("bob", "x", b'a'), Ok(Some(2)));
    assert_eq!(server.ask("alice", "x", b'w'), Ok(None));
    // Not directly present, so nothing is removed.
    let (end, text) = admin(
        &mut server,
        &["delete delegation x admin read -> alice", "return \"\""],
    );
    assert_eq!(end, End::Returned);
    assert_eq!(text, statuses(&["DELETE_DELEGATION"]) + &returning("\"\""));
    assert_eq!(server.ask("alice", "x", b'r'), Ok(Some(2)));
    let (end, _) = admin(
        &mut server,
        &["delete delegation x bob read -> alice", "return \"\""],
    );
    assert_eq!(end, End::Returned);
    assert_eq!(server.ask("alice", "x", b'r'), Ok(None));
    assert_eq!(server.ask("bob", "x", b'r'), Ok(Some(1)));
}

#[test]
fn denied_rather_than_failed() {
    let mut server = with_bob();
    let (end, _) = admin(&mut server, &["set s = \"a string\"", "return \"\""]);
    assert_eq!(end, End::Returned);
    let (end, _) = server.run("bob", "B0BPWxxd", &["return s.y"]);
    assert_eq!(end, End::Denied);
}

#[test]
fn output_of_values() {
    let (_, text) = admin(
        &mut server(),
        &[
            "local l = []",
            "append to l with \"example\"",
            "append to l with \"test\"",
            "append to l with {f=\"val\",g=\"val2\"}",
            "return l",
        ],
    );
    assert!(text.ends_with(
        "{\"status\":\"RETURNING\",\"output\":[\"example\",\"test\",{\"f\":\"val\",\"g\":\"val2\"}]}\n"
    ));
    let (_, text) = admin(&mut server(), &["return {key1=\"elem1\",key2=\"string\"}"]);
    assert_eq!(
        text,
        "{\"status\":\"RETURNING\",\"output\":{\"key1\":\"elem1\",\"key2\":\"string\"}}\n"
    );
}

#[test]
fn query_to_the_oracle() {
    let mut server = Server::new("password");
    let first = "as principal admin password \"password\" do\nset x = \"x\"\nreturn x\n***";
    let second = "as principal admin password \"password\" do\nreturn x\n***";
    let (_, text) = server.send(first.as_bytes());
    assert_eq!(text, statuses(&["SET"]) + &returning("\"x\""));
    let (_, text) = server.send(second.as_bytes());
    assert_eq!(text, returning("\"x\""));
}

#[test]
fn string_functions() {
    let (end, text) = server().send(
        b"as principal admin password \"admin\" do
  set x = \"hello\"
  set y = split(x,\"--\")
  set z = concat(x,y.fst)
  return { x=x, y=y.snd, z=z }
***
",
    );
    assert_eq!(end, End::Returned);
    // 001 prints the fields in another order; 01 has that in which they are
    // written.
    let value = "{\"x\":\"hello\",\"y\":\"llo\",\"z\":\"hellohe\"}";
    assert_eq!(text, statuses(&["SET"; 3]) + &returning(value));
    // 001's rules for the three functions.
    for (expression, value) in [
        (
            "split(\"hello\",\"--\")",
            "{\"fst\":\"he\",\"snd\":\"llo\"}",
        ),
        ("split(\"he\",\"-----\")", "{\"fst\":\"he\",\"snd\":\"\"}"),
        ("concat(\"hello\",\"there\")", "\"hellothere\""),
        ("tolower(\"Hello THERE\")", "\"hello there\""),
    ] {
        let (_, text) = admin(&mut server(), &[&format!("return {expression}")]);
        assert_eq!(text, returning(value), "{expression}");
    }
    for expression in ["split(\"s\",l)", "concat(l,\"s\")", "tolower(l)"] {
        let last = format!("return {expression}");
        let (end, _) = admin(&mut server(), &["local l = []", &last]);
        assert_eq!(end, End::Failed, "{expression}");
    }
}

#[test]
fn filtering_lists() {
    let mut server = server();
    let (_, text) = server.send(
        b"as principal admin password \"admin\" do
    set records = []
    append to records with { name = \"mike\", date = \"1-1-90\" }
    append to records with { name = \"sandy\", date = \"1-1-90\" }
    append to records with { name = \"dave\", date = \"1-1-85\" }
    filtereach rec in records with equal(rec.date,\"1-1-90\")
    return records
***
",
    );
    // 01 prints the fields in the order in which they are written.
    let value =
        "[{\"name\":\"mike\",\"date\":\"1-1-90\"},{\"name\":\"sandy\",\"date\":\"1-1-90\"}]";
    let done = ["SET", "APPEND", "APPEND", "APPEND", "FILTEREACH"];
    assert_eq!(text, statuses(&done) + &returning(value));
    for (line, expected) in [
        ("filtereach rec in nosuch with \"\"", End::Failed),
        ("filtereach records in records with \"\"", End::Failed),
        ("set x = equal(records,\"\")", End::Failed),
        ("set x = notequal(\"\",records)", End::Failed),
        ("set x = equal(\"\",\"\")", End::Returned),
    ] {
        let (end, _) = admin(&mut server, &[line, "return \"\""]);
        assert_eq!(end, expected, "{line}");
    }
}

#[test]
fn recursive_expressions() {
    let mut server = server();
    let (_, text) = server.send(
        b"as principal admin password \"admin\" do
  set x = { f1 = \"hello\", f2 = \"there\" }
  set y = let z = concat(x.f1, \" \") in concat(z, x.f2)
  return y
***
",
    );
    assert_eq!(
        text,
        statuses(&["SET", "SET"]) + &returning("\"hello there\"")
    );
    for line in ["return z", "return let x = \"\" in \"\""] {
        let (end, _) = admin(&mut server, &[line]);
        assert_eq!(end, End::Failed, "{line}");
    }
}
