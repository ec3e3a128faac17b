//! A name that is missing is answered as a wrong password is (02, M-105).

mod common;

use common::{buffer, program, returning, statuses, Server, DIRT, SESSION};
use model::calls;
use model::engine::End;
use model::observe::logins::{logins, MISSING, PARSED, UNPARSED};
use model::text::BUFFER;

/// Names that 01's session has not: a plain one, one told from rosa by its case,
/// one with which hers begins, one that begins with hers, a variable's, and the
/// longest.
fn missing_names() -> Vec<String> {
    let names = ["bob", "Rosa", "ros", "rosas", "queue"];
    let longest = "n".repeat(255);
    names
        .map(str::to_string)
        .into_iter()
        .chain([longest])
        .collect()
}

#[test]
fn a_missing_name_is_denied_whatever_it_sends() {
    let heavy = format!("return \"{}\"", "a".repeat(8_193));
    for name in missing_names() {
        for line in [
            "return \"a\"",
            "return nosuch",
            "return queue",
            &heavy,
            "exit",
        ] {
            let mut server = Server::session();
            let (end, text) = server.run(&name, "r1", &[line]);
            assert_eq!((end, text), (End::Denied, statuses(&["DENIED"])), "{name}");
            assert_eq!(server.text(), SESSION);
        }
    }
}

#[test]
fn what_does_not_parse_fails_whoever_sent_it() {
    let too_long = "n".repeat(256);
    for (name, password) in [
        ("bob", "r1"),
        ("rosa", "r1"),
        ("rosa", "r2"),
        ("anyone", ""),
    ] {
        let whole = program(name, password, &["return \"a\""]);
        for text in [
            program(name, password, &[]),
            program(name, password, &["retrun \"a\""]),
            program(name, password, &["retrun \"a\"", "return \"a\""]),
            program(name, password, &["return \"a\"", "return \"a\""]),
            whole.replace("***\n", ""),
            whole.replace("***\n", "***\n\n"),
            whole.replacen(name, "set", 1),
            whole.replacen(name, &too_long, 1),
        ] {
            let mut server = Server::session();
            assert_eq!(server.send(text.as_bytes()).0, End::Failed, "{text}");
            assert_eq!(server.text(), SESSION);
        }
    }
}

/// The longest program is one, and with one byte more it is none.
#[test]
fn the_longest_program() {
    let program = |more| {
        let lines = format!(
            "as principal bob password \"b\" do\nreturn \"{}\"\n***",
            "a".repeat(more)
        );
        let length = lines.len();
        (lines, length)
    };
    let (_, short) = program(0);
    for (length, expected) in [(16_384, End::Denied), (16_385, End::Failed)] {
        let (text, bytes) = program(length - short);
        assert_eq!(bytes, length);
        assert_eq!(Server::session().send(text.as_bytes()).0, expected);
    }
}

#[test]
fn a_name_is_known_once_it_was_created() {
    let mut server = Server::session();
    let sent = program("bob", "b", &["return \"a\""]);
    let creates = ["create principal bob \"b\"", "return \"a\""];
    assert_eq!(server.send(sent.as_bytes()).0, End::Denied);
    // Its own program does not help, nor one that is not completed.
    assert_eq!(server.run("bob", "b", &creates).0, End::Denied);
    assert_eq!(server.admin(&[creates[0], "return nosuch"]).0, End::Failed);
    assert_eq!(server.send(sent.as_bytes()).0, End::Denied);
    assert_eq!(server.admin(&creates).0, End::Returned);
    let answer = server.send(sent.as_bytes());
    assert_eq!(answer, (End::Returned, returning("\"a\"")));
}

/// Only the login of a missing name is DENIED: in a command it is FAILED.
#[test]
fn missing_names_in_commands_fail() {
    let mut server = Server::session();
    for line in [
        "change password bob \"b\"",
        "default delegator = bob",
        "set delegation queue bob read -> rosa",
        "set delegation queue admin read -> bob",
        "delete delegation queue admin read -> bob",
        "set x = nosuch",
        "append to nosuch with \"a\"",
    ] {
        assert_eq!(
            server.admin(&[line, "return \"a\""]).0,
            End::Failed,
            "{line}"
        );
    }
}

/// What a call on a state text answers, prints and leaves in the work buffer.
fn seen(text: &str, program: &str) -> (String, Vec<u8>, Vec<u8>) {
    let mut state = buffer(text);
    let (mut work, mut output) = (vec![DIRT; BUFFER], vec![DIRT; BUFFER]);
    let report = calls::run(&mut state, &mut work, &mut output, program.as_bytes());
    assert!(state == buffer(text));
    (format!("{report:?}"), output, work)
}

#[test]
fn two_states_show_the_same() {
    let other = "O\nP|admin|x|7\nP|anyone||0\nP|bob|b|3\nD|bob\nV|nosuch|S|a\n";
    for (name, password) in [
        ("bob", "c"),
        ("rosa", "b"),
        ("admin", "a"),
        ("anyone", "a"),
        ("nobody", ""),
    ] {
        for line in ["return nosuch", "return queue", "exit", "exit now"] {
            let sent = program(name, password, &[line]);
            assert!(seen(SESSION, &sent) == seen(other, &sent), "{sent}");
        }
    }
}

#[test]
fn what_is_told_of_logins() {
    let state = buffer(SESSION);
    let told = |text: &str| logins(&state, text.as_bytes());
    for (name, password, at) in [
        ("rosa", "r1", 0),
        ("bob", "r1", 1),
        ("rosa", "r2", 2),
        ("anyone", "", 3),
    ] {
        let text = program(name, password, &["return \"a\""]);
        assert_eq!(told(&text), [PARSED[at]]);
        assert_eq!(told(&text.replace("return", "retrun")), [UNPARSED[at]]);
        assert_eq!(told(&text.replace("do\n", "")), [""; 0]);
    }
    let longest = "n".repeat(255);
    for (name, line, at) in [
        ("queue", "return \"a\"", 0),
        ("ROSA", "return \"a\"", 1),
        ("ros", "return \"a\"", 2),
        (&longest, "return \"a\"", 3),
        ("bob", "create principal bob \"\"", 4),
        ("bob", "exit", 5),
    ] {
        let lines = if at == 4 {
            vec![line, "return \"a\""]
        } else {
            vec![line]
        };
        assert_eq!(
            told(&program(name, "", &lines)),
            [PARSED[1], MISSING[at]],
            "{name}"
        );
    }
    let closed = buffer(&SESSION.replacen('O', "C", 1));
    assert_eq!(
        logins(&closed, program("bob", "", &["exit"]).as_bytes()),
        [""; 0]
    );
}
