//! Login and the commands about principals (01, A run and Commands; for names
//! that are missing 02, M-105).

mod common;

use common::{returning, statuses, Server, FRESH, SESSION};
use model::engine::End;

fn login_ends(server: &mut Server, name: &str, password: &str, line: &str, expected: End) {
    let (end, _) = server.run(name, password, &[line]);
    assert_eq!(end, expected, "{name} with {password} sends {line}");
}

#[test]
fn login() {
    let mut server = Server::session();
    for (name, password, expected) in [
        ("rosa", "r1", End::Returned),
        ("rosa", "r2", End::Denied),
        ("rosa", "r", End::Denied),
        ("rosa", "", End::Denied),
        ("nobody", "r1", End::Denied),
        ("anyone", "", End::Denied),
        ("queue", "", End::Denied),
        ("admin", "desk", End::Returned),
        ("admin", "r1", End::Denied),
    ] {
        login_ends(&mut server, name, password, "return \"\"", expected);
    }
    // What does not parse fails before any password.
    login_ends(&mut server, "rosa", "r2", "return", End::Failed);
    login_ends(&mut server, "rosa", "r2", "return nosuch", End::Denied);
}

#[test]
fn empty_password_is_a_password() {
    let mut server = Server::of_text(&SESSION.replace("P|rosa|r1|", "P|rosa||"));
    login_ends(&mut server, "rosa", "", "return \"\"", End::Returned);
    login_ends(&mut server, "rosa", "r1", "return \"\"", End::Denied);
}

#[test]
fn uncompleted_programs_leave_nothing() {
    let mut server = Server::session();
    for last in ["return nosuch", "return queue.x", "exit nothing"] {
        let (end, _) = server.admin(&["set x = \"a\"", "change password admin \"\"", last]);
        assert_eq!(end, End::Failed);
        assert_eq!(server.text(), SESSION);
    }
}

#[test]
fn create_principal() {
    let mut server = Server::venue();
    server.one("bob", "create principal eve \"\"", End::Denied);
    server.one("bob", "create principal bob \"\"", End::Denied);
    for name in ["admin", "anyone", "bob"] {
        let line = format!("create principal {name} \"\"");
        server.one("admin", &line, End::Failed);
    }
    server.ends(
        "admin",
        &[
            "create principal eve \"\"",
            "create principal eve \"\"",
            "exit",
        ],
        End::Failed,
    );
    // A principal and a variable may have one name.
    server.one("admin", "create principal s \"\"", End::Returned);
}

#[test]
fn create_principal_enters_what_the_default_delegator_delegates() {
    let mut server = Server::new("desk");
    server.prepare(&[
        "create principal bob \"b\"",
        "set x = \"\"",
        "set y = \"\"",
        "set z = \"\"",
        "set delegation z admin delegate -> bob",
        "set delegation x admin delegate -> bob",
    ]);
    server.prepare(&["default delegator = bob", "create principal eve \"e\""]);
    let assertions: Vec<String> = server
        .text()
        .lines()
        .filter(|line| line.starts_with("A|"))
        .map(str::to_string)
        .collect();
    assert_eq!(
        assertions,
        [
            "A|z|admin|d|bob",
            "A|x|admin|d|bob",
            "A|x|bob|r|eve",
            "A|z|bob|r|eve",
            "A|x|bob|w|eve",
            "A|z|bob|w|eve",
            "A|x|bob|a|eve",
            "A|z|bob|a|eve",
            "A|x|bob|d|eve",
            "A|z|bob|d|eve",
        ]
    );
    // Bob has delegate only, so delegate is all that eve gains.
    assert_eq!(server.ask("eve", "x", b'd'), Ok(Some(2)));
    assert_eq!(server.ask("eve", "x", b'r'), Ok(None));
    assert_eq!(server.ask("eve", "y", b'd'), Ok(None));
}

#[test]
fn anyone_as_default_delegator() {
    let mut server = Server::new("desk");
    server.prepare(&[
        "set x = \"\"",
        "set y = \"\"",
        "set delegation y admin delegate -> anyone",
        "create principal bob \"\"",
    ]);
    assert_eq!(
        server.text(),
        "O\nP|admin|desk|1\nN|anyone|0\nP|bob||0\nD|anyone\nV|x|S|\nV|y|S|\nA|y|admin|d|anyone\n\
         A|y|anyone|r|bob\nA|y|anyone|w|bob\nA|y|anyone|a|bob\nA|y|anyone|d|bob\n"
    );
    // 16 + 12, bob 11 + 3, two variables of 2, then 1 + 1 + 1 + 1 and four of 1 + 1 + 1 + 3.
    assert_eq!(server.weight(), 28 + 14 + 4 + 4 + 24);
}

#[test]
fn change_password() {
    let mut server = Server::venue();
    server.one("bob", "change password carol \"\"", End::Denied);
    server.one("bob", "change password nobody \"\"", End::Denied);
    server.one("admin", "change password nobody \"\"", End::Failed);
    let (end, text) = server.run("bob", "b", &["change password bob \"new\"", "return \"\""]);
    assert_eq!(end, End::Returned);
    assert_eq!(text, statuses(&["CHANGE_PASSWORD"]) + &returning("\"\""));
    login_ends(&mut server, "bob", "b", "return \"\"", End::Denied);
    login_ends(&mut server, "bob", "new", "return \"\"", End::Returned);
    server.one("admin", "change password bob \"\"", End::Returned);
    login_ends(&mut server, "bob", "new", "return \"\"", End::Denied);
    login_ends(&mut server, "bob", "", "return \"\"", End::Returned);
}

#[test]
fn anyone_may_get_a_password() {
    let mut server = Server::new("desk");
    server.prepare(&["change password anyone \"a\""]);
    assert_eq!(
        server.text(),
        FRESH
            .replace("desk|0", "desk|1")
            .replace("N|anyone", "P|anyone|a")
    );
    assert_eq!(server.weight(), 29);
    server.one("anyone", "set x = \"\"", End::Returned);
    assert_eq!(
        server.text(),
        "O\nP|admin|desk|1\nP|anyone|a|1\nD|anyone\nV|x|S|\nA|x|admin|r|anyone\n\
         A|x|admin|w|anyone\nA|x|admin|a|anyone\nA|x|admin|d|anyone\n"
    );
    server.one("anyone", "create principal p \"\"", End::Denied);
}

#[test]
fn default_delegator() {
    let mut server = Server::venue();
    server.one("bob", "default delegator = bob", End::Denied);
    server.one("bob", "default delegator = nobody", End::Denied);
    server.one("admin", "default delegator = nobody", End::Failed);
    server.one("admin", "default delegator = s", End::Failed);
    let (_, text) = server.admin(&["default delegator = admin", "return \"\""]);
    assert_eq!(text, statuses(&["DEFAULT_DELEGATOR"]) + &returning("\"\""));
    assert!(server.text().contains("\nD|admin\n"));
}
