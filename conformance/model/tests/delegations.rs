//! Entering and withdrawing assertions (01, Chains and Commands).

mod common;

use common::{returning, statuses, Server};
use model::engine::End;

/// Bob, carol and dave; variables x and y of admin's. Bob has delegate on x.
fn venue() -> Server {
    let mut server = Server::new("desk");
    server.prepare(&[
        "create principal bob \"b\"",
        "create principal carol \"c\"",
        "create principal dave \"d\"",
        "set x = \"\"",
        "set y = \"\"",
        "set delegation x admin delegate -> bob",
    ]);
    server
}

fn assertions(server: &Server) -> Vec<String> {
    let text = server.text();
    let lines = text.lines().filter_map(|line| line.strip_prefix("A|"));
    lines.map(str::to_string).collect()
}

#[test]
fn who_may_set() {
    let mut server = venue();
    server.one("bob", "set delegation x bob read -> carol", End::Returned);
    server.one("bob", "set delegation x bob read -> bob", End::Returned);
    server.one("admin", "set delegation x bob read -> dave", End::Returned);
    server.one(
        "admin",
        "set delegation x admin read -> admin",
        End::Returned,
    );
    // Neither admin nor q, be it p.
    server.one("carol", "set delegation x bob read -> carol", End::Denied);
    server.one("bob", "set delegation x admin read -> bob", End::Denied);
    server.one(
        "bob",
        "set delegation nosuch nobody read -> nobody",
        End::Denied,
    );
    // q lacks delegate, also where admin sends it and p is missing.
    server.one("bob", "set delegation y bob read -> carol", End::Denied);
    server.one("carol", "set delegation x carol read -> dave", End::Denied);
    server.one("admin", "set delegation y bob read -> carol", End::Denied);
    server.one("admin", "set delegation y bob read -> nobody", End::Denied);
    server.one("admin", "set delegation x anyone read -> bob", End::Denied);
}

#[test]
fn what_must_exist_to_set() {
    let mut server = venue();
    server.one("bob", "set delegation x bob read -> nobody", End::Failed);
    server.one(
        "bob",
        "set delegation nosuch bob read -> carol",
        End::Failed,
    );
    server.one(
        "admin",
        "set delegation x nobody read -> carol",
        End::Failed,
    );
    server.one(
        "admin",
        "set delegation nosuch bob read -> carol",
        End::Failed,
    );
    server.one(
        "admin",
        "set delegation all nobody read -> carol",
        End::Failed,
    );
    server.one(
        "admin",
        "set delegation all bob read -> nobody",
        End::Failed,
    );
    server.one("bob", "set delegation all bob read -> nobody", End::Failed);
    server.one("carol", "set delegation all bob read -> carol", End::Denied);
}

#[test]
fn an_assertion_keeps_its_place() {
    let mut server = venue();
    server.prepare(&[
        "set delegation x bob read -> carol",
        "set delegation y admin read -> carol",
        "set delegation x bob read -> carol",
        "set delegation x admin delegate -> bob",
    ]);
    let expected = ["x|admin|d|bob", "x|bob|r|carol", "y|admin|r|carol"];
    assert_eq!(assertions(&server), expected);
    // Withdrawn and entered again it comes last.
    server.prepare(&[
        "delete delegation x bob read -> carol",
        "set delegation x bob read -> carol",
    ]);
    let expected = ["x|admin|d|bob", "y|admin|r|carol", "x|bob|r|carol"];
    assert_eq!(assertions(&server), expected);
}

#[test]
fn set_all_takes_what_q_may_delegate() {
    let mut server = venue();
    server.prepare(&[
        "set z = \"\"",
        "set delegation z admin delegate -> anyone",
        "set delegation all bob write -> carol",
        "set delegation all carol append -> dave",
        "set delegation all admin read -> dave",
    ]);
    let expected = [
        "x|admin|d|bob",
        "z|admin|d|anyone",
        "x|bob|w|carol",
        "z|bob|w|carol",
        "z|carol|a|dave",
        "x|admin|r|dave",
        "y|admin|r|dave",
        "z|admin|r|dave",
    ];
    assert_eq!(assertions(&server), expected);
    server.one("dave", "set delegation all dave read -> bob", End::Returned);
    assert_eq!(assertions(&server).last().unwrap(), "z|dave|r|bob");
}

#[test]
fn set_all_is_settled_before_the_command() {
    let mut server = venue();
    // Carol passes to herself what she has; nothing more comes of it.
    server.prepare(&[
        "set delegation x bob delegate -> carol",
        "set delegation all carol delegate -> carol",
        "set delegation all carol delegate -> anyone",
    ]);
    let expected = [
        "x|admin|d|bob",
        "x|bob|d|carol",
        "x|carol|d|carol",
        "x|carol|d|anyone",
    ];
    assert_eq!(assertions(&server), expected);
}

#[test]
fn who_may_delete() {
    let mut server = venue();
    server.prepare(&[
        "set delegation x bob read -> carol",
        "set delegation y admin read -> carol",
    ]);
    server.one("dave", "delete delegation x bob read -> carol", End::Denied);
    server.one(
        "dave",
        "delete delegation nosuch bob read -> nobody",
        End::Denied,
    );
    // q without delegate on an existing variable.
    server.one("bob", "delete delegation y bob read -> carol", End::Denied);
    server.one("bob", "delete delegation y bob read -> nobody", End::Denied);
    server.one(
        "bob",
        "delete delegation nosuch bob read -> carol",
        End::Failed,
    );
    // q that is p as well needs nothing.
    server.one("bob", "delete delegation y bob read -> bob", End::Returned);
    // p needs nothing.
    server.one(
        "carol",
        "delete delegation y admin read -> carol",
        End::Returned,
    );
    server.one(
        "bob",
        "delete delegation x bob read -> carol",
        End::Returned,
    );
    assert_eq!(assertions(&server), ["x|admin|d|bob"]);
    // Admin may withdraw for a q that lacks delegate.
    server.one(
        "admin",
        "delete delegation y dave read -> carol",
        End::Returned,
    );
}

#[test]
fn what_must_exist_to_delete() {
    let mut server = venue();
    server.one(
        "admin",
        "delete delegation x bob read -> nobody",
        End::Failed,
    );
    server.one(
        "admin",
        "delete delegation x nobody read -> bob",
        End::Failed,
    );
    server.one(
        "admin",
        "delete delegation nosuch bob read -> carol",
        End::Failed,
    );
    server.one("bob", "delete delegation x nobody read -> bob", End::Failed);
    server.one(
        "bob",
        "delete delegation all bob read -> nobody",
        End::Failed,
    );
    // Nothing to remove is no failure.
    let before = assertions(&server);
    server.one(
        "bob",
        "delete delegation x bob read -> carol",
        End::Returned,
    );
    server.one(
        "bob",
        "delete delegation all bob read -> carol",
        End::Returned,
    );
    assert_eq!(assertions(&server), before);
}

#[test]
fn delete_all_is_for_admin_and_q() {
    let mut server = venue();
    server.one(
        "carol",
        "delete delegation all bob read -> carol",
        End::Denied,
    );
    server.one(
        "bob",
        "delete delegation all bob read -> carol",
        End::Returned,
    );
    server.one(
        "admin",
        "delete delegation all bob read -> carol",
        End::Returned,
    );
}

#[test]
fn delete_all_leaves_what_q_may_not_delegate() {
    let mut server = venue();
    server.prepare(&[
        "set delegation y admin delegate -> bob",
        "set delegation all bob read -> carol",
        "set delegation all bob write -> carol",
        "delete delegation y admin delegate -> bob",
        "delete delegation all bob read -> carol",
    ]);
    let expected = [
        "x|admin|d|bob",
        "y|bob|r|carol",
        "x|bob|w|carol",
        "y|bob|w|carol",
    ];
    assert_eq!(assertions(&server), expected);
    server.prepare(&["delete delegation all admin delegate -> bob"]);
    assert_eq!(assertions(&server), expected[1..].to_vec());
}

#[test]
fn an_assertion_gives_nothing_until_q_gains_the_right() {
    let mut server = venue();
    server.prepare(&["set delegation x bob write -> carol"]);
    server.one("carol", "set x = \"\"", End::Denied);
    server.prepare(&["set delegation x admin write -> bob"]);
    server.one("carol", "set x = \"\"", End::Returned);
    // Losing delegate takes none of what was delegated.
    server.prepare(&["delete delegation x admin delegate -> bob"]);
    server.one("carol", "set x = \"\"", End::Returned);
    server.prepare(&["delete delegation x admin write -> bob"]);
    server.one("carol", "set x = \"\"", End::Denied);
}

#[test]
fn rights_change_within_a_program() {
    let mut server = venue();
    let (end, text) = server.run(
        "bob",
        "b",
        &[
            "set own = \"\"",
            "delete delegation own admin read -> bob",
            "set delegation own bob read -> bob",
            "set own = \"w\"",
            "delete delegation own admin write -> bob",
            "return \"\"",
        ],
    );
    assert_eq!(end, End::Returned);
    let done = [
        "SET",
        "DELETE_DELEGATION",
        "SET_DELEGATION",
        "SET",
        "DELETE_DELEGATION",
    ];
    assert_eq!(text, statuses(&done) + &returning("\"\""));
    // Bob delegating to himself is no chain from admin.
    assert_eq!(server.ask("bob", "own", b'r'), Ok(None));
    assert_eq!(server.ask("bob", "own", b'w'), Ok(None));
    assert_eq!(server.ask("bob", "own", b'a'), Ok(Some(1)));
    server.one("bob", "set own = \"\"", End::Denied);
}
