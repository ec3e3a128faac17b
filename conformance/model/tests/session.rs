//! The worked values of 01, as they moved with M-101: the session, the starred
//! cases, the weights, the wrong turns and the rows of worthless servers that a
//! value can show.

mod common;

use common::{returning, statuses, Server, FRESH, SESSION};
use model::engine::End;

const FIRST: &[u8] = b"as principal admin password \"desk\" do
create principal rosa \"r1\"
set queue = []
set delegation queue admin append -> rosa
return queue
***
";

const SECOND: &[u8] = b"as principal rosa password \"r1\" do
append to queue with {song=\"Blue Moon\",key=\"F\"}
return \"ok\"
***
";

#[test]
fn fresh_server() {
    let server = Server::new("desk");
    assert_eq!(server.text(), FRESH);
    assert_eq!(server.text().len(), 37);
    assert_eq!(server.weight(), 28);
    assert_eq!(Server::new("").text(), FRESH.replace("desk", ""));
    assert_eq!(Server::new("").weight(), 24);
    assert_eq!(Server::new(&"p".repeat(1_024)).weight(), 1_048);
}

#[test]
fn session_lines_state_and_weight() {
    let mut server = Server::new("desk");
    let (first_end, first) = server.send(FIRST);
    let (second_end, second) = server.send(SECOND);
    assert_eq!((first_end, second_end), (End::Returned, End::Returned));
    assert_eq!(
        first + &second,
        "{\"status\":\"CREATE_PRINCIPAL\"}\n\
         {\"status\":\"SET\"}\n\
         {\"status\":\"SET_DELEGATION\"}\n\
         {\"status\":\"RETURNING\",\"output\":[]}\n\
         {\"status\":\"APPEND\"}\n\
         {\"status\":\"RETURNING\",\"output\":\"ok\"}\n"
    );
    assert_eq!(server.text(), SESSION);
    assert_eq!(server.text().len(), 107);
    assert_eq!(server.weight(), 82);
}

#[test]
fn star_rosa_returns_queue() {
    let (end, _) = Server::session().rosa(&["return queue"]);
    assert_eq!(end, End::Denied);
}

#[test]
fn star_rosa_returns_nosuch() {
    let (end, _) = Server::session().rosa(&["return nosuch"]);
    assert_eq!(end, End::Failed);
}

#[test]
fn star_denied_before_failed_in_a_record() {
    let (end, _) = Server::session().rosa(&["return {a=nosuch,b=queue}"]);
    assert_eq!(end, End::Denied);
}

#[test]
fn star_rosa_sets_queue() {
    let (end, _) = Server::session().rosa(&["set queue = []", "return \"\""]);
    assert_eq!(end, End::Denied);
}

#[test]
fn star_rosa_sets_own() {
    let mut server = Server::session();
    let (end, text) = server.rosa(&["set own = \"a\"", "return own"]);
    assert_eq!(end, End::Returned);
    assert_eq!(text, statuses(&["SET"]) + &returning("\"a\""));
    assert_eq!(
        server.text(),
        "O\nP|admin|desk|1\nN|anyone|0\nP|rosa|r1|2\nD|anyone\nV|queue|L\nR\n\
         F|song|Blue Moon\nF|key|F\nV|own|S|a\nA|queue|admin|a|rosa\n\
         A|own|admin|r|rosa\nA|own|admin|w|rosa\nA|own|admin|a|rosa\nA|own|admin|d|rosa\n"
    );
    // own: 1 + 3 + 1; each assertion: 3 + 1 + 1 + 4.
    assert_eq!(server.weight(), 82 + 5 + 4 * 9);
}

#[test]
fn star_chain_through_anyone() {
    let mut server = Server::session();
    server.prepare(&["set delegation queue admin read -> anyone"]);
    let moved = SESSION.replace("desk|1", "desk|2") + "A|queue|admin|r|anyone\n";
    assert_eq!(server.text(), moved);
    assert_eq!(server.weight(), 90);
    assert_eq!(server.ask("rosa", "queue", b'r'), Ok(Some(2)));
    assert_eq!(server.ask("anyone", "queue", b'r'), Ok(Some(1)));
    assert_eq!(server.ask("admin", "queue", b'r'), Ok(Some(0)));
    assert_eq!(server.ask("rosa", "queue", b'a'), Ok(Some(1)));
    assert_eq!(server.ask("rosa", "queue", b'w'), Ok(None));
    let (_, text) = server.rosa(&["return queue"]);
    assert_eq!(text, returning("[{\"song\":\"Blue Moon\",\"key\":\"F\"}]"));
}

#[test]
fn star_delegator_without_delegate() {
    let (end, _) =
        Server::session().admin(&["set delegation queue rosa append -> anyone", "return \"\""]);
    assert_eq!(end, End::Denied);
}

#[test]
fn star_rosa_gives_up_append() {
    let mut server = Server::session();
    let (end, text) = server.rosa(&[
        "delete delegation queue admin append -> rosa",
        "return \"\"",
    ]);
    assert_eq!(end, End::Returned);
    assert_eq!(text, statuses(&["DELETE_DELEGATION"]) + &returning("\"\""));
    assert_eq!(server.weight(), 82 - 11);
    let (end, _) = server.rosa(&["append to queue with \"x\"", "return \"\""]);
    assert_eq!(end, End::Denied);
    let left = SESSION
        .replace("r1|1", "r1|2")
        .replace("A|queue|admin|a|rosa\n", "");
    assert_eq!(server.text(), left);
}

#[test]
fn star_empty_program() {
    let (end, _) = Server::session().send(b"");
    assert_eq!(end, End::Failed);
}

fn set_characters(count: usize) -> (End, String, Server) {
    let mut server = Server::new("desk");
    let set = format!("set x = \"{}\"", "a".repeat(count));
    let (end, text) = server.admin(&[&set, "return \"\""]);
    (end, text, server)
}

#[test]
fn star_8162_characters() {
    let (end, text, server) = set_characters(8_162);
    assert_eq!(end, End::Returned);
    assert_eq!(text, statuses(&["SET"]) + &returning("\"\""));
    assert_eq!(server.weight(), 8_192);
}

#[test]
fn star_8163_characters() {
    let (end, _, server) = set_characters(8_163);
    assert_eq!(end, End::Full);
    assert_eq!(server.text(), FRESH);
}

/// A state with an empty list x and the principals bob, carol and dave, all of
/// whom admin gives delegate on x.
fn with_delegates() -> Server {
    let mut server = Server::new("desk");
    server.prepare(&[
        "set x = []",
        "create principal bob \"b\"",
        "create principal carol \"c\"",
        "create principal dave \"d\"",
        "set delegation x admin delegate -> bob",
        "set delegation x admin delegate -> carol",
        "set delegation x admin delegate -> dave",
    ]);
    server
}

#[test]
fn wrong_turn_one_pass_in_entry_order() {
    let mut server = with_delegates();
    server.prepare(&[
        "set delegation x carol read -> dave",
        "set delegation x bob read -> carol",
    ]);
    for name in ["bob", "carol", "dave"] {
        assert_eq!(server.ask(name, "x", b'r'), Ok(None));
    }
    server.prepare(&["set delegation x admin read -> bob"]);
    assert_eq!(server.ask("bob", "x", b'r'), Ok(Some(1)));
    assert_eq!(server.ask("carol", "x", b'r'), Ok(Some(2)));
    assert_eq!(server.ask("dave", "x", b'r'), Ok(Some(3)));
    let (end, _) = server.run("dave", "d", &["return x"]);
    assert_eq!(end, End::Returned);
}

#[test]
fn wrong_turn_second_way_round() {
    let mut server = with_delegates();
    server.prepare(&[
        "set delegation x admin read -> bob",
        "set delegation x admin read -> carol",
        "set delegation x bob read -> dave",
        "set delegation x carol read -> dave",
        "delete delegation x bob read -> dave",
    ]);
    assert_eq!(server.ask("dave", "x", b'r'), Ok(Some(2)));
    server.prepare(&["delete delegation x admin read -> carol"]);
    assert_eq!(server.ask("dave", "x", b'r'), Ok(None));
}

#[test]
fn wrong_turn_failed_before_a_later_denied() {
    let mut server = Server::session();
    // The new variable is defined already, and what is read is not readable.
    let (end, _) = server.rosa(&["local queue = queue", "return \"\""]);
    assert_eq!(end, End::Denied);
    let (end, _) = server.rosa(&["append to nosuch with queue", "return \"\""]);
    assert_eq!(end, End::Denied);
    let (end, _) = server.rosa(&["return {a=\"1\",a=queue}"]);
    assert_eq!(end, End::Denied);
}

#[test]
fn wrong_turn_foreach_without_elements() {
    let mut server = Server::new("desk");
    let (end, text) = server.admin(&[
        "set x = []",
        "foreach y in x replacewith nosuch",
        "foreach y in x replacewith []",
        "foreach y in x replacewith {a=y,a=y.b}",
        "return x",
    ]);
    assert_eq!(end, End::Returned);
    assert_eq!(
        text,
        statuses(&["SET", "FOREACH", "FOREACH", "FOREACH"]) + &returning("[]")
    );
}

#[test]
fn worthless_denies_everybody() {
    let (end, text) = Server::session().rosa(&["append to queue with \"x\"", "return \"\""]);
    assert_eq!(end, End::Returned);
    assert_eq!(text, statuses(&["APPEND"]) + &returning("\"\""));
}

#[test]
fn worthless_stores_nothing() {
    let mut server = Server::new("desk");
    server.prepare(&["set x = \"kept\""]);
    let (_, text) = server.admin(&["return x"]);
    assert_eq!(text, returning("\"kept\""));
}

#[test]
fn worthless_settles_rights_at_the_first_command() {
    let mut server = Server::session();
    let (end, _) = server.rosa(&[
        "append to queue with \"x\"",
        "delete delegation queue admin append -> rosa",
        "append to queue with \"x\"",
        "return \"\"",
    ]);
    assert_eq!(end, End::Denied);
    let (end, text) = server.rosa(&[
        "set own = []",
        "append to own with \"x\"",
        "foreach y in own replacewith {v=y}",
        "return own",
    ]);
    assert_eq!(end, End::Returned);
    assert_eq!(
        text,
        statuses(&["SET", "APPEND", "FOREACH"]) + &returning("[{\"v\":\"x\"}]")
    );
}

#[test]
fn worthless_invents_a_chain_length() {
    let mut server = with_delegates();
    server.prepare(&[
        "set delegation x admin write -> bob",
        "set delegation x bob write -> carol",
        "set delegation x carol write -> dave",
    ]);
    assert_eq!(server.ask("dave", "x", b'w'), Ok(Some(3)));
    server.prepare(&["set delegation x bob write -> anyone"]);
    assert_eq!(server.ask("dave", "x", b'w'), Ok(Some(3)));
    server.prepare(&["set delegation x admin write -> anyone"]);
    assert_eq!(server.ask("dave", "x", b'w'), Ok(Some(2)));
    server.prepare(&["set delegation x admin write -> dave"]);
    assert_eq!(server.ask("dave", "x", b'w'), Ok(Some(1)));
}

#[test]
fn exit_closes() {
    let mut server = Server::session();
    let (end, text) = server.admin(&["exit"]);
    assert_eq!(end, End::Exited);
    assert_eq!(text, statuses(&["EXITING"]));
    let closed = SESSION.replace("O\n", "C\n").replace("desk|1", "desk|2");
    assert_eq!(server.text(), closed);
    assert_eq!(server.ask("rosa", "queue", b'a'), Ok(Some(1)));
}

#[test]
fn exit_is_for_admin() {
    let (end, _) = Server::session().rosa(&["exit"]);
    assert_eq!(end, End::Denied);
}
