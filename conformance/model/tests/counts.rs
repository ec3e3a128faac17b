//! The counts of completed programs, one for each principal, and what they
//! weigh (02, M-101).

mod common;

use common::{buffer, returning, Server, FRESH, SESSION};
use model::calls;
use model::engine::End;
use model::observe::{self, COUNTS};
use model::text::decode;

/// A text of three principals with these counts.
fn counted(counts: [&str; 3]) -> String {
    let [admin, anyone, rosa] = counts;
    format!("O\nP|admin|p|{admin}\nN|anyone|{anyone}\nP|rosa|r1|{rosa}\nD|anyone\n")
}

#[test]
fn only_what_is_completed_counts_and_for_its_sender() {
    let mut server = Server::session();
    for (name, password, last, expected) in [
        ("rosa", "r1", "return \"a\"", End::Returned),
        ("rosa", "r1", "return \"b\"", End::Returned),
        ("admin", "desk", "return \"c\"", End::Returned),
        ("rosa", "r1", "return queue", End::Denied),
        ("rosa", "r1", "return nosuch", End::Failed),
        ("rosa", "r2", "return \"\"", End::Denied),
        ("rosa", "r1", "return", End::Failed),
    ] {
        assert_eq!(server.run(name, password, &[last]).0, expected, "{last}");
    }
    let moved = SESSION.replace("desk|1", "desk|2").replace("r1|1", "r1|3");
    assert_eq!(server.text(), moved);
    assert_eq!((server.weight(), server.text().len()), (82, 107));
    // A program that is too heavy, and a name that is missing.
    let heavy = format!("return \"{}\"", "a".repeat(8_193));
    assert_eq!(server.rosa(&[&heavy]).0, End::Full);
    assert_eq!(server.run("bo", "b", &["return \"\""]).0, End::Denied);
    // A question and a wrong call.
    assert_eq!(server.ask("rosa", "queue", b'a'), Ok(Some(1)));
    assert!(calls::run(&mut server.state, &mut [], &mut [], b"").is_err());
    assert_eq!(server.text(), moved);
}

#[test]
fn the_width_changes_and_the_weight_does_not() {
    let mut server = Server::of_text(&counted(["9", "0", "99"]));
    assert_eq!((server.weight(), server.text().len()), (42, 47));
    assert_eq!(server.run("admin", "p", &["return \"\""]).0, End::Returned);
    assert_eq!(server.rosa(&["return \"\""]).0, End::Returned);
    assert_eq!(server.text(), counted(["10", "0", "100"]));
    assert_eq!((server.weight(), server.text().len()), (42, 49));
}

#[test]
fn it_stays_at_its_largest() {
    let most = "4294967295";
    let mut server = Server::of_text(&counted(["4294967294", most, most]));
    for _ in 0..2 {
        assert_eq!(server.run("admin", "p", &["return \"\""]).0, End::Returned);
        assert_eq!(server.text(), counted([most; 3]));
    }
    assert_eq!(server.rosa(&["return \"\""]).0, End::Returned);
    assert_eq!(server.run("admin", "p", &["exit"]).0, End::Exited);
    let closed = counted([most; 3]).replace("O\n", "C\n");
    assert_eq!(server.text(), closed);
    assert_eq!((server.weight(), server.text().len()), (42, 73));
}

#[test]
fn new_principals_and_new_passwords() {
    let mut server = Server::session();
    server.prepare(&["create principal bo \"b\"", "change password anyone \"x\""]);
    let (end, text) = server.run("anyone", "x", &["return \"\""]);
    assert_eq!((end, text), (End::Returned, returning("\"\"")));
    assert_eq!(
        server.text(),
        SESSION
            .replace("desk|1", "desk|2")
            .replace("N|anyone|0", "P|anyone|x|1")
            .replace("rosa|r1|1\n", "rosa|r1|1\nP|bo|b|0\n")
    );
    assert_eq!((server.weight(), server.text().len()), (97, 118));
    // Whoever gets a password keeps its count.
    let mut server = Server::session();
    server.rosa(&["change password rosa \"zz\"", "return \"\""]);
    assert_eq!(server.text(), SESSION.replace("r1|1", "zz|2"));
    let mut server = Server::of_text(&FRESH.replace("anyone|0", "anyone|77"));
    server.prepare(&["change password anyone \"\""]);
    let kept = "O\nP|admin|desk|1\nP|anyone||77\nD|anyone\n";
    assert_eq!(server.text(), kept);
}

#[test]
fn a_principal_weighs_ten_more() {
    // Fresh 28, x 2: the principal of one letter weighs 12 more.
    for (characters, expected) in [(8_150, End::Returned), (8_151, End::Full)] {
        let text = format!("{FRESH}V|x|S|{}\n", "a".repeat(characters));
        let mut server = Server::of_text(&text);
        assert_eq!(server.weight(), 30 + characters);
        server.one("admin", "create principal p \"\"", expected);
    }
    let state = buffer(SESSION);
    let (state, _) = decode(&state).unwrap();
    assert_eq!((state.weight(), state.former_weight()), (82, 52));
}

#[test]
fn how_a_count_moved_is_told() {
    let moves = [
        ("9", COUNTS[0]),
        ("99", COUNTS[1]),
        ("999999999", COUNTS[2]),
        ("4294967294", COUNTS[3]),
        ("4294967295", COUNTS[4]),
    ];
    let program = b"as principal rosa password \"r1\" do\nreturn \"\"\n***";
    for (count, told) in moves {
        let mut server = Server::of_text(&counted(["9", "0", count]));
        let before = server.state.clone();
        server.send(program);
        assert_eq!(observe::count(&before, program, &server.state), Some(told));
    }
    let mut server = Server::of_text(&counted(["9", "0", "10"]));
    let before = server.state.clone();
    server.send(program);
    assert_eq!(observe::count(&before, program, &server.state), None);
}
