//! The sheet of a shared variable (02, M-102), by its worked cases. What
//! `Server::sheet` gives is held to the questions letter by letter, so a case
//! here says which letters those are.

mod common;

use common::{buffer, sheet_line, Server, DIRT, FORMER_SESSION, SESSION};
use model::calls::{bring, sheet, Listed, Refusal};
use model::engine::End;
use model::replay::shortest_names;
use model::text::{decode, decode_former, BUFFER};

/// Admin's rights and anyone's lack of them, which most sheets begin with.
const OPENING: [(&str, &str); 2] = [("admin", "rwad"), ("anyone", "....")];

fn lines(rows: &[(&str, &str)]) -> String {
    let line = |&(name, rights): &(&str, &str)| sheet_line(name, rights);
    rows.iter().map(line).collect()
}

/// Behind admin and anyone, who has no right.
fn opened(rows: &[(&str, &str)]) -> String {
    lines(&OPENING) + &lines(rows)
}

/// What a sheet answers; a refusal changes no byte of the output.
fn answer(state: &[u8], size: usize, variable: &[u8]) -> Result<Listed, u8> {
    let mut output = vec![DIRT; size];
    let answer = sheet(state, &mut output, variable).map_err(Refusal::number);
    assert_eq!(answer.is_err(), output == vec![DIRT; size]);
    answer
}

fn number(state: &[u8], variable: &str) -> u8 {
    answer(state, BUFFER, variable.as_bytes()).expect_err("refused")
}

/// A server with principals a, b, .., variables x and y, and these assertions.
fn asserted(principals: &[&str], assertions: &[&str]) -> Server {
    let people: String = principals.iter().map(|p| format!("P|{p}||0\n")).collect();
    let standing: String = assertions.iter().map(|a| format!("A|{a}\n")).collect();
    Server::of_text(&format!(
        "O\nP|admin||0\nN|anyone|0\n{people}D|anyone\nV|x|S|\nV|y|S|\n{standing}"
    ))
}

#[test]
fn case_1_the_session() {
    let server = Server::session();
    assert_eq!(server.sheet("queue"), opened(&[("rosa", "..a.")]));
    // The words of the paper, byte by byte.
    let bytes = format!(
        "admin{} rwad\nanyone{} ....\nrosa{} ..a.\n",
        " ".repeat(29),
        " ".repeat(28),
        " ".repeat(30)
    );
    assert_eq!((server.sheet("queue"), bytes.len()), (bytes, 120));
}

#[test]
fn cases_2_and_3_by_way_of_anyone_and_withdrawn() {
    let mut server = Server::session();
    server.prepare(&["set delegation queue admin read -> anyone"]);
    let everybody = [("admin", "rwad"), ("anyone", "r..."), ("rosa", "r.a.")];
    assert_eq!(server.sheet("queue"), lines(&everybody));
    server.prepare(&[
        "delete delegation queue admin read -> anyone",
        "set delegation queue admin read -> rosa",
    ]);
    assert_eq!(server.sheet("queue"), opened(&[("rosa", "r.a.")]));
}

#[test]
fn case_4_from_its_far_end() {
    let chain = ["x|b|r|c", "x|a|r|b", "x|admin|r|a", "x|a|w|b", "x|c|w|c"];
    let server = asserted(&["a", "b", "c"], &chain);
    let all = [("a", "r..."), ("b", "r..."), ("c", "r...")];
    assert_eq!(server.sheet("x"), opened(&all));
    // Without its last link, which was entered third, nothing is left.
    let server = asserted(&["a", "b", "c"], &[&chain[..2], &chain[3..]].concat());
    let none = [("a", "...."), ("b", "...."), ("c", "....")];
    assert_eq!(server.sheet("x"), opened(&none));
}

#[test]
fn case_5_a_ring_without_admin() {
    let ring = ["x|anyone|r|a", "x|a|r|anyone", "x|a|d|a"];
    assert_eq!(asserted(&["a"], &ring).sheet("x"), opened(&[("a", "....")]));
    // With a step into the ring everybody is in it.
    let joined = [&ring[..], &["x|admin|r|a"]].concat();
    let all = [("admin", "rwad"), ("anyone", "r..."), ("a", "r...")];
    assert_eq!(asserted(&["a"], &joined).sheet("x"), lines(&all));
}

#[test]
fn case_6_each_right_by_itself() {
    let server = asserted(&["a", "b"], &["x|admin|d|a", "x|a|d|anyone", "x|admin|a|b"]);
    let rows = [
        ("admin", "rwad"),
        ("anyone", "...d"),
        ("a", "...d"),
        ("b", "..ad"),
    ];
    assert_eq!(server.sheet("x"), lines(&rows));
}

#[test]
fn case_7_long_names() {
    let name = |letter: &str, length: usize| letter.repeat(length);
    let names = [
        name("a", 33),
        name("b", 34),
        name("c", 35),
        name("d", 255),
        name("c", 36),
    ];
    let [_, whole, cut, ..] = &names;
    let server = asserted(
        &names.each_ref().map(String::as_str),
        &[&format!("x|admin|r|{whole}"), &format!("x|admin|w|{cut}")],
    );
    let text = server.sheet("x");
    let shown: Vec<&str> = text.lines().map(|line| &line[..34]).collect();
    let cut = format!("{}~", name("c", 33));
    assert_eq!(shown[2], format!("{} ", names[0]));
    assert_eq!(shown[3], names[1]);
    assert_eq!(shown[4], cut);
    assert_eq!(shown[5], format!("{}~", name("d", 33)));
    // Two that look alike, each with its own rights.
    assert_eq!(shown[6], cut);
    let rights: Vec<&str> = text.lines().map(|line| &line[34..]).collect();
    assert_eq!(rights[2..], [" ....", " r...", " .w..", " ....", " ...."]);
}

#[test]
fn case_8_a_closed_server() {
    let mut server = Server::new("desk");
    assert_eq!(server.admin(&["set x = \"\"", "exit"]).0, End::Exited);
    assert!(server.text().starts_with("C\n"));
    assert_eq!(server.sheet("x"), lines(&OPENING));
    let closed = Server::of_text(&SESSION.replace("O\n", "C\n"));
    assert_eq!(closed.sheet("queue"), Server::session().sheet("queue"));
}

#[test]
fn case_9_variables_of_principals_names() {
    let mut server = Server::new("desk");
    server.prepare(&["set admin = []", "set anyone = \"\""]);
    assert_eq!(server.sheet("admin"), lines(&OPENING));
    assert_eq!(server.sheet("anyone"), lines(&OPENING));
}

#[test]
fn case_10_rights_on_another_variable() {
    let server = asserted(&["a"], &["y|admin|r|a", "y|admin|w|anyone"]);
    assert_eq!(server.sheet("x"), opened(&[("a", "....")]));
    let rows = [("admin", "rwad"), ("anyone", ".w.."), ("a", "rw..")];
    assert_eq!(server.sheet("y"), lines(&rows));
}

#[test]
fn case_11_numbers_in_their_order() {
    let sizes = [0, 1, BUFFER - 1, BUFFER + 1, 2 * BUFFER];
    let (good, bad) = (buffer(SESSION), buffer("nonsense"));
    for size in sizes {
        for state in [&good, &bad] {
            let mut resized = state.clone();
            resized.resize(size, 0);
            for variable in [&b"queue"[..], b"nothing", b""] {
                // 1, whatever else is wrong.
                assert_eq!(answer(state, size, variable), Err(1));
                assert_eq!(answer(&resized, size, variable), Err(1));
                assert_eq!(answer(&resized, BUFFER, variable), Err(2));
            }
        }
    }
    for variable in [&b"queue"[..], b"nothing", b""] {
        assert_eq!(answer(&bad, BUFFER, variable), Err(4));
    }
    assert_eq!(number(&buffer(""), "queue"), 4);
    let long = "q".repeat(70_000);
    for variable in ["nothing", "", "queu", "queue ", "Queue", "queue\0", &long] {
        assert_eq!(number(&good, variable), 7, "{variable}");
    }
    let listed = Listed {
        lines: 3,
        bytes: 120,
    };
    assert_eq!(answer(&good, BUFFER, b"queue"), Ok(listed));
}

#[test]
fn case_12_what_is_no_shared_variable() {
    let mut server = Server::session();
    let (end, _) = server.admin(&["local here = \"a\"", "return here"]);
    assert_eq!(end, End::Returned);
    for name in ["rosa", "admin", "anyone", "here", "song", "key"] {
        assert_eq!(number(&server.state, name), 7, "{name}");
    }
}

#[test]
fn case_13_the_former_lines() {
    let former = buffer(FORMER_SESSION);
    assert_eq!(number(&former, "queue"), 4);
    let brought = Server::brought(FORMER_SESSION);
    assert_eq!(brought.sheet("queue"), Server::session().sheet("queue"));
}

/// So many principals, admin and anyone among them, beside a variable.
fn peopled(count: usize) -> String {
    let names = shortest_names(count - 2);
    let people: String = names.iter().map(|name| format!("P|{name}||0\n")).collect();
    format!("O\nP|admin||0\nN|anyone|0\n{people}D|anyone\nV|x|S|\n")
}

#[test]
fn case_14_the_most_principals() {
    let server = Server::of_text(&peopled(633));
    assert_eq!(server.weight(), 8_177);
    let text = server.sheet("x");
    assert_eq!(text.len(), 25_320);
    let rows: Vec<&str> = text.lines().collect();
    assert_eq!(rows.len(), 633);
    assert_eq!(rows[0], sheet_line("admin", "rwad").trim_end());
    assert_eq!(rows[632], sheet_line("jo", "....").trim_end());
    let without = |line: &&&str| line.ends_with(" ....");
    assert_eq!(rows.iter().filter(without).count(), 632);
    // The case calls that the most. One more still weighs 8,190, and only two
    // more are too heavy.
    let server = Server::of_text(&peopled(634));
    assert_eq!(server.weight(), 8_190);
    assert_eq!(server.sheet("x").len(), 25_360);
    assert_eq!(number(&buffer(&peopled(635)), "x"), 4);
}

#[test]
fn case_15_as_many_as_there_were() {
    let uncounted = peopled(2_747).replace("|0\n", "\n");
    let former = buffer(&uncounted.replacen("O\n", "O|0\n", 1));
    let read = decode_former(&former).expect("well formed in the former lines");
    assert_eq!(read.principals.count(), 2_747);
    assert_eq!(read.former_weight(), 8_189);
    // Their sheet would not fit, and so would none from 1,639 on.
    assert_eq!(40 * read.principals.count(), 109_880);
    assert_eq!(BUFFER / 40 + 1, 1_639);
    // But there is no such state: brought over it is too heavy.
    let mut state = vec![DIRT; BUFFER];
    assert_eq!(bring(&former, &mut state), Err(Refusal::BroughtTooHeavy));
    assert_eq!(number(&former, "x"), 4);
    assert!(decode(&buffer(&peopled(2_747))).is_none());
}

#[test]
fn the_sheet_follows_every_program() {
    let mut server = Server::venue();
    let before = server.sheet("l");
    assert_eq!(before, opened(&[("bob", "...d"), ("carol", "....")]));
    server.one(
        "bob",
        "set delegation l bob delegate -> carol",
        End::Returned,
    );
    let both = opened(&[("bob", "...d"), ("carol", "...d")]);
    assert_eq!(server.sheet("l"), both);
    // A program that is refused leaves it.
    server.one("carol", "set delegation l bob read -> carol", End::Denied);
    assert_eq!(server.sheet("l"), both);
    server.prepare(&["delete delegation l admin delegate -> bob"]);
    assert_eq!(
        server.sheet("l"),
        opened(&[("bob", "...."), ("carol", "....")])
    );
    // A new principal gets the last line.
    server.prepare(&["create principal dave \"d\""]);
    assert!(server.sheet("l").ends_with(&sheet_line("dave", "....")));
}
