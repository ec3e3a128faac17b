//! A text in the former lines, and how it is brought over (02, M-101).

mod common;

use common::{buffer, returning, statuses, Server, DIRT, FORMER_FRESH, FORMER_SESSION, FRESH};
use model::calls::{bring, Refusal};
use model::engine::End;
use model::replay::shortest_names;
use model::text::{decode, decode_former, BUFFER};

/// The session, brought over.
const BROUGHT: &str = "O\nP|admin|desk|0\nN|anyone|0\nP|rosa|r1|0\nD|anyone\nV|queue|L\nR\n\
                       F|song|Blue Moon\nF|key|F\nA|queue|admin|a|rosa\n";

/// What a bringing answers, 0 where it is done; a refusal changes neither
/// buffer, and nothing changes the former one.
fn answer(former: &[u8], size: usize) -> u8 {
    let (before, mut state) = (former.to_vec(), vec![DIRT; size]);
    let number = bring(former, &mut state).map_or_else(Refusal::number, |()| 0);
    assert!(former == before);
    assert_eq!(number == 0, state != vec![DIRT; size]);
    number
}

fn answer_to(text: &str) -> u8 {
    answer(&buffer(text), BUFFER)
}

#[test]
fn the_session_and_a_fresh_server() {
    let former = buffer(FORMER_SESSION);
    assert_eq!(decode_former(&former).unwrap().former_weight(), 52);
    let server = Server::brought(FORMER_SESSION);
    assert_eq!(server.text(), BROUGHT);
    assert_eq!((server.weight(), server.text().len()), (82, 107));
    let server = Server::brought(FORMER_FRESH);
    assert_eq!(server.text(), FRESH);
    assert!(server.state == Server::new("desk").state);
}

#[test]
fn closed_stays_closed_and_the_old_count_goes() {
    let server = Server::brought(
        "C|4294967295\nP|admin|p\nP|anyone|x\nP|rosa|\nD|rosa\nV|q|L\nS|a\nA|q|rosa|d|anyone\n",
    );
    assert_eq!(
        server.text(),
        "C\nP|admin|p|0\nP|anyone|x|0\nP|rosa||0\nD|rosa\nV|q|L\nS|a\nA|q|rosa|d|anyone\n"
    );
    assert_eq!((server.weight(), server.text().len()), (52, 72));
    for count in ["0", "9", "10", "1000000000", "4294967295"] {
        let server = Server::brought(&FORMER_FRESH.replace("O|0", &format!("O|{count}")));
        assert_eq!(server.text(), FRESH);
    }
}

#[test]
fn sizes_go_first() {
    let sizes = [0, 1, BUFFER - 1, BUFFER + 1, 2 * BUFFER];
    for text in [FORMER_SESSION, "nonsense", ""] {
        for size in sizes {
            let mut former = buffer(text);
            assert_eq!(answer(&former, size), 2);
            former.resize(size, 0);
            assert_eq!(answer(&former, BUFFER), 2);
            assert_eq!(answer(&former, size), 2);
        }
    }
}

/// A text with one part exchanged for another.
fn exchanged(from: &str, to: &str) -> String {
    assert_eq!(FORMER_SESSION.matches(from).count(), 1, "{from}");
    FORMER_SESSION.replace(from, to)
}

#[test]
fn not_well_formed_in_the_former_lines() {
    assert_eq!(answer_to(""), 10);
    assert_eq!(answer_to(common::SESSION), 10);
    assert_eq!(answer_to(BROUGHT), 10);
    for (from, to) in [
        ("D|anyone\n", ""),
        ("D|anyone", "D|nobody"),
        ("O|2", "O"),
        ("O|2", "O|"),
        ("O|2", "O|02"),
        ("O|2", "O|00"),
        ("O|2", "O|+2"),
        ("O|2", "O|-2"),
        ("O|2", "O|4294967296"),
        ("O|2", "O|2|2"),
        ("O|2", "o|2"),
        ("P|admin|desk", "P|admin|desk|0"),
        ("P|admin|desk", "N|admin"),
        ("P|admin|desk", "P|admin"),
        ("N|anyone", "N|anyone|0"),
        ("P|rosa|r1", "P|rosa|r1|0"),
        ("P|rosa|r1", "N|rosa"),
        ("P|rosa|r1", "P|rosa|r1\nP|rosa|r1"),
        ("P|rosa|r1", "P|set|r1"),
        ("V|queue|L", "V|queue|R"),
        ("F|key|F", "F|song|F"),
        ("a|rosa\n", "a|nobody\n"),
        ("a|rosa\n", "a|rosa"),
    ] {
        assert_eq!(answer_to(&exchanged(from, to)), 10, "{from} to {to}");
    }
    for at in [FORMER_SESSION.len(), 40_000, BUFFER - 1] {
        let mut former = buffer(FORMER_SESSION);
        former[at] = 1;
        assert_eq!(answer(&former, BUFFER), 10, "a byte at {at}");
    }
}

#[test]
fn well_formed_in_the_former_lines() {
    for (from, to) in [
        ("O|2", "O|0"),
        ("O|2", "C|4294967295"),
        ("P|rosa|r1", "P|rosa|"),
        ("P|rosa|r1", "P|rosa|12"),
        ("N|anyone", "P|anyone|x"),
        ("D|anyone", "D|rosa"),
    ] {
        let text = exchanged(from, to);
        assert_eq!(answer_to(&text), 0, "{from} to {to}");
        // What is well formed in the one form is not in the other.
        assert!(decode(&buffer(&text)).is_none());
        assert!(decode_former(&Server::brought(&text).state).is_none());
    }
}

/// A fresh former server, which weighs 8, with a string for the rest.
fn weighing(weight: usize) -> String {
    format!("{FORMER_FRESH}V|x|S|{}\n", "a".repeat(weight - 10))
}

#[test]
fn ten_more_for_each_principal() {
    for (weight, number) in [
        (8_171, 0),
        (8_172, 0),
        (8_173, 11),
        (8_191, 11),
        (8_192, 11),
        (8_193, 10),
        (8_203, 10),
    ] {
        assert_eq!(answer_to(&weighing(weight)), number, "{weight}");
    }
    assert_eq!(Server::brought(&weighing(8_172)).weight(), 8_192);
    // One more principal, of weight 3, has ten less to spare.
    let three = |weight: usize| weighing(weight - 3).replace("D|", "P|p|a\nD|");
    assert_eq!(answer_to(&three(8_162)), 0);
    assert_eq!(answer_to(&three(8_163)), 11);
}

/// So many principals besides admin and anyone, of the shortest names.
fn peopled(count: usize) -> String {
    let names = shortest_names(count);
    let lines: String = names.iter().map(|name| format!("P|{name}|\n")).collect();
    format!("O|0\nP|admin|\nN|anyone\n{lines}D|anyone\n")
}

#[test]
fn many_principals() {
    for (count, weight, number) in [
        (632, 1_848, 0),
        (633, 1_851, 11),
        (2_746, 8_190, 11),
        (2_747, 8_193, 10),
    ] {
        let former = buffer(&peopled(count));
        assert_eq!(answer(&former, BUFFER), number, "{count}");
        if weight <= 8_192 {
            assert_eq!(decode_former(&former).unwrap().former_weight(), weight);
        }
    }
    let server = Server::brought(&peopled(632));
    assert_eq!((server.weight(), server.text().len()), (8_188, 5_037));
}

#[test]
fn a_chain_of_the_former_text_still_leads() {
    let mut server = Server::brought(FORMER_SESSION);
    let (end, text) = server.rosa(&["append to queue with \"b\"", "return \"\""]);
    assert_eq!(end, End::Returned);
    assert_eq!(text, statuses(&["APPEND"]) + &returning("\"\""));
    assert_eq!(server.rosa(&["return queue"]).0, End::Denied);
    let moved = BROUGHT
        .replace("r1|0", "r1|1")
        .replace("F|key|F\n", "F|key|F\nS|b\n");
    assert_eq!(server.text(), moved);
    assert_eq!((server.weight(), server.text().len()), (84, 111));
}

#[test]
fn withdrawn_and_entered_again_it_goes_last() {
    let former = "O|2\nP|admin|desk\nN|anyone\nP|rosa|r1\nD|anyone\nV|queue|L\n\
                  A|queue|admin|a|rosa\nA|queue|admin|r|anyone\n";
    let mut server = Server::brought(former);
    server.prepare(&[
        "delete delegation queue admin append -> rosa",
        "set delegation queue admin append -> rosa",
    ]);
    assert_eq!(
        server.text(),
        "O\nP|admin|desk|1\nN|anyone|0\nP|rosa|r1|0\nD|anyone\nV|queue|L\n\
         A|queue|admin|r|anyone\nA|queue|admin|a|rosa\n"
    );
    assert_eq!((server.weight(), server.text().len()), (70, 103));
}

#[test]
fn the_former_default_delegator_still_works() {
    let former = "O|0\nP|admin|p\nN|anyone\nP|rosa|r1\nD|rosa\nV|q|S|\nA|q|admin|d|rosa\n";
    let mut server = Server::brought(former);
    let lines = ["create principal bo \"b\"", "return \"\""];
    assert_eq!(server.run("admin", "p", &lines).0, End::Returned);
    assert_eq!(
        server.text(),
        "O\nP|admin|p|1\nN|anyone|0\nP|rosa|r1|0\nP|bo|b|0\nD|rosa\nV|q|S|\nA|q|admin|d|rosa\n\
         A|q|rosa|r|bo\nA|q|rosa|w|bo\nA|q|rosa|a|bo\nA|q|rosa|d|bo\n"
    );
    assert_eq!((server.weight(), server.text().len()), (97, 133));
}
