//! Names that a state holds from before they became keywords (02, M-104): they
//! stay, everything but a program's text can have them, and no program can
//! write them.

mod common;

use common::{
    buffer, returning, sheet_line, statuses, Server, FORMER_SESSION, NEWER_KEYWORDS, SESSION,
};
use model::calls::Refusal;
use model::engine::End;
use model::text::{decode, decode_former};

/// A principal, a variable and labels that have become keywords.
const OLDER: &str = "O\nP|admin|desk|0\nN|anyone|0\nP|per|p1|4\nP|rosa|r1|0\nD|anyone\n\
                     V|add|R\nF|times|ten\nF|b|two\nV|list|L\nR\nF|sub|x\n\
                     A|add|admin|r|per\nA|add|admin|d|rosa\n";

fn desk() -> Server {
    Server::of_text(OLDER)
}

#[test]
fn the_state_is_well_formed() {
    assert_eq!(desk().weight(), 107);
    for word in ["split", "let", "all", "with"] {
        let text = OLDER.replace("|add", &format!("|{word}"));
        assert!(decode(&buffer(&text)).is_none(), "{word}");
    }
}

/// In every place where a name or a label stands.
#[test]
fn every_place() {
    for word in NEWER_KEYWORDS {
        for (from, to) in [
            ("|rosa", format!("|{word}")),
            ("|queue", format!("|{word}")),
            ("|song|", format!("|{word}|")),
        ] {
            let text = SESSION.replace(from, &to);
            assert_ne!(text, SESSION);
            assert_eq!(Server::of_text(&text).text(), text);
            let former = FORMER_SESSION.replace(from, &to);
            assert!(decode_former(&buffer(&former)).is_some(), "{former}");
            let brought = Server::brought(&former).text();
            assert_eq!(
                brought,
                text.replace("|desk|1", "|desk|0").replace("|r1|1", "|r1|0")
            );
        }
        let text = SESSION
            .replace("D|anyone", "D|rosa")
            .replace("|rosa", &format!("|{word}"));
        assert_eq!(Server::of_text(&text).text(), text);
    }
}

/// As before, none of them twice.
#[test]
fn not_twice() {
    for line in [
        "P|per||0\n",
        "V|add|L\n",
        "F|times|\n",
        "A|add|admin|r|per\n",
    ] {
        let (letter, rest) = line.split_at(2);
        let name = rest.split('|').next().unwrap();
        let place = OLDER.find(&format!("{letter}{name}")).unwrap();
        let text = [&OLDER[..place], line, &OLDER[place..]].concat();
        assert!(decode(&buffer(&text)).is_none(), "{line}");
    }
}

#[test]
fn no_program_writes_them() {
    let mut server = desk();
    for line in [
        "set x = add",
        "set x = add.b",
        "set add = \"\"",
        "local per = \"\"",
        "append to add with \"\"",
        "append to list with {sub=\"y\"}",
        "foreach sub in list replacewith \"\"",
        "foreach e in add replacewith \"\"",
        "foreach e in list replacewith e.sub",
        "create principal add \"x\"",
        "change password per \"p2\"",
        "default delegator = per",
        "set delegation add admin read -> rosa",
        "set delegation list per read -> rosa",
        "delete delegation add admin read -> rosa",
        "delete delegation all admin read -> per",
    ] {
        server.one("admin", line, End::Failed);
        // It does not parse, and so the password is not even looked at.
        let (end, _) = server.run("admin", "wrong", &[line, "return \"\""]);
        assert_eq!(end, End::Failed, "{line}");
    }
    assert_eq!(server.admin(&["return add"]).0, End::Failed);
    assert_eq!(server.text(), OLDER);
}

#[test]
fn such_a_sender_cannot_log_in() {
    let mut server = desk();
    for password in ["p1", "wrong", ""] {
        let (end, _) = server.run("per", password, &["return \"in\""]);
        assert_eq!(end, End::Failed);
    }
    assert_eq!(server.text(), OLDER);
}

#[test]
fn records_are_shown() {
    let mut server = desk();
    let (_, text) = server.admin(&["return list"]);
    assert_eq!(text, returning("[{\"sub\":\"x\"}]"));
    let (_, text) = server.admin(&["append to list with list", "return list"]);
    let value = "[{\"sub\":\"x\"},{\"sub\":\"x\"}]";
    assert_eq!(text, statuses(&["APPEND"]) + &returning(value));
    let (_, text) = server.admin(&["set copy = list", "local other = copy", "return other"]);
    assert_eq!(text, statuses(&["SET", "LOCAL"]) + &returning(value));
    let (_, text) = server.admin(&["foreach e in list replacewith e", "return list"]);
    assert_eq!(text, statuses(&["FOREACH"]) + &returning(value));
    let expected = "V|list|L\nR\nF|sub|x\nR\nF|sub|x\nV|copy|L\nR\nF|sub|x\nR\nF|sub|x\n";
    assert!(server.text().contains(expected));
}

#[test]
fn all_takes_them() {
    let mut server = desk();
    let (_, text) = server.rosa(&["set delegation all rosa read -> anyone", "return \"ok\""]);
    assert_eq!(text, statuses(&["SET_DELEGATION"]) + &returning("\"ok\""));
    assert!(server.text().ends_with("A|add|rosa|r|anyone\n"));
    assert_eq!(server.ask("rosa", "add", b'r'), Ok(None));
    // Rosa's assertion gives nothing until she has the right herself.
    server.prepare(&["set delegation all admin read -> rosa"]);
    let expected = "A|add|rosa|r|anyone\nA|add|admin|r|rosa\nA|list|admin|r|rosa\n";
    assert!(server.text().ends_with(expected));
    assert_eq!(server.ask("anyone", "add", b'r'), Ok(Some(2)));
    server.prepare(&["delete delegation all rosa read -> anyone"]);
    assert_eq!(server.ask("anyone", "add", b'r'), Ok(None));
    assert_eq!(server.ask("rosa", "add", b'r'), Ok(Some(1)));
}

#[test]
fn a_new_principal_gets_them() {
    let mut server = desk();
    server.prepare(&["default delegator = rosa", "create principal tom \"t\""]);
    let expected = "A|add|rosa|r|tom\nA|add|rosa|w|tom\nA|add|rosa|a|tom\nA|add|rosa|d|tom\n";
    assert!(server.text().ends_with(expected));
    assert_eq!(server.ask("tom", "add", b'd'), Ok(Some(2)));
    assert_eq!(server.ask("tom", "add", b'r'), Ok(None));
}

#[test]
fn questions_and_sheets() {
    let server = desk();
    assert_eq!(server.ask("per", "add", b'r'), Ok(Some(1)));
    assert_eq!(server.ask("rosa", "add", b'd'), Ok(Some(1)));
    assert_eq!(server.ask("rosa", "add", b'r'), Ok(None));
    assert_eq!(
        server.ask("add", "add", b'r'),
        Err(Refusal::UnknownPrincipal)
    );
    let unknown = Err(Refusal::UnknownVariableOrRight);
    assert_eq!(server.ask("per", "per", b'r'), unknown);
    let rows = [
        ("admin", "rwad"),
        ("anyone", "...."),
        ("per", "r..."),
        ("rosa", "...d"),
    ];
    let expected: String = rows
        .iter()
        .map(|(name, rights)| sheet_line(name, rights))
        .collect();
    assert_eq!(server.sheet("add"), expected);
}
