//! Which buffers are well formed (01, State text; 02, M-101), and that one
//! state has one text. Texts in the former lines have a file of their own.

mod common;

use common::{buffer, FRESH, KEYWORDS, NEWER_KEYWORDS, SESSION};
use model::text::{decode, encode, BUFFER};

fn is_well_formed(text: &str) -> bool {
    decode(&buffer(text)).is_some()
}

/// Takes the session's text with one part exchanged for another.
fn exchanged(from: &str, to: &str) -> String {
    assert_eq!(SESSION.matches(from).count(), 1, "{from} stands once");
    SESSION.replace(from, to)
}

fn refused(from: &str, to: &str) {
    let text = exchanged(from, to);
    assert!(!is_well_formed(&text), "{from} to {to}");
}

/// Accepted, and the only text of what it says.
fn accepted(from: &str, to: &str) {
    let state = buffer(&exchanged(from, to));
    let (decoded, length) = decode(&state).unwrap_or_else(|| panic!("{from} to {to}"));
    let mut written = vec![0; BUFFER];
    assert_eq!(encode(&decoded, &mut written), length);
    assert!(written == state);
}

#[test]
fn the_session_and_its_variants() {
    accepted("O\n", "O\n");
    accepted("O\n", "C\n");
    accepted("P|rosa|r1|1", "P|rosa||1");
    accepted("P|rosa|r1|1", "P|rosa|12|3");
    accepted("N|anyone|0", "P|anyone|pw|0");
    accepted("N|anyone|0", "P|anyone||0");
    accepted("D|anyone", "D|rosa");
    accepted("D|anyone", "D|admin");
    accepted("A|queue|admin|a|rosa", "A|queue|rosa|d|rosa");
    accepted("F|key|F\n", "");
    accepted("R\nF|song|Blue Moon\nF|key|F\n", "");
    accepted("F|key|F\n", "F|key|\n");
    accepted("F|key|F", "F|key|_,;.?!- 09azAZ");
}

#[test]
fn first_line() {
    for line in [
        "X", "o", "", " O", "O ", "OO", "CO", "O|", "C|", "O|0", "O|2", "C|2", "|O", "O\nO",
    ] {
        refused("O\nP", &format!("{line}\nP"));
    }
    refused("O\n", "");
    refused("O\n", "O");
}

/// What is no count.
const NO_COUNTS: [&str; 19] = [
    "",
    "00",
    "02",
    "+2",
    "-2",
    " 2",
    "2 ",
    "2x",
    "x",
    "_",
    "2.",
    "2|",
    "2|2",
    "|2",
    "4294967296",
    "4294967300",
    "9999999999",
    "10000000000",
    "99999999999999999999",
];

#[test]
fn counts() {
    for count in ["0", "9", "10", "99", "100", "4294967294", "4294967295"] {
        accepted("P|admin|desk|1", &format!("P|admin|desk|{count}"));
        accepted("N|anyone|0", &format!("N|anyone|{count}"));
        accepted("N|anyone|0", &format!("P|anyone||{count}"));
        accepted("P|rosa|r1|1", &format!("P|rosa|r1|{count}"));
    }
    for count in NO_COUNTS {
        refused("P|admin|desk|1", &format!("P|admin|desk|{count}"));
        refused("N|anyone|0", &format!("N|anyone|{count}"));
        refused("P|rosa|r1|1", &format!("P|rosa|r1|{count}"));
    }
    // None at all, or in another place.
    refused("P|admin|desk|1", "P|admin|desk");
    refused("P|admin|desk|1", "P|admin|1|desk");
    refused("P|admin|desk|1", "P|1|admin|desk");
    refused("P|rosa|r1|1", "P|rosa|12");
    refused("N|anyone|0", "N|anyone");
    refused("N|anyone|0", "N|anyone||0");
    refused("N|anyone|0", "N|0|anyone");
    refused("D|anyone", "D|anyone|0");
}

#[test]
fn order_of_lines() {
    refused("O\nP|admin|desk|1\n", "P|admin|desk|1\nO\n");
    refused(
        "P|admin|desk|1\nN|anyone|0\n",
        "N|anyone|0\nP|admin|desk|1\n",
    );
    refused("N|anyone|0\nP|rosa|r1|1\n", "P|rosa|r1|1\nN|anyone|0\n");
    refused("P|rosa|r1|1\nD|anyone\n", "D|anyone\nP|rosa|r1|1\n");
    refused("D|anyone\nV|queue|L\n", "V|queue|L\nD|anyone\n");
    refused("D|anyone\nV|queue|L\nR\n", "V|queue|L\nR\nD|anyone\n");
    let early = FRESH.to_string() + "A|x|admin|r|anyone\nV|x|L\n";
    assert!(!is_well_formed(&early));
    let late = SESSION.to_string() + "V|x|L\n";
    assert!(!is_well_formed(&late));
}

#[test]
fn principals() {
    refused("P|admin|desk|1", "N|admin|1");
    refused("P|admin|desk|1\n", "");
    let all = "P|admin|desk|1\nN|anyone|0\nP|rosa|r1|1\n";
    refused(all, "P|admin|desk|1\n");
    let rosa = "P|rosa|r1|1";
    refused(rosa, "N|rosa|1");
    refused(rosa, "P|rosa|1");
    refused(rosa, "P|rosa|r1|1|");
    refused("N|anyone|0", "N|anyone|0|");
    for more in [
        "P|rosa|r1|1",
        "P|rosa|r2|1",
        "P|rosa|r1|2",
        "P|admin|desk|1",
        "N|anyone|0",
        "P|anyone|x|0",
        "P||x|0",
    ] {
        refused(rosa, &format!("{rosa}\n{more}"));
    }
    refused(rosa, "P|rosa|\"|1");
}

#[test]
fn default_delegator() {
    refused("D|anyone", "D|nobody");
    refused("D|anyone", "D|queue");
    refused("D|anyone", "D|");
    refused("D|anyone", "D");
    refused("D|anyone", "D|anyone\nD|anyone");
    refused("D|anyone", "D|anyone|rosa");
    refused("D|anyone\n", "");
}

/// A fresh state with one more variable, given from its name on.
fn variable_is_well_formed(lines: &str) -> bool {
    is_well_formed(&format!("{FRESH}V|{lines}\n"))
}

#[test]
fn variables_that_are_well_formed() {
    for lines in [
        "x|S|",
        "x|S|a",
        "x|S|_,;.?!- ",
        "x|L",
        "x|L\nS|",
        "x|L\nS|\nS|\nS|",
        "x|R\nF|a|\nF|b|",
        "x|L\nR\nF|a|1\nR\nF|a|1\nS|z",
        "x|L\nV|y|L\nV|z|R\nF|a|",
        "admin|L\nV|Admin|L\nV|aLL|L",
        "x|S|S\nV|S|S|S",
    ] {
        assert!(variable_is_well_formed(lines), "{lines}");
    }
}

#[test]
fn variables_that_are_not() {
    for lines in [
        "x",
        "x|",
        "x|S",
        "x|S|a|b",
        "x|T|a",
        "x|s|a",
        "x|R",
        "x|R|",
        "x|R\nV|y|S|",
        "x|R\nF|a",
        "x|R\nF|a|1|2",
        "x|R\nF|a|1\nF|a|2",
        "x|R\nF|a|1\nF|b|1\nF|a|1",
        "x|R\nF||1",
        "x|R\nF|1|1",
        "x|R\nF|return|1",
        "x|R\nS|a",
        "x|S|a\nF|b|c",
        "x|S|a\nS|b",
        "x|L|",
        "x|L\nF|a|1",
        "x|L\nR",
        "x|L\nR\nS|a",
        "x|L\nR\nF|a|1\nF|a|1",
        "x|L\nL",
        "x|L\nS",
        "x|L\nV|x|L",
        "x|S|a\nV|y|L\nV|x|R\nF|a|",
        "|S|a",
        "x|S|a\n",
        "x|S|a\"",
        "x|S|a:b",
        "x|S|\u{e9}",
        "x|S|a\r",
    ] {
        assert!(!variable_is_well_formed(lines), "{lines}");
    }
}

#[test]
fn many_labels_one_of_them_twice() {
    let fields = |last: &str| {
        let many: String = (0..100).map(|n| format!("F|a{n}|\n")).collect();
        format!("x|R\n{many}F|{last}|")
    };
    assert!(variable_is_well_formed(&fields("a100")));
    assert!(!variable_is_well_formed(&fields("a57")));
}

#[test]
fn names_and_labels_are_identifiers() {
    let longest = "n".repeat(255);
    let good = ["x", "X9_", "a_", "admin", "anyone", "alls", &longest];
    for name in good.into_iter().chain(NEWER_KEYWORDS) {
        assert!(variable_is_well_formed(&format!("{name}|L")), "{name}");
        assert!(
            variable_is_well_formed(&format!("x|R\nF|{name}|")),
            "{name}"
        );
    }
    for name in NEWER_KEYWORDS {
        accepted("P|rosa|r1|1", &format!("P|rosa|r1|1\nP|{name}||0"));
    }
    let too_long = "n".repeat(256);
    let wrong = [
        "1x", "_x", "x-y", "x y", " x", "x ", "x.y", "x\"", &too_long,
    ];
    for name in wrong.into_iter().chain(KEYWORDS) {
        assert!(!variable_is_well_formed(&format!("{name}|L")), "{name}");
        assert!(
            !variable_is_well_formed(&format!("x|R\nF|{name}|")),
            "{name}"
        );
        refused("P|rosa|r1|1", &format!("P|rosa|r1|1\nP|{name}||0"));
    }
}

#[test]
fn assertions() {
    let one = "A|queue|admin|a|rosa";
    accepted(one, "A|queue|admin|a|rosa\nA|queue|admin|d|rosa");
    accepted(one, "A|queue|anyone|r|rosa\nA|queue|admin|r|admin");
    for lines in [
        "A|nothing|admin|a|rosa",
        "A|rosa|admin|a|rosa",
        "A|queue|nobody|a|rosa",
        "A|queue|admin|a|nobody",
        "A|queue|admin|a|queue",
        "A|queue|admin|x|rosa",
        "A|queue|admin|R|rosa",
        "A|queue|admin|read|rosa",
        "A|queue|admin||rosa",
        "A|queue|admin|a",
        "A|queue|admin|a|",
        "A|queue|admin|a|rosa|",
        "A|queue|admin|a|rosa\nA|queue|admin|a|rosa",
        "A|queue|admin|a|rosa\nA|queue|admin|r|rosa\nA|queue|admin|a|rosa",
    ] {
        refused(one, lines);
    }
}

#[test]
fn weight_8192_and_8193() {
    // Fresh 28, and 1 + 1 + characters.
    for (characters, good) in [(8_162, true), (8_163, false), (60_000, false)] {
        let text = format!("{FRESH}V|x|S|{}\n", "a".repeat(characters));
        assert_eq!(is_well_formed(&text), good);
    }
    // Fresh 28, x 2, and 1 for each empty string in the list.
    for (elements, good) in [(8_162, true), (8_163, false)] {
        let text = format!("{FRESH}V|x|L\n{}", "S|\n".repeat(elements));
        assert_eq!(is_well_formed(&text), good);
    }
    // admin and anyone weigh 1, whatever their names' lengths: 1 + 1 + 1 + 1.
    let text = format!(
        "{FRESH}V|x|S|{}\nA|x|admin|r|anyone\n",
        "a".repeat(8_162 - 4)
    );
    assert!(is_well_formed(&text));
    assert_eq!(decode(&buffer(&text)).unwrap().0.weight(), 8_192);
    // A count weighs the same whatever it is.
    let text = text.replace("|0\n", "|4294967295\n");
    assert_eq!(decode(&buffer(&text)).unwrap().0.weight(), 8_192);
}

#[test]
fn end_of_the_text() {
    let state = buffer(SESSION);
    let length = SESSION.len();
    for at in [length, length + 1, 40_000, BUFFER - 1] {
        for byte in [1, b'\n', b' ', 0xff] {
            let mut dirty = state.clone();
            dirty[at] = byte;
            assert!(decode(&dirty).is_none(), "{byte} at {at}");
        }
    }
    // Without the last newline, and cut anywhere but after whole lines.
    assert!(decode(&buffer(&SESSION[..length - 1])).is_none());
    let whole = [
        "D|anyone\n",
        "V|queue|L\n",
        "Moon\n",
        "F|key|F\n",
        "a|rosa\n",
    ];
    let ends = whole.map(|line| SESSION.find(line).unwrap() + line.len());
    for cut in 0..=length {
        let good = ends.contains(&cut);
        assert_eq!(is_well_formed(&SESSION[..cut]), good, "cut at {cut}");
    }
}

#[test]
fn blank_lines_and_zero_bytes_inside() {
    for (at, _) in SESSION.match_indices('\n') {
        let (before, after) = SESSION.split_at(at + 1);
        assert!(!is_well_formed(&format!("{before}\n{after}")));
        if !after.is_empty() {
            assert!(!is_well_formed(&format!("{before}\0{after}")));
        }
    }
    assert!(!is_well_formed(&format!("\n{SESSION}")));
    assert!(!is_well_formed(&SESSION.replace('\n', "\r\n")));
}

#[test]
fn every_other_byte_in_a_text_is_refused() {
    let at = SESSION.find("Blue").unwrap();
    for byte in 0..=255u8 {
        let mut state = buffer(SESSION);
        state[at] = byte;
        let good = byte.is_ascii_alphanumeric() || b"_,;.?!- ".contains(&byte);
        assert_eq!(decode(&state).is_some(), good, "{byte}");
    }
}

#[test]
fn empty_and_full_buffers() {
    assert!(decode(&[0; BUFFER]).is_none());
    assert!(decode(&[b'O'; BUFFER]).is_none());
    let endless = format!("{FRESH}V|x|S|");
    let mut state = endless.replace('|', "\t").into_bytes();
    state.resize(BUFFER, b'a');
    assert!(decode(&state).is_none());
}
