//! Programs and states that look random, whole and damaged: every call keeps
//! what 01 says of lent buffers, and what is left is well formed, weighs what
//! was counted, and answers questions by the rules.

mod common;

use std::collections::BTreeMap;

use common::generator::{any_program, Numbers, PRINCIPALS, VARIABLES};
use common::{buffer, program, Server, DIRT, FRESH, SESSION};
use model::calls;
use model::engine::{self, End};
use model::lines::Lines;
use model::observe::comparisons::COMPARISONS;
use model::observe::filters::FILTERS;
use model::observe::lets::{BOUND, ELEMENTS, LEFT, UNDONE};
use model::observe::logins::{logins, PARSED, UNPARSED};
use model::observe::older::{older, Met, OLDER};
use model::observe::prices::{FAILURES, ROUNDINGS};
use model::observe::shapes::SHAPES;
use model::observe::{self, COUNTS, FUNCTIONS, MISHAPS, PLACES};
use model::strings::Strings;
use model::text::{decode, encode, BUFFER};

/// The weight of a string that leaves little room.
const HEAVY: usize = 7_770;

/// Names and variables to start with, so that most commands can be done, and
/// a string that may be heavy, so that some cannot.
fn peopled(weight: usize) -> Server {
    let mut server = Server::new("admin");
    let heavy = format!("set w = \"{}\"", "t".repeat(weight));
    let lines = [
        "create principal bob \"bob\"",
        "create principal carol \"carol\"",
        "create principal dave \"dave\"",
        "change password anyone \"anyone\"",
        "set u = []",
        "append to u with {a=\"1\",b=\"2.25\"}",
        "set v = u",
        "append to v with \"s\"",
        &heavy,
        "set x = {a=\"1\",b=\"-0.05\"}",
        "set p = \"12.50\"",
        "set q = {b=\"-0.05\",a=\"1\"}",
        "set delegation u admin read -> anyone",
        "set delegation u admin delegate -> bob",
        "set delegation v admin delegate -> anyone",
        "set delegation all admin write -> carol",
        "return \"\"",
    ];
    let (end, _) = server.run("admin", "admin", &lines);
    assert_eq!(end, End::Returned);
    server
}

/// The weight that the engine counted is the weight of the text it leaves.
fn weight_is_kept(state: &[u8], program: &str) {
    let mut output = vec![0; BUFFER];
    let (before, _) = decode(state).unwrap();
    let strings = Strings::default();
    let mut lines = Lines::new(&mut output);
    let (_, after) = engine::run(before, program.as_bytes(), &strings, &mut lines);
    if let Some(after) = after {
        let mut text = vec![0; BUFFER];
        encode(&after, &mut text);
        let (again, _) = decode(&text).expect("well formed");
        assert_eq!(again.weight(), after.weight());
    }
}

/// The length of a shortest chain, from the lines of the state text.
fn length_by_text(text: &str, name: &str, variable: &str, right: &str) -> Option<usize> {
    let mut reached = vec!["admin"];
    for round in 0.. {
        if reached.contains(&name) {
            return Some(round);
        }
        let mut next = Vec::new();
        for line in text.lines() {
            let fields: Vec<&str> = line.split('|').collect();
            match fields[..] {
                ["A", x, q, r, p] if (x, r) == (variable, right) && reached.contains(&q) => {
                    next.push(p)
                }
                ["P", p, _, _] if reached.contains(&"anyone") => next.push(p),
                _ => {}
            }
        }
        next.retain(|p| !reached.contains(p));
        if next.is_empty() {
            return None;
        }
        reached.extend(next);
    }
    None
}

/// Questions are answered by the text's lines, and sheets by the questions.
fn questions_are_answered(server: &Server) -> (usize, usize) {
    let text = server.text();
    let (mut yes, mut no) = (0, 0);
    for variable in VARIABLES {
        if text.contains(&format!("\nV|{variable}|")) {
            server.sheet(variable);
        }
    }
    for name in PRINCIPALS {
        for variable in VARIABLES {
            for right in ["r", "w", "a", "d"] {
                let answer = server.ask(name, variable, right.as_bytes()[0]);
                match answer.map_err(|refusal| refusal.number()) {
                    Ok(length) => {
                        assert_eq!(length, length_by_text(&text, name, variable, right));
                        yes += usize::from(length.is_some());
                        no += usize::from(length.is_none());
                    }
                    Err(6) => assert!(!text.contains(&format!("\nP|{name}|")) && name != "anyone"),
                    Err(7) => assert!(!text.contains(&format!("\nV|{variable}|"))),
                    Err(number) => panic!("refused with {number}"),
                }
            }
        }
    }
    (yes, no)
}

/// A state text with counts that a few programs bring to another width, or to
/// their end.
fn recounted(numbers: &mut Numbers, text: &str) -> String {
    let mut near = || {
        let edge = [10, 100, 1_000_000_000, u32::MAX][numbers.below(4)];
        edge - numbers.below(4) as u32
    };
    let mut counted = |line: &str| match line.split('|').collect::<Vec<_>>()[..] {
        ["P", name, password, _] => format!("P|{name}|{password}|{}\n", near()),
        ["N", name, _] => format!("N|{name}|{}\n", near()),
        _ => format!("{line}\n"),
    };
    text.lines().map(&mut counted).collect()
}

/// The same text, or with names and a label that have become keywords.
fn with_older_names(numbers: &mut Numbers, text: &str) -> String {
    match numbers.below(3) {
        0 => text
            .replace("|dave", "|per")
            .replace("|v|", "|add|")
            .replace("F|b|", "F|times|"),
        _ => text.to_string(),
    }
}

/// A program whose login is not right is DENIED, and what is none is FAILED.
fn login_decides(told: &str, end: End) {
    if PARSED[1..].contains(&told) {
        assert_eq!(end, End::Denied, "{told}");
    }
    if UNPARSED.contains(&told) {
        assert_eq!(end, End::Failed, "{told}");
    }
}

/// How often each form of a call and of a let, each mishap, each sort of login,
/// each move of a count and each meeting with older names came: every one must.
/// All names have a password here.
fn all_came(seen: &BTreeMap<String, usize>) {
    let within = PLACES.iter().chain(&["let"]);
    let calls = FUNCTIONS.iter().flat_map(|function| {
        let told = move |place: &&str| format!("{function} in {place}");
        within.clone().map(told)
    });
    let lets = PLACES.iter().map(|place| format!("let in {place}"));
    let elements = ["foreach", "filtereach"].into_iter().flat_map(|place| {
        let told = move |words: &&str| format!("{place}: {words}");
        ELEMENTS.iter().map(told)
    });
    let forms = calls.chain(lets).chain(elements);
    let others = MISHAPS.iter().chain(&SHAPES).chain(&COUNTS).chain([&LEFT]);
    let others = others.chain(&BOUND).chain(&UNDONE);
    let others = others.chain(&FILTERS).chain(&COMPARISONS);
    let others = others.chain(&ROUNDINGS).chain(&FAILURES).chain(&OLDER);
    let others = others.chain(&PARSED[..3]).chain(&UNPARSED[..3]);
    for key in forms.chain(others.map(|key| key.to_string())) {
        let times = seen.get(&key).copied().unwrap_or(0);
        println!("{key}: {times}");
        assert!(times > 0, "{key} never came");
    }
}

#[test]
fn whole_programs() {
    let mut numbers = Numbers(0x0123_4567_89ab_cdef);
    let mut ends = [0; 5];
    let mut seen = BTreeMap::new();
    let (mut yes, mut no) = (0, 0);
    for _ in 0..700 {
        let weight = [70, HEAVY][numbers.below(2)];
        let text = recounted(&mut numbers, &peopled(weight).text());
        let mut server = Server::of_text(&with_older_names(&mut numbers, &text));
        for _ in 0..60 {
            let program = any_program(&mut numbers);
            let before = server.state.clone();
            weight_is_kept(&before, &program);
            for told in observe::expressions(&server.state, program.as_bytes()) {
                *seen.entry(told).or_default() += 1;
            }
            let (end, output) = server.send(program.as_bytes());
            ends[end as usize] += 1;
            for told in logins(&before, program.as_bytes()) {
                login_decides(told, end);
                *seen.entry(told.to_string()).or_default() += 1;
            }
            for told in older(&Met {
                before: &before,
                program: program.as_bytes(),
                end,
                output: output.as_bytes(),
                after: &server.state,
            }) {
                *seen.entry(told.to_string()).or_default() += 1;
            }
            if matches!(end, End::Returned | End::Exited) {
                if let Some(told) = observe::count(&before, program.as_bytes(), &server.state) {
                    *seen.entry(told.to_string()).or_default() += 1;
                }
            }
            if end == End::Exited {
                break;
            }
        }
        let (more_yes, more_no) = questions_are_answered(&server);
        yes += more_yes;
        no += more_no;
    }
    all_came(&seen);
    // Every kind of end and of answer comes up.
    assert!(ends[End::Exited as usize] > 0, "{ends:?}");
    for end in [End::Returned, End::Denied, End::Failed, End::Full] {
        assert!(ends[end as usize] > 100, "{ends:?}");
    }
    assert!(yes > 1_000 && no > 1_000, "{yes} {no}");
}

#[test]
fn damaged_programs() {
    let mut numbers = Numbers(0xdead_beef_cafe_f00d);
    let mut server = Server::session();
    for _ in 0..20_000 {
        let mut bytes = any_program(&mut numbers)
            .replacen("admin\"", "desk\"", 1)
            .into_bytes();
        for _ in 0..1 + numbers.below(2) {
            let at = numbers.below(bytes.len());
            match numbers.below(3) {
                0 => bytes[at] = numbers.below(256) as u8,
                1 => drop(bytes.remove(at)),
                _ => bytes.insert(at, b" \n/*.,={}[]()->\"_a1\t\0"[numbers.below(21)]),
            }
        }
        let (end, _) = server.send(&bytes);
        if end == End::Exited || server.weight() > 4_000 {
            server = Server::session();
        }
    }
}

#[test]
fn damaged_states() {
    let mut numbers = Numbers(0x0bad_5eed_0bad_5eed);
    let program = program("admin", "desk", &["set n = \"\"", "return \"\""]);
    let (mut good, mut bad) = (0, 0);
    for _ in 0..3_000 {
        let mut state = buffer(SESSION);
        for _ in 0..1 + numbers.below(2) {
            let at = numbers.below(SESSION.len());
            state[at] = match numbers.below(2) {
                0 => numbers.below(256) as u8,
                _ => state[numbers.below(SESSION.len())],
            };
        }
        let before = state.clone();
        let (mut work, mut output) = (vec![DIRT; BUFFER], vec![DIRT; BUFFER]);
        let result = calls::run(&mut state, &mut work, &mut output, program.as_bytes());
        match decode(&before) {
            None => {
                bad += 1;
                assert_eq!(result.unwrap_err().number(), 4);
                assert!(state == before && work == [DIRT; BUFFER] && output == [DIRT; BUFFER]);
            }
            Some((decoded, length)) => {
                good += 1;
                let mut text = vec![0; BUFFER];
                assert_eq!(encode(&decoded, &mut text), length);
                assert!(text == before);
            }
        }
    }
    assert!(good > 100 && bad > 100);
}

/// A state text in the former lines: the counts go, and the first line gets
/// one.
fn former_of(text: &str, count: u32) -> String {
    let former = |line: &str| match line.split('|').collect::<Vec<_>>()[..] {
        ["O" | "C"] => format!("{line}|{count}\n"),
        ["P", name, password, _] => format!("P|{name}|{password}\n"),
        ["N", name, _] => format!("N|{name}\n"),
        _ => format!("{line}\n"),
    };
    text.lines().map(former).collect()
}

/// A state text with every count 0.
fn uncounted(text: &str) -> String {
    let uncounted = |line: &str| match line.split('|').collect::<Vec<_>>()[..] {
        ["P", name, password, _] => format!("P|{name}|{password}|0\n"),
        ["N", name, _] => format!("N|{name}|0\n"),
        _ => format!("{line}\n"),
    };
    text.lines().map(uncounted).collect()
}

#[test]
fn former_states() {
    let mut numbers = Numbers(0x5eed_0bad_5eed_0bad);
    let (mut brought, mut damaged) = (0, 0);
    for _ in 0..300 {
        let mut server = peopled(HEAVY);
        for _ in 0..10 {
            let program = any_program(&mut numbers);
            if server.send(program.as_bytes()).0 == End::Exited {
                break;
            }
        }
        let count = numbers.below(1 << 31) as u32;
        let former = former_of(&server.text(), count);
        assert!(Server::brought(&former).text() == uncounted(&server.text()));
        brought += 1;
        let mut bytes = buffer(&former);
        let at = numbers.below(former.len());
        bytes[at] = numbers.below(256) as u8;
        let (before, mut state) = (bytes.clone(), vec![DIRT; BUFFER]);
        if calls::bring(&bytes, &mut state).is_err() {
            damaged += 1;
            assert!(bytes == before && state == [DIRT; BUFFER]);
        }
    }
    assert!(brought > 100 && damaged > 10, "{brought} {damaged}");
}

#[test]
fn the_largest_output() {
    // 77 records of 52 fields with labels of one letter, and a string x.
    let labels = (b'a'..=b'z').chain(b'A'..=b'Z').map(char::from);
    let fields: String = labels.map(|label| format!("F|{label}|\n")).collect();
    let list = format!("R\n{fields}").repeat(77);
    let text = FRESH.replace("desk", "");
    let mut server = Server::of_text(&format!("{text}V|x|S|\nV|l|L\n{list}"));
    assert_eq!(server.weight(), 12 + 12 + 2 + (2 + 77 * (1 + 52 * 2)));
    let first = "as principal admin password\"\"do\n";
    let commands = (16_384 - first.len() - 12) / 8;
    let program = format!("{first}{}return l\n***", "set x=x\n".repeat(commands));
    let (end, text) = server.send(program.as_bytes());
    assert_eq!(end, End::Returned);
    let record = 2 + 52 * 6 + 51;
    let value = 2 + 77 * record + 76;
    let status = "{\"status\":\"SET\"}\n".len();
    let frame = "{\"status\":\"RETURNING\",\"output\":}\n".len();
    assert_eq!(text.len(), commands * status + frame + value);
    assert!(text.len() > 62_000);
}

#[test]
fn the_largest_state_text() {
    // A one-letter label with no text weighs 2 and takes 5 bytes; one more
    // byte for each record's own line.
    let labels = (b'a'..=b'z').chain(b'A'..=b'Z').map(char::from);
    let fields: String = labels.map(|label| format!("F|{label}|\n")).collect();
    let names = (b'a'..=b'z').chain(b'A'..=b'Z').map(char::from);
    let variables: String = names.map(|name| format!("V|{name}|R\n{fields}")).collect();
    let mut server = Server::of_text(&format!("{FRESH}{variables}"));
    assert_eq!(server.weight(), 28 + 52 * (2 + 52 * 2));
    server.prepare(&["set more = \"\""]);
    assert!(server.text().ends_with("V|more|S|\n"));
}
