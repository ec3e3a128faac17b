//! The proved parser against the model, on random programs, whole and damaged: parses or not, how many commands, and of which kinds.

use std::collections::BTreeMap;

use compare::programs::{damage, whole};
use compare::random::Random;
use compare::parser::{kinds, model_kinds, Answer, ROOM};
use model::observe::shapes::{misshapen, SHAPES};
use model::observe::{written, FUNCTIONS, PLACES};
use model::parse::parse;

const PROGRAMS: usize = 120_000;

fn compare(text: &[u8], room: &mut [u8]) -> Answer {
    let proved = kinds(text, room);
    let expected = match parse(text) {
        Some(program) => Answer::Parses(model_kinds(&program)),
        None => Answer::No,
    };
    assert_eq!(proved, expected, "{:?}", String::from_utf8_lossy(text));
    proved
}

/// How often calls of functions and lets came that are read, by function and place, and miswritten ones for which a program does not parse.
#[derive(Default)]
struct Calls(BTreeMap<String, usize>);

impl Calls {
    fn note(&mut self, text: &[u8]) {
        let told = match parse(text) {
            Some(program) => written(&program),
            None => misshapen(text).map(str::to_string).into_iter().collect(),
        };
        told.into_iter().for_each(|key| *self.0.entry(key).or_default() += 1);
    }

    fn all_came(&self) {
        println!("{:?}", self.0);
        let read = FUNCTIONS.iter().chain(&["let"]).flat_map(|function| PLACES.map(|place| format!("{function} in {place}")));
        for key in read.chain(SHAPES.map(str::to_string)) {
            assert!(self.0.get(&key).is_some_and(|times| *times > 100), "{key} hardly came");
        }
    }
}

#[test]
fn random_programs() {
    let seed = 20_261_115;
    println!("seed {seed}");
    let mut random = Random(seed);
    let mut room = vec![0; ROOM];
    let mut seen = [0usize; 13];
    let mut refused = 0;
    let mut calls = Calls::default();
    for at in 0..PROGRAMS {
        let mut text = whole(&mut random);
        if at % 2 == 1 {
            damage(&mut random, &mut text);
        }
        calls.note(&text);
        match compare(&text, &mut room) {
            Answer::Parses(found) => found.iter().for_each(|kind| seen[*kind as usize] += 1),
            Answer::No => refused += 1,
            Answer::Refused => panic!("refused with room for all"),
        }
    }
    println!("{PROGRAMS} programs: {refused} do not parse; commands by kind {:?}", &seen[1..]);
    assert!(seen[1..].iter().all(|count| *count > 1_000), "a kind that hardly came");
    assert!(refused > PROGRAMS / 10 && refused < PROGRAMS * 9 / 10);
    calls.all_came();
}

#[test]
fn sizes() {
    let mut room = vec![0; ROOM];
    for length in [16_383, 16_384, 16_385, 20_000] {
        let head = b"as principal admin password \"desk\" do\nreturn \"";
        let tail = b"\"\n***";
        let mut text = head.to_vec();
        text.resize(length - tail.len(), b'a');
        text.extend_from_slice(tail);
        let answer = compare(&text, &mut room);
        assert_eq!(answer != Answer::No, length <= 16_384);
    }
    // As many commands as fit.
    let mut text = b"as principal a password \"\" do\n".to_vec();
    while text.len() + 13 < 16_384 {
        text.extend_from_slice(b"set x=y\n");
    }
    text.extend_from_slice(b"exit\n***");
    assert!(matches!(compare(&text, &mut room), Answer::Parses(found) if found.len() > 2_000));
}

/// As many lets as fit, one in the first expression of the other, one in the second, and some that have no end.
#[test]
fn many_lets() {
    let mut room = vec![0; ROOM];
    let first = |depth| ["let a=".repeat(depth), "\"\"".to_string(), "in\"\"".repeat(depth)].concat();
    let second = |depth| ["let a=\"\"in ".repeat(depth), "\"\"".to_string()].concat();
    let head = "as principal a password\"\"do\nreturn ";
    for (lets, parses) in [
        (first(1_634), true),
        (second(1_485), true),
        (first(1_634).replacen("in", "", 1), false),
        (first(1_633) + "in\"\"", false),
        (second(1_485).replacen("=", "", 1), false),
        ("let a=".repeat(2_720), false),
    ] {
        let text = format!("{head}{lets}\n***");
        assert!(text.len() <= 16_384 && text.len() > 16_350, "{} bytes", text.len());
        assert_eq!(compare(text.as_bytes(), &mut room), if parses { Answer::Parses(vec![10]) } else { Answer::No });
    }
}

#[test]
fn too_little_room() {
    let mut room = vec![7; ROOM - 1];
    assert_eq!(kinds(b"as principal a password \"\" do\nexit\n***", &mut room), Answer::Refused);
    assert!(room.iter().all(|byte| *byte == 7));
}
