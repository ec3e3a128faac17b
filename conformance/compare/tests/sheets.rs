//! Sheets, beside the model and beside the question: random states that are about rights, whole and damaged, open and closed, with names of all lengths.
//! The answer and every byte of the output are compared with the model's, and the state's bytes with what they were. Every letter of a sheet is also
//! held to the proved question, for all principals or, where they are many, for some.
//!
//!     VENUES=1000000 SEED=7 cargo test --offline --release -p compare --test sheets -- --nocapture

use std::collections::BTreeMap;

use compare::damage::Damage;
use compare::former::{padded, text, Form};
use compare::plans::{Plan, Shape};
use compare::random::Random;
use compare::seen::{must_come, note, setting, side_by_side, Seen, WORKERS};
use compare::server::{ask, sheet, Answer};
use compare::steps::has_ring;
use compare::venues::Venue;
use model::calls::{self, Listed};
use model::observe::older::is_older;
use model::rights::{holders, Assertion, Right, ADMIN};
use model::state::State;
use model::text::{decode, BUFFER};

/// What must come: of sheets, of the rights in them, and of refusals.
const EXPECTED: [&str; 35] = [
    "listed: open", "listed: closed", "listed: two lines", "listed: more than 300 lines", "listed: more than 1,000 assertions", "name of 33 whole",
    "name of 34 whole", "name of 35 cut", "name of 255 cut", "two names look alike", "two names look alike with other rights", "letter r", "letter w",
    "letter a", "letter d", "point", "all letters, not admin", "right through anyone", "right of anyone by a chain", "ring without admin",
    "step to oneself without the right", "chain that one pass does not follow", "variable of a principal's name", "right on another variable only",
    "number 1", "1 and all else wrong", "number 2", "2 and not well formed", "number 4", "4 and no such variable", "number 7", "7: a principal's name",
    "7: no name", "older variable", "older principal",
];

/// The sheet by both sides, from an output of this size that held something else: the answer, and what stands in the output.
fn compared(state: &[u8], size: usize, dirt: u8, variable: &[u8]) -> (Answer, Vec<u8>) {
    let (lent, mut proved, mut model) = (state.to_vec(), vec![dirt; size], vec![dirt; size]);
    let answer = sheet(&lent, &mut proved, variable);
    let expected = calls::sheet(state, &mut model, variable);
    let told = || format!("{:?}, {} and {size} bytes, {}", String::from_utf8_lossy(variable), state.len(), String::from_utf8_lossy(text(state)));
    assert_eq!(answer, expected.map_or_else(|refusal| Answer::Wrong(refusal.number()), Answer::Listed), "{}", told());
    assert!(lent == state, "the state changed: {}", told());
    assert!(proved == model, "the outputs differ: {}", told());
    (answer, proved)
}

/// Each letter is what the proved question says, for all principals or for some of many: the first of them, and as many others.
fn asked(random: &mut Random, state: &[u8], decoded: &State, variable: &[u8], lines: &[&[u8]]) {
    const MANY: usize = 12;
    for (at, principal) in decoded.principals.iter().enumerate() {
        if at >= MANY && random.below(lines.len()) >= MANY {
            continue;
        }
        for (column, right) in b"rwad".iter().enumerate() {
            let expected = match ask(state, principal.name, variable, *right) {
                Answer::Yes(_) => *right,
                Answer::No => b'.',
                other => panic!("a question answers {other:?}"),
            };
            assert_eq!(lines[at][35 + column], expected, "{:?}", String::from_utf8_lossy(lines[at]));
        }
    }
}

/// What is worth seeing in a sheet's names.
fn names_observed(seen: &mut Seen, decoded: &State, lines: &[&[u8]]) {
    let mut looks: BTreeMap<&[u8], &[u8]> = BTreeMap::new();
    for (principal, line) in decoded.principals.iter().zip(lines) {
        let (columns, rights) = line.split_at(34);
        match (principal.name.len(), columns.ends_with(b"~")) {
            (length @ (33 | 34), false) => note(seen, &format!("name of {length} whole")),
            (length @ (35 | 255), true) => note(seen, &format!("name of {length} cut")),
            (length, is_cut) => assert_eq!(is_cut, length > 34),
        }
        if let Some(others) = looks.insert(columns, rights) {
            note(seen, "two names look alike");
            if others != rights {
                note(seen, "two names look alike with other rights");
            }
        }
    }
}

/// What is worth seeing in how one right on a variable is handed on.
fn right_observed(seen: &mut Seen, decoded: &State, variable: u16, right: Right) {
    let count = decoded.principals.count();
    let held = holders(decoded.standing(), count, variable, right.number());
    let has = |principal: u16| held[usize::from(principal)];
    let steps: Vec<&Assertion> = decoded.standing().iter().filter(|a| (a.variable, a.right) == (variable, right.number())).collect();
    let is_given = |p: u16| p == ADMIN || steps.iter().any(|step| step.to == p && step.from != p);
    let mut tell = |is_so: bool, what: &str| is_so.then(|| note(seen, what));
    tell((0..count as u16).any(|p| has(p) && !is_given(p)), "right through anyone");
    tell(has(1) && !steps.iter().any(|step| (step.from, step.to) == (0, 1)), "right of anyone by a chain");
    let idle: Vec<Assertion> = steps.iter().filter(|step| !has(step.from) && !has(step.to)).map(|step| **step).collect();
    tell(idle.iter().any(|step| step.from == step.to), "step to oneself without the right");
    tell(has_ring(idle), "ring without admin");
    // In order of entry, from admin, without anyone's steps.
    let mut marked = vec![false; count];
    marked[0] = true;
    steps.iter().for_each(|step| marked[usize::from(step.to)] |= marked[usize::from(step.from)]);
    tell((0..count as u16).any(|p| has(p) && is_given(p) && !marked[usize::from(p)]) && !has(1), "chain that one pass does not follow");
    let other = |a: &Assertion| a.variable != variable && a.from == ADMIN && !has(a.to);
    tell(decoded.standing().iter().any(|a| other(a) && a.right == right.number()), "right on another variable only");
}

fn observed(seen: &mut Seen, decoded: &State, variable: &[u8], lines: &[&[u8]]) {
    let mut tell = |is_so: bool, what: &str| is_so.then(|| note(seen, what));
    tell(decoded.open, "listed: open");
    tell(!decoded.open, "listed: closed");
    tell(lines.len() == 2, "listed: two lines");
    tell(lines.len() > 300, "listed: more than 300 lines");
    tell(decoded.standing().len() > 1_000, "listed: more than 1,000 assertions");
    tell(decoded.principals.find(variable).is_some(), "variable of a principal's name");
    tell(is_older(variable), "older variable");
    tell(decoded.principals.iter().any(|principal| is_older(principal.name)), "older principal");
    tell(lines[1..].iter().any(|line| line.ends_with(b" rwad\n")), "all letters, not admin");
    for line in &lines[1..] {
        for letter in &line[35..39] {
            tell(*letter == b'.', "point");
            tell(*letter != b'.', &format!("letter {}", char::from(*letter)));
        }
    }
    names_observed(seen, decoded, lines);
    let number = decoded.variables.find(variable).expect("a variable");
    Right::ALL.into_iter().for_each(|right| right_observed(seen, decoded, number, right));
}

/// A right sheet of a well formed state.
fn listed(seen: &mut Seen, random: &mut Random, state: &[u8], variable: &[u8]) {
    let (answer, output) = compared(state, BUFFER, random.below(256) as u8, variable);
    let (decoded, _) = decode(state).expect("well formed");
    let lines = decoded.principals.count();
    assert_eq!(answer, Answer::Listed(Listed { lines, bytes: 40 * lines }));
    assert!(output[40 * lines..].iter().all(|byte| *byte == 0), "zeros behind the sheet");
    let lines: Vec<&[u8]> = output[..40 * lines].chunks(40).collect();
    asked(random, state, &decoded, variable, &lines);
    observed(seen, &decoded, variable, &lines);
}

/// A sheet that is refused, or not, for its sizes, its state or its variable: how it ends is told by what came, and some ways must.
fn aside(seen: &mut Seen, random: &mut Random, state: &[u8], variable: &[u8]) {
    let sizes = [BUFFER, BUFFER, BUFFER - 1, BUFFER + 1, 0, 2 * BUFFER];
    let (state_size, output_size) = (sizes[random.below(6)], sizes[random.below(6)]);
    let mut resized = state.to_vec();
    resized.resize(state_size, 0);
    let dirt = random.below(256) as u8;
    let (answer, output) = compared(&resized, output_size, dirt, variable);
    let Answer::Wrong(number) = answer else { return };
    assert!(output == vec![dirt; output_size], "a refusal changed the output");
    note(seen, &format!("number {number}"));
    let decoded = decode(state).map(|(decoded, _)| decoded);
    let is_there = decoded.as_ref().is_some_and(|decoded| decoded.variables.find(variable).is_some());
    match number {
        1 if state_size != BUFFER && !is_there => note(seen, "1 and all else wrong"),
        2 if decoded.is_none() => note(seen, "2 and not well formed"),
        4 if !String::from_utf8_lossy(state).contains(&format!("V\t{}\t", String::from_utf8_lossy(variable))) => note(seen, "4 and no such variable"),
        7 if variable.is_empty() => note(seen, "7: no name"),
        7 if decoded.is_some_and(|decoded| decoded.principals.find(variable).is_some()) => note(seen, "7: a principal's name"),
        _ => {}
    }
}

/// A name that is mostly no variable: none at all, a principal's, part of one, too long, or any bytes.
fn another(random: &mut Random, venue: &Venue) -> Vec<u8> {
    let known = venue.variables[random.below(venue.variables.len())].as_bytes();
    match random.below(6) {
        0 => Vec::new(),
        1 => venue.principals[random.below(venue.principals.len())].clone().into_bytes(),
        2 => known[1..].to_vec(),
        3 => vec![b'x'; [254, 255, 256, 70_000][random.below(4)]],
        4 => [known, &[random.below(256) as u8]].concat(),
        _ => known.to_vec(),
    }
}

fn one(seen: &mut Seen, random: &mut Random) {
    let venue = Venue::of(random);
    let text = venue.text();
    let state = padded(&text);
    assert!(decode(&state).is_some(), "not well formed: {}", String::from_utf8_lossy(&text));
    for variable in &venue.variables {
        listed(seen, random, &state, variable.as_bytes());
    }
    let variable = another(random, &venue);
    aside(seen, random, &state, &variable);
    let damage = Damage::ALL[random.below(Damage::ALL.len())];
    if let Some(damaged) = damage.done(random, &text, Form::Counted) {
        aside(seen, random, &padded(&damaged), &variable);
    }
}

/// States of the other shapes too: strings, lists and records beside the rights, thousands of assertions.
fn planned(seen: &mut Seen, random: &mut Random, scratch: &mut [u8]) {
    let shape = [Shape::ManyAssertions, Shape::ManyPrincipals, Shape::LongNames, Shape::Full, Shape::Small][random.below(5)];
    let state = padded(&Plan::of(random, shape, Form::Counted).text(scratch));
    let (decoded, _) = decode(&state).expect("well formed");
    let names: Vec<Vec<u8>> = decoded.variables.iter().map(|variable| variable.name.to_vec()).collect();
    if !names.is_empty() {
        let variable = &names[random.below(names.len())];
        listed(seen, random, &state, variable);
    }
}

fn venues(seed: u64, count: u64) -> Seen {
    let (mut seen, mut random, mut scratch) = (Seen::new(), Random(seed), vec![0; BUFFER]);
    for at in 0..count {
        one(&mut seen, &mut random);
        if at % 8 == 0 {
            planned(&mut seen, &mut random, &mut scratch);
        }
    }
    seen
}

/// Two runs side by side, and what they must have met together.
#[test]
fn sheets() {
    let (count, seed) = (setting("VENUES", 6_000), setting("SEED", 20_261_120));
    println!("{count} venues, seed {seed}");
    let seen = side_by_side(|worker| venues(WORKERS * seed + worker, count / WORKERS));
    must_come(&seen, &EXPECTED);
}
