//! Former states brought over, beside the model: whole and damaged ones, of many shapes, at the edge of either weight, with buffers of wrong sizes. The
//! answer and every byte of both buffers are compared. What a bringing leaves is also held to the former text itself: without its counts, and with the
//! count that was dropped, it is that text again.
//!
//!     FORMERS=1000000 SEED=7 cargo test --offline --release -p compare --test bring -- --nocapture

use compare::damage::Damage;
use compare::former::{former, padded, text, Form};
use compare::plans::{Plan, Shape};
use compare::random::Random;
use compare::seen::{must_come, note, setting, side_by_side, Seen, WORKERS};
use compare::server::{ask, bring, run, Answer};
use compare::states::{self, figures, FIGURES};
use model::calls;
use model::observe::older::is_older;
use model::state::HEAVIEST;
use model::text::{decode, decode_former, BUFFER};

/// What must come: answers, what was brought over, and what was refused for what.
const EXPECTED: [&str; 29] = [
    "ready", "number 2", "number 10", "number 11", "ready: open", "ready: closed", "ready: count of one digit", "ready: count of ten digits",
    "ready: the last count", "ready: anyone has a password", "ready: delegator another than anyone", "ready: more than 300 principals",
    "ready: more than 1,000 assertions or variables", "ready: new weight 8,192", "ready: new weight 8,191", "11: new weight 8,193",
    "11: new weight 8,194", "11: former weight 8,192", "11: more than 682 principals", "10: a state in the lines of now", "10: zeros",
    "2: former, whole", "2: former, damaged", "2: state, whole", "2: state, damaged", "2: both", "program and question afterwards",
    "ready: older principal", "ready: older variable",
];

/// Brings over on both sides; the answer, and what stands in the second buffer.
fn brought(former: &[u8], state: &[u8]) -> (Answer, Vec<u8>) {
    let (lent, mut proved, mut model) = (former.to_vec(), state.to_vec(), state.to_vec());
    let answer = bring(&lent, &mut proved);
    let expected = match calls::bring(former, &mut model) {
        Ok(()) => Answer::Ready,
        Err(refusal) => Answer::Wrong(refusal.number()),
    };
    let told = || String::from_utf8_lossy(text(former)).into_owned();
    assert_eq!(answer, expected, "{} and {} bytes, {:?}", former.len(), state.len(), told());
    assert!(lent == former, "the former state changed: {:?}", told());
    assert!(proved == model, "the states differ: {:?}", told());
    assert!(answer == Answer::Ready || proved == state, "a refusal changed the state: {:?}", told());
    (answer, proved)
}

/// What is worth seeing of a former state that was brought over or is too heavy for it.
fn observed(seen: &mut Seen, buffer: &[u8], answer: Answer) {
    let state = decode_former(buffer).expect("well formed");
    let (weight, people) = (state.weight(), state.principals.count());
    let count = text(buffer)[2..].iter().take_while(|byte| **byte != b'\n').count();
    let others = state.standing().len() + usize::from(state.variables.count());
    if answer == Answer::Ready {
        let mut tell = |is_so: bool, what: &str| is_so.then(|| note(seen, &format!("ready: {what}")));
        tell(state.open, "open");
        tell(!state.open, "closed");
        tell(count == 1, "count of one digit");
        tell(count == 10, "count of ten digits");
        tell(text(buffer)[2..].starts_with(b"4294967295\n"), "the last count");
        tell(state.principals.get(1).password.is_some(), "anyone has a password");
        tell(state.delegator != 1, "delegator another than anyone");
        tell(people > 300, "more than 300 principals");
        tell(others > 1_000, "more than 1,000 assertions or variables");
        tell(state.principals.iter().any(|one| is_older(one.name)), "older principal");
        tell(state.variables.iter().any(|one| is_older(one.name)), "older variable");
        tell(weight == HEAVIEST, "new weight 8,192");
        tell(weight == HEAVIEST - 1, "new weight 8,191");
    } else {
        let mut tell = |is_so: bool, what: &str| is_so.then(|| note(seen, &format!("11: {what}")));
        tell(weight == HEAVIEST + 1, "new weight 8,193");
        tell(weight == HEAVIEST + 2, "new weight 8,194");
        tell(state.former_weight() == HEAVIEST, "former weight 8,192");
        tell(people > 682, "more than 682 principals");
    }
}

/// The brought-over state is the former text with counts of 0, and both sides go on with it alike.
fn checked(seen: &mut Seen, buffer: &[u8], state: &[u8]) {
    let line = text(buffer).split(|byte| *byte == b'\n').next().expect("a first line");
    let count = String::from_utf8_lossy(&line[2..]).parse().expect("a count");
    assert!(former(text(state), count) == text(buffer), "another text");
    let (decoded, _) = decode(state).expect("well formed");
    assert!(decoded.principals.iter().all(|principal| principal.completed == 0));
    let mut room = vec![0; FIGURES];
    assert_eq!(states::check(state, &mut room), states::Answer::Found(0, &figures(&decoded)[..]));
    if !decoded.open {
        return;
    }
    let password = String::from_utf8_lossy(decoded.principals.get(0).password.expect("a password")).into_owned();
    let program = format!("as principal admin password \"{password}\" do\nset delegation all admin read -> anyone\nreturn \"\"\n***");
    let lent = [state.to_vec(), vec![1; BUFFER], vec![2; BUFFER]];
    let ([mut a, mut b, mut c], [mut d, mut e, mut f]) = (lent.clone(), lent);
    let answer = run(&mut a, &mut b, &mut c, program.as_bytes());
    let expected = calls::run(&mut d, &mut e, &mut f, program.as_bytes()).expect("a right call");
    assert_eq!(answer, Answer::Ended(expected), "{program}");
    assert!(a == d && b == e && c == f, "{program}");
    if decoded.variables.count() > 0 {
        let variable = decoded.variables.get(0).name;
        let expected = calls::ask(&a, b"anyone", variable, b'r').expect("a right question");
        assert_eq!(ask(&a, b"anyone", variable, b'r'), expected.map_or(Answer::No, Answer::Yes));
        note(seen, "program and question afterwards");
    }
}

/// One or both buffers have another size; then the text does not matter.
fn sizes_aside(seen: &mut Seen, random: &mut Random, buffer: &[u8], is_damaged: bool) {
    let size = [0, 1, BUFFER - 1, BUFFER + 1, 2 * BUFFER][random.below(5)];
    let which = random.below(3);
    let (mut former, mut state) = (buffer.to_vec(), vec![9; BUFFER]);
    if which != 1 {
        former.resize(size, 0);
    }
    if which != 0 {
        state.resize(size, 9);
    }
    assert_eq!(brought(&former, &state).0, Answer::Wrong(2));
    let text = if is_damaged { "damaged" } else { "whole" };
    note(seen, &[format!("2: former, {text}"), format!("2: state, {text}"), "2: both".to_string()][which]);
    note(seen, "number 2");
}

fn one(seen: &mut Seen, random: &mut Random, at: u64, scratch: &mut [u8]) {
    let shape = Shape::any(random, Form::Former);
    let mut text = Plan::of(random, shape, Form::Former).text(scratch);
    let mut done = None;
    while at % 3 == 2 && done.is_none() {
        let damage = Damage::ALL[random.below(Damage::ALL.len())];
        if let Some(damaged) = damage.done(random, &text, Form::Former) {
            text = damaged;
            done = Some(damage);
        }
    }
    let buffer = padded(&text);
    let dirt = [0, 7, b'O', 0xff][random.below(4)];
    let (answer, state) = brought(&buffer, &vec![dirt; BUFFER]);
    match answer {
        Answer::Ready => {
            note(seen, "ready");
            checked(seen, &buffer, &state);
        }
        Answer::Wrong(number) => note(seen, &format!("number {number}")),
        other => panic!("a bringing answers {other:?}"),
    }
    if answer != Answer::Wrong(10) {
        observed(seen, &buffer, answer);
    }
    match done {
        Some(damage) => {
            assert!(answer == Answer::Wrong(10) || !damage.always_bad(), "{damage:?}: well formed");
            let end = if answer == Answer::Wrong(10) { "refused" } else { "well formed all the same" };
            note(seen, &format!("{damage:?}, {end}"));
            if damage == Damage::OtherForm {
                note(seen, "10: a state in the lines of now");
            }
        }
        None => {
            assert!(answer != Answer::Wrong(10), "{shape:?}: not well formed");
            note(seen, &format!("{shape:?}, whole"));
        }
    }
    if random.below(20) == 0 {
        sizes_aside(seen, random, &buffer, done.is_some());
    }
}

fn formers(seed: u64, count: u64) -> Seen {
    let mut seen = Seen::new();
    let mut random = Random(seed);
    let mut scratch = vec![0; BUFFER];
    assert_eq!(brought(&scratch, &vec![7; BUFFER]).0, Answer::Wrong(10));
    note(&mut seen, "10: zeros");
    for at in 0..count {
        one(&mut seen, &mut random, at, &mut scratch);
    }
    seen
}

/// Two runs side by side, and what they must have met together.
#[test]
fn former_states() {
    let (count, seed) = (setting("FORMERS", 60_000), setting("SEED", 20_261_119));
    println!("{count} former states, seed {seed}");
    let seen = side_by_side(|worker| formers(WORKERS * seed + worker, count / WORKERS));
    must_come(&seen, &EXPECTED);
    for shape in Shape::ALL.iter().chain(&[Shape::FullWhenBrought]) {
        assert!(seen.contains_key(&format!("{shape:?}, whole")), "never came: {shape:?}");
    }
    for damage in Damage::ALL {
        assert!(seen.contains_key(&format!("{damage:?}, refused")), "never came, or never broke a state: {damage:?}");
    }
}

/// Every former weight around both limits, by one string: 8,172 is the most of two principals.
#[test]
fn around_the_limits() {
    for weight in 8_150..8_220 {
        let text = format!("O\t0\nP\tadmin\tdesk\nN\tanyone\nD\tanyone\nV\tx\tS\t{}\n", "s".repeat(weight - 10));
        let expected = match weight {
            ..=8_172 => Answer::Ready,
            8_173..=8_192 => Answer::Wrong(11),
            _ => Answer::Wrong(10),
        };
        assert_eq!(brought(&padded(text.as_bytes()), &vec![7; BUFFER]).0, expected, "{weight}");
    }
}

/// Every number of principals around both limits, with the shortest names: 632 besides admin and anyone are the most, and 2,746 the most there were.
#[test]
fn around_the_most_principals() {
    for count in (620..645).chain(2_735..2_755) {
        let names = model::replay::shortest_names(count);
        let people: String = names.iter().map(|name| format!("P\t{name}\t\n")).collect();
        let text = format!("C\t4294967295\nP\tadmin\t\nN\tanyone\n{people}D\tanyone\n");
        let expected = match count {
            ..=632 => Answer::Ready,
            633..=2_746 => Answer::Wrong(11),
            _ => Answer::Wrong(10),
        };
        assert_eq!(brought(&padded(text.as_bytes()), &vec![7; BUFFER]).0, expected, "{count}");
    }
}
