//! Histories of calls, beside the model: programs of several principals, damaged programs and states, buffers of wrong sizes, a question and a sheet
//! after every call. The answer, and every byte of the state, of the work buffer and of the output, are compared. Some go on from a state whose counts
//! stand near the end of a width, some from one with older names, some from a former state brought over.
//!
//! In the gate 20,000 histories are run. For more of them, or others:
//!
//!     HISTORIES=1000000 SEED=7 cargo test --offline --release -p compare --test histories -- --nocapture

use compare::former::{count, former, padded, recounted, text};
use compare::histories::{next, opening, World, PRINCIPALS, RENAMED, VARIABLES};
use compare::older::{renamed, OLDER};
use compare::random::Random;
use compare::seen::{each_seeded, must_come, note, setting, Seen};
use compare::server::{ask, bring, make, run, sheet, Answer};
use model::calls;
use model::engine::End;
use model::observe::comparisons::COMPARISONS;
use model::observe::filters::FILTERS;
use model::observe::lets::{BOUND, ELEMENTS, LEFT, UNDONE};
use model::observe::logins::{logins, MISSING, PARSED, UNPARSED};
use model::observe::older::{is_older, older, Met, OLDER as OLDER_MET};
use model::observe::prices::{FAILURES, ROUNDINGS};
use model::observe::shapes::SHAPES;
use model::observe::{self, COUNTS, FUNCTIONS, MISHAPS, PLACES};
use model::text::BUFFER;

/// What must come: each status, each kind of end, each number, each answer; beside them each form of a call, of a let and of filtereach and each mishap
/// of one, how prices are rounded, how what is compared stands to each other, how logins stand to the state, what becomes of counts, and what programs meet of older names, by the lists of `model::observe`.
const STATUSES: [&str; 12] = [
    "CREATE_PRINCIPAL", "CHANGE_PASSWORD", "SET", "APPEND", "LOCAL", "FOREACH", "FILTEREACH", "SET_DELEGATION", "DELETE_DELEGATION",
    "DEFAULT_DELEGATOR", "RETURNING", "EXITING",
];
const ENDS: [&str; 5] = ["Returned", "Exited", "Denied", "Failed", "Full"];
const NUMBERS: [&str; 16] = [
    "run 1", "run 2", "run 3", "run 4", "run 5", "ask 2", "ask 4", "ask 6", "ask 7", "make 2", "make 8", "make 9", "sheet 1", "sheet 2", "sheet 4",
    "sheet 7",
];
const ANSWERS: [&str; 5] = ["yes", "no", "ready", "listed: open", "listed: closed"];
/// What is answered about older names.
const OLDER_ANSWERS: [&str; 5] =
    ["yes: older principal", "yes: older variable", "no: older name", "listed: older variable", "listed: older principal"];
/// Histories that start otherwise than from a server just made, and what came after.
const STARTS: [&str; 10] = [
    "counts set", "older names set", "older names brought over", "brought over", "brought over: Returned", "brought over: Exited", "brought over: Denied", "brought over: Failed", "brought over: Full",
    "bring 10",
];

/// The lent buffers of one side.
#[derive(Clone, PartialEq)]
struct Lent {
    state: Vec<u8>,
    work: Vec<u8>,
    output: Vec<u8>,
}

fn statuses(seen: &mut Seen, output: &[u8]) {
    for line in output.split(|b| *b == b'\n') {
        if let Some(rest) = line.strip_prefix(b"{\"status\":\"") {
            let word = rest.split(|b| *b == b'"').next().unwrap_or(b"");
            note(seen, &String::from_utf8_lossy(word));
        }
    }
}

/// The same program on both sides. What became of the expressions in it, of its login and of its sender's count is told by the model.
fn run_both(seen: &mut Seen, proved: &mut Lent, model: &mut Lent, program: &[u8]) -> Answer {
    if [&proved.state, &proved.work, &proved.output].iter().all(|lent| lent.len() == BUFFER) {
        observe::expressions(&model.state, program).iter().for_each(|told| note(seen, told));
        logins(&model.state, program).iter().for_each(|told| note(seen, told));
    }
    let before = model.state.clone();
    let answer = run(&mut proved.state, &mut proved.work, &mut proved.output, program);
    let expected = match calls::run(&mut model.state, &mut model.work, &mut model.output, program) {
        Ok(report) => {
            note(seen, &format!("{:?}", report.end));
            statuses(seen, &model.output[..report.bytes]);
            if matches!(report.end, End::Returned | End::Exited) {
                observe::count(&before, program, &model.state).iter().for_each(|told| note(seen, told));
            }
            let met = Met { before: &before, program, end: report.end, output: &model.output[..report.bytes], after: &model.state };
            older(&met).iter().for_each(|told| note(seen, told));
            Answer::Ended(report)
        }
        Err(refusal) => {
            note(seen, &format!("run {}", refusal.number()));
            Answer::Wrong(refusal.number())
        }
    };
    let text = String::from_utf8_lossy(program);
    assert_eq!(answer, expected, "{text}");
    assert!(proved.output == model.output, "output of {text}");
    assert!(proved.state == model.state, "state after {text}");
    assert!(proved.work == model.work, "work buffer after {text}");
    answer
}

fn one<'a>(random: &mut Random, words: &[&'a str]) -> &'a str {
    words[random.below(words.len())]
}

/// One of these names, or rarely an older one.
fn name<'a>(random: &mut Random, names: &[&'a str]) -> &'a str {
    if random.below(8) == 0 { one(random, &OLDER) } else { one(random, names) }
}

fn ask_both(seen: &mut Seen, random: &mut Random, state: &[u8]) {
    let name = if random.below(12) == 0 { "nobody" } else { self::name(random, &PRINCIPALS) };
    let variable = self::name(random, &VARIABLES);
    let right = b"rwadrwadrwadx"[random.below(13)];
    let answer = ask(state, name.as_bytes(), variable.as_bytes(), right);
    let expected = match calls::ask(state, name.as_bytes(), variable.as_bytes(), right) {
        Ok(Some(length)) => {
            note(seen, "yes");
            is_older(name.as_bytes()).then(|| note(seen, "yes: older principal"));
            is_older(variable.as_bytes()).then(|| note(seen, "yes: older variable"));
            Answer::Yes(length)
        }
        Ok(None) => {
            note(seen, "no");
            [name, variable].iter().any(|word| is_older(word.as_bytes())).then(|| note(seen, "no: older name"));
            Answer::No
        }
        Err(refusal) => {
            note(seen, &format!("ask {}", refusal.number()));
            Answer::Wrong(refusal.number())
        }
    };
    assert_eq!(answer, expected, "{name} {variable} {right}");
}

/// The variable of a sheet: mostly one that there may be, and also a principal's name, no name at all, or one that is too long.
fn sheet_of(random: &mut Random) -> String {
    match random.below(16) {
        0 => String::new(),
        1 => one(random, &PRINCIPALS).to_string(),
        2 => one(random, &VARIABLES).repeat(300),
        _ => name(random, &VARIABLES).to_string(),
    }
}

/// What a sheet shows, and of whom.
fn listed(seen: &mut Seen, state: &[u8], variable: &str, sheet: &[u8]) {
    note(seen, if state[0] == b'O' { "listed: open" } else { "listed: closed" });
    is_older(variable.as_bytes()).then(|| note(seen, "listed: older variable"));
    let has_older = sheet.chunks(40).any(|line| line.split(|byte| *byte == b' ').next().is_some_and(is_older));
    has_older.then(|| note(seen, "listed: older principal"));
}

/// The same sheet on both sides, in an output that held something else and sometimes has another size.
fn sheet_both(seen: &mut Seen, random: &mut Random, state: &[u8]) {
    let size = if random.below(16) == 0 { [0, BUFFER - 1, BUFFER + 1][random.below(3)] } else { BUFFER };
    let (lent, mut proved) = (state.to_vec(), vec![random.below(256) as u8; size]);
    let mut expected = proved.clone();
    let variable = sheet_of(random);
    let answer = sheet(&lent, &mut proved, variable.as_bytes());
    let outcome = calls::sheet(state, &mut expected, variable.as_bytes());
    assert_eq!(answer, outcome.map_or_else(|refusal| Answer::Wrong(refusal.number()), Answer::Listed), "{variable}");
    assert!(lent == state, "a sheet of {variable} changed the state");
    assert!(proved == expected, "the sheet of {variable}");
    match outcome {
        Ok(sheet) => listed(seen, state, &variable, &proved[..sheet.bytes]),
        Err(refusal) => note(seen, &format!("sheet {}", refusal.number())),
    }
}

fn make_both(seen: &mut Seen, size: usize, password: &[u8]) -> Lent {
    let mut state = vec![7; size];
    let mut expected = state.clone();
    let answer = make(&mut state, password);
    let outcome = match calls::make(&mut expected, password) {
        Ok(()) => {
            note(seen, "ready");
            Answer::Ready
        }
        Err(refusal) => {
            note(seen, &format!("make {}", refusal.number()));
            Answer::Wrong(refusal.number())
        }
    };
    assert_eq!(answer, outcome, "{size} bytes, {password:?}");
    assert!(state == expected, "{size} bytes, {password:?}");
    Lent { state, work: vec![1; BUFFER], output: vec![2; BUFFER] }
}

/// A call on buffers one of which has another size, or on a state one byte of which is changed. The history goes on with the buffers
/// that it had.
fn call_aside(seen: &mut Seen, random: &mut Random, lent: &Lent, program: &[u8]) {
    let mut aside = lent.clone();
    let size = [0, BUFFER - 1, BUFFER + 1][random.below(3)];
    match random.below(6) {
        0 => aside.output.resize(size, 0),
        1 => aside.state.resize(size, 0),
        2 => aside.work.resize(size, 0),
        _ => {
            let used = aside.state.iter().rposition(|b| *b != 0).unwrap_or(0) + 2;
            aside.state[random.below(used)] = b"OCPNDVSRLFA\t\n01ab\0\xff"[random.below(19)];
        }
    }
    let mut expected = aside.clone();
    ask_both(seen, random, &aside.state);
    sheet_both(seen, random, &aside.state);
    run_both(seen, &mut aside, &mut expected, program);
}

/// The state as a former one, brought over on both sides into a buffer that held something else. Sometimes it has older names. Rarely it is damaged
/// first, and the history goes on with the state that it had.
fn bring_both(seen: &mut Seen, random: &mut Random, state: &[u8]) -> Option<Vec<u8>> {
    let has_older = random.below(3) == 0;
    let state = if has_older { renamed(random, text(state), &RENAMED) } else { text(state).to_vec() };
    let mut old = padded(&former(&state, count(random)));
    if random.below(8) == 0 {
        let used = text(&old).len();
        old[random.below(used)] = b"OCPNDVSRLFA\t\n01ab\0\xff"[random.below(19)];
    }
    let (lent, mut proved) = (old.clone(), vec![random.below(256) as u8; BUFFER]);
    let mut expected = proved.clone();
    let answer = bring(&lent, &mut proved);
    let outcome = calls::bring(&old, &mut expected);
    assert_eq!(answer, outcome.map_or_else(|refusal| Answer::Wrong(refusal.number()), |()| Answer::Ready));
    assert!(lent == old && proved == expected, "the buffers of a bringing");
    match outcome {
        Ok(()) => note(seen, if has_older { "older names brought over" } else { "brought over" }),
        Err(refusal) => note(seen, &format!("bring {}", refusal.number())),
    }
    outcome.is_ok().then_some(proved)
}

/// Some histories go on from a state with other counts, some from one with older names, some from one brought over; whether this is one of the last.
fn goes_on_from_another(seen: &mut Seen, random: &mut Random, proved: &mut Lent, model: &mut Lent) -> bool {
    let (state, is_brought) = match random.below(8) {
        0 | 1 => {
            note(seen, "counts set");
            (Some(padded(&recounted(random, text(&proved.state)))), false)
        }
        2 => (bring_both(seen, random, &proved.state), true),
        3 | 4 => {
            note(seen, "older names set");
            (Some(padded(&renamed(random, text(&proved.state), &RENAMED))), false)
        }
        _ => (None, false),
    };
    let Some(state) = state else { return false };
    (proved.state, model.state) = (state.clone(), state);
    is_brought
}

fn history(seen: &mut Seen, random: &mut Random) {
    match random.below(24) {
        0 => drop(make_both(seen, [0, BUFFER - 1, BUFFER + 1][random.below(3)], b"s")),
        1 => drop(make_both(seen, BUFFER, b"a\"b")),
        2 => drop(make_both(seen, BUFFER, &vec![b'a'; 1_023 + random.below(4)])),
        _ => {}
    }
    let mut proved = make_both(seen, BUFFER, b"s");
    let mut model = proved.clone();
    let calls = 2 + random.below(12);
    let world = World::new(random);
    let first = opening(random, world);
    run_both(seen, &mut proved, &mut model, &first);
    let is_brought = goes_on_from_another(seen, random, &mut proved, &mut model);
    for at in 0..calls {
        let program = next(random, world, at + 3 > calls);
        if random.below(16) == 0 {
            call_aside(seen, random, &proved, &program);
        }
        let answer = run_both(seen, &mut proved, &mut model, &program);
        if let (true, Answer::Ended(report)) = (is_brought, answer) {
            note(seen, &format!("brought over: {:?}", report.end));
        }
        ask_both(seen, random, &model.state);
        sheet_both(seen, random, &proved.state);
    }
}

#[test]
fn histories() {
    let count = setting("HISTORIES", 20_000);
    let seed = setting("SEED", 20_261_115);
    println!("{count} histories, seed {seed}");
    let seen = each_seeded(count, seed, history);
    must_come(&seen, STATUSES.iter().chain(&ENDS).chain(&NUMBERS).chain(&ANSWERS).chain(&STARTS).chain(&COUNTS).chain(&MISHAPS).chain(&SHAPES));
    must_come(&seen, ROUNDINGS.iter().chain(&FAILURES).chain(&OLDER_MET).chain(&OLDER_ANSWERS));
    must_come(&seen, PARSED.iter().chain(&UNPARSED).chain(&MISSING));
    must_come(&seen, BOUND.iter().chain(&UNDONE).chain([&LEFT]).chain(&FILTERS).chain(&COMPARISONS));
    for (done, place) in FUNCTIONS.iter().chain(&["let"]).flat_map(|done| PLACES.map(|place| (done, place))) {
        assert!(seen.contains_key(&format!("{done} in {place}")), "{done} was never done in {place}");
    }
    for function in FUNCTIONS {
        assert!(seen.contains_key(&format!("{function} in let")), "{function} was never done in a let");
    }
    for (command, words) in ["foreach", "filtereach"].iter().flat_map(|command| ELEMENTS.map(|words| (command, words))) {
        assert!(seen.contains_key(&format!("{command}: {words}")), "never came in {command}: {words}");
    }
}
