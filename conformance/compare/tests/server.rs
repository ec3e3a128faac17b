//! Making a server, document 01's session and the question, against the model: wrong sizes, bad passwords, whole and damaged states,
//! known and unknown names, and every byte as a right.

use std::collections::BTreeMap;

use compare::random::Random;
use compare::server::{ask, make, run, Answer};
use model::calls::{self, Refusal};
use model::engine::End;
use model::text::BUFFER;

const MAKES: usize = 20_000;
const STATES: usize = 500;
const QUESTIONS: usize = 250;

const NAMES: [&str; 6] = ["admin", "anyone", "bob", "carol", "dave", "eve"];
const VARIABLES: [&str; 5] = ["x", "y", "z", "queue", "song_1"];
const RIGHTS: [&str; 4] = ["read", "write", "append", "delegate"];

/// How often each answer came, a wrong call by its number.
#[derive(Default)]
struct Seen(BTreeMap<String, usize>);

impl Seen {
    fn note(&mut self, answer: Answer) {
        let key = match answer {
            Answer::Wrong(number) => number.to_string(),
            Answer::Yes(_) => "yes".to_string(),
            other => format!("{other:?}").to_lowercase(),
        };
        *self.0.entry(key).or_default() += 1;
    }

    fn has(&self, keys: &[&str]) {
        println!("{:?}", self.0);
        let found: Vec<&str> = self.0.keys().map(String::as_str).collect();
        assert_eq!(found, keys, "an answer that never came, or one too many");
    }
}

fn one<'a>(random: &mut Random, words: &[&'a str]) -> &'a str {
    words[random.below(words.len())]
}

/// Mostly 65,536, else a size near it or far from it.
fn size(random: &mut Random) -> usize {
    match random.below(8) {
        0 => [0, 1, BUFFER - 1, BUFFER + 1, 2 * BUFFER][random.below(5)],
        _ => BUFFER,
    }
}

/// Of the string alphabet or not, up to lengths past 1,024.
fn password(random: &mut Random) -> Vec<u8> {
    const STRING: &[u8] = b"azAZ09 _,;.?!-";
    let length = match random.below(4) {
        0 => 1_022 + random.below(5),
        1 => random.below(3_000),
        _ => random.below(12),
    };
    let mut bytes: Vec<u8> = (0..length).map(|_| STRING[random.below(STRING.len())]).collect();
    if random.below(3) == 0 && length > 0 {
        bytes[random.below(length)] = random.below(256) as u8;
    }
    bytes
}

#[test]
fn servers_made() {
    let seed = 20_261_116;
    println!("seed {seed}");
    let mut random = Random(seed);
    let mut seen = Seen::default();
    for _ in 0..MAKES {
        let mut proved: Vec<u8> = vec![random.below(256) as u8; size(&mut random)];
        let mut expected = proved.clone();
        let password = password(&mut random);
        let answer = make(&mut proved, &password);
        let model = match calls::make(&mut expected, &password) {
            Ok(()) => Answer::Ready,
            Err(refusal) => Answer::Wrong(refusal.number()),
        };
        assert_eq!(answer, model, "{} bytes, {password:?}", proved.len());
        assert!(proved == expected, "{} bytes, {password:?}", proved.len());
        seen.note(answer);
    }
    seen.has(&["2", "8", "9", "ready"]);
}

/// One call of both, with the sizes of state, work and output buffer; they must answer alike and leave the same bytes.
fn run_compared(state: &mut Vec<u8>, sizes: [usize; 3], program: &str) -> Answer {
    state.resize(sizes[0], 0);
    let lent = [state.clone(), vec![0xa5; sizes[1]], vec![0x5a; sizes[2]]];
    let ([mut a, mut b, mut c], [mut d, mut e, mut f]) = (lent.clone(), lent);
    let answer = run(&mut a, &mut b, &mut c, program.as_bytes());
    let model = match calls::run(&mut d, &mut e, &mut f, program.as_bytes()) {
        Ok(report) => Answer::Ended(report),
        Err(refusal) => Answer::Wrong(refusal.number()),
    };
    assert_eq!(answer, model, "{program}");
    assert!(a == d, "the state after {program}");
    assert!(b == e, "the work buffer after {program}");
    assert!(c == f, "the output of {program}");
    *state = a;
    answer
}

/// The lines of a program of a sender, and how it must end.
fn sent(state: &mut Vec<u8>, sender: &str, lines: &str, end: End) {
    let program = format!("as principal {sender} do\n{lines}\n***\n");
    let Answer::Ended(report) = run_compared(state, [BUFFER; 3], &program) else {
        panic!("a wrong call: {program}");
    };
    assert_eq!(report.end, end, "{program}");
}

#[test]
fn session() {
    const ADMIN: &str = "admin password \"desk\"";
    const ROSA: &str = "rosa password \"r1\"";
    let mut state = vec![0; BUFFER];
    assert_eq!(make(&mut state, b"desk"), Answer::Ready);
    let first = "create principal rosa \"r1\"\nset queue = []\nset delegation queue admin append -> rosa\nreturn queue";
    sent(&mut state, ADMIN, first, End::Returned);
    sent(&mut state, ROSA, "append to queue with {song=\"Blue Moon\",key=\"F\"}\nreturn \"ok\"", End::Returned);
    let text = "O\nP|admin|desk|1\nN|anyone|0\nP|rosa|r1|1\nD|anyone\nV|queue|L\nR\nF|song|Blue Moon\nF|key|F\nA|queue|admin|a|rosa\n";
    assert!(state.starts_with(text.replace('|', "\t").as_bytes()));
    sent(&mut state, ROSA, "append to queue with \"x\"\nreturn queue", End::Denied);
    sent(&mut state, ROSA, "set own = \"a\"\nreturn nosuch", End::Failed);
    sent(&mut state, "rosa password \"r2\"", "return \"\"", End::Denied);
    sent(&mut state, "nobody password \"r1\"", "return \"\"", End::Denied);
    sent(&mut state, ROSA, "return", End::Failed);
    let long = "s".repeat(8_163);
    sent(&mut state, ADMIN, &format!("set x = \"{long}\"\nreturn x"), End::Full);
    for (at, size) in [0, BUFFER - 1, BUFFER + 1].into_iter().enumerate() {
        let mut sizes = [BUFFER; 3];
        sizes[at] = size;
        let number = [2, 3, 1][at];
        assert_eq!(run_compared(&mut state.clone(), sizes, ""), Answer::Wrong(number));
    }
    let mut damaged = state.clone();
    damaged[0] = b'o';
    assert_eq!(run_compared(&mut damaged, [BUFFER; 3], ""), Answer::Wrong(4));
    sent(&mut state, ADMIN, "exit", End::Exited);
    assert_eq!(run_compared(&mut state, [BUFFER; 3], ""), Answer::Wrong(5));
}

/// A command of admin's that changes who and what there is, and who may do what.
fn command(random: &mut Random) -> String {
    let (q, p) = (one(random, &NAMES), one(random, &NAMES));
    let (x, right) = (one(random, &VARIABLES), one(random, &RIGHTS));
    match random.below(14) {
        0 | 1 => format!("create principal {p} \"s\""),
        2 => format!("set {x} = {}", one(random, &["\"text\"", "[]", "{a=\"1\",b=\"2\"}"])),
        3 => format!("default delegator = {p}"),
        4 => format!("delete delegation {x} {q} {right} -> {p}"),
        5 | 6 => format!("set delegation {x} {q} delegate -> {p}"),
        _ => format!("set delegation {x} {q} {right} -> {p}"),
    }
}

/// A state that the model's programs left; those that cannot be done left it as it was.
fn state(random: &mut Random) -> Vec<u8> {
    let mut state = vec![0; BUFFER];
    calls::make(&mut state, b"s").expect("a good password");
    let (mut work, mut output) = (vec![0; BUFFER], vec![0; BUFFER]);
    for _ in 0..random.below(250) {
        let program = format!("as principal admin password \"s\" do\n{}\nreturn \"\"\n***", command(random));
        calls::run(&mut state, &mut work, &mut output, program.as_bytes()).expect("a right call");
    }
    if random.below(20) == 0 {
        let exit = b"as principal admin password \"s\" do\nexit\n***";
        calls::run(&mut state, &mut work, &mut output, exit).expect("a right call");
    }
    state
}

/// One byte changed in the text or a little behind it; two lines swapped; or the size.
fn damage(random: &mut Random, state: &mut Vec<u8>) {
    let end = state.iter().position(|byte| *byte == 0).unwrap_or(0);
    match random.below(4) {
        0 => state.resize(size(random), 0),
        1 => {
            let mut lines: Vec<&[u8]> = state[..end].split(|byte| *byte == b'\n').collect();
            let (a, b) = (random.below(lines.len()), random.below(lines.len()));
            lines.swap(a, b);
            let text = lines.join(&b'\n');
            state[..end].copy_from_slice(&text);
        }
        _ => {
            let at = random.below(end + 20);
            state[at] = b"\t\n0aAPNVDSR\x00\xff"[random.below(13)];
        }
    }
}

fn name(random: &mut Random, known: &[&str]) -> Vec<u8> {
    match random.below(12) {
        0 => Vec::new(),
        1 => vec![b'n'; [254, 255, 256, BUFFER, 70_000][random.below(5)]],
        2 => vec![random.below(256) as u8; 1 + random.below(3)],
        3 => one(random, known)[1..].as_bytes().to_vec(),
        _ => one(random, known).as_bytes().to_vec(),
    }
}

fn compared(state: &[u8], name: &[u8], variable: &[u8], right: u8) -> Answer {
    let answer = ask(state, name, variable, right);
    let model = match calls::ask(state, name, variable, right) {
        Ok(Some(length)) => Answer::Yes(length),
        Ok(None) => Answer::No,
        Err(refusal) => Answer::Wrong(refusal.number()),
    };
    assert_eq!(answer, model, "{name:?} {variable:?} {right}, {:?}", String::from_utf8_lossy(state));
    answer
}

#[test]
fn questions() {
    let seed = 20_261_117;
    println!("seed {seed}");
    let mut random = Random(seed);
    let mut seen = Seen::default();
    let mut lengths = [0usize; NAMES.len()];
    for at in 0..STATES {
        let mut state = state(&mut random);
        if at % 4 == 3 {
            damage(&mut random, &mut state);
        }
        for _ in 0..QUESTIONS {
            let right = match random.below(10) {
                0 => random.below(256) as u8,
                _ => b"rwad"[random.below(4)],
            };
            let (name, variable) = (name(&mut random, &NAMES), name(&mut random, &VARIABLES));
            let answer = compared(&state, &name, &variable, right);
            if let Answer::Yes(length) = answer {
                lengths[length] += 1;
            }
            seen.note(answer);
        }
    }
    println!("lengths {lengths:?}");
    assert!(lengths[..4].iter().all(|count| *count > 10), "a length that hardly came");
    seen.has(&["2", "4", "6", "7", "no", "yes"]);
}

#[test]
fn every_right() {
    let mut random = Random(20_261_118);
    let state = state(&mut random);
    let seen: Vec<u8> = (0..=255).filter(|right| compared(&state, b"admin", b"x", *right) == Answer::Yes(0)).collect();
    assert_eq!(seen, b"adrw", "admin has every right on x, and no other byte is one");
    let unknown = compared(&state, b"nobody", b"nothing", b'x');
    assert_eq!(unknown, Answer::Wrong(Refusal::UnknownPrincipal.number()));
}
