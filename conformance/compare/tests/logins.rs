//! Programs without a right login, each sent to two servers with other principals, passwords and variables: the answer and every byte of the output and of
//! the work buffer are the same on both, and each state keeps its bytes (request M-105). The model says the same.
//!
//! In the gate there are 20,000 such pairs of servers. For more of them, or others:
//!
//!     PAIRS=1000000 SEED=7 cargo test --offline --release -p compare --test logins -- --nocapture

use compare::former::{padded, recounted, text};
use compare::histories::{next, opening, World, RENAMED};
use compare::older::renamed;
use compare::random::Random;
use compare::seen::{each_seeded, must_come, note, setting, Seen};
use compare::server::{make, run, Answer};
use model::calls;
use model::observe::logins::{stands, Login};
use model::parse::parse;
use model::text::{decode, BUFFER};

/// How a login stood to one server and to the other, and what both answered. Only anyone may keep no password, and is on every server: so that never
/// stands beside a missing name.
const MET: [&str; 8] = [
    "NameMissing beside NameMissing",
    "NameMissing beside AnotherPassword",
    "AnotherPassword beside AnotherPassword",
    "AnotherPassword beside NoPasswordKept",
    "NoPasswordKept beside NoPasswordKept",
    "no program",
    "Denied",
    "Failed",
];

/// The state's text with other passwords, of which anyone may have one too.
fn with_passwords(random: &mut Random, state: &[u8]) -> Vec<u8> {
    let text = String::from_utf8_lossy(state);
    let line = |line: &str| {
        let password = ["s", "t", "", "ss", "r1"][random.below(5)];
        let keeps_one = random.below(2) == 0;
        match line.split('\t').collect::<Vec<&str>>()[..] {
            ["P", name, _, count] => format!("P\t{name}\t{password}\t{count}\n"),
            ["N", name, count] if keeps_one => format!("P\t{name}\t{password}\t{count}\n"),
            _ => format!("{line}\n"),
        }
    };
    text.lines().map(line).collect::<String>().into_bytes()
}

/// A server with what admin does first on it, and then with other passwords, counts and older names.
fn server(random: &mut Random) -> Vec<u8> {
    let world = World::new(random);
    let (mut state, mut work, mut output) = (vec![0; BUFFER], vec![0; BUFFER], vec![0; BUFFER]);
    make(&mut state, b"s");
    run(&mut state, &mut work, &mut output, &opening(random, world));
    let mut state = with_passwords(random, text(&state));
    if random.below(4) == 0 {
        state = recounted(random, &state);
    }
    if random.below(8) == 0 {
        state = renamed(random, &state, &RENAMED);
    }
    let state = padded(&state);
    assert!(decode(&state).is_some_and(|(state, _)| state.open), "an open state");
    state
}

/// What the proved server answers, prints and leaves in the work buffer, from buffers that held something else. The model's are the same, and both
/// leave the state.
fn shown(random: &mut Random, state: &[u8], program: &[u8]) -> (Answer, Vec<u8>, Vec<u8>) {
    let (mut lent, mut work, mut output) = (state.to_vec(), vec![random.below(256) as u8; BUFFER], vec![random.below(256) as u8; BUFFER]);
    let (mut model, mut model_work, mut model_output) = (state.to_vec(), work.clone(), output.clone());
    let answer = run(&mut lent, &mut work, &mut output, program);
    let report = calls::run(&mut model, &mut model_work, &mut model_output, program);
    assert_eq!(report.map(Answer::Ended), Ok(answer));
    assert!(output == model_output && work == model_work, "the two sides differ");
    assert!(lent == state && model == state, "a state changed");
    (answer, output, work)
}

/// How the login stands to a server; none where the text is no program.
fn login(state: &[u8], program: &[u8]) -> Option<Login> {
    let (state, _) = decode(state).expect("well formed");
    parse(program).map(|program| stands(&state, &program))
}

fn pair(seen: &mut Seen, random: &mut Random) {
    let (one, other) = (server(random), server(random));
    let world = World::new(random);
    for _ in 0..2 {
        let program = next(random, world, true);
        let met = match (login(&one, &program), login(&other, &program)) {
            (Some(Login::Right), _) | (_, Some(Login::Right)) => continue,
            (Some(mut first), Some(mut second)) => {
                if first as usize > second as usize {
                    (first, second) = (second, first);
                }
                format!("{first:?} beside {second:?}")
            }
            _ => "no program".to_string(),
        };
        note(seen, &met);
        let (first, second) = (shown(random, &one, &program), shown(random, &other, &program));
        assert!(first == second, "{}", String::from_utf8_lossy(&program));
        if let Answer::Ended(report) = first.0 {
            note(seen, &format!("{:?}", report.end));
        }
    }
}

#[test]
fn two_servers_answer_alike() {
    let count = setting("PAIRS", 20_000);
    let seed = setting("SEED", 20_261_117);
    println!("{count} pairs of servers, seed {seed}");
    let seen = each_seeded(count, seed, pair);
    must_come(&seen, &MET);
    assert_eq!(seen.len(), MET.len(), "something else came");
}
