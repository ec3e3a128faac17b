//! What a refused login costs, of a missing name beside another password, on short and long programs: `cargo run --release --bin bench_logins`. With a
//! folder as its argument it writes the figures: `cargo run --release --bin bench_logins ../docs` puts them into performance.md.
//!
//! A refusal keeps the state, so that nothing is copied between the calls. Each text is there twice, in memory of its own, and all are measured in turns:
//! what a text and its copy differ by is the noise of the run.

use std::env;
use std::fmt::Write;
use std::hint::black_box;
use std::path::Path;

use compare::former::padded;
use compare::page;
use compare::server::{self, Answer};
use compare::timing::in_turns;
use model::calls;
use model::engine::End;
use model::parse::LONGEST_PROGRAM;
use model::text::BUFFER;

/// A state, a name in it, and one that is missing there and as long.
struct Place {
    name: &'static str,
    state: Vec<u8>,
    known: &'static str,
    missing: &'static str,
}

/// 01's session, and 300 names beside admin's and anyone's, by the first and by the last of them: a missing name is looked for among all.
fn places() -> Vec<Place> {
    let session = padded(
        b"O\nP\tadmin\tdesk\t1\nN\tanyone\t0\nP\trosa\tr1\t1\nD\tanyone\nV\tqueue\tL\nR\nF\tsong\tBlue Moon\nF\tkey\tF\nA\tqueue\tadmin\ta\trosa\n",
    );
    let people: String = (100..400).map(|number| format!("P\tp{number}\tr1\t0\n")).collect();
    let crowd = padded(format!("O\nP\tadmin\tdesk\t1\nN\tanyone\t0\n{people}D\tanyone\n").as_bytes());
    vec![
        Place { name: "session of 01", state: session, known: "rosa", missing: "bosa" },
        Place { name: "300 names, the first", state: crowd.clone(), known: "p100", missing: "q100" },
        Place { name: "300 names, the last", state: crowd, known: "p399", missing: "q399" },
    ]
}

/// A short body, one of as many commands as fit, and one with the longest string that fits.
fn bodies() -> [(String, String); 3] {
    let (around, command) = (program("rosa", "").len(), "set x=y\n");
    let commands = (LONGEST_PROGRAM - around - "exit".len()) / command.len();
    let letters = LONGEST_PROGRAM - around - "return \"\"".len();
    [
        ("`return \"a\"`".to_string(), "return \"a\"".to_string()),
        (format!("{} commands", commands + 1), format!("{}exit", command.repeat(commands))),
        (format!("a string of {letters}"), format!("return \"{}\"", "a".repeat(letters))),
    ]
}

fn program(sender: &str, body: &str) -> Vec<u8> {
    format!("as principal {sender} password \"r2\" do\n{body}\n***").into_bytes()
}

/// How long one side takes to refuse each of two texts, in nanoseconds, the least of a text and its copy; and by how much those two differ at most.
struct Times {
    least: [f64; 2],
    noise: f64,
}

impl Times {
    fn of(texts: [&[u8]; 2], mut call: impl FnMut(&[u8]) -> usize) -> Times {
        let copies = texts.map(<[u8]>::to_vec);
        let all = [texts[0], &copies[0], texts[1], &copies[1]];
        let times = in_turns(4, |at| call(black_box(all[at])));
        let least = [times[0].min(times[1]), times[2].min(times[3])];
        let noise = (times[0] - times[1]).abs().max((times[2] - times[3]).abs());
        Times { least, noise }
    }
}

/// The server, and then the model.
fn measured(state: &[u8], texts: [&[u8]; 2]) -> [Times; 2] {
    let (mut lent, mut work, mut output) = (state.to_vec(), vec![0; BUFFER], vec![0; BUFFER]);
    for text in texts {
        let answer = server::run(&mut lent, &mut work, &mut output, text);
        let report = calls::run(&mut lent, &mut work, &mut output, text).expect("a right call");
        assert!(report.end == End::Denied && answer == Answer::Ended(report), "{}", String::from_utf8_lossy(text));
    }
    let ours = Times::of(texts, |text| {
        black_box(server::run(&mut lent, &mut work, &mut output, text));
        output[0] as usize
    });
    let theirs = Times::of(texts, |text| black_box(calls::run(&mut lent, &mut work, &mut output, text)).map_or(0, |report| report.bytes));
    [ours, theirs]
}

fn main() {
    let mut table = String::from("| program | another password | ratio to the model | missing name | ratio to the model | missing less another | noise |\n|---|---|---|---|---|---|---|\n");
    for place in places() {
        for (what, body) in bodies() {
            let (another, missing) = (program(place.known, &body), program(place.missing, &body));
            assert_eq!(another.len(), missing.len());
            let [ours, theirs] = measured(&place.state, [&another, &missing]);
            let time = |at: usize| format!("{:.1} µs | {:.2}", ours.least[at] / 1e3, ours.least[at] / theirs.least[at]);
            let more = ours.least[1] - ours.least[0];
            writeln!(table, "| {}: {what} | {} | {} | {more:+.0} ns | {:.0} ns |", place.name, time(0), time(1), ours.noise).expect("a line");
        }
    }
    print!("{table}");
    if let Some(folder) = env::args().nth(1) {
        page::write(&Path::new(&folder).join("performance.md"), "login figures", &table);
    }
}
