//! The example sessions of examples/: NAME.desk, a stream of programs, and NAME.out, what the program `desk` prints for it. Each is played as that
//! program plays it, by the proved server and by the model.
//!
//! A NAME.out is written anew, by the model, with EXAMPLES=write in the environment; read what changed before it is stored.

use std::env;
use std::fs;
use std::path::Path;

use compare::server::{self, Answer};
use model::calls;
use model::engine::End;
use model::text::BUFFER;

type Make = fn(&mut [u8], &[u8]) -> Answer;
type Run = fn(&mut [u8], &mut [u8], &mut [u8], &[u8]) -> Answer;

fn model_make(state: &mut [u8], password: &[u8]) -> Answer {
    calls::make(state, password).map_or_else(|refusal| Answer::Wrong(refusal.number()), |()| Answer::Ready)
}

fn model_run(state: &mut [u8], work: &mut [u8], output: &mut [u8], program: &[u8]) -> Answer {
    calls::run(state, work, output, program).map_or_else(|refusal| Answer::Wrong(refusal.number()), Answer::Ended)
}

/// The programs of a stream, each up to its line `***`. An unfinished one at the end is dropped.
fn programs(stream: &str) -> Vec<String> {
    let mut whole = Vec::new();
    let mut program = String::new();
    for line in stream.lines() {
        program += line;
        if line == "***" {
            whole.push(std::mem::take(&mut program));
        } else {
            program += "\n";
        }
    }
    whole
}

/// What a session prints.
fn session(make: Make, run: Run, stream: &str) -> String {
    let (mut state, mut work, mut output) = (vec![0; BUFFER], vec![0; BUFFER], vec![0; BUFFER]);
    assert_eq!(make(&mut state, b"desk"), Answer::Ready);
    let mut printed = String::new();
    for program in programs(stream) {
        let answer = run(&mut state, &mut work, &mut output, program.as_bytes());
        let Answer::Ended(report) = answer else { panic!("{answer:?} for {program}") };
        printed += std::str::from_utf8(&output[..report.bytes]).expect("ASCII");
        if report.end == End::Exited {
            break;
        }
    }
    printed
}

fn compared(name: &str) {
    let folder = Path::new(env!("CARGO_MANIFEST_DIR")).join("../../examples");
    let stream = fs::read_to_string(folder.join(format!("{name}.desk"))).expect("the stream");
    let by_model = session(model_make, model_run, &stream);
    let stored = folder.join(format!("{name}.out"));
    if env::var_os("EXAMPLES").is_some_and(|word| word == "write") {
        fs::write(&stored, &by_model).expect("written");
    }
    let expected = fs::read_to_string(&stored).expect("the stored output");
    assert_eq!(by_model, expected, "the model on {name}");
    assert_eq!(session(server::make, server::run, &stream), expected, "the proved server on {name}");
}

#[test]
fn short() {
    compared("short");
}

#[test]
fn evening() {
    compared("evening");
}

#[test]
fn titles() {
    compared("titles");
}

#[test]
fn bill() {
    compared("bill");
}

#[test]
fn picks() {
    compared("picks");
}
