//! The functions open to the host beside those of the model, in the model's words.

use kivzurg::raw::{self, Kind};
use model::calls::{Listed, Report};
use model::engine::End;
pub use model::replay::Answer;

fn answer(given: raw::Answer) -> Answer {
    match given {
        raw::Answer::Wrong(number) => Answer::Wrong(number),
        raw::Answer::Ended { kind, lines, bytes } => {
            let end = match kind {
                Kind::Returned => End::Returned,
                Kind::Exited => End::Exited,
                Kind::Denied => End::Denied,
                Kind::Failed => End::Failed,
                Kind::Full => End::Full,
            };
            Answer::Ended(Report { end, lines, bytes })
        }
        raw::Answer::Yes(length) => Answer::Yes(length),
        raw::Answer::No => Answer::No,
        raw::Answer::Ready => Answer::Ready,
        raw::Answer::Listed { lines, bytes } => Answer::Listed(Listed { lines, bytes }),
        raw::Answer::Unknown(number) => panic!("no answer has the number {number}"),
    }
}

/// Makes a server.
pub fn make(state: &mut [u8], password: &[u8]) -> Answer {
    answer(raw::make(state, password))
}

/// Brings a former state over.
pub fn bring(former: &[u8], state: &mut [u8]) -> Answer {
    answer(raw::bring(former, state))
}

/// Runs a program.
pub fn run(state: &mut [u8], work: &mut [u8], output: &mut [u8], program: &[u8]) -> Answer {
    answer(raw::run(state, work, output, program))
}

/// The question.
pub fn ask(state: &[u8], name: &[u8], variable: &[u8], right: u8) -> Answer {
    answer(raw::ask(state, name, variable, right))
}

/// The sheet of a variable.
pub fn sheet(state: &[u8], output: &mut [u8], variable: &[u8]) -> Answer {
    answer(raw::sheet(state, output, variable))
}
