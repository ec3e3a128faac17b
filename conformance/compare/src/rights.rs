//! The chain search of the crate `rights`, by what `rights_c` exports of it.

use model::rights::{Assertion, Outcome};

extern "C" {
    /// `standing` is a slice in Rattle: its pointer, then its length. The rounds begun are stored in `rounds`.
    fn rights_shortest(
        standing: *const u64,
        assertions: usize,
        count: usize,
        variable: u16,
        right: u16,
        principal: usize,
        rounds: *mut u64,
    ) -> u64;
}

/// What the number for an answer says (crates/rights_c/specs/Reported.antt), with the rounds begun. A search that is refused begins none.
#[derive(Clone, Copy, PartialEq, Eq, Debug)]
pub enum Answer {
    Found(Outcome),
    Refused,
}

impl Answer {
    fn of(number: u64, rounds: u64) -> Answer {
        let length = match number {
            REFUSED => return Answer::Refused,
            NO => None,
            length => Some(length as usize),
        };
        let rounds = rounds as usize;
        Answer::Found(Outcome { length, rounds })
    }
}

const NO: u64 = 4096;
const REFUSED: u64 = 4097;

/// An assertion's four numbers in one, as the search takes it.
pub fn pack(assertion: &Assertion) -> u64 {
    u64::from(assertion.variable) << 48
        | u64::from(assertion.right) << 32
        | u64::from(assertion.from) << 16
        | u64::from(assertion.to)
}

/// The proved search. It has no `requires`: every input is answered or refused.
pub fn shortest(
    standing: &[u64],
    count: usize,
    variable: u16,
    right: u16,
    principal: usize,
) -> Answer {
    shortest_into(standing, count, variable, right, principal, &mut 0)
}

/// The same, with the number that is lent for the rounds: a refusal leaves it as it was.
pub fn shortest_into(
    standing: &[u64],
    count: usize,
    variable: u16,
    right: u16,
    principal: usize,
    rounds: &mut u64,
) -> Answer {
    // The function reads `standing`, writes `rounds`, and keeps nothing of either.
    let number = unsafe {
        rights_shortest(
            standing.as_ptr(),
            standing.len(),
            count,
            variable,
            right,
            principal,
            rounds,
        )
    };
    Answer::of(number, *rounds)
}
