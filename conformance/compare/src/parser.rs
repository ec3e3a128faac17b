//! The grammar of the crate `parser`, by what `parser_c` exports of it.

use model::syntax::{Command, Last, Program};

extern "C" {
    /// Both slices pass as a pointer and then a length.
    fn parser_kinds(text: *const u8, length: usize, kinds: *mut u8, room: usize) -> u64;
}

/// What the number for an answer says (crates/parser_c/specs/Kinds.antt).
#[derive(Clone, PartialEq, Eq, Debug)]
pub enum Answer {
    /// The kinds of the commands, in order.
    Parses(Vec<u8>),
    No,
    Refused,
}

/// The room that every program's kinds fit in.
pub const ROOM: usize = 16_384;

const NO: u64 = 65_536;
const REFUSED: u64 = 65_537;

/// The proved parser. It has no `requires`: every input is answered or refused. `kinds` is lent for the answer.
pub fn kinds(text: &[u8], kinds: &mut [u8]) -> Answer {
    // The function reads `text`, writes within `kinds`, and keeps nothing of either.
    let number = unsafe { parser_kinds(text.as_ptr(), text.len(), kinds.as_mut_ptr(), kinds.len()) };
    match number {
        NO => Answer::No,
        REFUSED => Answer::Refused,
        count => Answer::Parses(kinds[..count as usize].to_vec()),
    }
}

/// The kinds of the model's commands: 1 to 11, in the order of document 01's statuses, and 12 for filtereach (request M-106).
pub fn model_kinds(program: &Program) -> Vec<u8> {
    let mut kinds: Vec<u8> = program
        .commands
        .iter()
        .map(|command| match command {
            Command::CreatePrincipal(..) => 1,
            Command::ChangePassword(..) => 2,
            Command::Set(..) => 3,
            Command::Append(..) => 4,
            Command::Local(..) => 5,
            Command::Foreach(..) => 6,
            Command::SetDelegation(..) => 7,
            Command::DeleteDelegation(..) => 8,
            Command::DefaultDelegator(..) => 9,
            Command::Filtereach(..) => 12,
        })
        .collect();
    kinds.push(match program.last {
        Last::Return(..) => 10,
        Last::Exit => 11,
    });
    kinds
}
