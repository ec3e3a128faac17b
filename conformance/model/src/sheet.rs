//! The sheet of a shared variable (02, M-102): who may do what, a line for each
//! principal in order of creation.

use crate::rights::{holders, Right};
use crate::state::State;

/// The columns of a name.
pub const NAME_COLUMNS: usize = 34;

/// The bytes of a line: the name, a space, a column for each right, and the
/// newline.
pub const LINE: usize = NAME_COLUMNS + 1 + Right::ALL.len() + 1;

/// What stands last where a name was too long for its columns.
const CUT: u8 = b'~';

/// What stands where a right is missing.
const MISSING: u8 = b'.';

/// Writes the sheet at the start of the output and says how many lines it has.
/// Each right is searched once for everybody.
pub fn write(state: &State, variable: u16, output: &mut [u8]) -> usize {
    let count = state.principals.count();
    let held = Right::ALL.map(|right| {
        let holders = holders(state.standing(), count, variable, right.number());
        (right.letter(), holders)
    });
    let lines = output.chunks_exact_mut(LINE);
    for ((at, principal), line) in state.principals.iter().enumerate().zip(lines) {
        let (name, rest) = line.split_at_mut(NAME_COLUMNS);
        put_name(principal.name, name);
        rest[0] = b' ';
        for ((letter, holders), column) in held.iter().zip(&mut rest[1..]) {
            *column = if holders[at] { *letter } else { MISSING };
        }
        rest[1 + held.len()] = b'\n';
    }
    count
}

/// A name in its columns: whole and spaces, or its beginning and the mark.
fn put_name(name: &[u8], columns: &mut [u8]) {
    if name.len() > columns.len() {
        let last = columns.len() - 1;
        columns[..last].copy_from_slice(&name[..last]);
        columns[last] = CUT;
    } else {
        columns[..name.len()].copy_from_slice(name);
        columns[name.len()..].fill(b' ');
    }
}
