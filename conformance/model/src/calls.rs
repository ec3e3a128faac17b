//! The calls of the host program and of the installer, on lent buffers (01,
//! Who gets which number; 02, M-101 and M-102). A refused call changes no byte.

use crate::bytes::STRING;
use crate::engine::{self, End};
use crate::lines::Lines;
use crate::rights::{self, Right};
use crate::sheet;
use crate::state::{State, HEAVIEST};
use crate::strings::Strings;
use crate::text::{decode, decode_former, encode, BUFFER};

/// The longest first password of admin.
pub const LONGEST_PASSWORD: usize = 1_024;

/// Why a call was refused; the numbers are 01's, and from 10 on 02's.
#[derive(Clone, Copy, PartialEq, Eq, Debug)]
pub enum Refusal {
    OutputSize = 1,
    StateSize = 2,
    WorkSize = 3,
    NotWellFormed = 4,
    Closed = 5,
    UnknownPrincipal = 6,
    UnknownVariableOrRight = 7,
    PasswordByte = 8,
    PasswordLength = 9,
    FormerNotWellFormed = 10,
    BroughtTooHeavy = 11,
}

impl Refusal {
    pub fn number(self) -> u8 {
        self as u8
    }
}

/// The result of a run that was not refused: the kind of end, how many lines
/// and how many bytes of output.
#[derive(Clone, Copy, PartialEq, Eq, Debug)]
pub struct Report {
    pub end: End,
    pub lines: usize,
    pub bytes: usize,
}

/// The result of a sheet that was not refused: how many lines it has and how
/// many bytes they take.
#[derive(Clone, Copy, PartialEq, Eq, Debug)]
pub struct Listed {
    pub lines: usize,
    pub bytes: usize,
}

fn require(condition: bool, refusal: Refusal) -> Result<(), Refusal> {
    if condition {
        Ok(())
    } else {
        Err(refusal)
    }
}

/// Makes a server: the buffer then holds the fresh state's text and zeros.
pub fn make(state: &mut [u8], password: &[u8]) -> Result<(), Refusal> {
    require(state.len() == BUFFER, Refusal::StateSize)?;
    require(STRING.holds_all(password), Refusal::PasswordByte)?;
    require(password.len() <= LONGEST_PASSWORD, Refusal::PasswordLength)?;
    write(&State::fresh(password), state);
    Ok(())
}

/// The buffer then holds the state's text and zeros.
fn write(state: &State, buffer: &mut [u8]) {
    let length = encode(state, buffer);
    buffer[length..].fill(0);
}

/// Brings a text in the former lines over into a second buffer, every count
/// starting from 0.
pub fn bring(former: &[u8], state: &mut [u8]) -> Result<(), Refusal> {
    let sized = former.len() == BUFFER && state.len() == BUFFER;
    require(sized, Refusal::StateSize)?;
    let brought = decode_former(former).ok_or(Refusal::FormerNotWellFormed)?;
    require(brought.weight() <= HEAVIEST, Refusal::BroughtTooHeavy)?;
    write(&brought, state);
    Ok(())
}

/// Runs a program. The output then holds its lines and zeros, the work buffer
/// is zero, and the state holds the new text and zeros or, where the program
/// was not completed, what it held.
pub fn run(
    state: &mut [u8],
    work: &mut [u8],
    output: &mut [u8],
    program: &[u8],
) -> Result<Report, Refusal> {
    require(output.len() == BUFFER, Refusal::OutputSize)?;
    require(state.len() == BUFFER, Refusal::StateSize)?;
    require(work.len() == BUFFER, Refusal::WorkSize)?;
    let strings = Strings::default();
    let (before, old_length) = decode(state).ok_or(Refusal::NotWellFormed)?;
    require(before.open, Refusal::Closed)?;
    let mut lines = Lines::new(output);
    let (end, after) = engine::run(before, program, &strings, &mut lines);
    lines.finish();
    if let Some(length) = after.map(|after| encode(&after, work)) {
        state[..length].copy_from_slice(&work[..length]);
        // The bytes after the old text are zero already.
        if length < old_length {
            state[length..old_length].fill(0);
        }
    }
    work.fill(0);
    Ok(Report {
        end,
        lines: lines.count(),
        bytes: lines.bytes(),
    })
}

/// The question whether a name holds a right on a shared variable: the length
/// of a shortest chain, none where there is no chain. It does not tell the
/// rounds of the search (02, M-103).
pub fn ask(
    state: &[u8],
    name: &[u8],
    variable: &[u8],
    right: u8,
) -> Result<Option<usize>, Refusal> {
    require(state.len() == BUFFER, Refusal::StateSize)?;
    let (state, _) = decode(state).ok_or(Refusal::NotWellFormed)?;
    let principal = state
        .principals
        .find(name)
        .ok_or(Refusal::UnknownPrincipal)?;
    let variable = state
        .variables
        .find(variable)
        .ok_or(Refusal::UnknownVariableOrRight)?;
    let right = Right::of_letter(right).ok_or(Refusal::UnknownVariableOrRight)?;
    let found = rights::shortest(
        state.standing(),
        state.principals.count(),
        variable,
        right.number(),
        usize::from(principal),
    );
    Ok(found.length)
}

/// The sheet of a shared variable: the output then holds its lines and zeros.
/// A closed server has one as well, 5 being none of its numbers.
pub fn sheet(state: &[u8], output: &mut [u8], variable: &[u8]) -> Result<Listed, Refusal> {
    require(output.len() == BUFFER, Refusal::OutputSize)?;
    require(state.len() == BUFFER, Refusal::StateSize)?;
    let (state, _) = decode(state).ok_or(Refusal::NotWellFormed)?;
    let variable = state
        .variables
        .find(variable)
        .ok_or(Refusal::UnknownVariableOrRight)?;
    let lines = sheet::write(&state, variable, output);
    let bytes = lines * sheet::LINE;
    output[bytes..].fill(0);
    Ok(Listed { lines, bytes })
}
