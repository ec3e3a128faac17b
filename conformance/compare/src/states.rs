//! The check of a state's buffer and the look-ups in it, by what `validate_c` exports of them.

use crate::rights::pack;
use model::state::State;
use model::text::BUFFER;
use model::value::{Item, Value};

extern "C" {
    // Each slice passes as a pointer and then a length.
    fn state_check(state: *const u8, size: usize, out: *mut u64, room: usize) -> u64;
    fn state_principal(state: *const u8, size: usize, name: *const u8, length: usize, out: *mut u8, room: usize) -> u64;
    fn state_variable(state: *const u8, size: usize, name: *const u8, length: usize, out: *mut u8, room: usize) -> u64;
    fn state_principal_name(state: *const u8, size: usize, number: usize, out: *mut u8, room: usize) -> u64;
    fn state_variable_name(state: *const u8, size: usize, number: usize, out: *mut u8, room: usize) -> u64;
    fn state_principal_count(state: *const u8, size: usize, name: *const u8, length: usize) -> u64;
}

/// What the number for an answer says (crates/validate_c/specs/Reported.antt, crates/state_lookups/specs/Looks.antt).
#[derive(Clone, PartialEq, Eq, Debug)]
pub enum Answer<T> {
    /// The buffer or the room has a wrong size.
    Refused,
    /// Not well formed.
    Bad,
    Missing,
    /// A record's number; it keeps no text.
    Unkept(usize),
    /// A record's number, and what was asked for. Figures and counts have no number, and 0 stands for it.
    Found(usize, T),
}

/// The room that every state's figures fit in: six, and at most 2,048 assertions.
pub const FIGURES: usize = 2_054;

/// The place of the weight among the figures.
pub const WEIGHT: usize = 1;

/// The room that every text fits in.
pub const ROOM: usize = BUFFER;

const BAD: u64 = 1 << 32;
const REFUSED: u64 = BAD + 1;
const MISSING: u64 = BAD + 2;

fn answer<T>(number: u64, out: &[T]) -> Answer<&[T]> {
    match number {
        REFUSED => Answer::Refused,
        BAD => Answer::Bad,
        MISSING => Answer::Missing,
        _ => match (number as usize / 65_536, number as usize % 65_536) {
            (record, 65_535) => Answer::Unkept(record),
            (record, length) => Answer::Found(record, &out[..length]),
        },
    }
}

/// Whether the buffer is well formed, and its figures; they stand in `out`. None of these functions has a `requires`: every input is
/// answered or refused. Each reads the buffer and the name, writes within `out`, and keeps nothing of them.
pub fn check<'a>(state: &[u8], out: &'a mut [u64]) -> Answer<&'a [u64]> {
    let number = unsafe { state_check(state.as_ptr(), state.len(), out.as_mut_ptr(), out.len()) };
    answer(number, out)
}

/// A principal by name, with its password.
pub fn principal<'a>(state: &[u8], name: &[u8], out: &'a mut [u8]) -> Answer<&'a [u8]> {
    let number = unsafe {
        state_principal(state.as_ptr(), state.len(), name.as_ptr(), name.len(), out.as_mut_ptr(), out.len())
    };
    answer(number, out)
}

/// A variable by name, with its value's text.
pub fn variable<'a>(state: &[u8], name: &[u8], out: &'a mut [u8]) -> Answer<&'a [u8]> {
    let number = unsafe {
        state_variable(state.as_ptr(), state.len(), name.as_ptr(), name.len(), out.as_mut_ptr(), out.len())
    };
    answer(number, out)
}

/// The name of the principal of a number.
pub fn principal_name<'a>(state: &[u8], number: usize, out: &'a mut [u8]) -> Answer<&'a [u8]> {
    let number = unsafe { state_principal_name(state.as_ptr(), state.len(), number, out.as_mut_ptr(), out.len()) };
    answer(number, out)
}

/// The name of the variable of a number.
pub fn variable_name<'a>(state: &[u8], number: usize, out: &'a mut [u8]) -> Answer<&'a [u8]> {
    let number = unsafe { state_variable_name(state.as_ptr(), state.len(), number, out.as_mut_ptr(), out.len()) };
    answer(number, out)
}

/// How many programs the principal of a name has completed.
pub fn principal_count(state: &[u8], name: &[u8]) -> Answer<u32> {
    match unsafe { state_principal_count(state.as_ptr(), state.len(), name.as_ptr(), name.len()) } {
        REFUSED => Answer::Refused,
        BAD => Answer::Bad,
        MISSING => Answer::Missing,
        count => Answer::Found(0, u32::try_from(count).expect("a count or one of the three answers")),
    }
}

/// The model's figures, in the order of `check`.
pub fn figures(state: &State) -> Vec<u64> {
    let mut all = vec![
        u64::from(state.open),
        state.weight() as u64,
        state.principals.count() as u64,
        u64::from(state.delegator),
        u64::from(state.variables.count()),
        state.standing().len() as u64,
    ];
    all.extend(state.standing().iter().map(pack));
    all
}

/// The text of a value, as it stands in a state.
pub fn value_text(value: &Value) -> Vec<u8> {
    let mut text = Vec::new();
    match value {
        Value::Item(item) => put_item(item, &mut text),
        Value::List(list) => {
            text.extend_from_slice(b"L\n");
            list.items().iter().for_each(|item| put_item(item, &mut text));
        }
    }
    text
}

fn put_item(item: &Item, text: &mut Vec<u8>) {
    match item {
        Item::Text(bytes) => text.extend_from_slice(&[b"S\t", *bytes, b"\n"].concat()),
        Item::Record(record) => {
            text.extend_from_slice(b"R\n");
            for field in record.fields() {
                text.extend_from_slice(&[b"F\t", field.label, b"\t", field.text, b"\n"].concat());
            }
        }
    }
}
