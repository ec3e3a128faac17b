//! How two values that are compared stand to each other (02, M-106).

use crate::value::{Item, Record};

pub const COMPARISONS: [&str; 8] = [
    "compared: the same string",
    "compared: other strings",
    "compared: records written alike",
    "compared: records in another order",
    "compared: records with another text",
    "compared: records with another label",
    "compared: records of which one has more fields",
    "compared: a string and a record",
];

/// Of [`COMPARISONS`].
pub fn compared(first: &Item, second: &Item) -> &'static str {
    match (first, second) {
        (Item::Text(first), Item::Text(second)) => COMPARISONS[usize::from(first != second)],
        (Item::Record(first), Item::Record(second)) => of_records(first, second),
        _ => COMPARISONS[7],
    }
}

/// By looking for each field of the one in the other.
fn of_records(first: &Record, second: &Record) -> &'static str {
    let missing = |label: &[u8]| second.get(label).is_none();
    let differs = |label: &[u8], text: &[u8]| second.get(label) != Some(text);
    let mut fields = first.fields().iter();
    COMPARISONS[if first.fields() == second.fields() {
        2
    } else if first.fields().len() != second.fields().len() {
        6
    } else if fields.clone().any(|field| missing(field.label)) {
        5
    } else if fields.any(|field| differs(field.label, field.text)) {
        4
    } else {
        3
    }]
}
