//! What becomes of an operation on two strings: how its result was rounded, or
//! why there is none (02, M-104).

use crate::prices::{Fraction, Price};
use crate::state::HEAVIEST;
use crate::syntax::Operation;

/// How a result came about. One of the first five is told of each, and the
/// others beside it.
pub const ROUNDINGS: [&str; 7] = [
    "price exact",
    "price rounded towards zero",
    "price rounded away from zero",
    "price rounded at a half above zero",
    "price rounded at a half below zero",
    "price 0.00 from below zero",
    "price at the limit from beyond it",
];

/// Why there is no result. One of the first six is told of each; the others
/// beside it: where what is beyond the limit was within before it was rounded,
/// and where the results of a foreach were too heavy already.
pub const FAILURES: [&str; 8] = [
    "FAILED by what is no price",
    "FAILED by a heavy argument",
    "FAILED by a zero divisor",
    "FAILED by zero per zero",
    "FAILED above 9999999.99",
    "FAILED below -9999999.99",
    "FAILED beyond the limit by rounding",
    "FAILED behind prices that are too heavy",
];

/// Of [`ROUNDINGS`] or of [`FAILURES`].
pub fn outcome(operation: Operation, first: &[u8], second: &[u8]) -> Vec<&'static str> {
    if [first, second].iter().any(|text| text.len() > HEAVIEST) {
        return vec![FAILURES[1]];
    }
    let (Some(first), Some(second)) = (Price::read(first), Price::read(second)) else {
        return vec![FAILURES[0]];
    };
    let Some(exactly) = operation.exactly(first, second) else {
        return vec![FAILURES[if first.hundredths() == 0 { 3 } else { 2 }]];
    };
    match operation.of(first, second) {
        Some(price) => rounding(exactly, price),
        None => beyond(exactly),
    }
}

/// 10000000.00 in hundredths, the least that is beyond the limit.
const BEYOND: i128 = 1_000_000_000;

fn rounding(exactly: Fraction, price: Price) -> Vec<&'static str> {
    let (amount, unit) = (exactly.numerator.abs(), exactly.denominator);
    let rest = amount % unit;
    let is_below = exactly.numerator < 0;
    let mut told = vec![match (2 * rest).cmp(&unit) {
        _ if rest == 0 => ROUNDINGS[0],
        std::cmp::Ordering::Less => ROUNDINGS[1],
        std::cmp::Ordering::Greater => ROUNDINGS[2],
        std::cmp::Ordering::Equal if is_below => ROUNDINGS[4],
        std::cmp::Ordering::Equal => ROUNDINGS[3],
    }];
    if is_below && price.hundredths() == 0 {
        told.push(ROUNDINGS[5]);
    }
    if amount > (BEYOND - 1) * unit {
        told.push(ROUNDINGS[6]);
    }
    told
}

fn beyond(exactly: Fraction) -> Vec<&'static str> {
    let mut told = vec![FAILURES[if exactly.numerator > 0 { 4 } else { 5 }]];
    if exactly.numerator.abs() < BEYOND * exactly.denominator {
        told.push(FAILURES[6]);
    }
    told
}
