//! Prices for random programs: those around which results are rounded, and what is nearly one.

use crate::random::Random;
use model::prices::Price;

/// Calls whose outcome is rare otherwise: at the limit or beyond it by rounding, a zero divisor, halves, 0.00 from below zero.
pub const RARE: [&str; 11] = [
    "times(\"2227171.49\",\"4.49\")",
    "times(\"334112.93\",\"-29.93\")",
    "times(\"9090909.09\",\"1.10\")",
    "times(\"-645161.29\",\"15.50\")",
    "per(\"0.00\",\"0.00\")",
    "per(\"12.50\",\"0.00\")",
    "per(\"-0.01\",\"2.00\")",
    "per(\"-0.01\",\"3.00\")",
    "times(\"0.05\",\"0.50\")",
    "times(\"-0.01\",\"0.10\")",
    "sub(\"-9999999.99\",\"0.01\")",
];

/// Hundredths that make halves, thirds, carries, zero divisors and results beyond the limit.
const AMOUNTS: [i128; 24] = [
    0,
    1,
    2,
    3,
    5,
    7,
    10,
    15,
    25,
    30,
    49,
    50,
    51,
    75,
    99,
    100,
    125,
    200,
    225,
    300,
    999,
    1_250,
    100_000,
    999_999_999,
];

fn quoted(hundredths: i128) -> String {
    let price = Price::of(hundredths).expect("within the limit");
    format!("\"{}\"", String::from_utf8_lossy(&price.text()))
}

/// A price as a program writes it, either side of zero.
pub fn price(random: &mut Random) -> String {
    let amount = match random.below(8) {
        0 => random.below(1_000_000_000) as i128,
        1 | 2 => random.below(2_000) as i128,
        _ => AMOUNTS[random.below(AMOUNTS.len())],
    };
    quoted(if random.below(3) == 0 {
        -amount
    } else {
        amount
    })
}

/// A string that is nearly a price: one byte of a price taken out, put in or changed. Rarely it is one all the same.
pub fn nearly(random: &mut Random) -> String {
    let price = price(random);
    let mut bytes = price.trim_matches('"').as_bytes().to_vec();
    let at = random.below(bytes.len());
    let byte = b"0019-.., "[random.below(9)];
    match random.below(3) {
        0 => bytes[at] = byte,
        1 => bytes.insert(at, byte),
        _ => drop(bytes.remove(at)),
    }
    format!("\"{}\"", String::from_utf8_lossy(&bytes))
}
