//! Prices, and the functions add, sub, times and per (02, M-104): what is a
//! price, what comes out, and what is FAILED.

mod common;

use common::{returning, Server};
use model::engine::End;
use model::prices::Price;
use model::syntax::Operation;

const FUNCTIONS: [&str; 4] = ["add", "sub", "times", "per"];

const OPERATIONS: [Operation; 4] = [
    Operation::Add,
    Operation::Sub,
    Operation::Times,
    Operation::Per,
];

/// What admin's program of one return prints on a new server.
fn returned(function: &str, first: &str, second: &str) -> (End, String) {
    let line = format!("return {function}(\"{first}\",\"{second}\")");
    Server::new("desk").admin(&[&line])
}

fn gives(function: &str, first: &str, second: &str, price: &str) {
    let expected = (End::Returned, returning(&format!("\"{price}\"")));
    let told = format!("{function}({first},{second})");
    assert_eq!(returned(function, first, second), expected, "{told}");
}

fn fails(function: &str, first: &str, second: &str) {
    let (end, text) = returned(function, first, second);
    assert_eq!(end, End::Failed, "{function}({first},{second}) is {text}");
}

/// The same amount on the other side of zero.
fn negated(price: &str) -> String {
    match price.strip_prefix('-') {
        Some(amount) => amount.to_string(),
        None if price == "0.00" => price.to_string(),
        None => format!("-{price}"),
    }
}

#[test]
fn the_papers_examples() {
    gives("times", "0.05", "0.50", "0.03");
    gives("times", "-0.05", "0.50", "-0.03");
    gives("times", "0.05", "-0.50", "-0.03");
    gives("times", "-0.05", "-0.50", "0.03");
    gives("times", "-0.01", "0.10", "0.00");
}

#[test]
fn sums() {
    for (first, second, sum) in [
        ("0.00", "0.00", "0.00"),
        ("0.05", "0.05", "0.10"),
        ("0.99", "0.01", "1.00"),
        ("9.99", "0.01", "10.00"),
        ("999999.99", "0.01", "1000000.00"),
        ("12.50", "3.00", "15.50"),
        ("-0.50", "0.50", "0.00"),
        ("0.10", "-0.30", "-0.20"),
        ("1.00", "-0.01", "0.99"),
        ("-1.00", "0.01", "-0.99"),
        ("-0.99", "-0.01", "-1.00"),
        ("9999999.98", "0.01", "9999999.99"),
        ("9999999.99", "0.00", "9999999.99"),
        ("9999999.99", "-9999999.99", "0.00"),
    ] {
        gives("add", first, second, sum);
        gives("add", second, first, sum);
        gives("add", &negated(first), &negated(second), &negated(sum));
        gives("sub", first, &negated(second), sum);
        gives("sub", &negated(first), second, &negated(sum));
    }
}

/// With each sign on each side.
fn in_all_signs(function: &str, first: &str, second: &str, result: &str) {
    let (below, beneath) = (negated(first), negated(second));
    gives(function, first, second, result);
    gives(function, &below, &beneath, result);
    gives(function, &below, second, &negated(result));
    gives(function, first, &beneath, &negated(result));
}

#[test]
fn products() {
    for (first, second, product) in [
        ("0.00", "0.00", "0.00"),
        ("0.00", "9999999.99", "0.00"),
        ("1.00", "9999999.99", "9999999.99"),
        ("12.50", "2.25", "28.13"),
        ("9.99", "0.50", "5.00"),
        // Halves of a hundredth go away from zero, odd and even alike.
        ("0.05", "0.10", "0.01"),
        ("0.05", "0.30", "0.02"),
        ("0.05", "0.50", "0.03"),
        ("0.05", "0.70", "0.04"),
        ("0.01", "0.50", "0.01"),
        ("0.15", "0.10", "0.02"),
        ("1.15", "0.10", "0.12"),
        // Next to a half.
        ("0.07", "0.07", "0.00"),
        ("0.17", "0.03", "0.01"),
        ("0.49", "0.01", "0.00"),
        ("0.51", "0.01", "0.01"),
        ("0.01", "0.01", "0.00"),
        ("0.99", "0.99", "0.98"),
        // Carried through all digits.
        ("9.99", "10.01", "100.00"),
        ("999.99", "1000.01", "1000000.00"),
    ] {
        in_all_signs("times", first, second, product);
        in_all_signs("times", second, first, product);
    }
}

#[test]
fn quotients() {
    for (first, second, quotient) in [
        ("0.00", "3.00", "0.00"),
        ("1.00", "3.00", "0.33"),
        ("2.00", "3.00", "0.67"),
        ("0.01", "2.00", "0.01"),
        ("0.03", "2.00", "0.02"),
        ("0.05", "2.00", "0.03"),
        ("0.01", "3.00", "0.00"),
        ("0.02", "3.00", "0.01"),
        ("1.00", "8.00", "0.13"),
        ("3.00", "8.00", "0.38"),
        ("0.01", "2.01", "0.00"),
        ("0.01", "1.99", "0.01"),
        ("0.01", "0.03", "0.33"),
        ("0.02", "0.03", "0.67"),
        ("0.01", "0.01", "1.00"),
        ("99999.99", "0.01", "9999999.00"),
        ("9999999.99", "1.00", "9999999.99"),
        ("9999999.99", "9999999.99", "1.00"),
        ("9999999.98", "9999999.99", "1.00"),
        ("0.01", "9999999.99", "0.00"),
        ("100.00", "0.03", "3333.33"),
    ] {
        in_all_signs("per", first, second, quotient);
    }
}

#[test]
fn zero_divisors() {
    for first in ["0.00", "0.01", "-0.01", "1.00", "9999999.99", "-9999999.99"] {
        fails("per", first, "0.00");
    }
    for second in ["0.01", "-3.00", "9999999.99", "-9999999.99"] {
        gives("per", "0.00", second, "0.00");
    }
}

/// Beyond the limit with each sign on each side of a product or a quotient.
fn beyond_in_all_signs(function: &str, first: &str, second: &str) {
    let (below, beneath) = (negated(first), negated(second));
    fails(function, first, second);
    fails(function, &below, &beneath);
    fails(function, &below, second);
    fails(function, first, &beneath);
}

/// Just within the limit and just beyond it. What is rounded counts, and not
/// what it was before.
#[test]
fn the_limit() {
    for (first, second) in [
        ("9999999.99", "0.01"),
        ("5000000.00", "5000000.00"),
        ("9999999.99", "9999999.99"),
    ] {
        fails("add", first, second);
        fails("add", &negated(first), &negated(second));
        fails("sub", first, &negated(second));
        fails("sub", &negated(first), second);
    }
    for (first, second) in [
        ("9999999.99", "9999999.99"),
        ("10000.00", "1000.00"),
        ("9999999.99", "1.01"),
        // 9999999.995, 9999999.9951, 9999999.999 and 9999999.9999: below
        // 10000000.00, to which they round.
        ("645161.29", "15.50"),
        ("1663893.51", "6.01"),
        ("9090909.09", "1.10"),
        ("46191.51", "216.49"),
    ] {
        beyond_in_all_signs("times", first, second);
    }
    for (first, second) in [
        ("9999999.99", "0.01"),
        ("9999999.99", "0.99"),
        ("100000.00", "0.01"),
        ("5000000.00", "0.50"),
    ] {
        beyond_in_all_signs("per", first, second);
    }
    in_all_signs("times", "3333333.33", "3.00", "9999999.99");
    // 9999999.9901 and 9999999.9949: beyond 9999999.99, to which they round.
    in_all_signs("times", "2227171.49", "4.49", "9999999.99");
    in_all_signs("times", "334112.93", "29.93", "9999999.99");
    in_all_signs("per", "99999.99", "0.01", "9999999.00");
    in_all_signs("per", "9899999.99", "0.99", "9999999.99");
}

#[test]
fn what_is_a_price() {
    for price in [
        "0.00",
        "0.01",
        "-0.01",
        "0.10",
        "9.99",
        "10.00",
        "-10.05",
        "100.00",
        "1234567.89",
        "1000000.00",
        "9999999.99",
        "-9999999.99",
    ] {
        gives("add", price, "0.00", price);
        gives("add", "0.00", price, price);
        gives("sub", price, "0.00", price);
        gives("times", price, "1.00", price);
        gives("per", price, "1.00", price);
    }
}

#[test]
fn what_is_none() {
    for text in [
        "",
        "-",
        ".",
        "0",
        "1",
        "-1",
        "00",
        "0.",
        ".0",
        ".00",
        "-.00",
        ".50",
        "-.50",
        "0.0",
        "0.5",
        "0.500",
        "0.000",
        "-0.00",
        "-0.000",
        "00.00",
        "00.50",
        "01.00",
        "-00.01",
        "-01.00",
        "007.00",
        "12345678.00",
        "10000000.00",
        "-10000000.00",
        "00000000.01",
        "1,00",
        "1;00",
        "1.00.00",
        "1..00",
        "1.0.0",
        "--1.00",
        "1.-5",
        "1.-50",
        "-1.-0",
        "1-.00",
        "1.00-",
        " 1.00",
        "1.00 ",
        "1 .00",
        "1. 00",
        "- 1.00",
        "1.0O",
        "O.00",
        "l.00",
        "1e2.00",
        "one",
        "1_0.00",
        "1.00!",
        "?",
        "99999999999999999999.99",
        "340282366920938463463374607431768211456.00",
        "1.000000000000000000000000000000000000000000",
    ] {
        assert_eq!(Price::read(text.as_bytes()), None, "{text}");
        for function in FUNCTIONS {
            fails(function, text, "1.00");
            fails(function, "1.00", text);
            fails(function, text, text);
        }
    }
}

/// Every string of up to five bytes over an alphabet: the prices are `d.dd`,
/// the same below zero but for zero, and `dd.dd` where no zero leads.
#[test]
fn short_strings() {
    const ALPHABET: &[u8] = b"-.019 ";
    let mut all: Vec<Vec<u8>> = vec![Vec::new()];
    let mut prices = 0;
    for _ in 0..=5 {
        for text in &all {
            if let Some(price) = Price::read(text) {
                assert_eq!(&price.text(), text);
                prices += 1;
            }
        }
        let longer = |text: &Vec<u8>| {
            let text = text.clone();
            ALPHABET
                .iter()
                .map(move |&byte| [&text[..], &[byte]].concat())
        };
        all = all.iter().flat_map(longer).collect();
    }
    assert_eq!(prices, 27 + 26 + 2 * 27);
}

#[test]
fn every_price_has_one_text() {
    let steps = (0..=999_999_999).step_by(12_347);
    let near = [
        0,
        9,
        10,
        99,
        100,
        101,
        999,
        1_000,
        99_999,
        100_000,
        999_999_998,
        999_999_999,
    ];
    for amount in steps.chain(near) {
        for hundredths in [amount, -amount] {
            let price = Price::of(hundredths).expect("within the limit");
            let text = price.text();
            assert_eq!(Price::read(&text), Some(price));
            assert!(text.len() <= 11);
        }
    }
    for beyond in [1_000_000_000, -1_000_000_000, i128::MAX, i128::MIN + 1] {
        assert_eq!(Price::of(beyond), None);
    }
}

/// The words of the paper about a result, tried on all pairs of small amounts
/// and on some with large ones: it is nearest to what it stands for, and where
/// two are, it is the one further from zero.
#[test]
fn the_nearest_hundredth() {
    let small = -130..=130;
    let large = [
        -999_999_999,
        -99_999_999,
        -31_623,
        -10_001,
        9_999,
        100_000,
        333_333_333,
        999_999_999,
    ];
    let amounts: Vec<i128> = small.chain(large).collect();
    let mut halves = [0; 2];
    for (&a, &b) in amounts
        .iter()
        .flat_map(|a| amounts.iter().map(move |b| (a, b)))
    {
        let (first, second) = (Price::of(a).unwrap(), Price::of(b).unwrap());
        for operation in OPERATIONS {
            // The result times the unit stands for the amount.
            let (amount, unit) = match operation {
                Operation::Add => (a + b, 1),
                Operation::Sub => (a - b, 1),
                Operation::Times => (a * b, 100),
                Operation::Per => (a * 100, b),
            };
            let Some(result) = operation.of(first, second) else {
                let is_beyond = (2 * amount).abs() >= 1_999_999_999 * unit.abs();
                assert!(unit == 0 || is_beyond, "{operation:?} {a} {b}");
                continue;
            };
            let off = 2 * (result.hundredths() * unit - amount);
            assert!(off.abs() <= unit.abs(), "{operation:?} {a} {b}");
            if off.abs() == unit.abs() {
                halves[usize::from(result.hundredths() < 0)] += 1;
                let is_further = (result.hundredths() * unit).abs() > amount.abs();
                assert!(is_further, "{operation:?} {a} {b}");
            }
        }
    }
    assert!(halves.iter().all(|&times| times > 100), "{halves:?}");
}
