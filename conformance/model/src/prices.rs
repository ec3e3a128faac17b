//! Prices and what is done with two of them (02, M-104).
//!
//! An amount is a whole number of hundredths. A product or a quotient is
//! rounded as the fraction that it is: its numerator and its denominator are
//! whole numbers of 128 bits, which none of them outgrows.

use crate::syntax::Operation;

/// 9999999.99, the most that a price can be, either way.
const MOST: i128 = 999_999_999;

/// How many digits may stand before the point.
const LONGEST: usize = 7;

/// A price, as its hundredths: at most [`MOST`] either way.
#[derive(Clone, Copy, PartialEq, Eq, Debug)]
pub struct Price(i128);

impl Price {
    /// The price that a string is, if it is one: a minus sign if below zero,
    /// one to seven digits without a needless leading zero, a point, and two
    /// digits.
    pub fn read(text: &[u8]) -> Option<Price> {
        let (is_below, digits) = match text.strip_prefix(b"-") {
            Some(rest) => (true, rest),
            None => (false, text),
        };
        let (whole, rest) = digits.split_at_checked(digits.len().checked_sub(3)?)?;
        let fraction = rest.strip_prefix(b".")?;
        if whole.is_empty() || whole.len() > LONGEST || whole.len() > 1 && whole[0] == b'0' {
            return None;
        }
        let hundredths = whole.iter().chain(fraction).try_fold(0, |sum, digit| {
            let digit = digit.is_ascii_digit().then(|| i128::from(digit - b'0'))?;
            Some(10 * sum + digit)
        })?;
        match is_below {
            true if hundredths == 0 => None,
            true => Some(Price(-hundredths)),
            false => Some(Price(hundredths)),
        }
    }

    /// The price of so many hundredths; none beyond the limit.
    pub fn of(hundredths: i128) -> Option<Price> {
        (hundredths.abs() <= MOST).then_some(Price(hundredths))
    }

    pub fn hundredths(self) -> i128 {
        self.0
    }

    /// The one string that is this price.
    pub fn text(self) -> Vec<u8> {
        let sign = if self.0 < 0 { "-" } else { "" };
        // Nine digits at most, which 32 bits hold and write quickest.
        let amount = self.0.unsigned_abs() as u32;
        format!("{sign}{}.{:02}", amount / 100, amount % 100).into_bytes()
    }
}

/// A fraction of hundredths.
#[derive(Clone, Copy, PartialEq, Eq, Debug)]
pub struct Fraction {
    pub numerator: i128,
    /// Above zero.
    pub denominator: i128,
}

impl Fraction {
    /// None where the divisor is zero.
    fn new(dividend: i128, divisor: i128) -> Option<Fraction> {
        (divisor != 0).then(|| Fraction {
            numerator: dividend * divisor.signum(),
            denominator: divisor.abs(),
        })
    }

    /// The nearest whole number, a half going away from zero: a half more than
    /// the fraction without its sign, cut, and the sign again.
    fn rounded(self) -> i128 {
        let doubled = 2 * self.numerator.abs() + self.denominator;
        self.numerator.signum() * (doubled / (2 * self.denominator))
    }
}

impl Operation {
    /// What comes out before it is rounded, in hundredths; none for a zero
    /// divisor.
    pub fn exactly(self, first: Price, second: Price) -> Option<Fraction> {
        let (first, second) = (first.0, second.0);
        match self {
            Operation::Add => Fraction::new(first + second, 1),
            Operation::Sub => Fraction::new(first - second, 1),
            Operation::Times => Fraction::new(first * second, 100),
            Operation::Per => Fraction::new(first * 100, second),
        }
    }

    /// None for a zero divisor and for what is beyond the limit once it is
    /// rounded.
    pub fn of(self, first: Price, second: Price) -> Option<Price> {
        Price::of(self.exactly(first, second)?.rounded())
    }

    /// The same for strings; none where one of them is no price.
    pub fn of_texts(self, first: &[u8], second: &[u8]) -> Option<Price> {
        self.of(Price::read(first)?, Price::read(second)?)
    }
}
