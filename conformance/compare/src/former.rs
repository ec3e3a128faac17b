//! State texts in the former lines, and counts: what tests change in the text of a state.

use crate::random::Random;
pub use model::replay::{padded, text};

/// Which lines a text has.
#[derive(Clone, Copy, PartialEq, Eq, Debug)]
pub enum Form {
    /// One count for all programs, in the first line.
    Former,
    /// A count for each principal, in its line.
    Counted,
}

/// Counts of few digits and of many: both sides of each width, and the last.
pub fn count(random: &mut Random) -> u32 {
    match random.below(6) {
        0 => u32::MAX,
        1 => random.number() as u32,
        2 => 10u32.pow(random.below(10) as u32),
        3 => 10u32.pow(random.below(10) as u32) - 1,
        4 => u32::MAX - random.below(3) as u32,
        _ => random.below(20) as u32,
    }
}

/// The lines of a text, each without its end.
fn lines(text: &[u8]) -> impl Iterator<Item = &[u8]> {
    text.split_inclusive(|byte| *byte == b'\n').map(|line| line.strip_suffix(b"\n").unwrap_or(line))
}

fn is_principal(line: &[u8]) -> bool {
    line.starts_with(b"P\t") || line.starts_with(b"N\t")
}

/// A principal's line without its count.
fn uncounted(line: &[u8]) -> &[u8] {
    &line[..line.iter().rposition(|byte| *byte == b'\t').unwrap_or(line.len())]
}

/// A state's text in the former lines: the principals' counts go, and the first line has one for all programs.
pub fn former(text: &[u8], count: u32) -> Vec<u8> {
    let mut former = Vec::new();
    for (at, line) in lines(text).enumerate() {
        former.extend_from_slice(if is_principal(line) { uncounted(line) } else { line });
        if at == 0 {
            former.extend_from_slice(format!("\t{count}").as_bytes());
        }
        former.push(b'\n');
    }
    former
}

/// A state's text with other counts.
pub fn recounted(random: &mut Random, text: &[u8]) -> Vec<u8> {
    let mut with = Vec::new();
    for line in lines(text) {
        if is_principal(line) {
            with.extend_from_slice(&[uncounted(line), format!("\t{}", near(random)).as_bytes()].concat());
        } else {
            with.extend_from_slice(line);
        }
        with.push(b'\n');
    }
    with
}

/// A count that a few programs bring to another width, or to its end.
fn near(random: &mut Random) -> u32 {
    let edge = [10, 100, 1_000_000_000, u32::MAX, u32::MAX][random.below(5)];
    edge - random.below(4) as u32
}
