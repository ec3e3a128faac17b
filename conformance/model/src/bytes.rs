//! Byte classes and the alphabets made of them (01, Program text).

/// 01: "Every byte belongs to one class".
#[derive(Clone, Copy, PartialEq, Eq, Debug)]
pub enum Class {
    Letter,
    Digit,
    Space,
    Newline,
    /// A mark is a class by itself.
    Mark(u8),
    Foreign,
}

pub const fn class(byte: u8) -> Class {
    match byte {
        b'A'..=b'Z' | b'a'..=b'z' => Class::Letter,
        b'0'..=b'9' => Class::Digit,
        b' ' => Class::Space,
        b'\n' => Class::Newline,
        b'_' | b',' | b';' | b':' | b'.' | b'?' | b'!' | b'-' | b'>' | b'"' | b'=' | b'{'
        | b'}' | b'[' | b']' | b'(' | b')' | b'*' | b'/' => Class::Mark(byte),
        _ => Class::Foreign,
    }
}

/// A set of bytes: letters, digits and some more. Kept as a table, because
/// every byte of every text is looked up in one.
pub struct Alphabet([bool; 256]);

impl Alphabet {
    const fn new(space: bool, marks: &[u8]) -> Alphabet {
        let mut table = [false; 256];
        let mut byte = 0;
        while byte < 256 {
            table[byte] = match class(byte as u8) {
                Class::Letter | Class::Digit => true,
                Class::Space => space,
                Class::Mark(mark) => contains(marks, mark),
                Class::Newline | Class::Foreign => false,
            };
            byte += 1;
        }
        Alphabet(table)
    }

    pub fn holds(&self, byte: u8) -> bool {
        self.0[usize::from(byte)]
    }

    /// How many bytes from the start belong to the alphabet.
    pub fn run(&self, bytes: &[u8]) -> usize {
        bytes
            .iter()
            .position(|&byte| !self.holds(byte))
            .unwrap_or(bytes.len())
    }

    pub fn holds_all(&self, bytes: &[u8]) -> bool {
        self.run(bytes) == bytes.len()
    }
}

const fn contains(marks: &[u8], mark: u8) -> bool {
    let mut at = 0;
    while at < marks.len() {
        if marks[at] == mark {
            return true;
        }
        at += 1;
    }
    false
}

/// 01: the string alphabet, of texts and passwords too.
pub static STRING: Alphabet = Alphabet::new(true, b"_,;.?!-");

/// 01: what a comment holds after `//`.
pub static COMMENT: Alphabet = Alphabet::new(true, b";:.?-!");

/// What may follow the letter that an identifier starts with.
pub static WORD: Alphabet = Alphabet::new(false, b"_");

/// Whether every byte is zero. An or over all bytes has no early exit and is
/// therefore done many bytes at a time.
pub fn all_zero(bytes: &[u8]) -> bool {
    bytes.iter().fold(0, |seen, &byte| seen | byte) == 0
}
