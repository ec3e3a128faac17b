//! The four rights, with their letters and words.

use std::fmt;
use std::str::FromStr;

/// A right on a shared variable.
#[derive(Clone, Copy, PartialEq, Eq, Debug)]
pub enum Right {
    /// May read.
    Read,
    /// May write.
    Write,
    /// May append.
    Append,
    /// May pass rights on.
    Delegate,
}

impl Right {
    /// The rights in the order of the language.
    pub const ALL: [Right; 4] = [Right::Read, Right::Write, Right::Append, Right::Delegate];

    /// The word that programs write.
    pub fn word(self) -> &'static str {
        match self {
            Right::Read => "read",
            Right::Write => "write",
            Right::Append => "append",
            Right::Delegate => "delegate",
        }
    }

    /// The letter of a question and of a state's text: the word's first.
    pub fn letter(self) -> u8 {
        self.word().as_bytes()[0]
    }
}

impl fmt::Display for Right {
    fn fmt(&self, f: &mut fmt::Formatter<'_>) -> fmt::Result {
        f.pad(self.word())
    }
}

/// A word that is no right.
#[derive(Clone, Copy, PartialEq, Eq, Debug)]
pub struct NoSuchRight;

impl fmt::Display for NoSuchRight {
    fn fmt(&self, f: &mut fmt::Formatter<'_>) -> fmt::Result {
        f.write_str("a right is read, write, append or delegate")
    }
}

impl std::error::Error for NoSuchRight {}

impl FromStr for Right {
    type Err = NoSuchRight;

    fn from_str(word: &str) -> Result<Right, NoSuchRight> {
        Right::ALL.into_iter().find(|right| right.word() == word).ok_or(NoSuchRight)
    }
}
