//! Identifiers, keywords, and tables from names to numbers.

use std::collections::{HashMap, HashSet};
use std::hash::{BuildHasherDefault, Hasher};

use crate::bytes::{class, Class};

/// The longest identifier (001, Grammar).
pub const LONGEST_NAME: usize = 255;

/// Keywords: 01's, and the four of 02's M-104.
#[derive(Clone, Copy, PartialEq, Eq, Debug)]
pub enum Keyword {
    Add,
    All,
    Append,
    As,
    Change,
    Concat,
    Create,
    Default,
    Delegate,
    Delegation,
    Delegator,
    Delete,
    Do,
    Equal,
    Exit,
    Filtereach,
    Foreach,
    In,
    Let,
    Local,
    Notequal,
    Password,
    Per,
    Principal,
    Read,
    Replacewith,
    Return,
    Set,
    Split,
    Sub,
    Times,
    To,
    Tolower,
    With,
    Write,
}

impl Keyword {
    /// 02, M-104: whether this was a name before it became a keyword, so that
    /// a state may still hold it. No program can write it as a name.
    pub fn was_a_name(self) -> bool {
        matches!(
            self,
            Keyword::Add | Keyword::Sub | Keyword::Times | Keyword::Per
        )
    }
}

/// The keyword that a word of a program is, if it is one.
pub fn keyword(word: &[u8]) -> Option<Keyword> {
    Some(match word {
        b"add" => Keyword::Add,
        b"all" => Keyword::All,
        b"append" => Keyword::Append,
        b"as" => Keyword::As,
        b"change" => Keyword::Change,
        b"concat" => Keyword::Concat,
        b"create" => Keyword::Create,
        b"default" => Keyword::Default,
        b"delegate" => Keyword::Delegate,
        b"delegation" => Keyword::Delegation,
        b"delegator" => Keyword::Delegator,
        b"delete" => Keyword::Delete,
        b"do" => Keyword::Do,
        b"equal" => Keyword::Equal,
        b"exit" => Keyword::Exit,
        b"filtereach" => Keyword::Filtereach,
        b"foreach" => Keyword::Foreach,
        b"in" => Keyword::In,
        b"let" => Keyword::Let,
        b"local" => Keyword::Local,
        b"notequal" => Keyword::Notequal,
        b"password" => Keyword::Password,
        b"per" => Keyword::Per,
        b"principal" => Keyword::Principal,
        b"read" => Keyword::Read,
        b"replacewith" => Keyword::Replacewith,
        b"return" => Keyword::Return,
        b"set" => Keyword::Set,
        b"split" => Keyword::Split,
        b"sub" => Keyword::Sub,
        b"times" => Keyword::Times,
        b"to" => Keyword::To,
        b"tolower" => Keyword::Tolower,
        b"with" => Keyword::With,
        b"write" => Keyword::Write,
        _ => return None,
    })
}

/// Whether a run of word bytes is a name or label that a state text may hold:
/// an identifier that is no keyword, or was none when it was written.
pub fn may_be_kept(run: &[u8]) -> bool {
    run.first()
        .is_some_and(|&first| class(first) == Class::Letter)
        && run.len() <= LONGEST_NAME
        && keyword(run).is_none_or(Keyword::was_a_name)
}

/// A quick hash of short byte strings and of single numbers.
#[derive(Default)]
pub struct QuickHasher(u64);

const SEED: u64 = 0x2545_F491_4F6C_DD1D;
const FACTOR: u64 = 0x9E37_79B9_7F4A_7C15;

impl Hasher for QuickHasher {
    fn write(&mut self, bytes: &[u8]) {
        let mut chunks = bytes.chunks_exact(8);
        for chunk in &mut chunks {
            let mut eight = [0; 8];
            eight.copy_from_slice(chunk);
            self.write_u64(u64::from_le_bytes(eight));
        }
        let rest = chunks.remainder();
        if !rest.is_empty() {
            let word = rest
                .iter()
                .fold(0, |word, &byte| word << 8 | u64::from(byte));
            self.write_u64(word);
        }
    }

    /// Both halves of the product are kept, so that every bit of the word has
    /// a part in the low bits, from which a table takes its place.
    fn write_u64(&mut self, word: u64) {
        let product = u128::from(self.0.rotate_left(23) ^ word ^ SEED) * u128::from(FACTOR);
        self.0 = product as u64 ^ (product >> 64) as u64;
    }

    fn write_usize(&mut self, number: usize) {
        self.write_u64(number as u64);
    }

    fn finish(&self) -> u64 {
        self.0
    }
}

pub type QuickSet<T> = HashSet<T, BuildHasherDefault<QuickHasher>>;

/// From a name to its number, numbers being given in order of creation.
pub type Numbers<'a> = HashMap<&'a [u8], u16, BuildHasherDefault<QuickHasher>>;

/// Whether no name stands twice. Few names are compared each with each, many
/// by a set.
pub fn distinct<'a, I>(names: I) -> bool
where
    I: ExactSizeIterator<Item = &'a [u8]> + Clone,
{
    const FEW: usize = 8;
    if names.len() > FEW {
        let mut seen = QuickSet::default();
        return names.into_iter().all(|name| seen.insert(name));
    }
    let mut rest = names;
    while let Some(name) = rest.next() {
        if rest.clone().any(|other| other == name) {
            return false;
        }
    }
    true
}
