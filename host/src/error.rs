//! Why a call was refused, in types and in words. A refused call has changed nothing.

use std::error::Error;
use std::fmt;

/// Why no server was made.
#[derive(Clone, Copy, PartialEq, Eq, Debug)]
pub enum MakeError {
    /// The password has a byte outside the string alphabet.
    PasswordByte,
    /// The password is longer than 1,024 bytes.
    PasswordLength,
    /// An answer that the server does not give.
    Unexpected,
}

/// Why a former state was not brought over.
#[derive(Clone, Copy, PartialEq, Eq, Debug)]
pub enum BringError {
    /// The former state is not well formed in the former lines.
    NotWellFormed,
    /// It would weigh too much: each principal weighs ten more than it did.
    TooHeavy,
    /// An answer that the server does not give.
    Unexpected,
}

/// Why a program was not run.
#[derive(Clone, Copy, PartialEq, Eq, Debug)]
pub enum RunError {
    /// The state is not well formed.
    NotWellFormed,
    /// The server is closed.
    Closed,
    /// An answer that the server does not give.
    Unexpected,
}

/// Why a question was not answered.
#[derive(Clone, Copy, PartialEq, Eq, Debug)]
pub enum AskError {
    /// The state is not well formed.
    NotWellFormed,
    /// No such principal.
    UnknownPrincipal,
    /// No such shared variable.
    UnknownVariable,
    /// An answer that the server does not give.
    Unexpected,
}

/// Why there is no sheet.
#[derive(Clone, Copy, PartialEq, Eq, Debug)]
pub enum SheetError {
    /// The state is not well formed.
    NotWellFormed,
    /// No such shared variable.
    UnknownVariable,
    /// An answer that the server does not give.
    Unexpected,
}

const NOT_WELL_FORMED: &str = "the state is not well formed";
const UNKNOWN_VARIABLE: &str = "there is no shared variable of this name";
const UNEXPECTED: &str = "the server gave an answer that it does not have";

impl fmt::Display for MakeError {
    fn fmt(&self, f: &mut fmt::Formatter<'_>) -> fmt::Result {
        f.write_str(match self {
            MakeError::PasswordByte => "the password has a character other than letters, digits, space and _ , ; . ? ! -",
            MakeError::PasswordLength => "the password is longer than 1,024 bytes",
            MakeError::Unexpected => UNEXPECTED,
        })
    }
}

impl fmt::Display for BringError {
    fn fmt(&self, f: &mut fmt::Formatter<'_>) -> fmt::Result {
        f.write_str(match self {
            BringError::NotWellFormed => "the state is not well formed in the former lines",
            BringError::TooHeavy => "the state would weigh more than 8,192, since each principal now weighs 10 more",
            BringError::Unexpected => UNEXPECTED,
        })
    }
}

impl fmt::Display for RunError {
    fn fmt(&self, f: &mut fmt::Formatter<'_>) -> fmt::Result {
        f.write_str(match self {
            RunError::NotWellFormed => NOT_WELL_FORMED,
            RunError::Closed => "the server is closed",
            RunError::Unexpected => UNEXPECTED,
        })
    }
}

impl fmt::Display for AskError {
    fn fmt(&self, f: &mut fmt::Formatter<'_>) -> fmt::Result {
        f.write_str(match self {
            AskError::NotWellFormed => NOT_WELL_FORMED,
            AskError::UnknownPrincipal => "there is no principal of this name",
            AskError::UnknownVariable => UNKNOWN_VARIABLE,
            AskError::Unexpected => UNEXPECTED,
        })
    }
}

impl fmt::Display for SheetError {
    fn fmt(&self, f: &mut fmt::Formatter<'_>) -> fmt::Result {
        f.write_str(match self {
            SheetError::NotWellFormed => NOT_WELL_FORMED,
            SheetError::UnknownVariable => UNKNOWN_VARIABLE,
            SheetError::Unexpected => UNEXPECTED,
        })
    }
}

impl Error for MakeError {}
impl Error for BringError {}
impl Error for RunError {}
impl Error for AskError {}
impl Error for SheetError {}
