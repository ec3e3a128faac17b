//! A safe way into the proved data server. Sizes are types and answers are enums, so that what the functions below refuse by a number for a wrong
//! size cannot be asked here; lent buffers cannot overlap; and nothing panics. [`raw`] has the functions as they are exported.
//!
//! ```
//! use kivzurg::{Principal, Right, Server, Variable};
//!
//! fn main() -> Result<(), Box<dyn std::error::Error>> {
//!     let mut server = Server::make(b"desk")?;
//!     let report = server.run(b"as principal admin password \"desk\" do\nset queue = []\nreturn queue\n***")?;
//!     assert!(report.is_completed());
//!     assert_eq!(report.output, b"{\"status\":\"SET\"}\n{\"status\":\"RETURNING\",\"output\":[]}\n");
//!     assert_eq!(server.ask(Principal(b"anyone"), Variable(b"queue"), Right::Read)?, None);
//!     let kept: Box<kivzurg::Buffer> = Box::new(*server.state());
//!     assert_eq!(Server::over(kept).ask(Principal(b"admin"), Variable(b"queue"), Right::Read)?, Some(0));
//!     Ok(())
//! }
//! ```
//!
//! The state holds every password in clear. It is a secret: keep it where only the host can read it, and do not print it. `Debug` for [`Server`]
//! shows nothing of it.
//!
//! A call takes up to [`STACK_BYTES`] of stack and no heap, but for a sheet's own text and the output that it is written to. A [`Server`] may be sent
//! to another thread, and several threads may put questions to one and print sheets of it at a time.

#![deny(missing_docs)]

mod error;
pub mod raw;
mod right;
mod sheet;

use std::fmt;

pub use error::{AskError, BringError, MakeError, RunError, SheetError};
use raw::Answer;
pub use raw::Kind;
pub use right::{NoSuchRight, Right};
pub use sheet::{Row, Sheet};

/// The size of each lent buffer.
pub const BUFFER: usize = 65_536;

/// What is lent.
pub type Buffer = [u8; BUFFER];

/// A longer program does not parse.
pub const LONGEST_PROGRAM: usize = 16_384;

/// The stack that a thread needs to make calls, with room to spare. tests/stack.rs runs every kind of program in a thread of this size, also the longest
/// that have nothing but lets, one inside the other. The same figure stands in include/kivzurg.h and in README.md, which tests/documents.rs compares.
pub const STACK_BYTES: usize = 524_288;

/// The name of a principal.
#[derive(Clone, Copy, PartialEq, Eq, Debug)]
pub struct Principal<'a>(pub &'a [u8]);

/// The name of a shared variable.
#[derive(Clone, Copy, PartialEq, Eq, Debug)]
pub struct Variable<'a>(pub &'a [u8]);

/// What a program that was run has given.
#[derive(Clone, Copy, PartialEq, Eq, Debug)]
pub struct Report<'a> {
    /// How it ended.
    pub kind: Kind,
    /// How many lines it printed.
    pub lines: usize,
    /// The lines, each ended by byte 10.
    pub output: &'a [u8],
}

impl Report<'_> {
    /// Whether the program was completed, so that the state is a new one.
    pub fn is_completed(&self) -> bool {
        matches!(self.kind, Kind::Returned | Kind::Exited)
    }
}

/// A server: the state, and the two buffers that a run needs.
pub struct Server {
    state: Box<Buffer>,
    work: Box<Buffer>,
    output: Box<Buffer>,
}

impl Server {
    /// A server with admin's password and nothing else.
    pub fn make(password: &[u8]) -> Result<Server, MakeError> {
        let mut server = Server::over(zeros());
        match raw::make(&mut server.state[..], password) {
            Answer::Ready => Ok(server),
            Answer::Wrong(8) => Err(MakeError::PasswordByte),
            Answer::Wrong(9) => Err(MakeError::PasswordLength),
            _ => Err(MakeError::Unexpected),
        }
    }

    /// A server from a former state, one that was kept by 0.3.0 or before, with one count for all programs. Every principal's count starts from 0.
    pub fn bring(former: &Buffer) -> Result<Server, BringError> {
        let mut server = Server::over(zeros());
        match raw::bring(&former[..], &mut server.state[..]) {
            Answer::Ready => Ok(server),
            Answer::Wrong(10) => Err(BringError::NotWellFormed),
            Answer::Wrong(11) => Err(BringError::TooHeavy),
            _ => Err(BringError::Unexpected),
        }
    }

    /// A server over a state that was kept. Each call checks that it is well formed. Names in it that became keywords since are well formed, and
    /// questions and sheets answer about them; no program can write them.
    pub fn over(state: Box<Buffer>) -> Server {
        Server { state, work: zeros(), output: zeros() }
    }

    /// The state, to be kept after each completed program. It is a secret: it holds the passwords.
    pub fn state(&self) -> &Buffer {
        &self.state
    }

    /// Whether the state is well formed: a question looks at that first.
    pub fn is_well_formed(&self) -> bool {
        self.ask(Principal(b"admin"), Variable(b""), Right::Read) != Err(AskError::NotWellFormed)
    }

    /// Runs a program.
    pub fn run(&mut self, program: &[u8]) -> Result<Report<'_>, RunError> {
        match raw::run(&mut self.state[..], &mut self.work[..], &mut self.output[..], program) {
            Answer::Ended { kind, lines, bytes } => match self.output.get(..bytes) {
                Some(output) => Ok(Report { kind, lines, output }),
                None => Err(RunError::Unexpected),
            },
            Answer::Wrong(4) => Err(RunError::NotWellFormed),
            Answer::Wrong(5) => Err(RunError::Closed),
            _ => Err(RunError::Unexpected),
        }
    }

    /// Whether a principal has a right on a shared variable: the length of a shortest chain, or none.
    pub fn ask(&self, name: Principal<'_>, variable: Variable<'_>, right: Right) -> Result<Option<usize>, AskError> {
        match raw::ask(&self.state[..], name.0, variable.0, right.letter()) {
            Answer::Yes(length) => Ok(Some(length)),
            Answer::No => Ok(None),
            Answer::Wrong(4) => Err(AskError::NotWellFormed),
            Answer::Wrong(6) => Err(AskError::UnknownPrincipal),
            Answer::Wrong(7) => Err(AskError::UnknownVariable),
            _ => Err(AskError::Unexpected),
        }
    }

    /// The sheet of a shared variable: who may do what, a row for each principal in order of creation. A closed server has one too.
    ///
    /// ```
    /// use kivzurg::{Right, Server, Variable};
    ///
    /// # fn main() -> Result<(), Box<dyn std::error::Error>> {
    /// let mut server = Server::make(b"desk")?;
    /// server.run(b"as principal admin password \"desk\" do\nset queue = []\nset delegation queue admin read -> anyone\nreturn queue\n***")?;
    /// let sheet = server.sheet(Variable(b"queue"))?;
    /// print!("{sheet}");
    /// assert_eq!(sheet.len(), 2);
    /// for row in sheet.rows() {
    ///     assert!(row.has(Right::Read));
    ///     assert_eq!(row.has(Right::Write), row.name() == "admin");
    /// }
    /// # Ok(())
    /// # }
    /// ```
    pub fn sheet(&self, variable: Variable<'_>) -> Result<Sheet, SheetError> {
        let mut output = vec![0; BUFFER];
        match raw::sheet(&self.state[..], &mut output, variable.0) {
            Answer::Listed { lines, bytes } => {
                // The text without the zeros behind it, in room of its own.
                let text = output.get(..bytes).map(<[u8]>::to_vec);
                text.and_then(Sheet::of).filter(|sheet| sheet.len() == lines).ok_or(SheetError::Unexpected)
            }
            Answer::Wrong(4) => Err(SheetError::NotWellFormed),
            Answer::Wrong(7) => Err(SheetError::UnknownVariable),
            _ => Err(SheetError::Unexpected),
        }
    }
}

impl fmt::Debug for Server {
    fn fmt(&self, f: &mut fmt::Formatter<'_>) -> fmt::Result {
        f.debug_struct("Server").finish_non_exhaustive()
    }
}

fn zeros() -> Box<Buffer> {
    Box::new([0; BUFFER])
}

// The examples of README.md are run as tests.
#[cfg(doctest)]
#[doc = include_str!("../README.md")]
struct Readme;
