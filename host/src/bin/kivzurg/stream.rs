//! Programs from a stream, each up to its line `***`, as the program `desk` takes them.

use std::io::{self, BufRead, Read};

use kivzurg::LONGEST_PROGRAM;

/// A program is kept as far as this; what is longer does not parse, whatever follows.
const KEPT: usize = LONGEST_PROGRAM + 1;

/// What the stream holds next.
pub enum Next {
    /// A program, without the newline behind its `***`.
    Program(Vec<u8>),
    /// The input ends, perhaps inside a program.
    End { inside: bool },
}

pub fn next(input: &mut impl BufRead) -> io::Result<Next> {
    let mut program = Vec::new();
    let mut piece = Vec::new();
    let mut starts_line = true;
    loop {
        piece.clear();
        // A line comes in pieces where it is longer than a program may be.
        if input.by_ref().take(KEPT as u64).read_until(b'\n', &mut piece)? == 0 {
            return Ok(Next::End { inside: !program.is_empty() });
        }
        let is_last = starts_line && (piece == b"***\n" || piece == b"***");
        let taken = if is_last { 3 } else { piece.len() };
        program.extend_from_slice(&piece[..taken.min(KEPT - program.len())]);
        if is_last {
            return Ok(Next::Program(program));
        }
        starts_line = piece.ends_with(b"\n");
    }
}
