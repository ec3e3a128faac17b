//! The functions as they are exported, over slices of any size, and the number that each answers. What they do not take they refuse with a
//! number, and then no byte of what was lent is changed. Two slices of which one is written cannot overlap here, which is all that the functions
//! ask of their caller.

use std::fmt;

mod exported {
    // A slice passes as a pointer and then a length. crates/server_c/src/lib.rt has the other side of each line.
    extern "C" {
        pub fn kivzurg_make(state: *mut u8, state_size: usize, password: *const u8, password_size: usize) -> u64;
        pub fn kivzurg_bring(former: *const u8, former_size: usize, state: *mut u8, state_size: usize) -> u64;
        pub fn kivzurg_run(
            state: *mut u8,
            state_size: usize,
            work: *mut u8,
            work_size: usize,
            output: *mut u8,
            output_size: usize,
            program: *const u8,
            program_size: usize,
        ) -> u64;
        pub fn kivzurg_ask(
            state: *const u8,
            state_size: usize,
            name: *const u8,
            name_size: usize,
            variable: *const u8,
            variable_size: usize,
            right: u8,
        ) -> u64;
        pub fn kivzurg_sheet(
            state: *const u8,
            state_size: usize,
            output: *mut u8,
            output_size: usize,
            variable: *const u8,
            variable_size: usize,
        ) -> u64;
    }
}

/// How a program ended.
#[derive(Clone, Copy, PartialEq, Eq, Debug)]
pub enum Kind {
    /// Completed by `return`.
    Returned,
    /// Completed by `exit`: the server is closed.
    Exited,
    /// Not done: its login is not right, or its sender may not do it. A name that is missing is refused as a wrong password is.
    Denied,
    /// Not done: it does not parse, or it cannot be done.
    Failed,
    /// Not done: a value, names of `let` that live at once, or what a command leaves would weigh too much.
    Full,
}

impl fmt::Display for Kind {
    fn fmt(&self, f: &mut fmt::Formatter<'_>) -> fmt::Result {
        f.pad(match self {
            Kind::Returned => "returned",
            Kind::Exited => "exited",
            Kind::Denied => "denied",
            Kind::Failed => "failed",
            Kind::Full => "full",
        })
    }
}

/// What a function answers.
#[derive(Clone, Copy, PartialEq, Eq, Debug)]
pub enum Answer {
    /// The call was refused with this number, from 1 to 11. Nothing has changed.
    Wrong(u8),
    /// A program was run.
    Ended {
        /// How it ended.
        kind: Kind,
        /// How many lines it printed.
        lines: usize,
        /// How many bytes of the output they take.
        bytes: usize,
    },
    /// The right is held, by a shortest chain of so many steps.
    Yes(usize),
    /// The right is not held.
    No,
    /// A server was made, or brought over.
    Ready,
    /// A sheet was written.
    Listed {
        /// How many lines it has.
        lines: usize,
        /// How many bytes of the output they take.
        bytes: usize,
    },
    /// A number that stands for nothing. It does not come.
    Unknown(u64),
}

impl Answer {
    /// What a number says (include/kivzurg.h has the same codes for C).
    fn of(number: u64) -> Answer {
        let low = (number & 0xff_ffff) as usize;
        let lines = (number >> 24 & 0xff_ffff) as usize;
        let ended = |kind| Answer::Ended { kind, lines, bytes: low };
        match number >> 48 {
            code @ 1..=11 => Answer::Wrong(code as u8),
            16 => ended(Kind::Returned),
            17 => ended(Kind::Exited),
            18 => ended(Kind::Denied),
            19 => ended(Kind::Failed),
            20 => ended(Kind::Full),
            32 => Answer::Yes(low),
            33 => Answer::No,
            48 => Answer::Ready,
            64 => Answer::Listed { lines, bytes: low },
            _ => Answer::Unknown(number),
        }
    }
}

/// Makes a server in `state`: `Ready`, or `Wrong` with 2, 8 or 9.
pub fn make(state: &mut [u8], password: &[u8]) -> Answer {
    // Sound: the function reads `password`, writes within `state`, and keeps nothing of either.
    Answer::of(unsafe { exported::kivzurg_make(state.as_mut_ptr(), state.len(), password.as_ptr(), password.len()) })
}

/// Brings a former state over into `state`: `Ready`, or `Wrong` with 2, 10 or 11.
pub fn bring(former: &[u8], state: &mut [u8]) -> Answer {
    // Sound: the function reads `former`, writes within `state`, which does not overlap it, and keeps nothing of either.
    Answer::of(unsafe { exported::kivzurg_bring(former.as_ptr(), former.len(), state.as_mut_ptr(), state.len()) })
}

/// Runs a program: `Ended`, or `Wrong` with a number from 1 to 5.
pub fn run(state: &mut [u8], work: &mut [u8], output: &mut [u8], program: &[u8]) -> Answer {
    // Sound: the function reads `program`, writes within the three others, which do not overlap, and keeps nothing of them.
    Answer::of(unsafe {
        exported::kivzurg_run(
            state.as_mut_ptr(),
            state.len(),
            work.as_mut_ptr(),
            work.len(),
            output.as_mut_ptr(),
            output.len(),
            program.as_ptr(),
            program.len(),
        )
    })
}

/// Asks whether a principal has a right, given by its letter, on a shared variable: `Yes`, `No`, or `Wrong` with 2, 4, 6 or 7.
pub fn ask(state: &[u8], name: &[u8], variable: &[u8], right: u8) -> Answer {
    // Sound: the function reads the slices and keeps nothing of them.
    Answer::of(unsafe {
        exported::kivzurg_ask(
            state.as_ptr(),
            state.len(),
            name.as_ptr(),
            name.len(),
            variable.as_ptr(),
            variable.len(),
            right,
        )
    })
}

/// Writes the sheet of a shared variable into `output`, and zeros behind it: `Listed`, or `Wrong` with 1, 2, 4 or 7.
pub fn sheet(state: &[u8], output: &mut [u8], variable: &[u8]) -> Answer {
    // Sound: the function reads `state` and `variable`, writes within `output`, which does not overlap them, and keeps nothing of the three.
    Answer::of(unsafe {
        exported::kivzurg_sheet(
            state.as_ptr(),
            state.len(),
            output.as_mut_ptr(),
            output.len(),
            variable.as_ptr(),
            variable.len(),
        )
    })
}
