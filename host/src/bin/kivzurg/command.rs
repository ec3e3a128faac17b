//! The commands, their arguments and their help, in one table.

use std::ffi::OsString;
use std::io::{self, Write};
use std::path::{Path, PathBuf};

use crate::{bring, check, make, replay, run, sheet, show, who, why};

/// Done or yes; no; or what went wrong, in words.
pub type Outcome = Result<bool, String>;

/// On standard output.
pub fn print(text: &str) -> Result<(), String> {
    io::stdout().write_all(text.as_bytes()).map_err(|error| format!("standard output: {error}"))
}

pub struct Command {
    pub name: &'static str,
    /// The words that it takes; those in brackets may be left out.
    pub words: &'static [&'static str],
    pub takes_journal: bool,
    pub gist: &'static str,
    pub detail: &'static str,
    pub run: fn(&Arguments) -> Outcome,
}

pub const COMMANDS: &[Command] = &[
    Command {
        name: "make",
        words: &["FILE"],
        takes_journal: false,
        gist: "make a server, kept in FILE",
        detail: "\
The first line of standard input is admin's password: letters, digits, space and _ , ; . ? ! -, at most 1,024 of them.
FILE must not exist. It is a secret, since it holds every password in clear; only its owner may read it (mode 0600).",
        run: make::make,
    },
    Command {
        name: "bring",
        words: &["OLD", "NEW"],
        takes_journal: false,
        gist: "bring a state kept by 0.3.0 or before over, into NEW",
        detail: "\
OLD has one count for all programs. It is only read, and stays as it is. NEW gets the same state with a count for each principal, each starting
from 0; it is as secret as OLD (mode 0600). Each principal weighs 10 more than before, and a state that would weigh more than 8,192 is refused.

NEW is written beside its place, synced and renamed. Killed at any moment, the command can be given again. A NEW that exists already is refused
unless it is just what OLD gives, since programs may have been run on it. OLD.lock and NEW.lock are held meanwhile.
A journal goes with its state: the old one stays with OLD, and NEW begins another.",
        run: bring::bring,
    },
    Command {
        name: "run",
        words: &["FILE"],
        takes_journal: true,
        gist: "run the programs of standard input",
        detail: "\
Each program ends with a line `***`. Its lines are printed once it is kept: FILE is written anew beside the old one, synced and renamed.
Killed at any moment, the host loses nothing that it has answered. It stops at the end of the input or after a program that ends with `exit`.
FILE.lock is held meanwhile, so that no second host writes FILE.

With --journal each program is appended to JOURNAL before it is answered, with the time and its length. JOURNAL is made where there is none.
It holds programs with their passwords and is as secret as FILE. Once a state has a journal, give it on every run.",
        run: run::run,
    },
    Command {
        name: "show",
        words: &["FILE"],
        takes_journal: false,
        gist: "print the state for reading, without passwords",
        detail: "\
The server checks that FILE is well formed. What is printed is the tool's own reading of it. Names and labels that became keywords after they were
given are listed last: they stay, and no program can write them.",
        run: show::show,
    },
    Command {
        name: "who",
        words: &["FILE", "VARIABLE"],
        takes_journal: false,
        gist: "print each principal and its rights on a variable",
        detail: "\
A number is the server's answer: the steps of a shortest chain of delegation from admin to that name. A `-` says that there is no chain, so that
the right is not held. The names are the tool's own reading of FILE.",
        run: who::who,
    },
    Command {
        name: "sheet",
        words: &["FILE", "VARIABLE"],
        takes_journal: false,
        gist: "print a sheet for the wall: who may do what with a variable",
        detail: "\
One line of 40 bytes for each principal, in order of creation: the name in 34 columns, a space, and r, w, a, d (read, write, append, delegate), with
a point where the right is missing. All of it is the server's answer. A name longer than 34 is cut to its first 33 characters and `~`, so that two
long names may look alike; each has its own line. `who` prints names whole, and how long the chains are.
A closed server has a sheet too. It holds no password.",
        run: sheet::sheet,
    },
    Command {
        name: "why",
        words: &["FILE", "NAME", "VARIABLE", "RIGHT"],
        takes_journal: false,
        gist: "say whether a name holds a right, and by which chain",
        detail: "\
RIGHT is read, write, append or delegate. Yes or no and the length are the server's answer. The chain's names are the tool's own reading of FILE;
the tool finds a shortest chain by itself and stops where its length is not the server's.",
        run: why::why,
    },
    Command {
        name: "check",
        words: &["FILE", "PROGRAM"],
        takes_journal: false,
        gist: "say whether a program parses, and how it would end",
        detail: "\
PROGRAM is a file with one program. Whether it parses, and how it would end on the state in FILE as it is now, is the server's answer; nothing is
kept. Where it does not parse the first wrong line is named: the server is asked about each line by itself.",
        run: check::check,
    },
    Command {
        name: "replay",
        words: &["JOURNAL", "[FILE]"],
        takes_journal: false,
        gist: "run a journal's programs again and compare",
        detail: "\
After each program the way it ended and the state's bytes must be those that the journal has (by a checksum of 64 bits); the first that differs is
named. With FILE the last state is compared with FILE byte by byte or, where there is no such file, written to it.",
        run: replay::replay,
    },
];

impl Command {
    fn form(&self) -> String {
        let journal = if self.takes_journal { " [--journal JOURNAL]" } else { "" };
        format!("kivzurg {} {}{journal}", self.name, self.words.join(" "))
    }

    pub fn help(&self) -> String {
        format!("{}\n\n{}.\n\n{}\n", self.form(), self.gist, self.detail)
    }
}

/// What `kivzurg --help` prints.
pub fn help() -> String {
    let mut text = String::from("kivzurg keeps a server of shared lists in a file, runs programs on it and says who may do what.\n\n");
    for command in COMMANDS {
        text += &format!("  {:<52}{}\n", command.form(), command.gist);
    }
    text + "
An evening:

  kivzurg make venue.state
  kivzurg run venue.state --journal venue.journal < programs
  kivzurg show venue.state
  kivzurg who venue.state queue
  kivzurg sheet venue.state queue | lpr
  kivzurg why venue.state rosa queue append
  kivzurg check venue.state next-program
  kivzurg replay venue.journal venue.state

`kivzurg COMMAND --help` says more of one. docs/LANGUAGE.md says how programs are written and host/README.md what the limits are.

Exit status: 0 done, or yes; 1 no (why), does not parse (check), differs (replay); 2 the command line is wrong; 3 a file, or the server, refused.
The state and the journal hold passwords in clear: keep both secret.
"
}

/// The words of a command line, of the number that the command takes.
pub struct Arguments {
    words: Vec<OsString>,
    pub journal: Option<PathBuf>,
}

impl Arguments {
    pub fn of(command: &Command, given: &[OsString]) -> Result<Arguments, String> {
        let mut words = Vec::new();
        let mut journal = None;
        let mut given = given.iter();
        while let Some(word) = given.next() {
            if word == "--journal" && command.takes_journal {
                journal = Some(PathBuf::from(given.next().ok_or("--journal wants a file")?));
            } else if word.to_string_lossy().starts_with("--") {
                return Err(format!("there is no option {}", word.to_string_lossy()));
            } else {
                words.push(word.clone());
            }
        }
        let least = command.words.iter().filter(|word| !word.starts_with('[')).count();
        if words.len() < least || command.words.len() < words.len() {
            return Err(format!("it is used as `{}`", command.form()));
        }
        Ok(Arguments { words, journal })
    }

    pub fn path(&self, at: usize) -> &Path {
        Path::new(&self.words[at])
    }

    pub fn path_if_given(&self, at: usize) -> Option<&Path> {
        self.words.get(at).map(Path::new)
    }

    pub fn bytes(&self, at: usize) -> &[u8] {
        self.words[at].as_encoded_bytes()
    }
}
