//! `kivzurg`: a host that keeps a server in a file, and tools to look at that file. `kivzurg --help` says what there is.

mod bring;
mod chain;
mod check;
mod command;
mod journal;
mod keep;
mod make;
mod progress;
mod reading;
mod replay;
mod run;
mod sheet;
mod show;
mod stream;
mod time;
mod who;
mod why;

use std::env;
use std::ffi::OsString;
use std::process::ExitCode;

use command::{Arguments, Command, COMMANDS};

const DONE: u8 = 0;
const NO: u8 = 1;
const MISUSED: u8 = 2;
const TROUBLE: u8 = 3;

fn main() -> ExitCode {
    let words: Vec<OsString> = env::args_os().skip(1).collect();
    ExitCode::from(answered(&words))
}

fn answered(words: &[OsString]) -> u8 {
    let Some(first) = words.first() else { return misused("a command is missing") };
    let first = first.to_string_lossy();
    if ["--help", "-h", "help"].contains(&&*first) {
        return said(&command::help());
    }
    if first == "--version" {
        return said(&format!("kivzurg {}\n", env!("CARGO_PKG_VERSION")));
    }
    let Some(command) = COMMANDS.iter().find(|command| command.name == first) else {
        return misused(&format!("there is no command {first}"));
    };
    if words[1..].iter().any(|word| word == "--help" || word == "-h") {
        return said(&command.help());
    }
    match Arguments::of(command, &words[1..]) {
        Ok(arguments) => carried_out(command, &arguments),
        Err(wrong) => misused(&format!("{}: {wrong}", command.name)),
    }
}

fn carried_out(command: &Command, arguments: &Arguments) -> u8 {
    match (command.run)(arguments) {
        Ok(true) => DONE,
        Ok(false) => NO,
        Err(trouble) => {
            eprintln!("kivzurg {}: {trouble}", command.name);
            TROUBLE
        }
    }
}

fn misused(what: &str) -> u8 {
    eprintln!("kivzurg: {what}; `kivzurg --help` says what there is");
    MISUSED
}

fn said(text: &str) -> u8 {
    command::print(text).map_or(TROUBLE, |()| DONE)
}
