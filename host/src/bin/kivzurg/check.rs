//! `kivzurg check FILE PROGRAM`.
//!
//! Whether a text parses is asked of the server: one on which the login is not right answers DENIED exactly where the text parses, and FAILED where it
//! does not.

use std::fs;

use kivzurg::{Kind, Server, LONGEST_PROGRAM};

use crate::command::{print, Arguments, Outcome};
use crate::keep::{self, trouble};

/// The shortest login, so that a test of one line is no longer than a program with that line.
const LOGIN: &[u8] = b"as principal a password\"\"do";
const EXIT: &[u8] = b"exit";
const LAST: &[u8] = b"***";

pub fn check(arguments: &Arguments) -> Outcome {
    let (file, path) = (arguments.path(0), arguments.path(1));
    let mut server = keep::read(file)?;
    let program = fs::read(path).map_err(trouble(path))?;
    if !parses(&program)? {
        print(&format!("{} does not parse: {}\n", path.display(), wrong(&program)?))?;
        return Ok(false);
    }
    let end = match server.run(&program) {
        Ok(report) => format!("would end: {}", report.kind),
        Err(error) => format!("would be refused: {error}"),
    };
    print(&format!("{} parses\non {} as it is now it {end} (nothing was kept)\n", path.display(), file.display()))?;
    Ok(true)
}

/// Two servers just made let in admin alone, each under its own password: on one of them at least the login is not right.
fn parses(program: &[u8]) -> Result<bool, String> {
    for password in ["a", "b"] {
        let mut server = Server::make(password.as_bytes()).map_err(|error| error.to_string())?;
        if server.run(program).map_err(|error| error.to_string())?.kind == Kind::Denied {
            return Ok(true);
        }
    }
    Ok(false)
}

/// The first thing that is wrong with a program that does not parse.
fn wrong(program: &[u8]) -> Result<String, String> {
    if program.len() > LONGEST_PROGRAM {
        return Ok(format!("it has {} bytes, and {LONGEST_PROGRAM} are the most", program.len()));
    }
    let lines: Vec<&[u8]> = program.split(|byte| *byte == b'\n').collect();
    let Some(end) = lines.iter().position(|line| *line == LAST) else {
        return Ok("it has no line that is just `***`".to_string());
    };
    // The lines that are no comments, with their numbers.
    let mut spoken = Vec::new();
    for (line, number) in lines[..end].iter().zip(1..) {
        if !parses(&[line, LOGIN, EXIT, LAST].join(&b'\n'))? {
            spoken.push((number, *line));
        }
    }
    for (place, (number, line)) in spoken.iter().enumerate() {
        if let Some(wanted) = unfit(line, place == 0, place + 1 == spoken.len())? {
            return Ok(format!("line {number} is not {wanted}: {}", String::from_utf8_lossy(line)));
        }
    }
    Ok(match spoken.len() {
        0 | 1 => "a login and then `exit` or `return` are the least that a program has".to_string(),
        _ => format!("line {}: nothing may follow the line `***`", end + 2),
    })
}

/// What the line should be and is not, by its place among the lines that are no comments.
fn unfit(line: &[u8], is_first: bool, is_last: bool) -> Result<Option<&'static str>, String> {
    let (text, wanted) = match (is_first, is_last) {
        (true, _) => (vec![line, EXIT, LAST], "a login, `as principal NAME password \"..\" do`"),
        (false, true) => (vec![LOGIN, line, LAST], "`exit` or `return` with an expression"),
        (false, false) => (vec![LOGIN, line, EXIT, LAST], "a command"),
    };
    Ok(if parses(&text.join(&b'\n'))? { None } else { Some(wanted) })
}
