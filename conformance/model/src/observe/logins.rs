//! How the login of a program stands to the principals of a state (02, M-105),
//! told from the state's lines and the program's text.

use crate::parse::parse;
use crate::state::State;
use crate::syntax::{Command, Last, Program};
use crate::text::decode;

/// How a login may stand to a state.
#[derive(Clone, Copy, PartialEq, Eq, Debug)]
pub enum Login {
    Right,
    NameMissing,
    AnotherPassword,
    NoPasswordKept,
}

/// What is told of a program by its login: of one that parses, and of a text
/// that does not but begins with a login.
pub const PARSED: [&str; 4] = [
    "login right",
    "login of a missing name",
    "login with another password",
    "login where no password is kept",
];
pub const UNPARSED: [&str; 4] = [
    "no program: login right",
    "no program: login of a missing name",
    "no program: login with another password",
    "no program: login where no password is kept",
];

/// What else may be told of a missing name in a program that parses.
pub const MISSING: [&str; 6] = [
    "missing name: a variable has it",
    "missing name: a principal's but for the case",
    "missing name: the start of a principal's",
    "missing name: as long as a name may be",
    "missing name: its program creates it",
    "missing name: its program ends by exit",
];

/// Of [`PARSED`], [`UNPARSED`] and [`MISSING`], where the state is open.
pub fn logins(state: &[u8], program: &[u8]) -> Vec<&'static str> {
    let Some((state, _)) = decode(state).filter(|(state, _)| state.open) else {
        return Vec::new();
    };
    if let Some(program) = parse(program) {
        let login = stands(&state, &program);
        let mut told = vec![PARSED[login as usize]];
        if login == Login::NameMissing {
            told.extend(missing(&state, &program));
        }
        return told;
    }
    let first = first_line(program);
    let login = parse(&first).map(|program| stands(&state, &program));
    login
        .map(|login| UNPARSED[login as usize])
        .into_iter()
        .collect()
}

/// How the login of a program stands to a state.
pub fn stands(state: &State, program: &Program) -> Login {
    let of_name = state
        .principals
        .iter()
        .find(|one| one.name == program.principal);
    match of_name.map(|one| one.password) {
        None => Login::NameMissing,
        Some(None) => Login::NoPasswordKept,
        Some(Some(password)) if password == program.password => Login::Right,
        Some(Some(_)) => Login::AnotherPassword,
    }
}

/// The first line that is no comment as a program of its own.
fn first_line(text: &[u8]) -> Vec<u8> {
    let mut lines = text.split(|byte| *byte == b'\n');
    let line = lines.find(|line| !line.starts_with(b"//"));
    [line.unwrap_or_default(), b"\nexit\n***"].concat()
}

fn missing(state: &State, program: &Program) -> Vec<&'static str> {
    let name = program.principal;
    let principal = |is: &dyn Fn(&[u8]) -> bool| state.principals.iter().any(|one| is(one.name));
    let creates =
        |command: &Command| matches!(command, Command::CreatePrincipal(made, _) if *made == name);
    let is_so = [
        state.variables.find(name).is_some(),
        principal(&|other| other.eq_ignore_ascii_case(name)),
        principal(&|other| other.starts_with(name)),
        name.len() == 255,
        program.commands.iter().any(creates),
        program.last == Last::Exit,
    ];
    (0..6)
        .filter(|&at| is_so[at])
        .map(|at| MISSING[at])
        .collect()
}
