//! What a program meets of older names: those that a state still holds though
//! they have become keywords (02, M-104).

use crate::engine::End;
use crate::names::keyword;
use crate::parse::parse;
use crate::rights::Assertion;
use crate::state::State;
use crate::syntax::{Command, Delegation, Target};
use crate::text::decode;
use crate::token::{Scanner, Token};
use crate::value::{Item, Value};

/// What there may be to tell. The first three are told of each program that is
/// completed on such a state.
pub const OLDER: [&str; 8] = [
    "older principal in the state",
    "older variable in the state",
    "older label in the state",
    "older name in a program that does not parse for it",
    "older name as a sender with its password",
    "older variable taken by all",
    "older variable handed to a new principal",
    "older label returned",
];

/// A program, how it ended, and the state before and after it.
pub struct Met<'a> {
    pub before: &'a [u8],
    pub program: &'a [u8],
    pub end: End,
    pub output: &'a [u8],
    pub after: &'a [u8],
}

/// Whether a word has become a keyword after it could be a name.
pub fn is_older(word: &[u8]) -> bool {
    keyword(word).is_some_and(|keyword| keyword.was_a_name())
}

/// Of [`OLDER`].
pub fn older(met: &Met) -> Vec<&'static str> {
    let Some((before, _)) = decode(met.before) else {
        return Vec::new();
    };
    let held = held(&before);
    if held == [false; 3] {
        return Vec::new();
    }
    if !matches!(met.end, End::Returned | End::Exited) {
        return written(&before, met.program).into_iter().collect();
    }
    let mut told: Vec<&str> = (0..3).filter(|&at| held[at]).map(|at| OLDER[at]).collect();
    told.extend(handed_on(&before, met));
    if returns_label(met.output) {
        told.push(OLDER[7]);
    }
    told
}

/// Whether there are older names of principals, of variables, and labels.
fn held(state: &State) -> [bool; 3] {
    let in_item = |item: &Item| match item {
        Item::Text(_) => false,
        Item::Record(record) => record.fields().iter().any(|field| is_older(field.label)),
    };
    let in_value = |value: &Value| match value {
        Value::Item(item) => in_item(item),
        Value::List(list) => list.items().iter().any(in_item),
    };
    [
        state.principals.iter().any(|one| is_older(one.name)),
        state.variables.iter().any(|one| is_older(one.name)),
        state.variables.iter().any(|one| in_value(&one.value)),
    ]
}

/// Where a program does not parse for one older name that the state holds, and
/// would with another word in its place: whether it is the sender's, with the
/// right password, or stands elsewhere.
fn written(state: &State, program: &[u8]) -> Option<&'static str> {
    if parse(program).is_some() {
        return None;
    }
    let mut scanner = Scanner::new(program);
    while let Some(token) = scanner.token() {
        let end = scanner.position();
        let Token::Keyword(word) = token else {
            continue;
        };
        if !word.was_a_name() {
            continue;
        }
        let start = program[..end]
            .iter()
            .rposition(|byte| !byte.is_ascii_alphabetic())
            .map_or(0, |at| at + 1);
        if let Some(told) = mended(state, program, start, end) {
            return Some(told);
        }
    }
    None
}

/// The same for the name that stands in one place.
fn mended(state: &State, program: &[u8], start: usize, end: usize) -> Option<&'static str> {
    let name = &program[start..end];
    let other = name.to_ascii_uppercase();
    let mended = [&program[..start], &other, &program[end..]].concat();
    let parsed = parse(&mended)?;
    let principal = state.principals.find(name);
    if parsed.principal == other {
        let password = state.principals.get(principal?).password;
        return (password == Some(parsed.password)).then_some(OLDER[4]);
    }
    let is_there = principal.is_some() || state.variables.find(name).is_some();
    is_there.then_some(OLDER[3])
}

/// Whether the assertions about older variables changed, which no program can
/// name: by `all`, or by a new principal.
fn handed_on(before: &State, met: &Met) -> Option<&'static str> {
    let (after, _) = decode(met.after)?;
    if about_older(before) == about_older(&after) {
        return None;
    }
    let takes_all = |command: &Command| {
        matches!(
            command,
            Command::SetDelegation(Delegation {
                target: Target::All,
                ..
            }) | Command::DeleteDelegation(Delegation {
                target: Target::All,
                ..
            })
        )
    };
    let takes_all = parse(met.program)?.commands.iter().any(takes_all);
    Some(OLDER[if takes_all { 5 } else { 6 }])
}

fn about_older(state: &State) -> Vec<Assertion> {
    let standing = state.standing().iter();
    let about = standing.filter(|one| is_older(state.variables.get(one.variable).name));
    about.copied().collect()
}

/// Whether a record is printed that has such a label.
fn returns_label(output: &[u8]) -> bool {
    output
        .split(|&byte| byte == b'"')
        .collect::<Vec<_>>()
        .windows(2)
        .any(|pair| is_older(pair[0]) && pair[1].starts_with(b":"))
}
