//! The tool's own reading of a state's text (docs/LANGUAGE.md, "The state"). Nothing is proved of it: the server says whether a state is well formed
//! and who has a right, and this says how to show it. Passwords are passed over.

use std::fmt;
use std::str;

use kivzurg::{Buffer, Right};

pub enum Item<'a> {
    Text(&'a str),
    Record(Vec<(&'a str, &'a str)>),
}

pub struct Variable<'a> {
    pub name: &'a str,
    pub is_list: bool,
    /// A list's elements, or the one value.
    pub items: Vec<Item<'a>>,
}

#[derive(Clone, Copy)]
pub struct Assertion<'a> {
    pub variable: &'a str,
    pub from: &'a str,
    pub right: Right,
    pub to: &'a str,
}

#[derive(Clone, Copy)]
pub struct Principal<'a> {
    pub name: &'a str,
    /// One without cannot log in.
    pub has_password: bool,
    /// How many programs it has completed.
    pub count: &'a str,
}

#[derive(Default)]
pub struct Reading<'a> {
    pub is_open: bool,
    /// In order of creation.
    pub principals: Vec<Principal<'a>>,
    pub delegator: &'a str,
    pub variables: Vec<Variable<'a>>,
    pub assertions: Vec<Assertion<'a>>,
}

impl<'a> Reading<'a> {
    pub fn of(state: &'a Buffer) -> Result<Reading<'a>, String> {
        let text = str::from_utf8(state).map_err(|_| "the tool cannot read the state")?;
        let mut reading = Reading::default();
        for (number, line) in text.trim_end_matches('\0').lines().enumerate() {
            let fields: Vec<&str> = line.split('\t').collect();
            reading.take(&fields).ok_or_else(|| format!("the tool cannot read line {} of the state", number + 1))?;
        }
        Ok(reading)
    }

    fn take(&mut self, fields: &[&'a str]) -> Option<()> {
        match *fields {
            [word @ ("O" | "C")] => self.is_open = word == "O",
            ["P", name, _, count] => self.principals.push(Principal { name, has_password: true, count }),
            ["N", name, count] => self.principals.push(Principal { name, has_password: false, count }),
            ["D", name] => self.delegator = name,
            ["V", name, "S", text] => self.begin(name, false, vec![Item::Text(text)]),
            ["V", name, "R"] => self.begin(name, false, vec![Item::Record(Vec::new())]),
            ["V", name, "L"] => self.begin(name, true, Vec::new()),
            ["S", text] => self.variables.last_mut()?.items.push(Item::Text(text)),
            ["R"] => self.variables.last_mut()?.items.push(Item::Record(Vec::new())),
            ["F", label, text] => match self.variables.last_mut()?.items.last_mut()? {
                Item::Record(fields) => fields.push((label, text)),
                Item::Text(_) => return None,
            },
            ["A", variable, from, letter, to] => {
                let right = Right::ALL.into_iter().find(|right| [right.letter()] == letter.as_bytes())?;
                self.assertions.push(Assertion { variable, from, right, to });
            }
            _ => return None,
        }
        Some(())
    }

    fn begin(&mut self, name: &'a str, is_list: bool, items: Vec<Item<'a>>) {
        self.variables.push(Variable { name, is_list, items });
    }
}

impl fmt::Display for Item<'_> {
    fn fmt(&self, f: &mut fmt::Formatter<'_>) -> fmt::Result {
        match self {
            Item::Text(text) => write!(f, "\"{text}\""),
            Item::Record(fields) => {
                let fields: Vec<String> = fields.iter().map(|(label, text)| format!("{label}=\"{text}\"")).collect();
                write!(f, "{{{}}}", fields.join(", "))
            }
        }
    }
}

/// As a program writes it.
impl fmt::Display for Assertion<'_> {
    fn fmt(&self, f: &mut fmt::Formatter<'_>) -> fmt::Result {
        write!(f, "{} {} {} -> {}", self.variable, self.from, self.right, self.to)
    }
}
