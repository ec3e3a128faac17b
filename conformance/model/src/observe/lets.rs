//! What became of the lets in an expression (02, M-106), told by going through
//! its steps.

use std::collections::BTreeSet;
use std::mem;

use crate::rights::Right;
use crate::session::{Place, Session, Undone};
use crate::state::{Variable, HEAVIEST};
use crate::syntax::{Plain, Step};
use crate::value::{Item, Value};

use super::Tried;

/// What may be told of a let whose name was bound.
pub const BOUND: [&str; 7] = [
    "let of a string",
    "let of a record",
    "let of a list",
    "let of a name that came before",
    "let of the name that its command makes",
    "let within a first expression",
    "let within a second expression",
];

/// What a let may come to where it is not done: how an expression of it ended,
/// what its name was already, what its names weigh.
pub const UNDONE: [&str; 15] = [
    "let DENIED in its first expression",
    "let FAILED in its first expression",
    "let FULL in its first expression",
    "let DENIED in its second expression",
    "let FAILED in its second expression",
    "let FULL in its second expression",
    "let FAILED by a shared name",
    "let FAILED by a shared name that may not be read",
    "let FAILED by a local name",
    "let FAILED by the name of a let around it",
    "let FAILED by the name of an element",
    "let FAILED by its name behind a FULL first expression",
    "let FULL by the weight of its name",
    "let FULL by the weight of the names that live",
    "let leaves a read untried that is not had",
];

/// What may be told of a value that was there, where the state with it is FULL.
pub const LEFT: &str = "let FULL by what is left";

/// How the expression ended for a later element of a list than another; told
/// with the command's name before it. What is DENIED for one element cannot be
/// done for another, which tries as much and more.
pub const ELEMENTS: [&str; 5] = [
    "DENIED behind a FAILED element",
    "DENIED behind a FULL element",
    "FAILED behind an element that is done",
    "FAILED behind a FULL element",
    "FULL behind an element that is done",
];

/// Of [`BOUND`], [`UNDONE`] and [`ELEMENTS`]; [`LEFT`]; each place where a let
/// was done, and the functions in it.
pub(super) fn told<'a>(tried: &Tried<'_, 'a>, steps: &[Step<'a>]) -> Vec<String> {
    let mut walk = Walk {
        session: tried.before.clone(),
        makes: tried.placed.makes,
        came: Vec::new(),
        told: BTreeSet::new(),
    };
    let elements = tried.elements().into_iter();
    let outcomes: Vec<_> = elements
        .map(|element| walk.through(steps, element))
        .collect();
    let place = tried.placed.place;
    let mut told = walk.told;
    if tried.placed.each.is_some() {
        let behind = behind(&outcomes).into_iter();
        told.extend(behind.map(|words| format!("{place}: {words}")));
    }
    if tried.outcome.is_ok() {
        told.insert(format!("let in {place}"));
    } else if outcomes.iter().all(Result::is_ok) {
        told.insert(LEFT.to_string());
    }
    told.into_iter().collect()
}

/// Of [`ELEMENTS`].
fn behind(outcomes: &[Result<(), Undone>]) -> Vec<&'static str> {
    let kinds = [
        (Undone::Denied, Err(Undone::Failed)),
        (Undone::Denied, Err(Undone::Full)),
        (Undone::Failed, Ok(())),
        (Undone::Failed, Err(Undone::Full)),
        (Undone::Full, Ok(())),
    ];
    let comes = |&(undone, earlier): &(Undone, Result<(), Undone>)| {
        let last = outcomes.iter().rposition(|outcome| *outcome == Err(undone));
        last.is_some_and(|at| outcomes[..at].contains(&earlier))
    };
    let told = kinds.iter().zip(ELEMENTS);
    let told = told.filter(|(kind, _)| comes(kind));
    told.map(|(_, words)| words).collect()
}

struct Walk<'a> {
    session: Session<'a>,
    makes: Option<&'a [u8]>,
    /// The names that were bound.
    came: Vec<&'a [u8]>,
    told: BTreeSet<String>,
}

impl<'a> Walk<'a> {
    fn tell(&mut self, words: &str) {
        self.told.insert(words.to_string());
    }

    /// Goes through the steps as the session does.
    fn through(&mut self, steps: &[Step<'a>], element: Option<Variable<'a>>) -> Result<(), Undone> {
        self.session.element = element;
        self.came.clear();
        let mut outcome = Err(Undone::Failed);
        let mut untried = 0;
        for (at, step) in steps.iter().enumerate() {
            let next = steps.get(at + 1);
            match step {
                Step::Evaluate(plain) if untried > 0 => {
                    if self.session.plain(plain) == Err(Undone::Denied) {
                        self.tell(UNDONE[14]);
                    }
                }
                Step::Bind(_) if untried > 0 => untried += 1,
                Step::Unbind if untried > 0 => untried -= 1,
                Step::Evaluate(plain) => {
                    outcome = self.session.plain(plain);
                    self.evaluated(plain, &outcome, next);
                }
                Step::Bind(name) => {
                    let first = mem::replace(&mut outcome, Err(Undone::Failed));
                    self.binding(name, &first);
                    if let Err(undone) = self.session.bind(name, first) {
                        outcome = Err(undone);
                        untried = 1;
                    } else {
                        self.came.push(name);
                    }
                }
                Step::Unbind => {
                    self.session.bound.remove_last();
                    self.unbound(next);
                }
            }
        }
        outcome.map(|_| ())
    }

    /// The next step tells in which expression of a let this one stands.
    fn evaluated(
        &mut self,
        plain: &Plain<'a>,
        outcome: &Result<Value<'a>, Undone>,
        next: Option<&Step>,
    ) {
        match outcome {
            Ok(_) => {
                if let Plain::Call(call) = plain {
                    self.told.insert(super::done(call, "let"));
                    let items = call.map(|operand| self.session.item(operand));
                    let beside = items.iter().flat_map(super::beside);
                    self.told.extend(beside.map(str::to_string));
                }
            }
            Err(undone) => {
                let first = matches!(next, Some(Step::Bind(_)));
                self.tell(UNDONE[*undone as usize + if first { 0 } else { 3 }]);
            }
        }
    }

    /// What will come of binding the name to what its first expression came to.
    fn binding(&mut self, name: &'a [u8], first: &Result<Value<'a>, Undone>) {
        let is_defined = self.session.is_defined(name);
        match first {
            Err(Undone::Full) if is_defined => self.tell(UNDONE[11]),
            Err(_) => {}
            Ok(_) if is_defined => self.defined(name),
            Ok(value) => {
                let living = self.session.bound.weight();
                let weight = Variable::weighing(name, value);
                if living + weight > HEAVIEST {
                    self.tell(UNDONE[if weight > HEAVIEST { 12 } else { 13 }]);
                    return;
                }
                self.tell(match value {
                    Value::Item(Item::Text(_)) => BOUND[0],
                    Value::Item(Item::Record(_)) => BOUND[1],
                    Value::List(_) => BOUND[2],
                });
                if self.came.contains(&name) {
                    self.tell(BOUND[3]);
                }
                if self.makes == Some(name) {
                    self.tell(BOUND[4]);
                }
            }
        }
    }

    /// What the name of the let is already.
    fn defined(&mut self, name: &[u8]) {
        let kind = match self.session.find(name) {
            Some(Place::Shared(number)) if self.session.may(Right::Read, number) => 6,
            Some(Place::Shared(_)) => 7,
            Some(Place::Local(_)) => 8,
            None if self.session.bound.find(name).is_some() => 9,
            None => 10,
        };
        self.tell(UNDONE[kind]);
    }

    /// The next step tells whether the let that ended stands within another.
    fn unbound(&mut self, next: Option<&Step>) {
        match next {
            Some(Step::Bind(_)) => self.tell(BOUND[5]),
            Some(Step::Unbind) => self.tell(BOUND[6]),
            _ => {}
        }
    }
}
