//! What became of the calls of functions, of the lets and of filtereach in a
//! program, of its login and of its sender's count, told in a few words each.
//! Random tests count them, so that no form and no mishap is left out
//! unnoticed.

pub mod comparisons;
pub mod filters;
pub mod lets;
pub mod logins;
pub mod older;
pub mod prices;
pub mod shapes;

use crate::engine::login;
use crate::parse::parse;
use crate::session::{Session, Undone};
use crate::state::{Variable, HEAVIEST};
use crate::strings::Strings;
use crate::syntax::{
    Call, Command, Comparison, Each, Expression, Last, Operand, Operation, Plain, Program,
};
use crate::text::decode;
use crate::value::{Item, Value};

pub const FUNCTIONS: [&str; 9] = [
    "split", "concat", "tolower", "add", "sub", "times", "per", "equal", "notequal",
];

/// Where an expression may stand. A call that was done is told as "split in
/// set", and one within a let as "split in let".
pub const PLACES: [&str; 6] = ["set", "append", "local", "foreach", "filtereach", "return"];

/// What a call may come to where the program ends with it. Where its strings
/// are no prices, or have no result, [`prices::FAILURES`] has the words.
pub const MISHAPS: [&str; 10] = [
    "DENIED by an argument",
    "FAILED by a missing name",
    "FAILED by a missing field",
    "FAILED by a list",
    "FAILED by a record",
    "FAILED by an element",
    "FULL by an argument",
    "FULL by a result",
    "FULL by what is left",
    "FAILED behind strings that are too heavy",
];

/// How a sender's count may move, where that is worth seeing.
pub const COUNTS: [&str; 5] = [
    "count from 9 to 10",
    "count from 99 to 100",
    "count to ten digits",
    "count reaches 4294967295",
    "count stays at 4294967295",
];

/// How the sender's count moved, of [`COUNTS`], from the state before a
/// program to the state after it, where that is one of these.
pub fn count(before: &[u8], program: &[u8], after: &[u8]) -> Option<&'static str> {
    let sender = parse(program)?.principal;
    let completed = |state| {
        let (state, _) = decode(state)?;
        let number = state.principals.find(sender)?;
        Some(state.principals.get(number).completed)
    };
    match (completed(before)?, completed(after)?) {
        (9, 10) => Some(COUNTS[0]),
        (99, 100) => Some(COUNTS[1]),
        (999_999_999, 1_000_000_000) => Some(COUNTS[2]),
        (4_294_967_294, u32::MAX) => Some(COUNTS[3]),
        (u32::MAX, u32::MAX) => Some(COUNTS[4]),
        _ => None,
    }
}

/// What became of the calls, lets and filtereaches in a program that is run on
/// a state: of each that was done, and of the one with which the program ended.
/// Where the program does not parse for how one is written, that.
pub fn expressions(state: &[u8], program: &[u8]) -> Vec<String> {
    let strings = Strings::default();
    let Some((state, _)) = decode(state).filter(|(state, _)| state.open) else {
        return Vec::new();
    };
    let Some(parsed) = parse(program) else {
        return told(shapes::misshapen(program));
    };
    let Ok(sender) = login(&state, &parsed) else {
        return Vec::new();
    };
    let mut session = Session::new(state, sender, &strings);
    let mut told = Vec::new();
    for command in &parsed.commands {
        let placed = placed(command).map(|placed| (placed, session.clone()));
        let outcome = session.step(command);
        if let Some((placed, before)) = placed {
            told.extend(placed.tried(&before, Some(command), outcome).told());
        }
        if outcome.is_err() {
            return told;
        }
    }
    if let Some(placed) = placed_last(&parsed.last) {
        let before = session.clone();
        let outcome = session.evaluate(placed.expression).map(|_| ());
        told.extend(placed.tried(&before, None, outcome).told());
    }
    told
}

fn told<'s>(words: impl IntoIterator<Item = &'s str>) -> Vec<String> {
    words.into_iter().map(str::to_string).collect()
}

/// The calls and lets that a program has, as they would be told if they were
/// done.
pub fn written(program: &Program) -> Vec<String> {
    let commands = program.commands.iter().filter_map(placed);
    let all = commands.chain(placed_last(&program.last));
    let told = all.filter_map(|placed| match placed.expression {
        Expression::Plain(Plain::Call(call)) => Some(done(call, placed.place)),
        Expression::Plain(_) => None,
        Expression::Lets(_) => Some(format!("let in {}", placed.place)),
    });
    told.collect()
}

/// An expression and where it stands.
#[derive(Clone, Copy)]
struct Placed<'t, 'a> {
    place: &'static str,
    expression: &'t Expression<'a>,
    /// The foreach or filtereach that it stands in.
    each: Option<&'t Each<'a>>,
    /// The name that the command would make.
    makes: Option<&'a [u8]>,
}

fn placed<'t, 'a>(command: &'t Command<'a>) -> Option<Placed<'t, 'a>> {
    let (place, expression, each, makes) = match command {
        Command::Set(name, expression) => (PLACES[0], expression, None, Some(*name)),
        Command::Append(_, expression) => (PLACES[1], expression, None, None),
        Command::Local(name, expression) => (PLACES[2], expression, None, Some(*name)),
        Command::Foreach(each) => (PLACES[3], &each.expression, Some(each), None),
        Command::Filtereach(each) => (PLACES[4], &each.expression, Some(each), None),
        _ => return None,
    };
    Some(Placed {
        place,
        expression,
        each,
        makes,
    })
}

fn placed_last<'t, 'a>(last: &'t Last<'a>) -> Option<Placed<'t, 'a>> {
    match last {
        Last::Return(expression) => Some(Placed {
            place: PLACES[5],
            expression,
            each: None,
            makes: None,
        }),
        Last::Exit => None,
    }
}

impl<'t, 'a> Placed<'t, 'a> {
    fn tried(
        self,
        before: &'t Session<'a>,
        command: Option<&'t Command<'a>>,
        outcome: Result<(), Undone>,
    ) -> Tried<'t, 'a> {
        Tried {
            before,
            command,
            placed: self,
            outcome,
        }
    }
}

/// An expression, the session before its command, and how that ended. There is
/// no command where the program returns the expression.
struct Tried<'t, 'a> {
    before: &'t Session<'a>,
    command: Option<&'t Command<'a>>,
    placed: Placed<'t, 'a>,
    outcome: Result<(), Undone>,
}

impl<'a> Tried<'_, 'a> {
    fn told(&self) -> Vec<String> {
        let mut told = Vec::new();
        if self.is_decided_by_the_expression() {
            match self.placed.expression {
                Expression::Plain(Plain::Call(call)) => told.extend(self.call(call)),
                Expression::Plain(_) => {}
                Expression::Lets(steps) => told.extend(lets::told(self, steps)),
            }
        }
        if let Some(Command::Filtereach(each)) = self.command {
            told.extend(filters::told(self, each));
        }
        told
    }

    /// Whether the expression is evaluated, and the command is done or ends
    /// otherwise with an empty string in its place.
    fn is_decided_by_the_expression(&self) -> bool {
        if self.elements().is_empty() {
            return false;
        }
        match self.command {
            Some(command) if self.outcome.is_err() => {
                self.before.clone().step(&without_expression(command)) != self.outcome
            }
            _ => true,
        }
    }

    /// What y stands for each time that the expression is evaluated; nothing
    /// where there is no y.
    fn elements(&self) -> Vec<Option<Variable<'a>>> {
        let Some(each) = self.placed.each else {
            return vec![None];
        };
        let list = self.before.read(each.list).and_then(Value::list);
        let items = list.map_or(&[][..], |list| list.items());
        if self.before.is_defined(each.element) {
            return Vec::new();
        }
        let element = |item: &Item<'a>| Variable {
            name: each.element,
            value: Value::Item(item.clone()),
        };
        items.iter().map(|item| Some(element(item))).collect()
    }

    /// The call with its values each time that it is evaluated; none where an
    /// argument is a list or has no value.
    fn applied(&self, call: &Call<Operand<'a>>) -> Vec<Option<Call<Item<'a>>>> {
        let mut session = self.before.clone();
        let elements = self.elements().into_iter();
        let applied = elements.map(|element| {
            session.element = element;
            call.map(|operand| session.item(operand))
        });
        applied.collect()
    }

    fn call(&self, call: &Call<Operand<'a>>) -> Vec<String> {
        match self.outcome {
            Ok(()) => {
                let applied = self.applied(call).into_iter().flatten();
                let beside = applied.flat_map(|call| beside(&call));
                let mut all = vec![done(call, self.placed.place)];
                all.extend(told(beside));
                all
            }
            Err(undone) => told(self.mishap(call, undone)),
        }
    }

    /// Why the call could not be done, of [`MISHAPS`] or [`prices::FAILURES`].
    fn mishap(&self, call: &Call<Operand<'a>>, undone: Undone) -> Vec<&'static str> {
        match undone {
            Undone::Denied => vec![MISHAPS[0]],
            Undone::Failed => self.failure(call),
            Undone::Full if call.arguments().any(heavy) => vec![MISHAPS[6]],
            Undone::Full => {
                let results = self.results(&self.applied(call));
                let is_full = results.contains(&Err(Undone::Full));
                vec![MISHAPS[if is_full { 7 } else { 8 }]]
            }
        }
    }

    /// Why it is FAILED: an argument that it cannot take whatever the element
    /// is, an element that gives such a one, or values for which it fails.
    fn failure(&self, call: &Call<Operand<'a>>) -> Vec<&'static str> {
        let element = self.placed.each.map(|each| each.element);
        let mut outside = call
            .arguments()
            .filter(|operand| element.is_none() || element != named(operand));
        let takes_records = matches!(call, Call::Compare(..));
        let untakable = |operand| untakable(self.before, operand, takes_records);
        if let Some(why) = outside.find_map(untakable) {
            return vec![why];
        }
        let applied = self.applied(call);
        let results = self.results(&applied);
        let fails = |result: &Result<Item, Undone>| *result == Err(Undone::Failed);
        let at = results.iter().position(fails).unwrap_or(results.len());
        let beside = applied.get(at).and_then(Option::as_ref).map(beside);
        let mut why = beside.unwrap_or_default();
        if why.is_empty() {
            why.push(MISHAPS[5]);
        }
        if self.is_heavy(&results[..at]) {
            why.push(match call {
                Call::Prices(..) => prices::FAILURES[7],
                _ => MISHAPS[9],
            });
        }
        why
    }

    fn results(&self, applied: &[Option<Call<Item<'a>>>]) -> Vec<Result<Item<'a>, Undone>> {
        let result = |call: &Option<Call<Item<'a>>>| match call {
            Some(call) => call.result(&self.before.maker),
            None => Err(Undone::Failed),
        };
        applied.iter().map(result).collect()
    }

    /// Whether one of these results weighs too much, or in a foreach all of
    /// them together.
    fn is_heavy(&self, results: &[Result<Item, Undone>]) -> bool {
        let weight: usize = results.iter().flatten().map(|item| 1 + item.weight()).sum();
        let is_kept = self.placed.place == PLACES[3];
        results.contains(&Err(Undone::Full)) || is_kept && weight > HEAVIEST
    }
}

fn done<A>(call: &Call<A>, place: &str) -> String {
    let function = match call {
        Call::Split(..) => FUNCTIONS[0],
        Call::Concat(..) => FUNCTIONS[1],
        Call::Tolower(..) => FUNCTIONS[2],
        Call::Prices(Operation::Add, ..) => FUNCTIONS[3],
        Call::Prices(Operation::Sub, ..) => FUNCTIONS[4],
        Call::Prices(Operation::Times, ..) => FUNCTIONS[5],
        Call::Prices(Operation::Per, ..) => FUNCTIONS[6],
        Call::Compare(Comparison::Equal, ..) => FUNCTIONS[7],
        Call::Compare(Comparison::Notequal, ..) => FUNCTIONS[8],
    };
    format!("{function} in {place}")
}

/// What is told beside a call: how a price was rounded or why there is none,
/// and how what was compared stands to each other.
fn beside(call: &Call<Item>) -> Vec<&'static str> {
    match call {
        Call::Prices(operation, Item::Text(first), Item::Text(second)) => {
            prices::outcome(*operation, first, second)
        }
        Call::Compare(_, first, second) => vec![comparisons::compared(first, second)],
        _ => Vec::new(),
    }
}

/// The command with an empty string for its expression.
fn without_expression<'a>(command: &Command<'a>) -> Command<'a> {
    let empty = Expression::Plain(Plain::Operand(Operand::Text(b"")));
    match command {
        Command::Set(name, _) => Command::Set(name, empty),
        Command::Append(name, _) => Command::Append(name, empty),
        Command::Local(name, _) => Command::Local(name, empty),
        Command::Foreach(each) => Command::Foreach(Each {
            expression: empty,
            ..*each
        }),
        Command::Filtereach(each) => Command::Filtereach(Each {
            expression: empty,
            ..*each
        }),
        other => other.clone(),
    }
}

/// Only a string that the program itself has can weigh too much.
fn heavy(operand: &Operand) -> bool {
    matches!(operand, Operand::Text(text) if text.len() > HEAVIEST)
}

fn named<'a>(operand: &Operand<'a>) -> Option<&'a [u8]> {
    match *operand {
        Operand::Variable(name) | Operand::Field(name, _) => Some(name),
        Operand::Text(_) => None,
    }
}

/// Why a function cannot take an argument, where it cannot.
fn untakable(session: &Session, operand: &Operand, takes_records: bool) -> Option<&'static str> {
    let Some(value) = session.read(named(operand)?) else {
        return Some(MISHAPS[1]);
    };
    match (value, operand) {
        (Value::Item(item), Operand::Field(_, label)) => {
            item.field(label).is_none().then_some(MISHAPS[2])
        }
        (Value::List(_), Operand::Field(..)) => Some(MISHAPS[2]),
        (Value::List(_), _) => Some(MISHAPS[3]),
        (Value::Item(_), _) if takes_records => None,
        (Value::Item(item), _) => item.text().is_none().then_some(MISHAPS[4]),
    }
}
