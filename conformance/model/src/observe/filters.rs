//! What became of a filtereach (02, M-106).

use crate::rights::Right;
use crate::session::{Place, Session, Undone};
use crate::syntax::Each;
use crate::value::{Item, Value};

use super::Tried;

/// One of the first four is told of each that is done, and by what it removed
/// an element beside it; one of the next seven of each that is not. The last
/// is told beside some of these: the expression needs a read that is not had,
/// and is not evaluated.
pub const FILTERS: [&str; 15] = [
    "filtereach of an empty list",
    "filtereach keeps all",
    "filtereach keeps some",
    "filtereach keeps none",
    "filtereach removes by a string",
    "filtereach removes by a record",
    "filtereach removes by a list",
    "filtereach DENIED by its list",
    "filtereach DENIED by its expression",
    "filtereach FAILED by a missing name",
    "filtereach FAILED by what is no list",
    "filtereach FAILED by a defined name",
    "filtereach FAILED by its expression",
    "filtereach FULL by its expression",
    "filtereach leaves a read untried that is not had",
];

/// Of [`FILTERS`].
pub(super) fn told<'a>(tried: &Tried<'_, 'a>, each: &Each<'a>) -> Vec<String> {
    let mut session = tried.before.clone();
    let told = match tried.outcome {
        Ok(()) => {
            let elements = tried.elements().into_iter();
            let results = elements.map(|element| {
                session.element = element;
                session.evaluate(&each.expression).ok()
            });
            kept(&results.flatten().collect::<Vec<_>>())
        }
        Err(Undone::Denied) if lacks(&mut session, each) => vec![FILTERS[7]],
        Err(Undone::Denied) => vec![FILTERS[8]],
        Err(Undone::Failed) => failure(&mut session, each),
        Err(Undone::Full) => vec![FILTERS[13]],
    };
    super::told(told)
}

fn kept(results: &[Value]) -> Vec<&'static str> {
    let removal = |result: &Value| match result {
        Value::Item(Item::Text(b"")) => None,
        Value::Item(Item::Text(_)) => Some(FILTERS[4]),
        Value::Item(Item::Record(_)) => Some(FILTERS[5]),
        Value::List(_) => Some(FILTERS[6]),
    };
    let mut told: Vec<&str> = results.iter().filter_map(removal).collect();
    let (all, removed) = (results.len(), told.len());
    told.dedup();
    told.push(
        FILTERS[match removed {
            _ if all == 0 => 0,
            0 => 1,
            _ if removed < all => 2,
            _ => 3,
        }],
    );
    told
}

fn lacks(session: &mut Session, each: &Each) -> bool {
    match session.find(each.list) {
        Some(Place::Shared(number)) => {
            !session.may(Right::Read, number) || !session.may(Right::Write, number)
        }
        _ => false,
    }
}

fn failure<'a>(session: &mut Session<'a>, each: &Each<'a>) -> Vec<&'static str> {
    let mut told = vec![match session.read(each.list) {
        None => FILTERS[9],
        Some(Value::Item(_)) => FILTERS[10],
        Some(Value::List(_)) if session.is_defined(each.element) => FILTERS[11],
        Some(Value::List(_)) => return vec![FILTERS[12]],
    }];
    if session.evaluate(&each.expression) == Err(Undone::Denied) {
        told.push(FILTERS[14]);
    }
    told
}
