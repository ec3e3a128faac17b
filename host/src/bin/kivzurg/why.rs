//! `kivzurg why FILE NAME VARIABLE RIGHT`.

use kivzurg::{Principal, Right, Variable};

use crate::chain;
use crate::command::{print, Arguments, Outcome};
use crate::keep;
use crate::reading::Reading;

pub fn why(arguments: &Arguments) -> Outcome {
    let server = keep::read(arguments.path(0))?;
    let word = String::from_utf8_lossy(arguments.bytes(3));
    let right: Right = word.parse().map_err(|error| format!("{word}: {error}"))?;
    let length = server.ask(Principal(arguments.bytes(1)), Variable(arguments.bytes(2)), right).map_err(|error| error.to_string())?;
    let [name, variable] = [1, 2].map(|at| String::from_utf8_lossy(arguments.bytes(at)));
    let state = Reading::of(server.state())?;
    let names = chain::shortest(&state, &variable, right, &name);
    if length != names.as_ref().map(|names| names.len() - 1) {
        return Err(format!("the server answers {length:?} and the tool's own search finds {names:?}: one of them is wrong"));
    }
    match names {
        Some(names) => print(&said(&state, &variable, right, &names))?,
        None => print(&format!("no: the server says that no chain leads from admin to {name} for {right} on {variable}\n"))?,
    }
    Ok(length.is_some())
}

fn said(state: &Reading, variable: &str, right: Right, names: &[&str]) -> String {
    let mut text = format!("yes: the server says that a shortest chain is {} long\n", names.len() - 1);
    text += &format!("one of that length, by the tool's own reading of the state: {}\n", names.join(", "));
    for step in names.windows(2) {
        let given = state.assertions.iter().find(|a| a.variable == variable && a.right == right && [a.from, a.to] == step);
        text += &match given {
            Some(assertion) => format!("  {assertion}\n"),
            None => format!("  from anyone to every principal, and so to {}\n", step[1]),
        };
    }
    text
}
