//! `kivzurg who FILE VARIABLE`.

use kivzurg::{AskError, Principal, Right, Server, Variable};

use crate::command::{print, Arguments, Outcome};
use crate::keep;
use crate::progress::Progress;
use crate::reading::Reading;

pub fn who(arguments: &Arguments) -> Outcome {
    let server = keep::read(arguments.path(0))?;
    let variable = Variable(arguments.bytes(1));
    let state = Reading::of(server.state())?;
    let names: Vec<&str> = state.principals.iter().map(|principal| principal.name).collect();
    let width = names.iter().map(|name| name.len()).max().unwrap_or(0).max("name".len());
    let mut text = format!("{:width$}{}\n", "name", Right::ALL.map(|right| format!("  {right}")).concat());
    let mut progress = Progress::of("names", true);
    for name in names {
        let row = row(&server, name, variable).map_err(|error| error.to_string())?;
        text += &format!("{name:width$}{row}\n");
        progress.step();
    }
    drop(progress);
    text += "numbers: the server's answers, the steps of a shortest chain from admin; -: there is no chain\n";
    text += "names: the tool's own reading of the state\n";
    print(&text)?;
    Ok(true)
}

/// The server's answer for each right, below the right's word.
fn row(server: &Server, name: &str, variable: Variable) -> Result<String, AskError> {
    let mut row = String::new();
    for right in Right::ALL {
        let length = server.ask(Principal(name.as_bytes()), variable, right)?;
        let cell = length.map_or("-".to_string(), |length| length.to_string());
        row += &format!("  {cell:>width$}", width = right.word().len());
    }
    Ok(row)
}
