//! `kivzurg sheet FILE VARIABLE`.

use kivzurg::Variable;

use crate::command::{print, Arguments, Outcome};
use crate::keep;

pub fn sheet(arguments: &Arguments) -> Outcome {
    let server = keep::read(arguments.path(0))?;
    let sheet = server.sheet(Variable(arguments.bytes(1))).map_err(|error| error.to_string())?;
    print(sheet.text())?;
    Ok(true)
}
