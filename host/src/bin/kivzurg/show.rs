//! `kivzurg show FILE`.

use std::collections::BTreeSet;
use std::fmt::{self, Write};

use kivzurg::{Kind, Server};

use crate::command::{print, Arguments, Outcome};
use crate::keep;
use crate::reading::{Item, Principal, Reading, Variable};

pub fn show(arguments: &Arguments) -> Outcome {
    let path = arguments.path(0);
    let server = keep::read(path)?;
    let state = Reading::of(server.state())?;
    let mut text = format!("{}: well formed; the tool's own reading, without passwords\n", path.display());
    put(&mut text, &state).map_err(|error| error.to_string())?;
    let older = older(&state)?;
    if !older.is_empty() {
        text += &format!("\nkeywords by now, which no program can write\n{older}");
    }
    print(&text)?;
    Ok(true)
}

/// A line for each name and label from before it became a keyword.
fn older(state: &Reading) -> Result<String, String> {
    let principals = state.principals.iter().map(|principal| ("principal", principal.name, ", which cannot log in"));
    let variables = state.variables.iter().map(|variable| ("variable", variable.name, ""));
    let labels: BTreeSet<&str> = state.variables.iter().flat_map(|variable| &variable.items).flat_map(labels).collect();
    let labels = labels.into_iter().map(|label| ("label", label, ""));
    let mut text = String::new();
    for (kind, name, note) in principals.chain(variables).chain(labels) {
        if is_keyword(name)? {
            text += &format!("  {kind} {name}{note}\n");
        }
    }
    Ok(text)
}

fn labels<'a>(item: &Item<'a>) -> Vec<&'a str> {
    match item {
        Item::Text(_) => Vec::new(),
        Item::Record(fields) => fields.iter().map(|(label, _)| *label).collect(),
    }
}

/// The server says so: on a new one a program that makes a local of this name does not parse.
fn is_keyword(name: &str) -> Result<bool, String> {
    let mut server = Server::make(b"").map_err(|error| error.to_string())?;
    let program = format!("as principal admin password \"\" do\nlocal {name} = \"\"\nreturn {name}\n***");
    let report = server.run(program.as_bytes()).map_err(|error| error.to_string())?;
    Ok(report.kind == Kind::Failed)
}

fn put(text: &mut String, state: &Reading) -> fmt::Result {
    let open = if state.is_open { "open" } else { "closed" };
    writeln!(text, "{open}; default delegator: {}", state.delegator)?;
    writeln!(text, "\nprincipals, in order of creation, each with the programs that it completed")?;
    for Principal { name, has_password, count } in &state.principals {
        let note = if *has_password { "" } else { " (no password: cannot log in)" };
        writeln!(text, "  {name}: {count}{note}")?;
    }
    writeln!(text, "\nvariables, in order of creation")?;
    for variable in &state.variables {
        put_variable(text, variable)?;
    }
    writeln!(text, "\ndelegations, in order of entry")?;
    for assertion in &state.assertions {
        writeln!(text, "  {assertion}")?;
    }
    Ok(())
}

fn put_variable(text: &mut String, variable: &Variable) -> fmt::Result {
    let Variable { name, is_list, items } = variable;
    if !is_list {
        let items: Vec<String> = items.iter().map(ToString::to_string).collect();
        return writeln!(text, "  {name} = {}", items.join(""));
    }
    writeln!(text, "  {name}, a list of {}", items.len())?;
    items.iter().try_for_each(|item| writeln!(text, "    {item}"))
}
