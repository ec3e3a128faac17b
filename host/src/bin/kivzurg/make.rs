//! `kivzurg make FILE`.

use std::io::{self, BufRead, IsTerminal};

use kivzurg::Server;

use crate::command::{Arguments, Outcome};
use crate::keep::Keeper;

pub fn make(arguments: &Arguments) -> Outcome {
    let path = arguments.path(0);
    let keeper = Keeper::of(path)?;
    if path.exists() {
        return Err(format!("{}: the file exists already", path.display()));
    }
    if io::stdin().is_terminal() {
        eprint!("admin's password: ");
    }
    let mut password = String::new();
    io::stdin().lock().read_line(&mut password).map_err(|error| format!("standard input: {error}"))?;
    if password.is_empty() {
        return Err("standard input is empty; its first line is to be admin's password".to_string());
    }
    let server = Server::make(password.trim_end_matches('\n').as_bytes()).map_err(|error| error.to_string())?;
    keeper.keep(server.state())?;
    Ok(true)
}
