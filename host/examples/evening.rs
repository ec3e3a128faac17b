//! A host in Rust: it makes a server, runs two programs, prints their lines, says who may append and prints a sheet for the wall.
//! `cargo run --example evening`.

use std::error::Error;
use std::io::{self, Write};

use kivzurg::{Principal, Right, Server, Variable};

const PROGRAMS: [&str; 2] = [
    "as principal admin password \"desk\" do
create principal rosa \"r1\"
set queue = []
set delegation queue admin append -> rosa
return queue
***",
    "as principal rosa password \"r1\" do
append to queue with {song=\"Blue Moon\",key=\"F\"}
return \"ok\"
***",
];

fn main() -> Result<(), Box<dyn Error>> {
    let mut server = Server::make(b"desk")?;
    for program in PROGRAMS {
        let report = server.run(program.as_bytes())?;
        io::stdout().write_all(report.output)?;
        if report.is_completed() {
            // A host keeps server.state() here, in a file that only it can read.
        }
    }
    for name in ["rosa", "anyone", "nobody"] {
        match server.ask(Principal(name.as_bytes()), Variable(b"queue"), Right::Append) {
            Ok(Some(length)) => println!("{name}: yes, by a chain of {length}"),
            Ok(None) => println!("{name}: no"),
            Err(error) => println!("{name}: {error}"),
        }
    }
    let sheet = server.sheet(Variable(b"queue"))?;
    print!("queue, {} names:\n{sheet}", sheet.len());
    Ok(())
}
