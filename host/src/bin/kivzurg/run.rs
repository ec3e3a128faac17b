//! `kivzurg run FILE`: journal, state, answer, in this order.

use std::io::{self, IsTerminal, Write};

use kivzurg::{Kind, Server};

use crate::command::{Arguments, Outcome};
use crate::journal::Journal;
use crate::keep::{self, Keeper};
use crate::progress::Progress;
use crate::stream::{self, Next};

pub fn run(arguments: &Arguments) -> Outcome {
    let path = arguments.path(0);
    let keeper = Keeper::of(path)?;
    let mut server = keep::read(path)?;
    let mut journal = match &arguments.journal {
        Some(journal) => Some(Journal::open(journal, &mut server, &keeper)?),
        None => None,
    };
    let mut input = io::stdin().lock();
    let mut progress = Progress::of("programs", !io::stdin().is_terminal());
    loop {
        match stream::next(&mut input).map_err(|error| format!("standard input: {error}"))? {
            Next::Program(program) => {
                let kind = answer(&mut server, &keeper, journal.as_mut(), &program)?;
                progress.step();
                if kind == Kind::Exited {
                    return Ok(true);
                }
            }
            Next::End { inside } => {
                if inside {
                    eprintln!("kivzurg run: the input ended inside a program, which was dropped");
                }
                return Ok(true);
            }
        }
    }
}

/// Runs a program. It is in the journal and its state is kept before a line of it is seen.
fn answer(server: &mut Server, keeper: &Keeper, journal: Option<&mut Journal>, program: &[u8]) -> Result<Kind, String> {
    let report = server.run(program).map_err(|error| error.to_string())?;
    let (kind, is_completed, lines) = (report.kind, report.is_completed(), report.output.to_vec());
    if let Some(journal) = journal {
        journal.append(kind, program, server.state())?;
    }
    if is_completed {
        keeper.keep(server.state())?;
    }
    let mut output = io::stdout().lock();
    output.write_all(&lines).and_then(|()| output.flush()).map_err(|error| format!("standard output: {error}"))?;
    Ok(kind)
}
