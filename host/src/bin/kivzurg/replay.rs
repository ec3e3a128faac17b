//! `kivzurg replay JOURNAL [FILE]`.

use std::fs::{self, File};
use std::io::BufReader;
use std::path::Path;

use kivzurg::{Buffer, Server, BUFFER};

use crate::command::{print, Arguments, Outcome};
use crate::journal::{Entries, Entry};
use crate::keep::{trouble, Keeper};
use crate::progress::Progress;

pub fn replay(arguments: &Arguments) -> Outcome {
    let path = arguments.path(0);
    let file = File::open(path).map_err(trouble(path))?;
    let size = file.metadata().map_err(trouble(path))?.len();
    let mut entries = Entries::of(path, BufReader::new(file))?;
    let mut server = match entries.next()? {
        Some(start) if start.is_start() => started(path, &start)?,
        _ => return Err(format!("{}: the journal has no start", path.display())),
    };
    let mut progress = Progress::of("programs", true);
    let mut number = 0;
    while let Some(entry) = entries.next()? {
        number += 1;
        progress.step();
        if let Some(difference) = done_again(&entry, &mut server) {
            print(&format!("program {number} ({}, {} bytes): {difference}\n", entry.time, entry.bytes.len()))?;
            return Ok(false);
        }
    }
    drop(progress);
    print(&format!("{number} programs, each with the same end and the same state\n"))?;
    if entries.whole < size {
        eprintln!("kivzurg replay: the last entry is cut short; it was never answered and is passed over");
    }
    arguments.path_if_given(1).map_or(Ok(true), |file| compared(file, server.state()))
}

fn started(path: &Path, start: &Entry) -> Result<Server, String> {
    let mut state = Box::new([0; BUFFER]);
    state[..start.bytes.len()].copy_from_slice(&start.bytes);
    let server = Server::over(state);
    if !server.is_well_formed() {
        return Err(format!("{}: its start is not well formed; a journal of 0.3.0 or before is replayed by its own version", path.display()));
    }
    Ok(server)
}

/// How a program differs from what the journal says of it.
fn done_again(entry: &Entry, server: &mut Server) -> Option<String> {
    let said = &entry.word;
    let kind = match server.run(&entry.bytes) {
        Ok(report) => report.kind.to_string(),
        Err(error) => return Some(format!("the journal says {said}, and now {error}")),
    };
    if kind != *said {
        return Some(format!("the journal says {said}, the server {kind}"));
    }
    (!entry.left(server.state())).then(|| "the state after it is not the one that was kept".to_string())
}

/// The state beside the one in a file, or written to it where there is none.
fn compared(path: &Path, state: &Buffer) -> Outcome {
    if !path.exists() {
        Keeper::of(path)?.keep(state)?;
        print(&format!("{}: written\n", path.display()))?;
        return Ok(true);
    }
    let bytes = fs::read(path).map_err(trouble(path))?;
    let is_same = bytes == state;
    let said = match is_same {
        true => "the same bytes",
        false => "other bytes (after a host was killed, its next run with the journal does the last program)",
    };
    print(&format!("{}: {said}\n", path.display()))?;
    Ok(is_same)
}
