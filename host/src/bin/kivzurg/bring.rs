//! `kivzurg bring OLD NEW`.
//!
//! OLD is only read. NEW is written as every state is, beside its place, synced and renamed: a kill leaves no NEW or a whole one, and what it leaves of
//! NEW.next the next run removes.

use std::fs;
use std::io::ErrorKind;

use kivzurg::Server;

use crate::command::{Arguments, Outcome};
use crate::keep::{self, trouble, Keeper};

pub fn bring(arguments: &Arguments) -> Outcome {
    let (old, new) = (arguments.path(0), arguments.path(1));
    let one = old.canonicalize().map_err(trouble(old))?;
    if new.canonicalize().is_ok_and(|other| other == one) {
        return Err(format!("{}: a state is not brought over into its own place", old.display()));
    }
    // A host that is still at work on OLD would answer programs that NEW never sees.
    let _still = Keeper::of(old)?;
    let keeper = Keeper::of(new)?;
    let server = Server::bring(&*keep::buffer(old)?).map_err(|error| format!("{}: {error}", old.display()))?;
    match fs::read(new) {
        // It was brought over before, and no program has been run on it. It is written once more, since a kill may have come before it was synced.
        Ok(bytes) if bytes == server.state()[..] => {}
        // It may be what programs have made of this very state since: that is newer than OLD.
        Ok(_) => return Err(format!("{}: the file exists already, and is not what {} gives", new.display(), old.display())),
        Err(error) if error.kind() == ErrorKind::NotFound => {}
        Err(error) => return Err(trouble(new)(error)),
    }
    keeper.keep(server.state())?;
    Ok(true)
}
