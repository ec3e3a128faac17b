//! The state in its file: read whole, and replaced whole or not at all.

use std::fs::{self, File, OpenOptions, TryLockError};
use std::io::{self, Write};
use std::os::unix::fs::OpenOptionsExt;
use std::path::{Path, PathBuf};

use kivzurg::{BringError, Buffer, Server, BUFFER};

/// Only the owner may read what holds passwords.
const SECRET: u32 = 0o600;

/// What went wrong with a file, in words.
pub fn trouble(path: &Path) -> impl Fn(io::Error) -> String + '_ {
    move |error| format!("{}: {error}", path.display())
}

/// What is in the file, where it has a state's size.
pub fn buffer(path: &Path) -> Result<Box<Buffer>, String> {
    let bytes = fs::read(path).map_err(|error| match error.kind() {
        io::ErrorKind::NotFound => format!("{}: there is no such file; `kivzurg make FILE` makes a server", path.display()),
        _ => trouble(path)(error),
    })?;
    let size = bytes.len();
    let state: Result<Box<Buffer>, _> = bytes.into_boxed_slice().try_into();
    state.map_err(|_| format!("{}: a state has {BUFFER} bytes, and this file {size}", path.display()))
}

/// The server whose state is in the file.
pub fn read(path: &Path) -> Result<Server, String> {
    let server = Server::over(buffer(path)?);
    if server.is_well_formed() {
        return Ok(server);
    }
    let what = match Server::bring(server.state()) {
        Ok(_) | Err(BringError::TooHeavy) => "is one of 0.3.0 or before; `kivzurg bring OLD NEW` brings it over",
        Err(_) => "is not well formed",
    };
    Err(format!("{}: the state {what}", path.display()))
}

/// `path` with something behind its name.
fn beside(path: &Path, end: &str) -> PathBuf {
    let mut name = path.as_os_str().to_owned();
    name.push(end);
    PathBuf::from(name)
}

/// Writes a file of its own, on the disk, which then takes the place of the old one.
pub fn replace(path: &Path, bytes: &[u8]) -> io::Result<()> {
    let next = beside(path, ".next");
    // One that was left behind may be readable by others.
    match fs::remove_file(&next) {
        Err(error) if error.kind() != io::ErrorKind::NotFound => return Err(error),
        _ => {}
    }
    let mut file = OpenOptions::new().write(true).create_new(true).mode(SECRET).open(&next)?;
    file.write_all(bytes)?;
    file.sync_all()?;
    fs::rename(&next, path)?;
    let folder = match path.parent() {
        Some(folder) if !folder.as_os_str().is_empty() => folder,
        _ => Path::new("."),
    };
    File::open(folder)?.sync_all()
}

/// Takes a lock that goes with the file's handle, or with the process.
pub fn lock(file: &File, path: &Path) -> Result<(), String> {
    file.try_lock().map_err(|error| match error {
        TryLockError::WouldBlock => format!("{}: another host is at work on it", path.display()),
        TryLockError::Error(error) => trouble(path)(error),
    })
}

/// The one host that may write a state.
pub struct Keeper {
    path: PathBuf,
    _lock: File,
}

impl Keeper {
    /// The lock is a file of its own, since the state's file is replaced.
    pub fn of(path: &Path) -> Result<Keeper, String> {
        // A state that is reached by two links has one lock.
        let path = path.canonicalize().unwrap_or_else(|_| path.to_owned());
        let held = beside(&path, ".lock");
        let file = OpenOptions::new().write(true).create(true).truncate(false).mode(SECRET).open(&held);
        let file = file.map_err(trouble(&held))?;
        lock(&file, &path)?;
        Ok(Keeper { path, _lock: file })
    }

    pub fn keep(&self, state: &Buffer) -> Result<(), String> {
        replace(&self.path, state).map_err(trouble(&self.path))
    }
}
