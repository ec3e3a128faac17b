//! The journal: the state that it starts from, and every program run since, each on the disk before it is answered.
//!
//!     kivzurg journal 1
//!     start TIME LENGTH CHECK
//!     the text of the state, LENGTH bytes
//!     returned TIME LENGTH CHECK
//!     the program, LENGTH bytes
//!
//! The first word of a program's line says how it ended. CHECK is a sum over the bytes below it and the state after them, which tells mishaps and no
//! forgery. A last entry that is cut short was never answered; it is dropped when the journal is opened.

use std::fs::{File, OpenOptions};
use std::io::{BufRead, BufReader, Read, Write};
use std::path::{Path, PathBuf};

use kivzurg::{Buffer, Kind, Server, BUFFER};

use crate::keep::{self, trouble, Keeper};
use crate::time;

const TITLE: &[u8] = b"kivzurg journal 1\n";
const START: &str = "start";
const LONGEST_HEAD: u64 = 128;

pub struct Entry {
    /// `start`, or how the program ended.
    pub word: String,
    pub time: String,
    pub bytes: Vec<u8>,
    check: u64,
}

impl Entry {
    fn of(word: &str, bytes: &[u8], state: &Buffer) -> Entry {
        Entry { word: word.to_string(), time: time::now(), bytes: bytes.to_vec(), check: sum(bytes, state) }
    }

    fn text(&self) -> Vec<u8> {
        let head = format!("{} {} {} {:016x}\n", self.word, self.time, self.bytes.len(), self.check);
        [head.as_bytes(), &self.bytes, b"\n"].concat()
    }

    pub fn is_start(&self) -> bool {
        self.word == START
    }

    /// Whether the state is the one that the entry left.
    pub fn left(&self, state: &Buffer) -> bool {
        self.check == sum(&self.bytes, state)
    }

    /// What a head line says, and how many bytes follow it.
    fn head(line: &[u8]) -> Option<(Entry, usize)> {
        let line = std::str::from_utf8(line).ok()?.strip_suffix('\n')?;
        let [word, time, length, check] = line.split(' ').collect::<Vec<_>>().try_into().ok()?;
        let length = length.parse().ok().filter(|length| *length <= BUFFER)?;
        let check = u64::from_str_radix(check, 16).ok()?;
        Some((Entry { word: word.to_string(), time: time.to_string(), bytes: Vec::new(), check }, length))
    }
}

/// FNV-1a.
fn sum(bytes: &[u8], state: &Buffer) -> u64 {
    let both = bytes.iter().chain(state);
    both.fold(0xcbf2_9ce4_8422_2325, |sum, byte| (sum ^ u64::from(*byte)).wrapping_mul(0x0100_0000_01b3))
}

/// The entries of a journal, one after the other.
pub struct Entries<'a, R> {
    path: &'a Path,
    input: R,
    /// Where the last whole entry ends.
    pub whole: u64,
}

impl<'a, R: BufRead> Entries<'a, R> {
    pub fn of(path: &'a Path, mut input: R) -> Result<Entries<'a, R>, String> {
        let mut title = Vec::new();
        input.by_ref().take(TITLE.len() as u64).read_to_end(&mut title).map_err(trouble(path))?;
        if title != TITLE {
            return Err(format!("{}: this is no journal", path.display()));
        }
        Ok(Entries { path, input, whole: TITLE.len() as u64 })
    }

    /// None at the end, and where the last entry is cut short.
    pub fn next(&mut self) -> Result<Option<Entry>, String> {
        let mut line = Vec::new();
        self.input.by_ref().take(LONGEST_HEAD).read_until(b'\n', &mut line).map_err(trouble(self.path))?;
        if !line.ends_with(b"\n") && (line.len() as u64) < LONGEST_HEAD {
            return Ok(None);
        }
        let damaged = || format!("{}: what stands at byte {} is no entry", self.path.display(), self.whole);
        let (mut entry, length) = Entry::head(&line).ok_or_else(damaged)?;
        self.input.by_ref().take(length as u64 + 1).read_to_end(&mut entry.bytes).map_err(trouble(self.path))?;
        if entry.bytes.len() <= length {
            return Ok(None);
        }
        if entry.bytes.pop() != Some(b'\n') {
            return Err(damaged());
        }
        self.whole += (line.len() + length + 1) as u64;
        Ok(Some(entry))
    }
}

/// A journal that programs are appended to.
pub struct Journal {
    path: PathBuf,
    file: File,
}

impl Journal {
    /// The journal of a server's state, made where there is none. Where the host was killed between journal and state, the journal's last program is
    /// done again, so that both agree.
    pub fn open(path: &Path, server: &mut Server, keeper: &Keeper) -> Result<Journal, String> {
        if !path.exists() {
            let used = server.state().iter().rposition(|byte| *byte != 0).map_or(0, |last| last + 1);
            let start = Entry::of(START, &server.state()[..used], server.state());
            keep::replace(path, &[TITLE, &start.text()].concat()).map_err(trouble(path))?;
        }
        let file = OpenOptions::new().read(true).append(true).open(path).map_err(trouble(path))?;
        keep::lock(&file, path)?;
        let mut entries = Entries::of(path, BufReader::new(&file))?;
        let mut last = None;
        while let Some(entry) = entries.next()? {
            last = Some(entry);
        }
        file.set_len(entries.whole).and_then(|()| file.sync_all()).map_err(trouble(path))?;
        match last {
            Some(last) if agrees(&last, server, keeper)? => Ok(Journal { path: path.to_owned(), file }),
            _ => Err(format!("{}: the journal does not lead to this state; a state has its own journal, which goes with every run", path.display())),
        }
    }

    /// On the disk when it returns.
    pub fn append(&mut self, kind: Kind, program: &[u8], state: &Buffer) -> Result<(), String> {
        let text = Entry::of(&kind.to_string(), program, state).text();
        self.file.write_all(&text).and_then(|()| self.file.sync_data()).map_err(trouble(&self.path))
    }
}

/// Whether the state is the one that the last entry left, now or once its program is done again.
fn agrees(last: &Entry, server: &mut Server, keeper: &Keeper) -> Result<bool, String> {
    if last.left(server.state()) {
        return Ok(true);
    }
    if last.is_start() || server.run(&last.bytes).is_err() || !last.left(server.state()) {
        return Ok(false);
    }
    keeper.keep(server.state())?;
    Ok(true)
}
