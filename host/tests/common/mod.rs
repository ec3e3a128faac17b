//! A folder of one test's own, and the program `kivzurg` in it; and a state as 0.3.0 kept it.
#![allow(dead_code)]

use std::env;
use std::fs;
use std::io::Write;
use std::path::PathBuf;
use std::process::{Command, Output, Stdio};

use kivzurg::{Buffer, BUFFER};

/// The state of the paper's session in the former lines, with `|` for a tab, and what it is when it is brought over.
pub const FORMER: &str = "O|2\nP|admin|desk\nN|anyone\nP|rosa|r1\nD|anyone\nV|queue|L\nR\nF|song|Blue Moon\nF|key|F\nA|queue|admin|a|rosa\n";
pub const BROUGHT: &str = "O\nP|admin|desk|0\nN|anyone|0\nP|rosa|r1|0\nD|anyone\nV|queue|L\nR\nF|song|Blue Moon\nF|key|F\nA|queue|admin|a|rosa\n";

/// A buffer with a text so written, and zeros.
pub fn former(text: &str) -> Box<Buffer> {
    let mut state = Box::new([0; BUFFER]);
    state[..text.len()].copy_from_slice(text.replace('|', "\t").as_bytes());
    state
}

pub struct Folder {
    path: PathBuf,
}

impl Folder {
    pub fn of(test: &str) -> Folder {
        let path = env::temp_dir().join(format!("kivzurg-{test}-{}", std::process::id()));
        fs::create_dir_all(&path).expect("a folder");
        Folder { path }
    }

    pub fn path(&self, name: &str) -> PathBuf {
        self.path.join(name)
    }

    pub fn command(&self, words: &[&str]) -> Command {
        let mut command = Command::new(env!("CARGO_BIN_EXE_kivzurg"));
        command.current_dir(&self.path).args(words).stdin(Stdio::piped()).stdout(Stdio::piped()).stderr(Stdio::piped());
        command
    }

    /// What the program does with these words and this input.
    pub fn run(&self, words: &[&str], input: &[u8]) -> Output {
        let mut child = self.command(words).spawn().expect("it starts");
        // It may end before it has read all.
        drop(child.stdin.take().expect("its input").write_all(input));
        child.wait_with_output().expect("it ends")
    }

    /// The same, where it must end with a status: what it printed.
    pub fn printed(&self, status: i32, words: &[&str], input: &str) -> String {
        let output = self.run(words, input.as_bytes());
        let errors = String::from_utf8_lossy(&output.stderr).into_owned();
        assert_eq!(output.status.code(), Some(status), "{words:?}: {errors}");
        assert_eq!(errors.is_empty(), status != 2 && status != 3, "{words:?}: {errors}");
        String::from_utf8(output.stdout).expect("ASCII") + &errors
    }
}

impl Drop for Folder {
    fn drop(&mut self) {
        drop(fs::remove_dir_all(&self.path));
    }
}
