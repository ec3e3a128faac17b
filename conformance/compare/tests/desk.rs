//! The program `desk` as it is built (crates/desk/out/desk): streams in pieces, programs that are too long, unfinished ones, and what it leaves unread.

use std::env;
use std::fs::{self, File};
use std::io::{Read, Write};
use std::path::{Path, PathBuf};
use std::process::{Command, Stdio};

const LOGIN: &str = "as principal admin password \"desk\" do\n";
const OK: &str = "{\"status\":\"RETURNING\",\"output\":\"ok\"}\n";
const FAILED: &str = "{\"status\":\"FAILED\"}\n";

fn root() -> PathBuf {
    Path::new(env!("CARGO_MANIFEST_DIR")).join("../..")
}

fn program() -> Command {
    let path = root().join("crates/desk/out/desk");
    assert!(path.exists(), "crates/desk/out/desk is missing: run `rt run <stdin` in crates/desk first");
    Command::new(path)
}

/// What it prints for a stream that is written to it piece by piece.
fn printed(pieces: &[&[u8]]) -> String {
    let mut child = program().stdin(Stdio::piped()).stdout(Stdio::piped()).spawn().expect("desk runs");
    let mut input = child.stdin.take().expect("a pipe");
    for piece in pieces {
        input.write_all(piece).expect("written");
    }
    drop(input);
    let output = child.wait_with_output().expect("it ends");
    assert!(output.status.success());
    String::from_utf8(output.stdout).expect("ASCII")
}

/// A program of so many bytes, its last newline left out, that returns "ok" where it is not too long.
fn padded(length: usize) -> String {
    let end = "return \"ok\"\n***";
    let fill = length - LOGIN.len() - end.len() - "//\n".len();
    format!("{LOGIN}//{}\n{end}", "a".repeat(fill))
}

#[test]
fn examples_in_pieces() {
    for name in ["short", "evening", "titles", "bill", "picks"] {
        let stream = fs::read(root().join(format!("examples/{name}.desk"))).expect("the stream");
        let expected = fs::read_to_string(root().join(format!("examples/{name}.out"))).expect("the stored output");
        for size in [1, 7, 100, stream.len()] {
            assert_eq!(printed(&stream.chunks(size).collect::<Vec<_>>()), expected, "{name} in pieces of {size}");
        }
    }
}

#[test]
fn too_long() {
    let [fits, over, far_over] = [16_384, 16_385, 1_000_000].map(padded);
    let stream = format!("{over}\n{fits}\n{far_over}\n{fits}\n");
    assert_eq!(printed(&[stream.as_bytes()]), [FAILED, OK, FAILED, OK].concat());
}

#[test]
fn ends_of_input() {
    let whole = format!("{LOGIN}return \"ok\"\n***");
    assert_eq!(printed(&[]), "");
    assert_eq!(printed(&[whole.as_bytes()]), OK, "no newline after the last line");
    for rest in ["*", "**", "***a", "*** ", "a***", LOGIN] {
        assert_eq!(printed(&[whole.as_bytes(), b"\n", rest.as_bytes()]), OK, "{rest:?} is unfinished");
    }
    assert_eq!(printed(&[b"***\n\n***\n", whole.as_bytes()]), [FAILED, FAILED, OK].concat());
}

#[test]
fn leaves_the_rest() {
    let path = env::temp_dir().join(format!("desk-rest-{}", std::process::id()));
    fs::write(&path, format!("{LOGIN}exit\n***\nthe rest")).expect("written");
    let mut input = File::open(&path).expect("opened");
    let output = program().stdin(input.try_clone().expect("shared")).output().expect("desk runs");
    assert_eq!(output.stdout, b"{\"status\":\"EXITING\"}\n");
    let mut rest = String::new();
    input.read_to_string(&mut rest).expect("read");
    fs::remove_file(&path).expect("removed");
    assert_eq!(rest, "the rest");
}
