//! The host is killed at one moment after the other. What it has answered is in the journal and in the state afterwards, in order, and of the rest at
//! most the program that it had in hand. Its next start brings the two together. A state that is being brought over is there whole or not at all.

mod common;

use std::fs;
use std::io::{Read, Write};
use std::thread;
use std::time::Duration;

use common::{former, Folder, BROUGHT, FORMER};
use kivzurg::{Buffer, Server};

const ROUNDS: u64 = 30;
const PROGRAMS: usize = 60;
const RUN: [&str; 4] = ["run", "state", "--journal", "journal"];

/// Numbers appended to a list, one a program, from `first` on.
fn programs(first: usize) -> Vec<u8> {
    let one = |n| format!("as principal admin password \"p\" do\nappend to list with \"{n}\"\nreturn \"{n}\"\n***\n");
    (first..first + PROGRAMS).map(one).collect::<String>().into_bytes()
}

/// Feeds programs and kills the host some time later: how many of them it answered.
fn killed_after(folder: &Folder, wait: Duration, input: Vec<u8>) -> usize {
    let mut host = folder.command(&RUN).spawn().expect("the host starts");
    let mut to_host = host.stdin.take().expect("its input");
    let mut from_host = host.stdout.take().expect("its output");
    // The host may be gone before it has read all.
    let feeder = thread::spawn(move || drop(to_host.write_all(&input)));
    let reader = thread::spawn(move || {
        let mut output = Vec::new();
        from_host.read_to_end(&mut output).map(|_| output)
    });
    thread::sleep(wait);
    host.kill().expect("the host is killed");
    host.wait().expect("the host is gone");
    feeder.join().expect("the feeder ends");
    let output = reader.join().expect("the reader ends").expect("the output is read");
    String::from_utf8_lossy(&output).matches("\"RETURNING\"").count()
}

/// How many numbers the kept list has; they are 0, 1, 2, ..
fn kept(folder: &Folder) -> usize {
    let bytes = fs::read(folder.path("state")).expect("the state is there");
    let state: Box<Buffer> = bytes.into_boxed_slice().try_into().expect("it has its size");
    let mut server = Server::over(state);
    let report = server.run(b"as principal admin password \"p\" do\nreturn list\n***").expect("it is well formed");
    let list = String::from_utf8_lossy(report.output).into_owned();
    let count = list.matches(',').count().saturating_sub(1) + usize::from(!list.contains("[]"));
    let numbers: Vec<String> = (0..count).map(|n| format!("\"{n}\"")).collect();
    assert_eq!(list, format!("{{\"status\":\"RETURNING\",\"output\":[{}]}}\n", numbers.join(",")));
    count
}

/// How many programs the journal has that append; it replays as it stands.
fn journaled(folder: &Folder) -> usize {
    let output = folder.run(&["replay", "journal"], b"");
    let said = String::from_utf8_lossy(&output.stdout).into_owned();
    assert_eq!(output.status.code(), Some(0), "{said}");
    said.split(' ').next().and_then(|number| number.parse().ok()).expect("a number of programs")
}

#[test]
fn what_was_answered_is_kept() {
    let folder = Folder::of("kill");
    folder.printed(0, &["make", "state"], "p\n");
    folder.printed(0, &["run", "state"], "as principal admin password \"p\" do\nset list = []\nreturn list\n***\n");
    folder.printed(0, &RUN, "");
    let (mut total, mut held, mut cut, mut apart) = (0, 0, 0, 0);
    for round in 0..ROUNDS {
        let answered = killed_after(&folder, Duration::from_millis(3 * round), programs(total));
        let (journaled, kept) = (journaled(&folder), kept(&folder));
        // Where it answered nothing it may not even have done again what the round before left in the journal alone.
        let least = if answered == 0 { held } else { total + answered };
        assert!(least <= kept, "{answered} answered, {kept} kept after {total}");
        assert!(kept <= journaled && journaled <= total + answered + 1, "{kept} kept, {journaled} in the journal, {answered} answered after {total}");
        cut += usize::from(answered < PROGRAMS);
        apart += usize::from(kept < journaled);
        (total, held) = (journaled, kept);
    }
    folder.printed(0, &RUN, "");
    assert!(folder.printed(0, &["replay", "journal", "state"], "").ends_with("the same bytes\n"));
    println!("{total} programs kept in {ROUNDS} rounds, {cut} of them cut short, {apart} between journal and state");
    assert!(total > 0 && cut > 0, "nothing was kept, or nothing was cut short");
}

/// Killed while it brings a state over, it leaves the old file as it was and the new one whole or not there; given again, it is done.
#[test]
fn a_state_is_brought_over_whole_or_not_at_all() {
    let folder = Folder::of("kill-bring");
    let (old, new) = (former(FORMER), former(BROUGHT));
    fs::write(folder.path("old"), &old[..]).expect("written");
    let (mut none, mut half, mut whole) = (0, 0, 0);
    for round in 0..5 * ROUNDS {
        let mut host = folder.command(&["bring", "old", "new"]).spawn().expect("the host starts");
        // Most rounds are short, since it takes a millisecond or two; the last wait long enough for a slow disk.
        thread::sleep(Duration::from_micros(4 * round * round));
        host.kill().expect("the host is killed");
        host.wait().expect("the host is gone");
        half += usize::from(folder.path("new.next").exists());
        match fs::read(folder.path("new")) {
            Ok(bytes) => {
                assert_eq!(bytes, new[..], "half of it is there");
                whole += 1;
            }
            Err(_) => none += 1,
        }
        folder.printed(0, &["bring", "old", "new"], "");
        assert_eq!(fs::read(folder.path("new")).expect("it is there"), new[..]);
        assert!(!folder.path("new.next").exists());
        assert_eq!(fs::read(folder.path("old")).expect("it is there"), old[..]);
        fs::remove_file(folder.path("new")).expect("it goes");
    }
    println!("killed {} times: {none} with no new state, {half} with one half made, {whole} with a whole one", none + whole);
    assert!(none > 0 && whole > 0, "it was never killed in time, or always");
}
