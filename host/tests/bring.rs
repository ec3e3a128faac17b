//! A state that 0.3.0 kept, brought over by the wrapper and by `kivzurg bring`.

mod common;

use std::fs::{self, Permissions};
use std::os::unix::fs::PermissionsExt;

use common::{former, Folder, BROUGHT, FORMER};
use kivzurg::{raw, BringError, Kind, Principal, Right, RunError, Server, Variable, BUFFER};

const APPENDING: &str = "as principal rosa password \"r1\" do\nappend to queue with \"b\"\nreturn \"\"\n***\n";

fn text(server: &Server) -> String {
    String::from_utf8_lossy(server.state()).trim_end_matches('\0').replace('\t', "|")
}

#[test]
fn by_the_wrapper() {
    let old = former(FORMER);
    let mut server = Server::bring(&old).expect("a good state");
    assert_eq!(text(&server), BROUGHT);
    assert_eq!(server.ask(Principal(b"rosa"), Variable(b"queue"), Right::Append), Ok(Some(1)));
    assert_eq!(server.run(APPENDING.as_bytes()).map(|report| report.kind), Ok(Kind::Returned));
    assert!(text(&server).contains("\nP|rosa|r1|1\n"));
    // A former state is no state, and a state is no former state.
    assert_eq!(Server::over(old).run(APPENDING.as_bytes()), Err(RunError::NotWellFormed));
    assert_eq!(Server::bring(server.state()).err(), Some(BringError::NotWellFormed));
    // A closed one stays closed.
    let mut closed = Server::bring(&former(&FORMER.replace("O|2", "C|2"))).expect("a good state");
    assert_eq!(closed.run(APPENDING.as_bytes()), Err(RunError::Closed));
}

/// A server just made with the password `desk` weighed 8, and two principals weigh 20 more now.
#[test]
fn what_is_too_heavy() {
    let weighing = |weight: usize| former(&format!("O|0\nP|admin|desk\nN|anyone\nD|anyone\nV|x|S|{}\n", "a".repeat(weight - 10)));
    assert!(Server::bring(&weighing(8_172)).is_ok());
    assert_eq!(Server::bring(&weighing(8_173)).err(), Some(BringError::TooHeavy));
    assert_eq!(Server::bring(&weighing(8_192)).err(), Some(BringError::TooHeavy));
    assert_eq!(Server::bring(&weighing(8_193)).err(), Some(BringError::NotWellFormed));
}

#[test]
fn by_slices_of_any_size() {
    let old = former(FORMER);
    let mut state = vec![7; BUFFER];
    for (from, to) in [(BUFFER - 1, BUFFER), (BUFFER, BUFFER - 1), (0, 0)] {
        assert_eq!(raw::bring(&old[..from], &mut state[..to]), raw::Answer::Wrong(2));
    }
    assert_eq!(raw::bring(&[7; BUFFER], &mut state), raw::Answer::Wrong(10));
    assert!(state.iter().all(|byte| *byte == 7), "a refusal changed something");
    assert_eq!(raw::bring(&old[..], &mut state), raw::Answer::Ready);
    assert!(state.starts_with(BROUGHT.replace('|', "\t").as_bytes()));
    assert_eq!(old, former(FORMER));
}

/// A folder with a former state in `old`.
fn kept(test: &str) -> Folder {
    let folder = Folder::of(test);
    fs::write(folder.path("old"), &former(FORMER)[..]).expect("written");
    folder
}

fn read(folder: &Folder, name: &str) -> Vec<u8> {
    fs::read(folder.path(name)).expect("the file is there")
}

#[test]
fn by_the_tool() {
    let folder = kept("bring");
    let said = folder.printed(3, &["run", "old"], APPENDING);
    assert!(said.contains("`kivzurg bring OLD NEW`"), "{said}");
    folder.printed(3, &["show", "old"], "");
    assert_eq!(folder.printed(0, &["bring", "old", "new"], ""), "");
    assert_eq!(read(&folder, "old"), former(FORMER)[..]);
    assert_eq!(fs::metadata(folder.path("new")).expect("it is there").permissions().mode() & 0o777, 0o600);
    let shown = folder.printed(0, &["show", "new"], "");
    assert!(shown.contains("\nopen; default delegator: anyone\n"), "{shown}");
    assert!(shown.contains("\n  admin: 0\n  anyone: 0 (no password: cannot log in)\n  rosa: 0\n"), "{shown}");
    folder.printed(0, &["run", "new", "--journal", "journal"], APPENDING);
    assert!(folder.printed(0, &["show", "new"], "").contains("\n  rosa: 1\n"));
    assert!(folder.printed(0, &["replay", "journal", "new"], "").ends_with("new: the same bytes\n"));
}

#[test]
fn again_and_onto_what_is_there() {
    let folder = kept("again");
    folder.printed(0, &["bring", "old", "new"], "");
    let brought = read(&folder, "new");
    // Given again it does no harm, as long as no program has been run.
    folder.printed(0, &["bring", "old", "new"], "");
    assert_eq!(read(&folder, "new"), brought);
    folder.printed(0, &["run", "new"], APPENDING);
    let newer = read(&folder, "new");
    let said = folder.printed(3, &["bring", "old", "new"], "");
    assert!(said.contains("exists already"), "{said}");
    assert_eq!(read(&folder, "new"), newer);
    // What a kill left half made, readable by all, is no obstacle.
    fs::write(folder.path("other.next"), &brought[..1_000]).expect("written");
    fs::set_permissions(folder.path("other.next"), Permissions::from_mode(0o644)).expect("changed");
    folder.printed(0, &["bring", "old", "other"], "");
    assert_eq!(read(&folder, "other"), brought);
    assert_eq!(fs::metadata(folder.path("other")).expect("it is there").permissions().mode() & 0o777, 0o600);
    // Nor is a NEW of another sort touched.
    for bytes in [&b""[..], b"O\t0\n", &brought[..BUFFER - 1]] {
        fs::write(folder.path("third"), bytes).expect("written");
        folder.printed(3, &["bring", "old", "third"], "");
        assert_eq!(read(&folder, "third"), bytes);
    }
    assert_eq!(read(&folder, "old"), former(FORMER)[..]);
}

#[test]
fn what_is_refused() {
    let folder = kept("unbrought");
    let said = folder.printed(3, &["bring", "old", "old"], "");
    assert!(said.contains("into its own place"), "{said}");
    folder.printed(3, &["bring", "none", "new"], "");
    assert!(!folder.path("none.lock").exists());
    fs::write(folder.path("short"), "O\t0\n").expect("written");
    folder.printed(3, &["bring", "short", "new"], "");
    fs::write(folder.path("damaged"), [7; BUFFER]).expect("written");
    let said = folder.printed(3, &["bring", "damaged", "new"], "");
    assert!(said.contains("not well formed in the former lines"), "{said}");
    let heavy = former(&FORMER.replace("r1", &"r".repeat(8_142)));
    fs::write(folder.path("heavy"), &heavy[..]).expect("written");
    let said = folder.printed(3, &["bring", "heavy", "new"], "");
    assert!(said.contains("would weigh more than 8,192"), "{said}");
    folder.printed(0, &["make", "state"], "desk\n");
    folder.printed(3, &["bring", "state", "new"], "");
    assert!(!folder.path("new").exists());
    assert_eq!(read(&folder, "old"), former(FORMER)[..]);
}

/// A host that is still at work on OLD would answer programs that NEW never sees; one that is at work on NEW has it to itself.
#[test]
fn no_other_host_is_at_work() {
    let folder = kept("busy");
    for name in ["old", "new"] {
        let lock = fs::File::create(folder.path(&format!("{name}.lock"))).expect("made");
        lock.lock().expect("locked");
        let said = folder.printed(3, &["bring", "old", "new"], "");
        assert!(said.contains("another host is at work on it"), "{said}");
        // Not only closed: a child that another test has just forked has the file open too, until it is another program.
        lock.unlock().expect("unlocked");
    }
    folder.printed(0, &["bring", "old", "new"], "");
}

#[test]
fn an_old_journal_stays_with_its_version() {
    let folder = kept("journal");
    let text = FORMER.replace('|', "\t");
    let journal = format!("kivzurg journal 1\nstart 2026-01-31T22:05:09Z {} 0123456789abcdef\n{text}\n", text.len());
    fs::write(folder.path("journal"), journal).expect("written");
    let said = folder.printed(3, &["replay", "journal"], "");
    assert!(said.contains("its own version"), "{said}");
    folder.printed(0, &["bring", "old", "new"], "");
    let said = folder.printed(3, &["run", "new", "--journal", "journal"], APPENDING);
    assert!(said.contains("does not lead to this state"), "{said}");
}
