//! The program `kivzurg`, command by command, as a venue uses it.

mod common;

use std::fs::{self, Permissions};
use std::io::{Read, Write};
use std::os::unix::fs::PermissionsExt;
use std::path::Path;

use common::Folder;

const OPENING: &str = "as principal admin password \"desk\" do
create principal rosa \"r1\"
create principal tom \"t1\"
set queue = []
set profile = {room=\"four\",light=\"low\"}
set delegation queue admin append -> rosa
set delegation queue admin read -> anyone
return \"ok\"
***
";
const APPENDING: &str = "as principal rosa password \"r1\" do
append to queue with {song=\"Blue Moon\",key=\"F\"}
return \"ok\"
***
";

/// A folder with a server in `state`, after the programs above, and their journal.
fn venue(test: &str) -> Folder {
    let folder = Folder::of(test);
    assert_eq!(folder.printed(0, &["make", "state"], "desk\n"), "");
    let lines = folder.printed(0, &["run", "state", "--journal", "journal"], &[OPENING, APPENDING].concat());
    assert!(lines.ends_with("{\"status\":\"APPEND\"}\n{\"status\":\"RETURNING\",\"output\":\"ok\"}\n"), "{lines}");
    folder
}

fn is_secret(path: &Path) -> bool {
    fs::metadata(path).expect("the file is there").permissions().mode() & 0o777 == 0o600
}

#[test]
fn an_evening_is_played_as_desk_plays_it() {
    let folder = Folder::of("evening");
    let examples = Path::new(env!("CARGO_MANIFEST_DIR")).join("../examples");
    folder.printed(0, &["make", "state"], "desk\n");
    let stream = fs::read_to_string(examples.join("evening.desk")).expect("the stream");
    let expected = fs::read_to_string(examples.join("evening.out")).expect("what desk prints");
    assert_eq!(folder.printed(0, &["run", "state", "--journal", "journal"], &stream), expected);
    assert!(folder.printed(0, &["replay", "journal", "state"], "").ends_with("state: the same bytes\n"));
}

#[test]
fn files_are_secret() {
    let folder = venue("secret");
    for name in ["state", "state.lock", "journal"] {
        assert!(is_secret(&folder.path(name)), "{name}");
    }
    // A file left behind by another host is not taken over with its mode.
    fs::write(folder.path("state.next"), "").expect("written");
    fs::set_permissions(folder.path("state.next"), Permissions::from_mode(0o644)).expect("changed");
    folder.printed(0, &["run", "state", "--journal", "journal"], APPENDING);
    assert!(is_secret(&folder.path("state")));
}

#[test]
fn shown_without_passwords() {
    let folder = venue("show");
    let expected = "state: well formed; the tool's own reading, without passwords
open; default delegator: anyone

principals, in order of creation, each with the programs that it completed
  admin: 1
  anyone: 0 (no password: cannot log in)
  rosa: 1
  tom: 0

variables, in order of creation
  queue, a list of 1
    {song=\"Blue Moon\", key=\"F\"}
  profile = {room=\"four\", light=\"low\"}

delegations, in order of entry
  queue admin append -> rosa
  queue admin read -> anyone
";
    assert_eq!(folder.printed(0, &["show", "state"], ""), expected);
}

/// A state with a principal per, a variable add and labels times and sub, which are keywords since 0.6.0.
const OLDER: &str = "O|P,admin,desk,0|N,anyone,0|P,per,p1,4|P,rosa,r1,0|D,anyone|V,add,R|F,times,ten|F,b,two|V,list,L|R|F,sub,x|\
                     A,add,admin,r,per|A,add,admin,d,rosa|";

#[test]
fn names_that_became_keywords() {
    let folder = Folder::of("older");
    let mut state = OLDER.replace('|', "\n").replace(',', "\t").into_bytes();
    state.resize(kivzurg::BUFFER, 0);
    fs::write(folder.path("state"), state).expect("written");
    let shown = folder.printed(0, &["show", "state"], "");
    let expected = "keywords by now, which no program can write
  principal per, which cannot log in
  variable add
  label sub
  label times
";
    assert!(shown.ends_with(expected), "{shown}");
    assert!(shown.contains("\n  add = {times=\"ten\", b=\"two\"}\n"), "{shown}");
    let table = folder.printed(0, &["who", "state", "add"], "");
    assert!(table.contains("\nper        1      -       -         -\n"), "{table}");
    assert!(folder.printed(0, &["why", "state", "per", "add", "read"], "").starts_with("yes: "));
    let sheet = folder.printed(0, &["sheet", "state", "add"], "");
    assert!(sheet.contains(&format!("{:34} r...\n", "per")), "{sheet}");
    let program = "as principal per password \"p1\" do\nreturn \"in\"\n***\n";
    assert_eq!(folder.printed(0, &["run", "state"], program), "{\"status\":\"FAILED\"}\n");
    fs::write(folder.path("program"), program).expect("written");
    let said = folder.printed(1, &["check", "state", "program"], "");
    assert!(said.contains("line 1 is not a login"), "{said}");
}

#[test]
fn who_and_why() {
    let folder = venue("who");
    let table = folder.printed(0, &["who", "state", "queue"], "");
    let expected = "name    read  write  append  delegate
admin      0      0       0         0
anyone     1      -       -         -
rosa       2      -       1         -
tom        2      -       -         -
";
    assert!(table.starts_with(expected), "{table}");
    let yes = folder.printed(0, &["why", "state", "tom", "queue", "read"], "");
    assert!(yes.starts_with("yes: the server says that a shortest chain is 2 long\n"), "{yes}");
    assert!(yes.contains("own reading of the state: admin, anyone, tom\n  queue admin read -> anyone\n"), "{yes}");
    assert!(folder.printed(1, &["why", "state", "tom", "queue", "append"], "").starts_with("no: "));
    for words in [["nobody", "queue", "read"], ["tom", "nothing", "read"], ["tom", "queue", "sing"]] {
        folder.printed(3, &[["why", "state"].as_slice(), &words].concat(), "");
    }
    folder.printed(3, &["who", "state", "nothing"], "");
}

#[test]
fn a_sheet_for_the_wall() {
    let folder = venue("sheet");
    let before = fs::read(folder.path("state")).expect("the state");
    let line = |name: &str, rights: &str| format!("{name:34} {rights}\n");
    let open = [line("admin", "rwad"), line("anyone", "r..."), line("rosa", "r.a."), line("tom", "r...")].concat();
    assert_eq!(folder.printed(0, &["sheet", "state", "queue"], ""), open);
    let profile = [line("admin", "rwad"), line("anyone", "...."), line("rosa", "...."), line("tom", "....")].concat();
    assert_eq!(folder.printed(0, &["sheet", "state", "profile"], ""), profile);
    for variable in ["nothing", "", "rosa"] {
        let said = folder.printed(3, &["sheet", "state", variable], "");
        assert!(said.contains("there is no shared variable of this name"), "{said}");
    }
    assert_eq!(fs::read(folder.path("state")).expect("the state"), before, "it is only read");
    let long = "n".repeat(40);
    let closing = format!("as principal admin password \"desk\" do\ncreate principal {long} \"\"\nexit\n***\n");
    folder.printed(0, &["run", "state"], &closing);
    let cut = line(&format!("{}~", &long[..33]), "r...");
    assert_eq!(folder.printed(0, &["sheet", "state", "queue"], ""), open + &cut);
}

/// What `check` says of a program.
fn checked(folder: &Folder, status: i32, program: &str) -> String {
    fs::write(folder.path("program"), program).expect("written");
    folder.printed(status, &["check", "state", "program"], "")
}

#[test]
fn programs_that_parse() {
    let folder = venue("parses");
    let before = fs::read(folder.path("state")).expect("the state");
    for (program, end) in [
        (APPENDING, "returned"),
        ("// first\nas principal tom password \"t1\" do\nset queue = []\nexit\n//last\n***", "denied"),
        ("as principal tom password\"a\"do\nexit\n***", "denied"),
        ("as principal nobody password \"b\" do\nreturn queue\n***\n", "denied"),
        ("as principal admin password \"a\" do\nreturn nosuch\n***\n", "denied"),
        ("as principal admin password \"b\" do\nreturn nosuch\n***\n", "denied"),
        ("as principal admin password \"desk\" do\nexit // good night\n***", "exited"),
    ] {
        let said = checked(&folder, 0, program);
        assert!(said.contains(&format!("would end: {end} (")), "{program}: {said}");
    }
    assert_eq!(fs::read(folder.path("state")).expect("the state"), before, "nothing was kept");
}

#[test]
fn programs_that_do_not_parse() {
    let folder = venue("wrong");
    let login = "as principal tom password \"t1\" do\n";
    let [long, wide] = [16_384, 400].map(|length| "a".repeat(length));
    for (program, said) in [
        ("as principal set password \"t1\" do\nexit\n***".to_string(), "line 1 is not a login"),
        (format!("as principal {wide} password \"t1\" do\nexit\n***"), "line 1 is not a login"),
        (format!("// a\n{login}// b\nset x = [ ]\nexit\n***"), "line 4 is not a command"),
        (format!("{login}exit\nset x = []\nexit\n***"), "line 2 is not a command"),
        (format!("{login}\nexit\n***"), "line 2 is not a command"),
        (format!("{login}set x = \"a\"\nset x = \"b\"\n***"), "line 3 is not `exit`"),
        (format!("{login}return x, y\n***"), "line 2 is not `exit`"),
        (format!("{login}***"), "a login and then"),
        (format!("{login}exit\n"), "no line that is just"),
        (format!("{login}exit\n *** \n"), "no line that is just"),
        (format!("{login}exit\n***\n\n"), "line 4: nothing may follow"),
        (format!("{login}return \"{long}\"\n***"), "16384 are the most"),
        (String::new(), "no line that is just"),
    ] {
        let answer = checked(&folder, 1, &program);
        assert!(answer.contains(said), "{program:?}: {answer}");
    }
}

#[test]
fn one_host_at_a_time() {
    let folder = venue("lock");
    let mut first = folder.command(&["run", "state"]).spawn().expect("it starts");
    let mut to_first = first.stdin.take().expect("its input");
    to_first.write_all(APPENDING.as_bytes()).expect("written");
    let mut answer = [0];
    first.stdout.as_mut().expect("its output").read_exact(&mut answer).expect("it has the lock, since it answers");
    assert!(folder.printed(3, &["run", "state"], APPENDING).contains("another host is at work on it"));
    folder.printed(0, &["show", "state"], "");
    drop(to_first);
    assert!(first.wait().expect("it ends").success());
    folder.printed(0, &["run", "state"], APPENDING);
}

#[test]
fn replays() {
    let folder = venue("replay");
    assert!(folder.printed(0, &["replay", "journal", "again"], "").ends_with("again: written\n"));
    let read = |name| fs::read(folder.path(name)).expect("the file is there");
    assert_eq!(read("again"), read("state"));
    assert!(is_secret(&folder.path("again")));
    // An entry that is cut short was never answered.
    let whole = read("journal");
    fs::write(folder.path("journal"), &whole[..whole.len() - 5]).expect("written");
    let output = folder.run(&["replay", "journal"], b"");
    assert_eq!(output.status.code(), Some(0));
    assert!(String::from_utf8_lossy(&output.stdout).starts_with("1 programs"));
    // One letter of a program is changed.
    let changed = String::from_utf8(whole.clone()).expect("ASCII").replacen("Blue", "Glue", 1);
    fs::write(folder.path("journal"), changed).expect("written");
    let said = folder.printed(1, &["replay", "journal"], "");
    assert!(said.starts_with("program 2 (") && said.contains("not the one that was kept"), "{said}");
    let changed = String::from_utf8(whole).expect("ASCII").replacen("tom \"t1\"", "ann \"a1\"", 1);
    fs::write(folder.path("journal"), changed).expect("written");
    assert!(folder.printed(1, &["replay", "journal"], "").starts_with("program 1 ("));
}

#[test]
fn a_journal_belongs_to_one_state() {
    let folder = venue("journal");
    folder.printed(0, &["run", "state"], APPENDING);
    let said = folder.printed(3, &["run", "state", "--journal", "journal"], APPENDING);
    assert!(said.contains("does not lead to this state"), "{said}");
    folder.printed(3, &["run", "state", "--journal", "state"], "");
}

#[test]
fn what_is_refused() {
    let folder = venue("refused");
    folder.printed(3, &["make", "state"], "other\n");
    folder.printed(3, &["make", "another"], "pass\tword\n");
    folder.printed(3, &["make", "another"], "");
    folder.printed(3, &["run", "another"], APPENDING);
    fs::write(folder.path("short"), "O\n").expect("written");
    folder.printed(3, &["show", "short"], "");
    fs::write(folder.path("damaged"), [7; 65_536]).expect("written");
    folder.printed(3, &["who", "damaged", "queue"], "");
    folder.printed(3, &["sheet", "damaged", "queue"], "");
    folder.printed(0, &["run", "state"], "as principal admin password \"desk\" do\nexit\n***\nnever read");
    assert!(folder.printed(3, &["run", "state"], APPENDING).contains("the server is closed"));
    let unfinished = folder.run(&["run", "state"], b"as principal");
    assert!(String::from_utf8_lossy(&unfinished.stderr).contains("inside a program"));
}

#[test]
fn command_lines() {
    let folder = Folder::of("words");
    let help = folder.printed(0, &["--help"], "");
    for command in ["make", "bring", "run", "show", "who", "sheet", "why", "check", "replay"] {
        assert!(help.contains(&format!("  kivzurg {command} ")), "{command}");
        assert!(folder.printed(0, &[command, "--help"], "").starts_with(&format!("kivzurg {command} ")));
        folder.printed(2, &[command], "");
        folder.printed(2, &[command, "a", "b", "c", "d", "e"], "");
        folder.printed(2, &[command, "--none", "a"], "");
    }
    folder.printed(2, &["run", "a", "--journal"], "");
    folder.printed(2, &["show", "a", "--journal", "b"], "");
    folder.printed(2, &["sing"], "");
    folder.printed(2, &[], "");
    assert_eq!(folder.printed(0, &["--version"], ""), format!("kivzurg {}\n", env!("CARGO_PKG_VERSION")));
}
