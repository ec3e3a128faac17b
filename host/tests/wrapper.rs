//! The wrapper's types: what a program in Rust may count on.

use std::error::Error;
use std::thread;

use kivzurg::{
    raw, AskError, BringError, Kind, MakeError, NoSuchRight, Principal, Right, Row, RunError, Server, Sheet, SheetError, Variable, BUFFER,
};

const OPENING: &[u8] = b"as principal admin password \"secret\" do\nset x = \"1\"\nreturn x\n***";

fn server() -> Server {
    Server::make(b"secret").expect("a good password")
}

#[test]
fn servers_are_sent_and_shared() {
    fn is_send_and_sync<T: Send + Sync + 'static>() {}
    is_send_and_sync::<Server>();
    is_send_and_sync::<Sheet>();
    let mut server = server();
    let server = thread::spawn(move || {
        assert_eq!(server.run(OPENING).map(|report| (report.kind, report.lines)), Ok((Kind::Returned, 2)));
        server
    });
    let server = server.join().expect("it ends");
    let ask = || server.ask(Principal(b"admin"), Variable(b"x"), Right::Read);
    thread::scope(|scope| {
        let both = [scope.spawn(ask), scope.spawn(ask)];
        both.into_iter().for_each(|thread| assert_eq!(thread.join().expect("it ends"), Ok(Some(0))));
    });
    let sheet = || server.sheet(Variable(b"x"));
    thread::scope(|scope| {
        let both = [scope.spawn(sheet), scope.spawn(sheet)];
        both.into_iter().for_each(|thread| assert_eq!(thread.join().expect("it ends"), sheet()));
    });
}

#[test]
fn errors_have_words() {
    let errors: [Box<dyn Error + Send + Sync>; 16] = [
        Box::new(MakeError::PasswordByte),
        Box::new(MakeError::PasswordLength),
        Box::new(MakeError::Unexpected),
        Box::new(BringError::NotWellFormed),
        Box::new(BringError::TooHeavy),
        Box::new(BringError::Unexpected),
        Box::new(RunError::NotWellFormed),
        Box::new(RunError::Closed),
        Box::new(RunError::Unexpected),
        Box::new(AskError::NotWellFormed),
        Box::new(AskError::UnknownPrincipal),
        Box::new(AskError::UnknownVariable),
        Box::new(SheetError::NotWellFormed),
        Box::new(SheetError::UnknownVariable),
        Box::new(SheetError::Unexpected),
        Box::new(NoSuchRight),
    ];
    errors.iter().for_each(|error| assert!(error.to_string().contains(' '), "{error:?}"));
}

#[test]
fn refusals() {
    assert_eq!(Server::make(b"a\tb").err(), Some(MakeError::PasswordByte));
    assert_eq!(Server::make(&[b'a'; 1_025]).err(), Some(MakeError::PasswordLength));
    let mut server = server();
    assert_eq!(server.ask(Principal(b"x"), Variable(b"x"), Right::Read), Err(AskError::UnknownPrincipal));
    assert_eq!(server.ask(Principal(b"admin"), Variable(b"x"), Right::Read), Err(AskError::UnknownVariable));
    assert_eq!(server.sheet(Variable(b"x")), Err(SheetError::UnknownVariable));
    assert!(server.is_well_formed());
    let closing = b"as principal admin password \"secret\" do\nexit\n***";
    assert_eq!(server.run(closing).map(|report| report.kind), Ok(Kind::Exited));
    assert_eq!(server.run(OPENING), Err(RunError::Closed));
    let mut damaged = Server::over(Box::new([7; kivzurg::BUFFER]));
    assert!(!damaged.is_well_formed());
    assert_eq!(damaged.run(OPENING), Err(RunError::NotWellFormed));
    assert_eq!(damaged.ask(Principal(b"admin"), Variable(b"x"), Right::Read), Err(AskError::NotWellFormed));
    assert_eq!(damaged.sheet(Variable(b"x")), Err(SheetError::NotWellFormed));
}

/// A server with principals of these names, of whom the first may append to x and everybody may read it; all may write z. It is closed.
fn closed_venue(names: &[&str]) -> Server {
    let mut server = server();
    let created: String = names.iter().map(|name| format!("create principal {name} \"\"\n")).collect();
    let program = format!(
        "as principal admin password \"secret\" do\n{created}set x = []\nset delegation x admin append -> {}\n\
         set delegation x admin read -> anyone\nset z = []\nset delegation z admin write -> anyone\nexit\n***",
        names[0]
    );
    assert_eq!(server.run(program.as_bytes()).map(|report| report.kind), Ok(Kind::Exited));
    server
}

#[test]
fn a_sheet_row_by_row() {
    let [whole, cut, longest] = [34, 35, 255].map(|length| "n".repeat(length));
    let names = ["rosa", &whole, &cut, &longest];
    let server = closed_venue(&names);
    let before = *server.state();
    let sheet = server.sheet(Variable(b"x")).expect("a closed server has a sheet");
    assert!(before == *server.state(), "a sheet changed the state");
    assert_eq!((sheet.len(), sheet.text().len(), sheet.to_string()), (6, 240, sheet.text().to_string()));
    let shown = format!("{}~", &cut[..33]);
    let rows: Vec<Row> = sheet.rows().collect();
    assert_eq!(rows.iter().map(Row::name).collect::<Vec<&str>>(), ["admin", "anyone", "rosa", &whole, &shown, &shown]);
    assert_eq!(rows.iter().map(Row::is_cut).collect::<Vec<bool>>(), [false, false, false, false, true, true]);
    // Each row has just the rights that questions about its principal give.
    for (name, row) in ["admin", "anyone"].iter().chain(&names).zip(rows) {
        let asked = |right: &Right| server.ask(Principal(name.as_bytes()), Variable(b"x"), *right) != Ok(None);
        assert_eq!(row.rights().collect::<Vec<Right>>(), Right::ALL.into_iter().filter(asked).collect::<Vec<Right>>(), "{name}");
    }
}

#[test]
fn sheets_by_slices_of_any_size() {
    let server = closed_venue(&["rosa"]);
    let state = &server.state()[..];
    let mut output = vec![7; BUFFER];
    for (state, size, variable, number) in [
        (&state[1..], BUFFER - 1, &b"y"[..], 1),
        (&state[1..], 0, b"x", 1),
        (state, BUFFER - 1, b"x", 1),
        (&state[1..], BUFFER, b"y", 2),
        (&[7; BUFFER], BUFFER, b"y", 4),
        (state, BUFFER, b"y", 7),
        (state, BUFFER, b"", 7),
        (state, BUFFER, b"rosa", 7),
    ] {
        assert_eq!(raw::sheet(state, &mut output[..size], variable), raw::Answer::Wrong(number));
        assert!(output.iter().all(|byte| *byte == 7), "a refusal changed something");
    }
    assert_eq!(raw::sheet(state, &mut output, b"x"), raw::Answer::Listed { lines: 3, bytes: 120 });
    let expected = format!("{:34} rwad\n{:34} r...\n{:34} r.a.\n", "admin", "anyone", "rosa");
    assert_eq!(&output[..120], expected.as_bytes());
    assert!(output[120..].iter().all(|byte| *byte == 0), "zeros stand behind a sheet");
}

#[test]
fn rights_have_words_and_letters() {
    assert_eq!(Right::ALL.map(Right::letter), *b"rwad");
    Right::ALL.into_iter().for_each(|right| assert_eq!(right.to_string().parse(), Ok(right)));
    assert_eq!("sing".parse::<Right>(), Err(NoSuchRight));
}

#[test]
fn a_server_is_shown_without_its_state() {
    assert_eq!(format!("{:?}", server()), "Server { .. }");
}
