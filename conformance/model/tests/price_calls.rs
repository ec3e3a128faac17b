//! Calls of add, sub, times and per in programs (02, M-104): how they are
//! written, what their arguments may be, and what goes before what.

mod common;

use common::{is_read, program, returning, statuses, Server};
use model::engine::End;
use model::parse::parse;
use model::syntax::{Call, Operand, Operation};

const FUNCTIONS: [(&str, Operation); 4] = [
    ("add", Operation::Add),
    ("sub", Operation::Sub),
    ("times", Operation::Times),
    ("per", Operation::Per),
];

/// Rosa may read the prices rate and hours, and nothing else.
fn desk() -> Server {
    let mut server = Server::new("desk");
    server.prepare(&[
        "create principal rosa \"r1\"",
        "set secret = \"9.99\"",
        "set rate = \"12.50\"",
        "set hours = \"3.00\"",
        "set bill = {rate=\"12.50\",hours=\"2.25\",note=\"late\"}",
        "set bills = []",
        "append to bills with {rate=\"12.50\",hours=\"2.00\"}",
        "append to bills with {rate=\"9.99\",hours=\"0.50\"}",
        "set delegation rate admin read -> anyone",
        "set delegation hours admin read -> anyone",
    ]);
    server
}

fn admin_ends(line: &str, expected: End) {
    let (end, text) = desk().admin(&[line, "return \"\""]);
    assert_eq!(end, expected, "{line} gives {text}");
}

fn rosa_ends(expression: &str, expected: End) {
    let (end, text) = desk().rosa(&[&format!("return {expression}")]);
    assert_eq!(end, expected, "{expression} gives {text}");
}

#[test]
fn every_call_is_read() {
    let [x, field, text] = [
        Operand::Variable(b"x"),
        Operand::Field(b"x", b"y"),
        Operand::Text(b"1.00"),
    ];
    for (word, operation) in FUNCTIONS {
        for (written, first, second) in [
            (format!("{word}(x,x.y)"), x, field),
            (format!("{word}(\"1.00\",x)"), text, x),
            (format!("  {word}  ( x . y  ,  \"1.00\" )"), field, text),
        ] {
            is_read(&written, Call::Prices(operation, first, second));
        }
    }
}

#[test]
fn what_does_not_parse() {
    for (word, _) in FUNCTIONS {
        for rest in [
            "",
            "()",
            "(x)",
            "(x,y,z)",
            "(x,,y)",
            "(,x,y)",
            "(x,y,)",
            "(x y)",
            "(x;y)",
            "(x,[])",
            "({a=x},y)",
            "((x),y)",
            "(x,1.00)",
            "(x,-y)",
            "(x,add)",
            "(per,x)",
            "(x.times,y)",
            "(x,add(x,y))",
            "(tolower(x),y)",
            " x,y",
            "(x,y",
            " x,y)",
            "[x,y]",
            "{x,y}",
            "(x,y))",
            "(x,y).z",
            "(x,y) x",
        ] {
            let text = program("p", "", &[&format!("return {word}{rest}")]);
            assert_eq!(parse(text.as_bytes()), None, "{word}{rest}");
        }
        for written in [
            format!("({word}(x,y))"),
            format!("{{a={word}(x,y)}}"),
            format!("concat({word}(x,y),z)"),
            format!("{word}s(x,y)"),
            format!("{}(x,y)", word.to_uppercase()),
            "plus(x,y)".to_string(),
            "x+y".to_string(),
            "x-y".to_string(),
        ] {
            let text = program("p", "", &[&format!("return {written}")]);
            assert_eq!(parse(text.as_bytes()), None, "{written}");
        }
    }
}

/// What does not parse is FAILED before the login.
#[test]
fn before_the_login() {
    let mut server = desk();
    let (end, _) = server.run("rosa", "wrong", &["return add(rate)"]);
    assert_eq!(end, End::Failed);
    let (end, _) = server.run("rosa", "wrong", &["return add(rate,rate)"]);
    assert_eq!(end, End::Denied);
    let (end, _) = server.run("nobody", "r1", &["return add(rate)"]);
    assert_eq!(end, End::Failed);
    let (end, _) = server.run("nobody", "r1", &["return add(rate,rate)"]);
    assert_eq!(end, End::Denied);
}

#[test]
fn arguments() {
    let (_, text) = desk().rosa(&["return times(rate,hours)"]);
    assert_eq!(text, returning("\"37.50\""));
    let (_, text) = desk().admin(&["return times(bill.rate,bill.hours)"]);
    assert_eq!(text, returning("\"28.13\""));
    for (word, _) in FUNCTIONS {
        for argument in [
            "bill",
            "bills",
            "nosuch",
            "bill.nosuch",
            "bill.note",
            "rate.x",
            "bills.rate",
            "nosuch.x",
            "\"\"",
            "\"12\"",
        ] {
            for line in [
                format!("set x = {word}({argument},rate)"),
                format!("set x = {word}(rate,{argument})"),
            ] {
                admin_ends(&line, End::Failed);
            }
        }
    }
}

#[test]
fn denied_goes_before_failed() {
    for (word, _) in FUNCTIONS {
        for other in ["nosuch", "\"x\"", "\"0.00\"", "\"9999999.99\"", "rate.x"] {
            rosa_ends(&format!("{word}(secret,{other})"), End::Denied);
            rosa_ends(&format!("{word}({other},secret)"), End::Denied);
            rosa_ends(&format!("{word}({other},bill.nosuch)"), End::Denied);
        }
        rosa_ends(&format!("{word}(rate,hours)"), End::Returned);
    }
    rosa_ends("per(rate,\"0.00\")", End::Failed);
    // Whichever part of the command each is in.
    let mut server = desk();
    for (line, expected) in [
        ("set secret = per(rate,\"0.00\")", End::Denied),
        ("append to bills with add(rate,\"x\")", End::Denied),
        ("append to rate with add(rate,rate)", End::Denied),
        ("append to nosuch with add(rate,secret)", End::Denied),
        ("append to nosuch with add(rate,rate)", End::Failed),
        ("local rate = add(secret,rate)", End::Denied),
        ("local rate = add(rate,rate)", End::Failed),
        ("local new = per(rate,\"0.00\")", End::Failed),
    ] {
        let (end, text) = server.rosa(&[line, "return \"\""]);
        assert_eq!(end, expected, "{line} gives {text}");
    }
}

/// A heavy string is no price, and so FAILED, which goes before FULL.
#[test]
fn a_heavy_argument() {
    for length in [12, 8_192, 8_193, 9_000] {
        for letter in ["a", "1", "0"] {
            let heavy = format!("\"{}\"", letter.repeat(length));
            for (word, _) in FUNCTIONS {
                admin_ends(&format!("set x = {word}({heavy},\"0.00\")"), End::Failed);
                admin_ends(&format!("set x = {word}(rate,{heavy})"), End::Failed);
            }
            rosa_ends(&format!("add({heavy},secret)"), End::Denied);
        }
    }
}

/// A result weighs what its string weighs, and the state with it may be FULL.
#[test]
fn what_is_left() {
    let filler = |length: usize| format!("set x = \"{}\"", "x".repeat(length));
    let mut server = Server::new("desk");
    // Fresh 28, x 2, y 2 and the price.
    server.prepare(&[&filler(8_192 - 28 - 2 - 2 - 4)]);
    server.one("admin", "set y = add(\"4.99\",\"4.99\")", End::Returned);
    assert_eq!(server.weight(), 8_192);
    server.one("admin", "set y = add(\"4.99\",\"5.01\")", End::Full);
    server.one("admin", "set y = sub(\"4.99\",\"5.01\")", End::Full);
    server.one("admin", "set y = sub(\"4.99\",\"4.99\")", End::Returned);
    server.one("admin", "set y = per(\"4.99\",\"0.00\")", End::Failed);
    server.one("admin", "local z = add(y,y)", End::Full);
    server.one("admin", "local y = add(y,y)", End::Failed);
    let (_, text) = server.admin(&["return sub(y,\"9999999.99\")"]);
    assert_eq!(text, returning("\"-9999999.99\""));
}

#[test]
fn values_that_are_kept() {
    let mut server = desk();
    let (_, text) = server.rosa(&[
        "local t = times(rate,hours)",
        "set mine = sub(t,\"0.50\")",
        "set list = []",
        "append to list with per(mine,\"3.00\")",
        "append to list with add(mine,t)",
        "set record = {total=mine,each=t}",
        "set mine = sub(record.total,record.each)",
        "return mine",
    ]);
    let done = ["LOCAL", "SET", "SET", "APPEND", "APPEND", "SET", "SET"];
    assert_eq!(text, statuses(&done) + &returning("\"-0.50\""));
    let state = server.text();
    assert!(state.contains("V|list|L\nS|12.33\nS|74.50\n"), "{state}");
    assert!(state.contains("V|mine|S|-0.50\n"), "{state}");
}

#[test]
fn in_foreach() {
    let mut server = desk();
    let (_, text) = server.admin(&[
        "foreach b in bills replacewith times(b.rate,b.hours)",
        "foreach b in bills replacewith add(b,rate)",
        "return bills",
    ]);
    let value = "[\"37.50\",\"17.50\"]";
    assert_eq!(text, statuses(&["FOREACH", "FOREACH"]) + &returning(value));
    // Without the element in it.
    let (_, text) = server.admin(&[
        "foreach b in bills replacewith sub(hours,rate)",
        "return bills",
    ]);
    let value = "[\"-9.50\",\"-9.50\"]";
    assert_eq!(text, statuses(&["FOREACH"]) + &returning(value));
    for (call, expected) in [
        ("add(b,nosuch)", End::Failed),
        ("add(b,bills)", End::Failed),
        ("add(b.rate,rate)", End::Failed),
        ("add(b,\"x\")", End::Failed),
        ("per(b,\"0.00\")", End::Failed),
        ("per(rate,\"0.00\")", End::Failed),
        ("times(b,\"-9999999.99\")", End::Failed),
    ] {
        let line = format!("foreach b in bills replacewith {call}");
        server.one("admin", &line, expected);
    }
    // An element of its own that is no price.
    server.prepare(&["append to bills with \"free\""]);
    server.one(
        "admin",
        "foreach b in bills replacewith add(b,rate)",
        End::Failed,
    );
    server.one(
        "admin",
        "foreach b in bills replacewith add(rate,rate)",
        End::Returned,
    );
}

#[test]
fn foreach_evaluates_for_elements_only() {
    let heavy = format!("add(y,\"{}\")", "1".repeat(8_193));
    for call in [
        "add(nosuch,y.a)",
        "add(secret,y)",
        "per(rate,\"0.00\")",
        &heavy,
    ] {
        let line = format!("foreach y in e replacewith {call}");
        let (end, _) = desk().rosa(&["local e = []", &line, "return e"]);
        assert_eq!(end, End::Returned, "{call}");
    }
    let one = "append to e with \"1.00\"";
    for (call, expected) in [
        ("add(nosuch,secret)", End::Denied),
        ("per(y,\"0.00\")", End::Failed),
        (&heavy, End::Failed),
        ("add(y,y)", End::Returned),
    ] {
        let line = format!("foreach y in e replacewith {call}");
        let (end, _) = desk().rosa(&["local e = []", one, &line, "return e"]);
        assert_eq!(end, expected, "{call}");
    }
    // The element is defined, so nothing is evaluated and nothing is read.
    let line = "foreach rate in e replacewith add(secret,secret)";
    let (end, _) = desk().rosa(&["local e = []", one, line, "return e"]);
    assert_eq!(end, End::Failed);
}

/// A list of short prices grows too heavy by long ones, FULL; FAILED at a later
/// element goes before it, whatever makes the call fail there.
#[test]
fn foreach_failed_goes_before_full() {
    let doubled = ["append to l with l"; 10].map(str::to_string);
    let mut lines = vec![
        "set l = []".to_string(),
        "append to l with \"0.01\"".to_string(),
    ];
    lines.extend(doubled);
    let lines: Vec<&str> = lines.iter().map(String::as_str).collect();
    let mut server = Server::new("desk");
    server.prepare(&lines);
    let line = "foreach y in l replacewith per(\"12345.67\",y)";
    server.one("admin", line, End::Full);
    for (last, expected) in [
        ("\"0.02\"", End::Full),
        ("\"free\"", End::Failed),
        ("\"0.00\"", End::Failed),
        ("{a=\"0.01\"}", End::Failed),
    ] {
        let append = format!("append to l with {last}");
        let (end, _) = server.admin(&[&append, line, "return \"\""]);
        assert_eq!(end, expected, "{last}");
    }
}
