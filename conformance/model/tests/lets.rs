//! Expressions with lets (02, M-106; 001, Recursive expressions). The worked
//! cases are `replays/let.replay` and `replays/let_limits.replay`.

mod common;

use common::{program, returning, statuses, Server};
use model::engine::End;
use model::parse::{parse, LONGEST_PROGRAM};
use model::syntax::{Expression, Last, Operand, Plain, Step};

fn text(bytes: &[u8]) -> Step<'_> {
    Step::Evaluate(Plain::Operand(Operand::Text(bytes)))
}

fn name(bytes: &[u8]) -> Step<'_> {
    Step::Evaluate(Plain::Operand(Operand::Variable(bytes)))
}

/// By the steps that evaluating does.
#[test]
fn how_lets_are_read() {
    let bind = Step::Bind;
    for (written, steps) in [
        (
            "let a = \"x\" in a",
            vec![text(b"x"), bind(b"a"), name(b"a"), Step::Unbind],
        ),
        (
            "let a=let b=\"\"in b in a",
            vec![
                text(b""),
                bind(b"b"),
                name(b"b"),
                Step::Unbind,
                bind(b"a"),
                name(b"a"),
                Step::Unbind,
            ],
        ),
        (
            "let a=x in let b=y in b",
            vec![
                name(b"x"),
                bind(b"a"),
                name(b"y"),
                bind(b"b"),
                name(b"b"),
                Step::Unbind,
                Step::Unbind,
            ],
        ),
    ] {
        let lines = [
            format!("set v = {written}"),
            format!("append to v with {written}"),
            format!("local v={written} // x"),
            format!("foreach y in v replacewith {written}"),
            format!("filtereach y in v with {written}"),
            format!("return {written}"),
        ];
        let text = program("p", "", &lines.each_ref().map(String::as_str));
        let parsed = parse(text.as_bytes()).expect(written);
        assert_eq!(parsed.commands.len(), 5);
        assert_eq!(parsed.last, Last::Return(Expression::Lets(steps)));
    }
}

#[test]
fn what_does_not_parse() {
    for written in [
        "let",
        "let a",
        "let a=",
        "let a=x",
        "let a=x in",
        "let a in x",
        "let =x in y",
        "let a x in y",
        "let a=x y",
        "let a=x in y z",
        "let a=x in y in z",
        "let a=let b=x in y",
        "let a=x,b=y in z",
        "let a.b=x in y",
        "let \"a\"=x in y",
        "let in=x in y",
        "let let=x in y",
        "let add=x in y",
        "let a=[x] in y",
        "let a=x iny",
        "leta=x in y",
        "Let a=x in y",
        "(let a=x in y)",
        "let a=(x) in y",
        "{b=let a=x in y}",
        "tolower(let a=x in y)",
        "let a=x\nin y",
    ] {
        let text = program("p", "", &[&format!("return {written}")]);
        assert_eq!(parse(text.as_bytes()), None, "{written}");
    }
    for line in ["let a=x in y", "append to let a=x in y with z"] {
        let text = program("p", "", &[line, "exit"]);
        assert_eq!(parse(text.as_bytes()), None, "{line}");
    }
}

#[test]
fn values() {
    let mut server = Server::venue();
    for (expression, value) in [
        ("let a=s in concat(a,a)", "\"texttext\""),
        ("let a=r in a.b", "\"2\""),
        ("let a=l in a", "[\"x\",{\"a\":\"y\"}]"),
        (
            "let a={b=s} in {c=a.b,d=r.a}",
            "{\"c\":\"text\",\"d\":\"1\"}",
        ),
        ("let a=split(s,\"12\") in let b=a.snd in b", "\"xt\""),
        (
            "let a=let b=let c=\"x\" in concat(c,c) in concat(b,b) in a",
            "\"xxxx\"",
        ),
        (
            "let a=let a=let a=\"x\" in concat(a,a) in concat(a,a) in a",
            "\"xxxx\"",
        ),
        ("let a=add(\"1.00\",\"2.00\") in times(a,a)", "\"9.00\""),
        ("let a=let b=s in \"\" in let b=r in equal(a,b.a)", "\"0\""),
    ] {
        let (_, text) = server.admin(&[&format!("return {expression}")]);
        assert_eq!(text, returning(value), "{expression}");
    }
}

/// Bob has no right on s, may read r, and has a local m.
fn bob_ends(expression: &str, expected: End) {
    let mut server = Server::venue();
    server.prepare(&["set delegation r admin read -> bob"]);
    let last = format!("return {expression}");
    server.ends("bob", &["local m = \"\"", &last], expected);
}

/// What is tried, and so what is DENIED, FAILED or FULL.
#[test]
fn what_is_tried() {
    let full = format!("\"{}\"", "a".repeat(8_193));
    let heavy = format!("\"{}\"", "a".repeat(8_191));
    for defined in ["r", "s", "m"] {
        bob_ends(&format!("let {defined}=\"\" in s"), End::Failed);
        bob_ends(&format!("let {defined}=nosuch in s"), End::Failed);
        bob_ends(&format!("let {defined}=s in \"\""), End::Denied);
        bob_ends(&format!("let {defined}={full} in s"), End::Failed);
        // The second expression of a let in its first is too heavy.
        let inner = format!("let z=\"\" in {full}");
        bob_ends(&format!("let {defined}={inner} in s"), End::Failed);
        // So are the names that live in it.
        let inner = format!("let z={heavy} in s");
        bob_ends(&format!("let {defined}={inner} in s"), End::Failed);
        // It is so for one further out as well.
        let inner = format!("let q=let z={heavy} in s in s");
        bob_ends(&format!("let {defined}={inner} in s"), End::Failed);
    }
    bob_ends(&format!("let a={full} in s"), End::Full);
    bob_ends(&format!("let a={heavy} in s"), End::Full);
    bob_ends(&format!("let a=let b={heavy} in s in s"), End::Full);
    bob_ends("let a=\"\" in let b=s in nosuch", End::Denied);
    bob_ends("let a=\"\" in let b=nosuch in s", End::Failed);
    bob_ends("let a=\"\" in let b=r in s", End::Denied);
    bob_ends("let a=let b=r in b in s", End::Denied);
    bob_ends("let a=let b=r in b.c in s", End::Failed);
    bob_ends(&format!("let a=\"\" in let a={full} in s"), End::Failed);
    // The inner name is gone where the outer one is looked at.
    bob_ends(&format!("let a=let a=\"\" in {full} in s"), End::Full);
    bob_ends(&format!("let a=let a={heavy} in \"\" in s"), End::Full);
}

/// What a command comes to by itself goes before or behind.
#[test]
fn in_commands() {
    let full = format!("\"{}\"", "a".repeat(8_193));
    let mut server = Server::venue();
    for (line, expected) in [
        ("set s = let a=nosuch in a", End::Denied),
        ("local r = let a=s in a", End::Denied),
        ("local l = let a=\"\" in a", End::Failed),
        ("local new = let a=\"\" in s", End::Denied),
        ("append to nosuch with let a=\"\" in s", End::Denied),
        ("append to nosuch with let a=nosuch in s", End::Failed),
        (
            &format!("append to nosuch with let a={full} in s"),
            End::Failed,
        ),
        (&format!("local new = let a={full} in s"), End::Full),
        ("local new = let new=\"\" in new", End::Returned),
        ("set new = let new=\"\" in new", End::Returned),
        ("set new = let new=\"\" in new", End::Failed),
        ("set more = let a=new in a", End::Returned),
    ] {
        server.one("bob", line, expected);
    }
    let (_, text) = server.admin(&[
        "append to l with let a=s in tolower(a)",
        "append to l with let a=l in a",
        "return l",
    ]);
    let value = "[\"x\",{\"a\":\"y\"},\"text\",\"x\",{\"a\":\"y\"},\"text\"]";
    assert_eq!(text, statuses(&["APPEND", "APPEND"]) + &returning(value));
}

/// Names weigh 1, their length and their value, among themselves; what a local
/// or the state weighs does not count with them.
#[test]
fn weights() {
    let long = |length: usize| format!("\"{}\"", "a".repeat(length));
    let mut server = Server::new("desk");
    server.prepare(&[&format!("set x = {}", long(8_100))]);
    let nested = |length| format!("let ab=[] in let c={{d={}}} in \"\"", long(length));
    for (expression, expected) in [
        (format!("let abc={} in \"\"", long(8_188)), End::Returned),
        (format!("let abc={} in \"\"", long(8_189)), End::Full),
        (nested(8_185), End::Returned),
        (nested(8_186), End::Full),
        ("let a=x in concat(a,\"\")".to_string(), End::Returned),
        ("let a=x in let b=x in \"\"".to_string(), End::Full),
        (
            "let a=let b=x in \"\" in let b=x in b".to_string(),
            End::Returned,
        ),
        ("let a=let b=x in b in a".to_string(), End::Returned),
        (
            "let a=x in let b=concat(a,\"\") in \"\"".to_string(),
            End::Full,
        ),
    ] {
        server.ends("admin", &[&format!("return {expression}")], expected);
    }
    // The state and the locals are as heavy as they may be.
    let filler = format!("local y = {}", long(8_192 - server.weight() - 2));
    server.ends("admin", &[&filler, "return let a=x in a"], End::Returned);
    server.ends(
        "admin",
        &[&filler, "local z = let a=x in \"\"", "exit"],
        End::Full,
    );
    // Nor does an element.
    let lines = [
        "set x = []",
        &format!("append to x with {}", long(8_000)),
        "foreach y in x replacewith let a=y in \"\"",
        "return x",
    ];
    server.ends("admin", &lines, End::Returned);
}

/// Each element is tried, and what goes before may come later.
#[test]
fn for_each_element() {
    let [failed, done, full] = ["{b=\"\"}", "{a=\"\"}", "\"x\""];
    let heavy = "a".repeat(8_192);
    let denied = "{a=\"\",c=\"\"}";
    let lets = format!("let z={{a=y.a}} in let q=z.a in \"{}\"", "b".repeat(30));
    for (expression, elements, expected) in [
        ("let z=y.a in s", [failed, done], End::Denied),
        ("let z=y.a in s", [done, failed], End::Denied),
        ("let z=y.a in s", [failed, full], End::Failed),
        ("let z=y.a in z", [done, failed], End::Failed),
        ("let z=y.a in z", [done, denied], End::Returned),
        ("let z=y.c in s", [done, denied], End::Denied),
        ("let y=\"\" in s", [done, done], End::Failed),
        (
            &format!("let z=concat(y,\"{heavy}\") in s"),
            [full, failed],
            End::Failed,
        ),
        (
            &format!("let z=concat(y,\"{heavy}\") in s"),
            [full, full],
            End::Full,
        ),
        (&lets, [done, denied], End::Returned),
    ] {
        for command in ["foreach y in e replacewith", "filtereach y in e with"] {
            let lines = [
                "local e = []",
                &format!("append to e with {}", elements[0]),
                &format!("append to e with {}", elements[1]),
                &format!("{command} {expression}"),
                "return \"\"",
            ];
            Server::venue().ends("bob", &lines, expected);
        }
    }
    let (_, text) = Server::venue().admin(&[
        "foreach y in l replacewith let z=y in {a=s,b=r.b}",
        "foreach y in l replacewith let z=y.a in let q=concat(z,y.b) in q",
        "return l",
    ]);
    let value = "[\"text2\",\"text2\"]";
    assert_eq!(text, statuses(&["FOREACH", "FOREACH"]) + &returning(value));
    // A list is no result for foreach.
    let line = "foreach y in l replacewith let z=[] in z";
    Server::venue().one("admin", line, End::Failed);
}

/// As many lets as a program can have, one inside the other either way: none
/// is read, evaluated or dropped by a call inside a call.
#[test]
fn as_deep_as_may_be() {
    let wrapped = |lets: String| program("admin", "desk", &[&format!("return {lets}")]);
    let frame = wrapped(String::new()).len();
    let room = LONGEST_PROGRAM - frame;
    let mut server = Server::new("desk");
    let mut returns = |lets: String, value: &str| {
        let text = wrapped(lets);
        assert!(LONGEST_PROGRAM - text.len() < 20, "{}", text.len());
        assert_eq!(server.send(text.as_bytes()).1, returning(value));
    };
    // In the first expression.
    let depth = (room - 2) / "let a=in\"\"".len();
    let lets = [
        "let a=".repeat(depth),
        "\"\"".into(),
        "in\"\"".repeat(depth),
    ];
    returns(lets.concat(), "\"\"");
    // In the second, each name another.
    let names = model::replay::shortest_names(1_365);
    let lets = names.iter().map(|name| format!("let {name}=\"\"in "));
    returns(lets.collect::<String>() + "aa", "\"\"");
    // In the first, and each reads what the one inside gave.
    let depth = (room - 3) / "let a= in a".len();
    let lets = [
        "let a=".repeat(depth),
        "\"x\"".into(),
        " in a".repeat(depth),
    ];
    returns(lets.concat(), "\"x\"");
    // Without an end: it does not parse.
    let open = wrapped("let a=".repeat(room / "let a=".len()));
    assert_eq!(server.send(open.as_bytes()).0, End::Failed);
}
