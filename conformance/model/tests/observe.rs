//! What `observe` tells of calls is what became of them.

mod common;

use common::{program, Server};
use model::engine::End;
use model::observe::comparisons::COMPARISONS;
use model::observe::filters::FILTERS;
use model::observe::lets::{BOUND, ELEMENTS, LEFT, UNDONE};
use model::observe::older::{older, Met, OLDER};
use model::observe::prices::{FAILURES, ROUNDINGS};
use model::observe::shapes::SHAPES;
use model::observe::{self, FUNCTIONS, MISHAPS, PLACES};

/// Bob may read the list l and the record r, and not the string s.
fn server() -> Server {
    let mut server = Server::venue();
    server.prepare(&[
        "set delegation l admin read -> bob",
        "set delegation l admin write -> bob",
        "set delegation r admin read -> bob",
    ]);
    server
}

fn told(lines: &[&str]) -> Vec<String> {
    observe::expressions(&server().state, program("bob", "b", lines).as_bytes())
}

#[test]
fn calls_that_are_done() {
    let calls = ["split(r.a,\"x\")", "concat(r.a,\"x\")", "tolower(r.a)"];
    for (call, function) in calls.iter().zip(FUNCTIONS) {
        let lines = [
            format!("set new = {call}"),
            format!("append to l with {call}"),
            format!("local other = {call}"),
            format!("foreach y in l replacewith {call}"),
            format!("filtereach y in l with {call}"),
            format!("return {call}"),
        ];
        let lines: Vec<&str> = lines.iter().map(String::as_str).collect();
        let expected: Vec<String> = PLACES
            .iter()
            .map(|place| format!("{function} in {place}"))
            .collect();
        let mut told = told(&lines);
        told.retain(|words| !FILTERS.contains(&words.as_str()));
        assert_eq!(told, expected);
    }
}

#[test]
fn calls_that_end_the_program() {
    let heavy = format!("split(r.a,\"{}\")", "b".repeat(8_193));
    let result = format!("concat(r.a,\"{}\")", "b".repeat(8_192));
    let left = format!("concat(r.a,\"{}\")", "b".repeat(8_191));
    for (call, mishap) in [
        ("concat(nosuch,s)", MISHAPS[0]),
        ("concat(r.a,nosuch)", MISHAPS[1]),
        ("concat(r.a,r.nosuch)", MISHAPS[2]),
        ("tolower(l)", MISHAPS[3]),
        ("tolower(r)", MISHAPS[4]),
        (&heavy, MISHAPS[6]),
        (&result, MISHAPS[7]),
    ] {
        assert_eq!(told(&[&format!("return {call}")]), [mishap], "{call}");
        let set = format!("set new = {call}");
        assert_eq!(told(&[&set, "return \"\""]), [mishap], "{set}");
    }
    let line = "foreach y in l replacewith tolower(y)";
    assert_eq!(told(&[line, "return \"\""]), [MISHAPS[5]]);
    let line = format!("local new = {left}");
    assert_eq!(told(&[&line, "return \"\""]), [MISHAPS[8]]);
}

/// Nothing is told of a call that is not evaluated, or that is not the reason.
#[test]
fn other_ends() {
    for line in [
        "set s = tolower(s)",
        "set s = tolower(nosuch)",
        "local r = tolower(nosuch)",
        "append to r with tolower(nosuch)",
        "foreach r in l replacewith tolower(s)",
    ] {
        assert_eq!(told(&[line, "return \"\""]), [""; 0], "{line}");
    }
    let lines = [
        "local e = []",
        "foreach y in e replacewith tolower(s)",
        "return e",
    ];
    assert_eq!(told(&lines), [""; 0]);
    let text = program("bob", "wrong", &["return tolower(s)"]);
    assert_eq!(
        observe::expressions(&server().state, text.as_bytes()),
        [""; 0]
    );
}

#[test]
fn calls_that_do_not_parse() {
    for (written, shape) in [
        ("concat(r.a)", Some(SHAPES[0])),
        ("tolower()", Some(SHAPES[0])),
        ("tolower(r.a , \"x\")", Some(SHAPES[0])),
        ("concat(r.a,concat(r.a,\"x\"))", Some(SHAPES[1])),
        ("tolower(concat(r.a,\"x\"))", Some(SHAPES[1])),
        ("{a=\"\",b=tolower(r.a)}", Some(SHAPES[2])),
        ("tolower r.a", Some(SHAPES[3])),
        ("tolower(r.a", Some(SHAPES[3])),
        ("tolower r.a)", Some(SHAPES[3])),
        ("(tolower(r.a))", Some(SHAPES[4])),
        ("(r.a)", Some(SHAPES[4])),
        ("tolower([])", None),
        ("add(r.a)", Some(SHAPES[0])),
        ("per(r.a,r.a,r.a)", Some(SHAPES[0])),
        ("times(r.a,sub(r.a,r.a))", Some(SHAPES[1])),
        ("{a=add(r.a,r.a)}", Some(SHAPES[2])),
        ("sub r.a,r.a", Some(SHAPES[3])),
        ("(add(r.a,r.a))", Some(SHAPES[4])),
        ("concat(r.a,,\"x\")", Some(SHAPES[0])),
        ("\"", None),
        ("equal(r.a)", Some(SHAPES[0])),
        ("notequal(r,equal(r,r))", Some(SHAPES[1])),
        ("{a=equal(r,r)}", Some(SHAPES[2])),
        // A call behind another that is closed.
        ("let a=concat(r.a,r.a) in tolower()", Some(SHAPES[0])),
        ("concat(let a=\"x\" in a,\"b\")", Some(SHAPES[5])),
        ("equal(\"b\",let a={x=\"\"} in a.x)", Some(SHAPES[5])),
        ("{f=let a=\"x\" in concat(a,a),g=\"\"}", Some(SHAPES[6])),
        ("(let a=\"x\" in a)", Some(SHAPES[4])),
        ("let a=\"x\"", Some(SHAPES[7])),
        ("let a=let b=\"x\" in b", Some(SHAPES[7])),
        ("let a=\"x\" in", Some(SHAPES[8])),
        ("let a.b=\"x\" in \"y\"", Some(SHAPES[9])),
        ("let in=\"x\" in \"y\"", Some(SHAPES[9])),
        ("let a=\"x\" in \"y\" in \"z\"", None),
        ("let a=[\"x\"] in \"y\"", None),
    ] {
        let expected: Vec<&str> = shape.into_iter().collect();
        assert_eq!(told(&[&format!("return {written}")]), expected, "{written}");
        let lines = [&format!("set x = {written}"), "return \"\""];
        assert_eq!(told(&lines), expected, "{written}");
    }
}

#[test]
fn commands_over_lists_that_do_not_parse() {
    for (line, shape) in [
        ("filtereach y in l replacewith y", Some(SHAPES[10])),
        ("foreach y in l with y", Some(SHAPES[11])),
        ("filtereach y in l y", None),
        ("append to l replacewith y", None),
    ] {
        let expected: Vec<&str> = shape.into_iter().collect();
        assert_eq!(told(&[line, "return \"\""]), expected, "{line}");
    }
}

#[test]
fn values_that_are_compared() {
    for (call, kind) in [
        ("equal(\"a\",\"a\")", 0),
        ("notequal(\"a\",\"b\")", 1),
        ("equal(r,r)", 2),
        ("equal(r,q)", 3),
        ("notequal(q,t)", 4),
        ("equal(t,u)", 5),
        ("equal(u,r)", 5),
        ("equal(r,v)", 6),
        ("notequal(v,r)", 6),
        ("equal(v,\"1\")", 7),
        ("equal(\"1\",r)", 7),
    ] {
        let function = call.split('(').next().unwrap();
        let lines = [
            "local q = {b=\"2\",a=\"1\"}",
            "local t = {b=\"1\",a=\"1\"}",
            "local u = {b=\"1\",c=\"1\"}",
            "local v = {a=\"1\"}",
            &format!("return {call}"),
        ];
        let expected = [
            format!("{function} in return"),
            COMPARISONS[kind].to_string(),
        ];
        assert_eq!(told(&lines), expected, "{call}");
    }
    for (call, mishap) in [
        ("equal(r,s)", MISHAPS[0]),
        ("equal(nosuch,r)", MISHAPS[1]),
        ("notequal(r,r.nosuch)", MISHAPS[2]),
        ("equal(r,l)", MISHAPS[3]),
        (&format!("equal(\"{}\",r)", "a".repeat(8_193)), MISHAPS[6]),
    ] {
        assert_eq!(told(&[&format!("return {call}")]), [mishap], "{call}");
    }
}

/// The list l has the element "x" and then {a="y"}.
#[test]
fn filters() {
    let heavy = format!("filtereach y in l with \"{}\"", "b".repeat(8_193));
    for (line, kinds) in [
        ("filtereach y in l with \"\"", &[1][..]),
        ("filtereach y in l with r.a", &[4, 3]),
        ("filtereach y in l with r", &[5, 3]),
        ("filtereach y in l with []", &[6, 3]),
        ("filtereach y in s with \"\"", &[7]),
        ("filtereach y in r with \"\"", &[7]),
        ("filtereach y in l with s", &[8]),
        ("filtereach y in nosuch with \"\"", &[9]),
        ("filtereach y in nosuch with s", &[9, 14]),
        ("filtereach r in l with \"\"", &[11]),
        ("filtereach r in l with s", &[11, 14]),
        ("filtereach y in l with y.a", &[12]),
        (&heavy, &[13]),
    ] {
        let expected: Vec<&str> = kinds.iter().map(|&kind| FILTERS[kind]).collect();
        assert_eq!(told(&[line, "return \"\""]), expected, "{line}");
    }
    let local = |value, line| told(&[&format!("local e = {value}"), line, "return \"\""]);
    let line = "filtereach y in e with s";
    assert_eq!(local("[]", line), [FILTERS[0]]);
    assert_eq!(local("\"\"", line), [FILTERS[10], FILTERS[14]]);
    let line = "filtereach y in l with equal(y,\"x\")";
    let expected = ["equal in filtereach", COMPARISONS[0], COMPARISONS[7]];
    let expected = [&expected[..], &[FILTERS[4], FILTERS[2]]].concat();
    assert_eq!(told(&[line, "return \"\""]), expected);
}

/// What is told of a let that bob returns; he has a local name m.
fn told_of_let(expression: &str) -> Vec<String> {
    told(&["local m = \"\"", &format!("return {expression}")])
}

fn sorted(words: &[&str]) -> Vec<String> {
    let mut words: Vec<String> = words.iter().map(|words| words.to_string()).collect();
    words.sort();
    words
}

#[test]
fn lets_that_are_done() {
    let done = "let in return";
    for (expression, more) in [
        ("let a=\"\" in a", &[BOUND[0]][..]),
        ("let a=r in a", &[BOUND[1]]),
        ("let a=[] in a", &[BOUND[2]]),
        ("let a=let b=r in [] in a", &[BOUND[1], BOUND[2], BOUND[5]]),
        ("let a=r in let b=[] in a", &[BOUND[1], BOUND[2], BOUND[6]]),
        ("let a=let a=r in a in a", &[BOUND[1], BOUND[3], BOUND[5]]),
        ("let a=r in tolower(a.a)", &[BOUND[1], "tolower in let"]),
    ] {
        let expected = sorted(&[&[done], more].concat());
        assert_eq!(told_of_let(expression), expected, "{expression}");
    }
    for (line, place) in [
        ("set new = let new=\"\" in new", "let in set"),
        ("local new = let new=\"\" in new", "let in local"),
    ] {
        let expected = sorted(&[place, BOUND[0], BOUND[4]]);
        assert_eq!(told(&[line, "return \"\""]), expected, "{line}");
    }
}

#[test]
fn lets_that_end_the_program() {
    let long = |length: usize| "a".repeat(length);
    let (full, most) = (long(8_193), long(8_191));
    for (expression, expected) in [
        ("let a=s in nosuch", &[UNDONE[0]][..]),
        ("let a=nosuch in r", &[UNDONE[1]]),
        ("let a=nosuch in s", &[UNDONE[1], UNDONE[14]]),
        (&format!("let a=\"{full}\" in r"), &[UNDONE[2]]),
        ("let a=\"\" in s", &[BOUND[0], UNDONE[3]]),
        ("let a=\"\" in nosuch", &[BOUND[0], UNDONE[4]]),
        (&format!("let a=r in \"{full}\""), &[BOUND[1], UNDONE[5]]),
        ("let r=\"\" in r", &[UNDONE[6]]),
        ("let r=\"\" in s", &[UNDONE[6], UNDONE[14]]),
        ("let s=\"\" in r", &[UNDONE[7]]),
        ("let m=\"\" in r", &[UNDONE[8]]),
        ("let a=r in let a=r in a", &[BOUND[1], UNDONE[9]]),
        (&format!("let m=\"{full}\" in r"), &[UNDONE[2], UNDONE[11]]),
        (&format!("let a=\"{most}\" in r"), &[UNDONE[12]]),
        (
            &format!("let a=r in let b=\"{}\" in r", long(8_190)),
            &[BOUND[1], UNDONE[13]],
        ),
        // The whole let is the first expression of another.
        ("let a=let b=nosuch in r in s", &[UNDONE[1], UNDONE[14]]),
        (
            "let a=let b=\"\" in s in r",
            &[BOUND[0], BOUND[5], UNDONE[3]],
        ),
        (
            &format!("let r=let b=\"{most}\" in r in r"),
            &[UNDONE[12], UNDONE[11]],
        ),
    ] {
        assert_eq!(told_of_let(expression), sorted(expected), "{expression}");
    }
    let line = format!("local new = let a=r in \"{most}\"");
    assert_eq!(told(&[&line, "return \"\""]), sorted(&[BOUND[1], LEFT]));
    // What is not evaluated, or is not the reason.
    for line in [
        "set s = let a=nosuch in a",
        "local r = let a=nosuch in a",
        "append to nosuch with let a=nosuch in a",
        "foreach r in l replacewith let a=nosuch in a",
    ] {
        assert_eq!(told(&[line, "return \"\""]), [""; 0], "{line}");
    }
}

/// The list l has the element "x" and then {a="y"}.
#[test]
fn lets_for_elements() {
    let wide = "a".repeat(8_192);
    for (expression, kinds) in [
        ("let a=y in \"\"", &[][..]),
        ("let a=y.a in s", &[0]),
        (&format!("let a=concat(y,\"{wide}\") in \"\""), &[3]),
        ("let a=y in tolower(a)", &[2]),
    ] {
        for command in ["foreach y in l replacewith", "filtereach y in l with"] {
            let place = command.split(' ').next().unwrap();
            let mut told = told(&[&format!("{command} {expression}"), "return \"\""]);
            told.retain(|words| words.starts_with(&format!("{place}: ")));
            let expected = kinds
                .iter()
                .map(|&kind| format!("{place}: {}", ELEMENTS[kind]));
            assert_eq!(told, expected.collect::<Vec<String>>(), "{expression}");
        }
    }
    let line = "foreach y in l replacewith let y=\"\" in y";
    assert_eq!(told(&[line, "return \"\""]), [UNDONE[10]]);
}

/// A call of a function on prices that is done is told with how its result
/// was rounded, in foreach for each element.
#[test]
fn prices_that_are_done() {
    for (call, kinds) in [
        ("add(\"0.10\",\"0.20\")", &[0][..]),
        ("sub(\"0.10\",\"0.20\")", &[0]),
        ("times(\"0.07\",\"0.07\")", &[1]),
        ("per(\"2.00\",\"-3.00\")", &[2]),
        ("times(\"0.05\",\"0.50\")", &[3]),
        ("per(\"0.01\",\"-2.00\")", &[4]),
        ("times(\"-0.01\",\"0.10\")", &[1, 5]),
        ("times(\"2227171.49\",\"4.49\")", &[1, 6]),
    ] {
        let function = call.split('(').next().unwrap();
        let rounded = kinds.iter().map(|&kind| ROUNDINGS[kind].to_string());
        let mut expected = vec![format!("{function} in return")];
        expected.extend(rounded);
        assert_eq!(told(&[&format!("return {call}")]), expected, "{call}");
    }
    let lines = [
        "local e = []",
        "append to e with \"0.05\"",
        "append to e with \"-0.05\"",
        "foreach y in e replacewith times(y,\"0.10\")",
        "return e",
    ];
    let expected = ["times in foreach", ROUNDINGS[3], ROUNDINGS[4]];
    assert_eq!(told(&lines), expected);
}

#[test]
fn prices_that_end_the_program() {
    let heavy = format!("add(\"0.00\",\"{}\")", "1".repeat(8_193));
    for (call, kinds) in [
        ("add(\"x\",\"0.00\")", &[0][..]),
        ("add(\"0.00\",r.b)", &[0]),
        (&heavy, &[1]),
        ("per(\"-1.00\",\"0.00\")", &[2]),
        ("per(\"0.00\",\"0.00\")", &[3]),
        ("times(\"10000.00\",\"1000.00\")", &[4]),
        ("times(\"-10000.00\",\"1000.00\")", &[5]),
        ("times(\"9090909.09\",\"1.10\")", &[4, 6]),
        ("times(\"9090909.09\",\"-1.10\")", &[5, 6]),
    ] {
        let expected: Vec<&str> = kinds.iter().map(|&kind| FAILURES[kind]).collect();
        assert_eq!(told(&[&format!("return {call}")]), expected, "{call}");
        let lines = [
            "local e = []",
            "append to e with \"1.00\"",
            &format!("foreach y in e replacewith {call}"),
            "return e",
        ];
        assert_eq!(told(&lines), expected, "{call}");
    }
    assert_eq!(told(&["return add(s,\"x\")"]), [MISHAPS[0]]);
    assert_eq!(told(&["return add(\"x\",nosuch)"]), [MISHAPS[1]]);
    assert_eq!(told(&["return add(l,\"x\")"]), [MISHAPS[3]]);
    // The first element is a string and no price; the second is no string.
    let line = "foreach y in l replacewith add(y,\"0.00\")";
    assert_eq!(told(&[line, "return \"\""]), [FAILURES[0]]);
    let line = "foreach y in l replacewith add(y.a,\"0.00\")";
    assert_eq!(told(&[line, "return \"\""]), [MISHAPS[5]]);
}

/// A later element fails where the results so far are too heavy already.
#[test]
fn calls_that_fail_behind_what_is_too_heavy() {
    let heavy = format!(
        "foreach y in l replacewith split(y,\"{}\")",
        "b".repeat(8_193)
    );
    assert_eq!(told(&[&heavy, "return \"\""]), [MISHAPS[5], MISHAPS[9]]);
    let mut lines = vec!["local e = []", "append to e with \"0.01\""];
    lines.extend(["append to e with e"; 10]);
    for (last, expected) in [
        ("\"x\"", vec![FAILURES[0], FAILURES[7]]),
        ("\"0.00\"", vec![FAILURES[2], FAILURES[7]]),
        ("{a=\"0.01\"}", vec![MISHAPS[5], FAILURES[7]]),
        ("\"0.02\"", vec![MISHAPS[8]]),
    ] {
        let append = format!("append to e with {last}");
        let foreach = "foreach y in e replacewith per(\"12345.67\",y)";
        let lines = [&lines[..], &[&append, foreach, "return e"]].concat();
        assert_eq!(told(&lines), expected, "{last}");
    }
}

/// What is told of a program on a state with a principal per, a variable add
/// and a label times.
fn told_of_older(name: &str, lines: &[&str]) -> Vec<&'static str> {
    let mut server = Server::of_text(
        "O\nP|admin|desk|0\nN|anyone|0\nP|per|p|0\nP|bob|b|0\nD|bob\nV|add|S|\n\
         V|list|L\nR\nF|times|ten\nA|add|admin|d|bob\n",
    );
    let before = server.state.clone();
    let password = if name == "admin" { "desk" } else { &name[..1] };
    let program = program(name, password, lines);
    let (end, output) = server.send(program.as_bytes());
    older(&Met {
        before: &before,
        program: program.as_bytes(),
        end,
        output: output.as_bytes(),
        after: &server.state,
    })
}

#[test]
fn older_names_that_are_met() {
    let held = &OLDER[..3];
    assert_eq!(told_of_older("admin", &["return \"\""]), held);
    for (name, lines, kinds) in [
        ("admin", &["return add"][..], &[3][..]),
        ("admin", &["set per = add(\"\",\"\")", "return \"\""], &[3]),
        ("bob", &["create principal per \"\"", "exit"], &[3]),
        ("per", &["return \"\""], &[4]),
        // Not for an older name, for one that is not there, and for two.
        ("admin", &["return sub"], &[]),
        ("admin", &["return add("], &[]),
        ("per", &["return add"], &[]),
        ("admin", &["return nosuch"], &[]),
    ] {
        let expected: Vec<&str> = kinds.iter().map(|&kind| OLDER[kind]).collect();
        assert_eq!(told_of_older(name, lines), expected, "{lines:?}");
    }
    for (lines, kind) in [
        (
            &["set delegation all bob read -> anyone", "return \"\""][..],
            5,
        ),
        (
            &["delete delegation all admin delegate -> bob", "return \"\""],
            5,
        ),
        (&["create principal tom \"\"", "return \"\""], 6),
        (&["return list"], 7),
        (&["local l = list", "return l"], 7),
    ] {
        let expected = [held, &OLDER[kind..=kind]].concat();
        assert_eq!(told_of_older("admin", lines), expected, "{lines:?}");
    }
    let plain = Server::venue().state;
    let met = Met {
        before: &plain,
        program: b"",
        end: End::Failed,
        output: b"",
        after: &plain,
    };
    assert_eq!(older(&met), [""; 0]);
}
