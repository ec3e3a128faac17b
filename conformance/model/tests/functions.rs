//! The functions split, concat and tolower (02, M-100; 001, String
//! functions).

mod common;

use common::{is_read, program, returning, statuses, Server};
use model::engine::End;
use model::parse::parse;
use model::syntax::{Call, Operand};

/// A string of so many letters, in quotes.
fn long(letter: char, count: usize) -> String {
    format!("\"{}\"", letter.to_string().repeat(count))
}

/// What admin's program of one return prints on a new server.
fn returned(expression: &str) -> (End, String) {
    Server::new("desk").admin(&[&format!("return {expression}")])
}

fn gives(expression: &str, value: &str) {
    let (end, text) = returned(expression);
    assert_eq!(
        (end, text),
        (End::Returned, returning(value)),
        "{expression}"
    );
}

fn ends(expression: &str, expected: End) {
    let (end, text) = returned(expression);
    assert_eq!(end, expected, "{expression} gives {text}");
}

/// Rosa may read the string word, the record card and the list songs, and not
/// the string secret, the record vault or the list queue, to which she may
/// append.
fn desk() -> Server {
    let mut server = Server::new("desk");
    server.prepare(&[
        "create principal rosa \"r1\"",
        "set word = \"Blue Moon\"",
        "set card = {song=\"Fever\",key=\"A\"}",
        "set songs = []",
        "append to songs with \"Halo\"",
        "append to songs with {song=\"Sway\",key=\"E\"}",
        "set delegation all admin read -> rosa",
        "set secret = \"s3\"",
        "set vault = {song=\"Hush\"}",
        "set queue = []",
        "set delegation queue admin append -> rosa",
    ]);
    server
}

fn rosa_ends(expression: &str, expected: End) {
    let (end, text) = desk().rosa(&[&format!("return {expression}")]);
    assert_eq!(end, expected, "{expression} gives {text}");
}

#[test]
fn values() {
    gives("split(\"abc\",\"--\")", "{\"fst\":\"ab\",\"snd\":\"c\"}");
    gives("split(\"abc\",\"---\")", "{\"fst\":\"abc\",\"snd\":\"\"}");
    gives("split(\"abc\",\"----\")", "{\"fst\":\"abc\",\"snd\":\"\"}");
    gives("split(\"abc\",\"\")", "{\"fst\":\"\",\"snd\":\"abc\"}");
    gives("split(\"\",\"a\")", "{\"fst\":\"\",\"snd\":\"\"}");
    gives("split(\"\",\"\")", "{\"fst\":\"\",\"snd\":\"\"}");
    gives("concat(\"ab\",\"cd\")", "\"abcd\"");
    gives("concat(\"\",\"cd\")", "\"cd\"");
    gives("concat(\"ab\",\"\")", "\"ab\"");
    gives("concat(\"\",\"\")", "\"\"");
    gives("tolower(\"\")", "\"\"");
    gives("tolower(\"AZ MzaQ\")", "\"az mzaq\"");
    let other = "\"az09 _,;.?!-\"";
    gives(&format!("tolower({other})"), other);
}

#[test]
fn every_call_is_read() {
    let [x, field, text] = [
        Operand::Variable(b"x"),
        Operand::Field(b"x", b"y"),
        Operand::Text(b"a,"),
    ];
    for (written, expected) in [
        ("split(x,x.y)", Call::Split(x, field)),
        ("concat(\"a,\",x)", Call::Concat(text, x)),
        ("tolower(x.y)", Call::Tolower(field)),
        (
            "  concat  (  x . y  ,  \"a,\"  )  ",
            Call::Concat(field, text),
        ),
    ] {
        is_read(written, expected);
    }
}

#[test]
fn what_does_not_parse() {
    for written in [
        // Another number of arguments.
        "split()",
        "concat()",
        "tolower()",
        "split(x)",
        "concat(x)",
        "tolower(x,y)",
        "split(x,y,z)",
        "concat(x,y,z)",
        "tolower(x,y,z)",
        // An argument that is no value.
        "concat(x,concat(x,y))",
        "tolower(tolower(x))",
        "concat([],x)",
        "tolower([])",
        "tolower({a=x})",
        "tolower((x))",
        "tolower(set)",
        "tolower(split)",
        "tolower(x.split)",
        "tolower(1)",
        // A call where a value stands.
        "{a=tolower(x)}",
        "{a=x,b=concat(x,y)}",
        "tolower(x).y",
        "split(x,y).fst",
        // Parentheses.
        "tolower",
        "tolower x",
        "tolower \"A\"",
        "tolower(x",
        "tolower x)",
        "(tolower(x))",
        "(tolower)(x)",
        "tolower[x]",
        "tolower{x}",
        "tolower(x))",
        "(x)",
        "x()",
        "x(y)",
        "set(x)",
        "()",
        // Commas.
        "concat(x y)",
        "concat(x;y)",
        "concat(x,,y)",
        "concat(,x,y)",
        "concat(x,y,)",
        "concat,x,y",
        // Other words.
        "Tolower(x)",
        "toLower(x)",
        "tolowers(x)",
        "concat(x,y) concat(x,y)",
        "concat(x,y)x",
    ] {
        let text = program("p", "", &[&format!("return {written}")]);
        assert_eq!(parse(text.as_bytes()), None, "{written}");
    }
    for line in ["tolower(x)", "set tolower(x) = y", "set x = y ()"] {
        let text = program("p", "", &[line, "exit"]);
        assert_eq!(parse(text.as_bytes()), None, "{line}");
    }
}

/// A parenthesis is a token and stands in no string, comment or name.
#[test]
fn parentheses_elsewhere() {
    for mark in ["(", ")"] {
        for lines in [
            [format!("set x = \"a{mark}\""), "exit".to_string()],
            [format!("set x = y // a{mark}"), "exit".to_string()],
            [format!("// a{mark}"), "exit".to_string()],
            [format!("set x{mark} = y"), "exit".to_string()],
            [format!("create principal p \"{mark}\""), "exit".to_string()],
        ] {
            let lines: Vec<&str> = lines.iter().map(String::as_str).collect();
            let text = program("p", "", &lines);
            assert_eq!(parse(text.as_bytes()), None, "{text}");
        }
    }
}

#[test]
fn what_does_not_parse_is_failed_before_the_login() {
    let mut server = desk();
    for (name, password) in [("nobody", "x"), ("rosa", "wrong"), ("rosa", "r1")] {
        let (end, _) = server.run(name, password, &["return concat(\"a\")"]);
        assert_eq!(end, End::Failed, "{name}");
    }
    let (end, _) = server.run("rosa", "wrong", &["return concat(\"a\",\"b\")"]);
    assert_eq!(end, End::Denied);
    // Nor is anything above it looked at.
    let lines = ["set secret = \"\"", "return tolower()"];
    assert_eq!(server.rosa(&lines).0, End::Failed);
}

#[test]
fn arguments() {
    let (_, text) = desk().rosa(&["return concat(word,card.song)"]);
    assert_eq!(text, returning("\"Blue MoonFever\""));
    let (_, text) = desk().rosa(&["local l = \"ABC\"", "return split(l,card.key)"]);
    let value = "{\"fst\":\"A\",\"snd\":\"BC\"}";
    assert_eq!(text, statuses(&["LOCAL"]) + &returning(value));
    for argument in [
        "card",
        "songs",
        "nosuch",
        "card.nosuch",
        "word.x",
        "songs.x",
        "nosuch.x",
    ] {
        for expression in [
            format!("tolower({argument})"),
            format!("concat({argument},word)"),
            format!("concat(word,{argument})"),
            format!("split({argument},word)"),
            format!("split(word,{argument})"),
        ] {
            rosa_ends(&expression, End::Failed);
        }
    }
}

#[test]
fn denied_goes_before_failed() {
    for argument in [
        "secret",
        "vault",
        "vault.song",
        "vault.nosuch",
        "queue",
        "queue.x",
    ] {
        for expression in [
            format!("tolower({argument})"),
            format!("concat({argument},nosuch)"),
            format!("concat(nosuch,{argument})"),
            format!("split(card,{argument})"),
            format!("split({argument},{})", long('a', 8_193)),
        ] {
            rosa_ends(&expression, End::Denied);
        }
    }
    let mut server = desk();
    let mut ends = |line: &str, expected| {
        let (end, text) = server.rosa(&[line, "return \"\""]);
        assert_eq!(end, expected, "{line} gives {text}");
    };
    ends("append to queue with concat(queue,\"a\")", End::Denied);
    ends("set queue = concat(nosuch,\"a\")", End::Denied);
    ends("append to nosuch with tolower(secret)", End::Denied);
    ends("local word = tolower(secret)", End::Denied);
    ends("append to queue with tolower(word)", End::Returned);
}

#[test]
fn weights() {
    let (a, b) = ("a".repeat(4_096), "b".repeat(4_096));
    gives(&format!("concat(\"{a}\",\"{b}\")"), &format!("\"{a}{b}\""));
    ends(&format!("concat(\"{a}\",\"{b}b\")"), End::Full);
    let most = long('A', 8_192);
    gives(&format!("tolower({most})"), &most.to_lowercase());
    ends(&format!("tolower({})", long('A', 8_193)), End::Full);
    // The labels and the fields themselves weigh 8.
    let rest = "a".repeat(8_183);
    let value = format!("{{\"fst\":\"a\",\"snd\":\"{rest}\"}}");
    gives(&format!("split({},\"b\")", long('a', 8_184)), &value);
    ends(&format!("split({},\"b\")", long('a', 8_185)), End::Full);
    // What an argument weighs counts, though the result is light.
    let value = "{\"fst\":\"abc\",\"snd\":\"\"}";
    gives(&format!("split(\"abc\",{most})"), value);
    ends(&format!("split(\"abc\",{})", long('b', 8_193)), End::Full);
    ends(&format!("concat({},\"\")", long('a', 8_193)), End::Full);
}

#[test]
fn failed_goes_before_full() {
    let heavy = long('a', 8_193);
    ends(&format!("concat({heavy},nosuch)"), End::Failed);
    ends(&format!("concat(nosuch,{heavy})"), End::Failed);
    ends(&format!("split(nosuch,{heavy})"), End::Failed);
    let mut server = desk();
    let light = format!("split(word,{heavy})");
    server.one("admin", &format!("set x = {light}"), End::Full);
    server.one("admin", &format!("local x = {light}"), End::Full);
    server.one("admin", &format!("local word = {light}"), End::Failed);
    server.one("admin", &format!("append to songs with {light}"), End::Full);
    server.one(
        "admin",
        &format!("append to word with {light}"),
        End::Failed,
    );
    server.one(
        "admin",
        &format!("append to nosuch with {light}"),
        End::Failed,
    );
}

#[test]
fn the_state_with_a_result() {
    let mut server = Server::new("desk");
    let set = format!("set x = {}", long('A', 8_162));
    let last = ["return tolower(x)"];
    assert_eq!(
        server.admin(&[&[set.as_str()][..], &last].concat()).0,
        End::Returned
    );
    // Each value is light enough, and both together are not.
    let mut server = Server::new("desk");
    server.prepare(&[&format!("set x = {}", long('A', 4_079))]);
    server.one("admin", "set y = tolower(x)", End::Returned);
    server.one("admin", "set z = concat(\"\",\"\")", End::Returned);
    assert_eq!(server.weight(), 28 + 2 * (2 + 4_079) + 2);
    server.one("admin", "local u = concat(\"\",\"\")", End::Full);
    server.one("admin", "set z = concat(x,x)", End::Full);
    server.one("admin", "set x = concat(x,x)", End::Full);
}

#[test]
fn values_that_are_kept() {
    let mut server = desk();
    let (_, text) = server.rosa(&[
        "append to queue with tolower(word)",
        "append to queue with split(word,card.song)",
        "local l = concat(word,word)",
        "set own = split(l,word)",
        "set l = concat(own.fst,\"!\")",
        "set own = tolower(l)",
        "return own",
    ]);
    let done = ["APPEND", "APPEND", "LOCAL", "SET", "SET", "SET"];
    assert_eq!(text, statuses(&done) + &returning("\"blue moon!\""));
    let state = server.text();
    assert!(state.contains("V|queue|L\nS|blue moon\nR\nF|fst|Blue \nF|snd|Moon\n"));
    assert!(state.contains("V|own|S|blue moon!\n"));
}

#[test]
fn in_foreach() {
    let mut server = Server::venue();
    server.prepare(&[
        "set l = []",
        "append to l with {a=\"Blue Moon\"}",
        "append to l with {a=\"Fever\"}",
    ]);
    let (_, text) = server.admin(&["foreach y in l replacewith split(y.a,s)", "return l"]);
    let moon = "{\"fst\":\"Blue\",\"snd\":\" Moon\"}";
    let fever = "{\"fst\":\"Feve\",\"snd\":\"r\"}";
    let value = format!("[{moon},{fever}]");
    assert_eq!(text, statuses(&["FOREACH"]) + &returning(&value));
    let (_, text) = server.admin(&["foreach y in l replacewith concat(y.snd,y.fst)", "return l"]);
    let value = "[\" MoonBlue\",\"rFeve\"]";
    assert_eq!(text, statuses(&["FOREACH"]) + &returning(value));
    let (_, text) = server.admin(&["foreach y in l replacewith tolower(y)", "return l"]);
    let value = "[\" moonblue\",\"rfeve\"]";
    assert_eq!(text, statuses(&["FOREACH"]) + &returning(value));
    // x inside the call is what it was before: a list, and so no string.
    server.one(
        "admin",
        "foreach y in l replacewith concat(y,l)",
        End::Failed,
    );
    server.one(
        "admin",
        "foreach y in l replacewith concat(y,nosuch)",
        End::Failed,
    );
    server.one(
        "admin",
        "foreach y in l replacewith tolower(y.a)",
        End::Failed,
    );
    server.prepare(&["append to l with {a=\"x\"}"]);
    server.one(
        "admin",
        "foreach y in l replacewith tolower(y)",
        End::Failed,
    );
    // Without the element in it.
    let (_, text) = server.admin(&["foreach y in l replacewith concat(s,r.a)", "return l"]);
    let value = "[\"text1\",\"text1\",\"text1\"]";
    assert_eq!(text, statuses(&["FOREACH"]) + &returning(value));
}

#[test]
fn foreach_evaluates_arguments_for_elements_only() {
    let mut server = desk();
    let heavy = long('b', 8_193);
    let empty = "local e = []";
    for call in [
        "concat(nosuch,y.a)".to_string(),
        "tolower(secret)".to_string(),
        format!("split(y,{heavy})"),
    ] {
        let line = format!("foreach y in e replacewith {call}");
        assert_eq!(server.rosa(&[empty, &line, "return e"]).0, End::Returned);
    }
    let one = "append to e with \"a\"";
    for (call, expected) in [
        ("concat(nosuch,y.a)".to_string(), End::Failed),
        ("concat(nosuch,secret)".to_string(), End::Denied),
        ("tolower(secret)".to_string(), End::Denied),
        (format!("split(y,{heavy})"), End::Full),
        (format!("split(word,{heavy})"), End::Full),
        (format!("split(y.a,{heavy})"), End::Failed),
    ] {
        let line = format!("foreach y in e replacewith {call}");
        let (end, _) = server.rosa(&[empty, one, &line, "return e"]);
        assert_eq!(end, expected, "{call}");
    }
    // The element is defined, so nothing is evaluated and nothing is read.
    let line = "foreach word in e replacewith tolower(secret)";
    assert_eq!(server.rosa(&[empty, one, line, "return e"]).0, End::Failed);
}

/// FAILED at a later element goes before FULL at an earlier one.
#[test]
fn foreach_failed_goes_before_full() {
    let start = [
        "set l = []",
        "append to l with \"a\"",
        "append to l with \"b\"",
    ];
    let wrong = "append to l with {a=\"c\"}";
    let filler = format!("set x = {}", long('x', 4_000));
    for call in [
        format!("split(y,{})", long('b', 8_193)),
        format!("concat(y,{})", long('b', 8_192)),
        format!("concat(y,{})", long('b', 5_000)),
        "concat(y,x)".to_string(),
    ] {
        let mut server = Server::new("desk");
        server.prepare(&[&[filler.as_str()][..], &start].concat());
        let line = format!("foreach y in l replacewith {call}");
        server.one("admin", &line, End::Full);
        server.prepare(&[wrong]);
        server.one("admin", &line, End::Failed);
    }
}
