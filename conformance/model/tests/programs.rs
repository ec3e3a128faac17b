//! Which bytes are a program (01, Program text), and which program they are.

mod common;

use common::{program, returning, Server, KEYWORDS, NEWER_KEYWORDS};
use model::engine::End;
use model::parse::parse;
use model::rights::Right;
use model::syntax::{Command, Delegation, Each, Expression, Last, Operand, Plain, Target};

const FIRST: &str = "as principal admin password \"desk\" do\n";

fn parses(text: &str) -> bool {
    parse(text.as_bytes()).is_some()
}

/// A program with these bytes between its first line and a return.
fn body_parses(body: &str) -> bool {
    parses(&format!("{FIRST}{body}return \"\"\n***\n"))
}

/// The one command of a program.
fn command(line: &str) -> Option<String> {
    let text = program("admin", "desk", &[line, "return \"\""]);
    let parsed = parse(text.as_bytes())?;
    assert_eq!(parsed.commands.len(), 1);
    Some(format!("{:?}", parsed.commands[0]))
}

fn same(line: &str, expected: Command) {
    assert_eq!(command(line), Some(format!("{expected:?}")), "{line}");
}

#[test]
fn every_command() {
    let x = || Expression::Plain(Plain::Operand(Operand::Variable(b"x")));
    let delegation = |target, right| Delegation {
        target,
        from: b"q",
        right,
        to: b"p",
    };
    same(
        "create principal p \"s\"",
        Command::CreatePrincipal(b"p", b"s"),
    );
    same("change password p \"\"", Command::ChangePassword(b"p", b""));
    same("set v = x", Command::Set(b"v", x()));
    same("append to v with x", Command::Append(b"v", x()));
    same("local v = x", Command::Local(b"v", x()));
    same(
        "foreach y in v replacewith x",
        Command::Foreach(Each {
            element: b"y",
            list: b"v",
            expression: x(),
        }),
    );
    same(
        "filtereach y in v with x",
        Command::Filtereach(Each {
            element: b"y",
            list: b"v",
            expression: x(),
        }),
    );
    same(
        "set delegation v q read -> p",
        Command::SetDelegation(delegation(Target::Variable(b"v"), Right::Read)),
    );
    same(
        "set delegation all q write -> p",
        Command::SetDelegation(delegation(Target::All, Right::Write)),
    );
    same(
        "delete delegation v q append -> p",
        Command::DeleteDelegation(delegation(Target::Variable(b"v"), Right::Append)),
    );
    same(
        "delete delegation all q delegate -> p",
        Command::DeleteDelegation(delegation(Target::All, Right::Delegate)),
    );
    same("default delegator = p", Command::DefaultDelegator(b"p"));
}

#[test]
fn every_expression() {
    let text = Operand::Text(b"a _,;.?!-9");
    let field = Operand::Field(b"x", b"y");
    for (written, expected) in [
        ("x", Plain::Operand(Operand::Variable(b"x"))),
        ("x.y", Plain::Operand(field)),
        ("x . y", Plain::Operand(field)),
        ("\"a _,;.?!-9\"", Plain::Operand(text)),
        ("\"\"", Plain::Operand(Operand::Text(b""))),
        ("[]", Plain::EmptyList),
        ("{a=x.y}", Plain::Record(vec![(b"a", field)])),
        (
            "{ a = \"a _,;.?!-9\" , a=x . y }",
            Plain::Record(vec![(b"a", text), (b"a", field)]),
        ),
    ] {
        let bytes = program("p", "", &[&format!("return {written}")]);
        let parsed = parse(bytes.as_bytes()).expect(written);
        assert_eq!(parsed.last, Last::Return(Expression::Plain(expected)));
        assert_eq!((parsed.principal, parsed.password), (&b"p"[..], &b""[..]));
        assert!(parsed.commands.is_empty());
    }
}

#[test]
fn wrong_expressions() {
    for written in [
        "",
        "[ ]",
        "[",
        "]",
        "[x]",
        "[\"a\"]",
        "{}",
        "{ }",
        "{a}",
        "{a=}",
        "{=x}",
        "{a=x",
        "a=x}",
        "{a=x,}",
        "{,a=x}",
        "{a=x b=y}",
        "{a=x;b=y}",
        "{a=[]}",
        "{a={b=x}}",
        "{\"a\"=x}",
        "{a==x}",
        "{set=x}",
        "{a=set}",
        "x.",
        ".x",
        "x..y",
        "x.y.z",
        "x.set",
        "set.x",
        "\"a\".x",
        "x.\"a\"",
        "[].x",
        "x y",
        "x,y",
        "(x)",
        "all",
        "\"",
        "\"a",
        "a\"",
        "\"a\"\"b\"",
        "\"a:b\"",
        "\"a/b\"",
        "\"a'b\"",
        "\"a\tb\"",
        "\"(\"",
        "1",
        "1x",
        "_x",
        "-x",
        "x-y",
        "x=y",
        "x?",
        "x\ty",
        "let x = y",
        "\u{e9}",
        "\"\u{e9}\"",
        "x\0",
        "***",
    ] {
        assert!(
            !parses(&program("p", "", &[&format!("return {written}")])),
            "{written}"
        );
    }
}

#[test]
fn wrong_commands() {
    for line in [
        "",
        " ",
        "x",
        "x = \"a\"",
        "set x",
        "set x =",
        "set = x",
        "set x \"a\"",
        "set x == y",
        "set all = x",
        "set \"x\" = y",
        "set x.y = z",
        "set x = y z",
        "setx = y",
        "set 1x = y",
        "local set = x",
        "local x",
        "append x with y",
        "append to x y",
        "append to x with",
        "append to x = y",
        "appendto x with y",
        "foreach y x replacewith y",
        "foreach y in x with y",
        "foreach in in x replacewith y",
        "foreach y in [] replacewith y",
        "foreach y.a in x replacewith y",
        "create principal p",
        "create principal \"s\"",
        "create p \"s\"",
        "create principal p s",
        "create principal p \"s\" \"t\"",
        "create principal read \"s\"",
        "change password p",
        "change p \"s\"",
        "change password p q",
        "change principal p \"s\"",
        "default delegator p",
        "default delegator = \"p\"",
        "default delegator = all",
        "default = p",
        "set delegation v q read p",
        "set delegation v q read - > p",
        "set delegation v q read > p",
        "set delegation v q read -> ",
        "set delegation v q reads -> p",
        "set delegation v read -> p",
        "set delegation v q x -> p",
        "set delegation \"v\" q read -> p",
        "set delegation all all read -> p",
        "delete delegation v q read -> all",
        "delete v q read -> p",
        "delete delegation v q read -> p q",
        "filtereach y in x replacewith y",
        "exit",
        "return x",
        "as principal p password \"s\" do",
        "***",
        "SET x = y",
        "Set x = y",
    ] {
        assert!(!body_parses(&format!("{line}\n")), "{line}");
    }
}

#[test]
fn spaces_and_longest_tokens() {
    for line in [
        "   set   x   =   y   ",
        "set x=y",
        "set x={a=b.c,d=\"e\"}",
        "set delegation v q read->p",
        "create principal p\"s\"",
        "set setx = setting",
        "set x = all_",
        "set alls = x",
        "append to x with{a=b}",
        "default delegator=p",
    ] {
        assert!(body_parses(&format!("{line}\n")), "{line}");
    }
    assert!(parses("as principal p password\"\"do\nexit\n***"));
    assert!(parses(
        "  as  principal  p  password  \"\"  do  \n  exit  \n***"
    ));
    assert!(!parses("as principalp password \"\" do\nexit\n***"));
    assert!(!parses("asprincipal p password \"\" do\nexit\n***"));
    assert!(!parses("as principal p password \"\"do1\nexit\n***"));
}

#[test]
fn first_line() {
    for line in [
        "",
        "as principal p password s do",
        "as principal \"p\" password \"s\" do",
        "as principal p \"s\" do",
        "as p password \"s\" do",
        "principal p password \"s\" do",
        "as principal p password \"s\"",
        "as principal p password \"s\" do do",
        "as principal p password \"s\" do exit",
        "as principal all password \"s\" do",
        "as principal p.q password \"s\" do",
        "as principal p password \"s\ndo",
    ] {
        assert!(!parses(&format!("{line}\nexit\n***\n")), "{line}");
    }
    assert!(!parses("exit\n***\n"));
    assert!(!parses(&format!("{FIRST}{FIRST}exit\n***\n")));
}

#[test]
fn last_line() {
    for end in ["***", "***\n"] {
        assert!(parses(&format!("{FIRST}exit\n{end}")));
    }
    for end in [
        "",
        "\n",
        "*",
        "**",
        "****",
        " ***",
        "*** ",
        "***\n\n",
        "***\n***",
        "***\n***\n",
        "*** \n",
        "***// x",
        "***//x\n",
        "***\n//x\n",
        "***\n ",
        "***x",
        "***\r\n",
        "\n***",
        " \n***",
        "***\0",
        "***\n\0",
        "* * *",
    ] {
        assert!(!parses(&format!("{FIRST}exit\n{end}")), "{end:?}");
    }
    assert!(!parses(&format!("{FIRST}exit***")));
    assert!(!parses(&format!("{FIRST}exit")));
    assert!(!parses(&format!("{FIRST}***\n")));
    assert!(!parses(&format!("{FIRST}set x = []\n***\n")));
    assert!(!parses(&format!("{FIRST}exit\nexit\n***\n")));
    assert!(!parses(&format!("{FIRST}exit\nset x = []\n***\n")));
    assert!(!parses(&format!("{FIRST}return x\nreturn x\n***\n")));
    assert!(!parses("***"));
    assert!(!parses(""));
}

#[test]
fn blank_lines_are_wrong() {
    assert!(body_parses("set x = []\nset y = x\n"));
    for body in [
        "\n",
        "   \n",
        "set x = []\n\nset y = x\n",
        "set x = []\n \nset y = x\n",
        "set x = []\r\n",
        "\tset x = []\n",
    ] {
        assert!(!body_parses(body), "{body:?}");
    }
    assert!(!parses(&format!("\n{FIRST}exit\n***\n")));
    assert!(!parses(&format!(" \n{FIRST}exit\n***\n")));
    assert!(!parses(&format!("{FIRST}exit\n\n***\n")));
}

#[test]
fn comments() {
    let first = FIRST.trim_end();
    let all = "// AZaz09 ;:.?-!";
    for text in [
        format!("{first}{all}\nset x = []{all}\nexit{all}\n***\n"),
        format!("{first} //\nset x = [] //\nexit //\n***\n"),
        format!("{all}\n//\n{FIRST}{all}\nset x = []\n{all}\n{all}\nexit\n{all}\n//\n***\n"),
        format!("{FIRST}return x.y//x\n***"),
    ] {
        assert!(parses(&text), "{text}");
    }
    for text in [
        format!(" // x\n{FIRST}exit\n***\n"),
        format!("{FIRST} // x\nexit\n***\n"),
        format!("{FIRST} //\nexit\n***\n"),
        format!("{FIRST}exit\n //x\n***\n"),
        format!("{FIRST}exit / / x\n***\n"),
        format!("{FIRST}exit / x\n***\n"),
        format!("{FIRST}/exit\n***\n"),
        format!("{FIRST}/\nexit\n***\n"),
        format!("{FIRST}exit\n// ***\n"),
        format!("{FIRST}exit\n// x"),
        "// x\n***\n".to_string(),
        "// x".to_string(),
    ] {
        assert!(!parses(&text), "{text}");
    }
}

#[test]
fn the_alphabets_of_strings_and_comments() {
    for byte in (0..=255u8).filter(|&byte| byte != b'\n') {
        let word = byte.is_ascii_alphanumeric() || byte == b' ';
        let with = |start: &str, end: &str| {
            let middle = [start.as_bytes(), &[byte], end.as_bytes()].concat();
            let text = [FIRST.as_bytes(), &middle, b"\n***\n"].concat();
            parse(&text).is_some()
        };
        let in_string = word || b"_,;.?!-".contains(&byte);
        assert_eq!(with("return \"a", "b\""), in_string, "{byte}");
        let in_comment = word || b";:.?-!".contains(&byte);
        assert_eq!(with("exit //a", "b"), in_comment, "{byte}");
        assert_eq!(with("exit\n//a", "b"), in_comment, "{byte}");
        let in_name = byte.is_ascii_alphanumeric() || byte == b'_';
        // x.b is a value too.
        assert_eq!(with("return a", "b"), in_name || byte == b'.', "{byte}");
    }
}

#[test]
fn identifiers_of_255_and_256_bytes() {
    let name = |length: usize| "n".repeat(length);
    for (length, good) in [(255, true), (256, false), (300, false)] {
        let name = name(length);
        assert_eq!(body_parses(&format!("set {name} = []\n")), good);
        assert_eq!(body_parses(&format!("set x = {{{name}=x}}\n")), good);
        assert_eq!(body_parses(&format!("set x = x.{name}\n")), good);
        assert_eq!(
            body_parses(&format!("create principal {name} \"\"\n")),
            good
        );
        assert_eq!(parses(&program(&name, "", &["exit"])), good);
    }
    assert!(body_parses(&format!("set x = \"{}\"\n", name(10_000))));
    assert!(body_parses(&format!("//{}\n", name(10_000))));
}

/// A program of exactly so many bytes.
fn program_of(length: usize) -> String {
    let bare = format!("{FIRST}return \"a\"//\n***\n");
    let filler = "a".repeat(length - bare.len());
    format!("{FIRST}return \"a\"//{filler}\n***\n")
}

#[test]
fn programs_of_16384_and_16385_bytes() {
    let mut server = Server::new("desk");
    let longest = program_of(16_384);
    assert_eq!(longest.len(), 16_384);
    let (end, text) = server.send(longest.as_bytes());
    assert_eq!((end, text), (End::Returned, returning("\"a\"")));
    for length in [16_385, 100_000] {
        let (end, _) = server.send(program_of(length).as_bytes());
        assert_eq!(end, End::Failed);
    }
    // The newline after the last line counts as well.
    let without = &program_of(16_385)[..16_384];
    assert!(parses(without));
}

#[test]
fn keywords_are_no_names() {
    for keyword in KEYWORDS.into_iter().chain(NEWER_KEYWORDS) {
        for line in [
            format!("set {keyword} = []"),
            format!("set x = {keyword}"),
            format!("set x = x.{keyword}"),
            format!("set x = {{{keyword}=\"\"}}"),
            format!("create principal {keyword} \"\""),
            format!("default delegator = {keyword}"),
        ] {
            assert!(!body_parses(&format!("{line}\n")), "{line}");
        }
        assert!(!parses(&program(keyword, "", &["exit"])), "{keyword}");
        assert!(body_parses(&format!("set {keyword}s = []\n")), "{keyword}");
        assert!(body_parses(&format!("set {keyword}_ = []\n")), "{keyword}");
        let upper = keyword.to_uppercase();
        assert!(body_parses(&format!("set {upper} = []\n")), "{upper}");
    }
    assert!(body_parses("set admin = anyone\n"));
}

#[test]
fn a_label_twice_parses() {
    assert!(body_parses("set x = {a=\"\",a=\"\"}\n"));
}
