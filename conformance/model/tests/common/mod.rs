//! A server in memory whose every call is held to what 01 says of the lent
//! buffers. State texts are written as in 01, a `|` for each tab.
#![allow(dead_code)]

pub mod generator;

use model::calls::{self, Listed, Refusal, Report};
use model::engine::End;
use model::parse::parse;
use model::syntax::{Call, Command, Each, Expression, Last, Operand, Plain};
use model::text::{decode, BUFFER};

/// What a byte of a lent buffer is before the call, where it does not matter.
pub const DIRT: u8 = 0xA5;

pub static ZEROS: [u8; BUFFER] = [0; BUFFER];

pub struct Server {
    pub state: Vec<u8>,
}

/// The state of 01's session after its two programs.
pub const SESSION: &str = "O\nP|admin|desk|1\nN|anyone|0\nP|rosa|r1|1\nD|anyone\nV|queue|L\nR\n\
                           F|song|Blue Moon\nF|key|F\nA|queue|admin|a|rosa\n";

pub const FRESH: &str = "O\nP|admin|desk|0\nN|anyone|0\nD|anyone\n";

/// Both in the former lines, as 01 has them.
pub const FORMER_SESSION: &str = "O|2\nP|admin|desk\nN|anyone\nP|rosa|r1\nD|anyone\nV|queue|L\n\
                                  R\nF|song|Blue Moon\nF|key|F\nA|queue|admin|a|rosa\n";
pub const FORMER_FRESH: &str = "O|0\nP|admin|desk\nN|anyone\nD|anyone\n";

/// A buffer that holds the text and zeros.
pub fn buffer(text: &str) -> Vec<u8> {
    let mut bytes = text.replace('|', "\t").into_bytes();
    assert!(bytes.len() <= BUFFER);
    bytes.resize(BUFFER, 0);
    bytes
}

/// A program of lines, with its first and last line.
pub fn program(name: &str, password: &str, lines: &[&str]) -> String {
    let mut text = format!("as principal {name} password \"{password}\" do\n");
    for line in lines {
        text.push_str(line);
        text.push('\n');
    }
    text + "***\n"
}

/// That a call, so written, is read as this one wherever an expression may
/// stand.
pub fn is_read(written: &str, expected: Call<Operand>) {
    let call = || Expression::Plain(Plain::Call(Box::new(expected)));
    let lines = [
        format!("set v = {written}"),
        format!("append to v with {written}"),
        format!("local v={written}"),
        format!("foreach y in v replacewith {written} // x"),
        format!("filtereach y in v with {written}"),
        format!("return {written}"),
    ];
    let bytes = program("p", "", &lines.each_ref().map(String::as_str));
    let parsed = parse(bytes.as_bytes()).expect(written);
    let each = || Each {
        element: b"y",
        list: b"v",
        expression: call(),
    };
    let commands = [
        Command::Set(b"v", call()),
        Command::Append(b"v", call()),
        Command::Local(b"v", call()),
        Command::Foreach(each()),
        Command::Filtereach(each()),
    ];
    assert_eq!(parsed.commands, commands);
    assert_eq!(parsed.last, Last::Return(call()));
}

pub fn statuses(names: &[&str]) -> String {
    names
        .iter()
        .map(|name| format!("{{\"status\":\"{name}\"}}\n"))
        .collect()
}

pub fn returning(value: &str) -> String {
    format!("{{\"status\":\"RETURNING\",\"output\":{value}}}\n")
}

impl Server {
    pub fn new(password: &str) -> Server {
        let mut state = vec![DIRT; BUFFER];
        assert_eq!(calls::make(&mut state, password.as_bytes()), Ok(()));
        Server { state }
    }

    pub fn of_text(text: &str) -> Server {
        let state = buffer(text);
        assert!(decode(&state).is_some(), "not well formed: {text}");
        Server { state }
    }

    pub fn session() -> Server {
        Server::of_text(SESSION)
    }

    /// Bob and carol, a string s, a record r and a list l of admin's, on which
    /// bob has no right but delegate on l.
    pub fn venue() -> Server {
        let mut server = Server::new("desk");
        server.prepare(&[
            "create principal bob \"b\"",
            "create principal carol \"c\"",
            "set s = \"text\"",
            "set r = {a=\"1\",b=\"2\"}",
            "set l = []",
            "append to l with \"x\"",
            "append to l with {a=\"y\"}",
            "set delegation l admin delegate -> bob",
        ]);
        server
    }

    /// A server brought over from a text in the former lines.
    pub fn brought(former: &str) -> Server {
        let former = buffer(former);
        let mut state = vec![DIRT; BUFFER];
        let before = former.clone();
        assert_eq!(calls::bring(&former, &mut state), Ok(()));
        assert!(former == before);
        Server { state }
    }

    /// The state text, which is followed by zeros only.
    pub fn text(&self) -> String {
        let end = self.state.iter().rposition(|&byte| byte != 0).unwrap() + 1;
        let text = std::str::from_utf8(&self.state[..end]).unwrap();
        text.replace('\t', "|")
    }

    /// Each principal's name and count, by the lines of the text.
    pub fn counts(&self) -> Vec<(String, u32)> {
        let of_line = |line: &str| {
            let fields: Vec<&str> = line.split('|').collect();
            match fields[..] {
                ["P", name, _, count] | ["N", name, count] => {
                    Some((name.to_string(), count.parse().unwrap()))
                }
                _ => None,
            }
        };
        self.text().lines().filter_map(of_line).collect()
    }

    pub fn weight(&self) -> usize {
        decode(&self.state).expect("well formed").0.weight()
    }

    /// A run that is not refused, and all that 01 says of the buffers after it.
    pub fn send(&mut self, program: &[u8]) -> (End, String) {
        let before = self.state.clone();
        let counts = self.counts();
        let mut work = vec![DIRT; BUFFER];
        let mut output = vec![DIRT; BUFFER];
        let report = calls::run(&mut self.state, &mut work, &mut output, program);
        let Report { end, lines, bytes } = report.expect("not refused");
        let text = String::from_utf8(output[..bytes].to_vec()).unwrap();
        assert!(work == ZEROS);
        assert!(output[bytes..] == ZEROS[bytes..]);
        assert!(text.ends_with('\n'));
        assert_eq!(text.matches('\n').count(), lines);
        let refused = match end {
            End::Returned | End::Exited => None,
            End::Denied => Some("DENIED"),
            End::Failed => Some("FAILED"),
            End::Full => Some("FULL"),
        };
        match refused {
            Some(status) => {
                assert_eq!(text, statuses(&[status]));
                assert!(self.state == before);
            }
            None => {
                assert!(decode(&self.state).is_some());
                self.is_counted(&counts, program);
            }
        }
        (end, text)
    }

    /// The sender's count is one higher or at its end, every other is as it
    /// was, and those of new principals are 0.
    fn is_counted(&self, before: &[(String, u32)], program: &[u8]) {
        let sender = parse(program).expect("a program").principal;
        for (at, (name, count)) in self.counts().iter().enumerate() {
            let expected = match before.get(at) {
                Some((same, count)) if name == same && name.as_bytes() == sender => {
                    count.checked_add(1).unwrap_or(u32::MAX)
                }
                Some((same, count)) if name == same => *count,
                Some(_) => panic!("{name} stands where another stood"),
                None => 0,
            };
            assert_eq!(*count, expected, "{name}");
        }
    }

    pub fn run(&mut self, name: &str, password: &str, lines: &[&str]) -> (End, String) {
        self.send(program(name, password, lines).as_bytes())
    }

    pub fn admin(&mut self, lines: &[&str]) -> (End, String) {
        self.run("admin", "desk", lines)
    }

    pub fn rosa(&mut self, lines: &[&str]) -> (End, String) {
        self.run("rosa", "r1", lines)
    }

    /// A program that ends so. Names other than admin have their first letter
    /// for a password.
    pub fn ends(&mut self, name: &str, lines: &[&str], expected: End) {
        let password = if name == "admin" { "desk" } else { &name[..1] };
        let (end, text) = self.run(name, password, lines);
        assert_eq!(end, expected, "{name} sends {lines:?}, which gives {text}");
    }

    /// A program of one command and a return that ends so.
    pub fn one(&mut self, name: &str, line: &str, expected: End) {
        self.ends(name, &[line, "return \"\""], expected);
    }

    /// The admin's commands are done; a return is added to them.
    pub fn prepare(&mut self, lines: &[&str]) {
        let lines = [lines, &["return \"\""]].concat();
        let (end, text) = self.admin(&lines);
        assert_eq!(end, End::Returned, "{lines:?} gives {text}");
    }

    pub fn ask(&self, name: &str, variable: &str, right: u8) -> Result<Option<usize>, Refusal> {
        let before = self.state.clone();
        let answer = calls::ask(&self.state, name.as_bytes(), variable.as_bytes(), right);
        assert!(self.state == before);
        answer
    }

    /// The sheet of a variable, and all that M-102 says of it: each principal
    /// has its line of 40 bytes, with a letter exactly where the question is
    /// answered yes, and zeros follow the last.
    pub fn sheet(&self, variable: &str) -> String {
        let mut output = vec![DIRT; BUFFER];
        let listed = calls::sheet(&self.state, &mut output, variable.as_bytes());
        let Listed { lines, bytes } = listed.expect("not refused");
        assert!(output[bytes..] == ZEROS[bytes..]);
        let text = String::from_utf8(output[..bytes].to_vec()).unwrap();
        let names: Vec<String> = self.counts().into_iter().map(|(name, _)| name).collect();
        assert_eq!((lines, bytes), (names.len(), 40 * names.len()));
        let expected: String = names
            .iter()
            .map(|name| {
                let holds = |right| self.ask(name, variable, right).unwrap().is_some();
                let letters = b"rwad".map(|right| if holds(right) { right } else { b'.' });
                sheet_line(name, std::str::from_utf8(&letters).unwrap())
            })
            .collect();
        assert_eq!(text, expected);
        text
    }
}

/// A line of a sheet, by the words of M-102.
pub fn sheet_line(name: &str, rights: &str) -> String {
    let shown = match name.len() {
        0..=34 => name.to_string(),
        _ => format!("{}~", &name[..33]),
    };
    format!("{shown:34} {rights}\n")
}

/// The keywords of 02's M-104, which were names before: a state may still hold
/// them.
pub const NEWER_KEYWORDS: [&str; 4] = ["add", "sub", "times", "per"];

/// 01's keywords, which neither a program nor a state may have for a name.
pub const KEYWORDS: [&str; 31] = [
    "all",
    "append",
    "as",
    "change",
    "create",
    "default",
    "delegate",
    "delegation",
    "delegator",
    "delete",
    "do",
    "exit",
    "foreach",
    "in",
    "local",
    "password",
    "principal",
    "read",
    "replacewith",
    "return",
    "set",
    "to",
    "write",
    "split",
    "concat",
    "tolower",
    "notequal",
    "equal",
    "filtereach",
    "with",
    "let",
];
