//! Programs that look random. Most can be done on a server with a few names and
//! variables, many cannot, and some do not parse.

use super::{program, NEWER_KEYWORDS};
use model::observe::FUNCTIONS;

/// Numbers that look random and are the same each time.
pub struct Numbers(pub u64);

impl Numbers {
    pub fn below(&mut self, bound: usize) -> usize {
        self.0 ^= self.0 << 13;
        self.0 ^= self.0 >> 7;
        self.0 ^= self.0 << 17;
        (self.0 >> 33) as usize % bound
    }

    pub fn one<'a>(&mut self, words: &[&'a str]) -> &'a str {
        words[self.below(words.len())]
    }
}

pub const PRINCIPALS: [&str; 6] = ["admin", "anyone", "bob", "carol", "dave", "eve"];
pub const VARIABLES: [&str; 6] = ["u", "v", "w", "x", "y", "z"];
const RIGHTS: [&str; 4] = ["read", "write", "append", "delegate"];

fn operand(numbers: &mut Numbers) -> String {
    let variable = numbers.one(&VARIABLES);
    match numbers.below(5) {
        0 => variable.to_string(),
        1 => format!("{variable}.{}", numbers.one(&["a", "b"])),
        2 => format!("\"{}\"", "t".repeat(numbers.below(60) * numbers.below(60))),
        _ => format!("\"{}\"", numbers.one(&["", "s", "a b", "-_,;.?!"])),
    }
}

/// What a function is called with: a value, rarely a heavy one or none.
fn argument(numbers: &mut Numbers) -> String {
    match numbers.below(36) {
        0 => format!("\"{}\"", "A".repeat(8_100 + numbers.below(200))),
        1 | 2 => format!("\"{}\"", "B".repeat(4_000 + numbers.below(200))),
        3 => "[]".to_string(),
        4 => call(numbers),
        5 if numbers.below(2) == 0 => lets(numbers, &[]),
        6..=18 => format!("\"{}\"", numbers.one(&["", "s", "a B", "1.00"])),
        19..=21 => numbers.one(&["p", "x.a"]).to_string(),
        _ => operand(numbers),
    }
}

/// What is compared: often a record.
fn compared(numbers: &mut Numbers) -> String {
    match numbers.below(4) {
        0 => argument(numbers),
        1 => operand(numbers),
        _ => numbers.one(&["x", "q"]).to_string(),
    }
}

/// Prices around which results are rounded, or are too large.
const PRICES: [&str; 20] = [
    "0.00",
    "0.01",
    "-0.01",
    "0.05",
    "-0.05",
    "0.10",
    "0.30",
    "0.50",
    "-0.50",
    "2.00",
    "3.00",
    "-3.00",
    "9.99",
    "4.49",
    "1.10",
    "12.50",
    "2227171.49",
    "9090909.09",
    "9999999.99",
    "-9999999.99",
];

/// Calls whose results are rare otherwise: at the limit, zero per zero.
const RARE: [&str; 5] = [
    "per(\"0.00\",\"0.00\")",
    "times(\"2227171.49\",\"4.49\")",
    "times(\"9090909.09\",\"1.10\")",
    "times(\"645161.29\",\"-15.50\")",
    "times(\"-0.01\",\"0.10\")",
];

/// What a function on prices is called with: mostly a price.
fn price(numbers: &mut Numbers) -> String {
    match numbers.below(24) {
        0 => argument(numbers),
        1 => format!(
            "\"{}\"",
            numbers.one(&["-0.00", "01.00", "1.5", "1,00", "x"])
        ),
        2 => format!("\"{}\"", "9".repeat(8_150 + numbers.below(60))),
        3..=6 => numbers.one(&["p", "x.b"]).to_string(),
        _ => format!("\"{}\"", numbers.one(&PRICES)),
    }
}

/// Mostly with as many arguments as there should be, and between parentheses.
fn call(numbers: &mut Numbers) -> String {
    match numbers.below(60) {
        0 => return numbers.one(&RARE).to_string(),
        1 => {
            let half = "B".repeat(4_090 + numbers.below(12));
            return format!("concat(\"{half}\",\"{half}\")");
        }
        _ => {}
    }
    let function = numbers.one(&FUNCTIONS);
    let count = match numbers.below(16) {
        0 => numbers.below(4),
        _ if function == "tolower" => 1,
        _ => 2,
    };
    let mut value = || match function {
        "add" | "sub" | "times" | "per" => price(numbers),
        "equal" | "notequal" => compared(numbers),
        _ => argument(numbers),
    };
    let arguments: Vec<String> = (0..count).map(|_| value()).collect();
    let arguments = arguments.join(",");
    match numbers.below(48) {
        0 => format!("{function} {arguments}"),
        1 => format!("{function}({arguments}"),
        2 => format!("({function}({arguments}))"),
        _ => format!("{function}({arguments})"),
    }
}

fn field(numbers: &mut Numbers) -> String {
    match numbers.below(48) {
        0 => call(numbers),
        1 if numbers.below(2) == 0 => lets(numbers, &[]),
        _ => operand(numbers),
    }
}

/// The names of lets, mostly of variables that there are not.
fn let_name(numbers: &mut Numbers) -> &'static str {
    match numbers.below(48) {
        0..=3 => variable(numbers),
        4 => numbers.one(&["new", "other"]),
        5 => numbers.one(&["e", "s"]),
        6 if numbers.below(2) == 0 => numbers.one(&["k.a", "in", "let"]),
        _ => numbers.one(&["k", "m", "n", "i", "j"]),
    }
}

/// An expression of a let: often another let, a name of one around it, or a
/// string such that one name, or two together, weigh as much as they may.
fn let_part(numbers: &mut Numbers, around: &[&str]) -> String {
    match numbers.below(24) {
        0..=3 => lets(numbers, around),
        4..=9 if !around.is_empty() => match numbers.below(4) {
            0 => format!("equal(x,{})", numbers.one(around)),
            1 => format!("notequal({},q)", numbers.one(around)),
            2 => format!("concat({},\"\")", numbers.one(around)),
            _ => numbers.one(around).to_string(),
        },
        10 => numbers.one(&["k", "n.a"]).to_string(),
        11 => format!("\"{}\"", "C".repeat(8_184 + numbers.below(12))),
        12 => format!("\"{}\"", "D".repeat(4_088 + numbers.below(12))),
        13 | 14 => numbers.one(&KEYS).to_string(),
        _ => plain(numbers),
    }
}

/// Records as x is, or nearly.
const KEYS: [&str; 5] = [
    "{a=\"1\",b=\"-0.05\"}",
    "{b=\"-0.05\",a=\"1\"}",
    "{a=\"1\",b=\"\"}",
    "{a=\"1\",c=\"-0.05\"}",
    "{a=\"1\"}",
];

/// Rarely it is not written as it should be.
fn lets(numbers: &mut Numbers, around: &[&str]) -> String {
    let name = let_name(numbers);
    let first = let_part(numbers, around);
    let second = let_part(numbers, &[around, &[name]].concat());
    match numbers.below(120) {
        0 => format!("let {name}={first}"),
        1 => format!("let {name}={first} in"),
        _ => format!("let {name}={first} in {second}"),
    }
}

fn expression(numbers: &mut Numbers) -> String {
    match numbers.below(4) {
        0 => lets(numbers, &[]),
        _ => plain(numbers),
    }
}

fn plain(numbers: &mut Numbers) -> String {
    match numbers.below(8) {
        0 | 1 => operand(numbers),
        2 | 3 => "[]".to_string(),
        4 => format!("{{a={}}}", field(numbers)),
        5 => format!("{{a={},b={}}}", field(numbers), field(numbers)),
        _ => call(numbers),
    }
}

/// What foreach replaces its element e by, and filtereach keeps it for.
fn replacement(numbers: &mut Numbers) -> String {
    match numbers.below(12) {
        0 => "{a=e}".to_string(),
        1 => "split(e.a,\"s\")".to_string(),
        2 => format!(
            "concat({},{})",
            numbers.one(&["e", "e.a"]),
            operand(numbers)
        ),
        3 => "tolower(e.a)".to_string(),
        4 => format!("{}(e,{})", numbers.one(&NEWER_KEYWORDS), price(numbers)),
        5 => format!("{}({},e.b)", numbers.one(&NEWER_KEYWORDS), price(numbers)),
        6 => format!("equal({},{})", numbers.one(&["e", "e.a"]), operand(numbers)),
        7 => format!("notequal({},e)", operand(numbers)),
        8 => {
            let second = let_part(numbers, &["k", "e"]);
            format!("let k={} in {second}", numbers.one(&["e", "e.a"]))
        }
        9 => expression(numbers),
        _ => call(numbers),
    }
}

/// Rarely an older name, which no program may write.
fn variable(numbers: &mut Numbers) -> &'static str {
    match numbers.below(60) {
        0 => "add",
        _ => numbers.one(&VARIABLES),
    }
}

fn principal(numbers: &mut Numbers) -> &'static str {
    match numbers.below(60) {
        0 => "per",
        _ => numbers.one(&PRINCIPALS),
    }
}

fn command(numbers: &mut Numbers) -> String {
    let (x, y) = (variable(numbers), variable(numbers));
    let (q, p) = (principal(numbers), principal(numbers));
    let right = numbers.one(&RIGHTS);
    let target = if numbers.below(4) == 0 { "all" } else { x };
    match numbers.below(16) {
        0 => format!("create principal {p} \"{p}\""),
        1 => format!("change password {p} \"{p}\""),
        2..=4 => format!("set {x} = {}", expression(numbers)),
        5..=7 => format!("append to {x} with {}", expression(numbers)),
        8 => {
            let x = numbers.one(&["new", "other", x]);
            match numbers.below(8) {
                0 => format!("local {x} = let {x}=\"1\" in {x}"),
                _ => format!("local {x} = {}", expression(numbers)),
            }
        }
        9 => match numbers.below(2) {
            0 => format!("foreach {y} in {x} replacewith {}", expression(numbers)),
            _ => format!("append to {x} with {x}"),
        },
        10 => format!("foreach e in {x} replacewith {}", replacement(numbers)),
        14 => match numbers.below(8) {
            0 => format!("filtereach {y} in {x} with {}", expression(numbers)),
            1 => format!("filtereach e in {x} with \"\""),
            2 if numbers.below(4) == 0 => format!("filtereach e in {x} replacewith e"),
            3 if numbers.below(4) == 0 => format!("foreach e in {x} with e"),
            _ => format!("filtereach e in {x} with {}", replacement(numbers)),
        },
        11 => format!("delete delegation {target} {q} {right} -> {p}"),
        12 => format!("default delegator = {p}"),
        13 => format!("set delegation {target} admin {right} -> {p}"),
        _ => format!("set delegation {target} {q} {right} -> {p}"),
    }
}

/// A list of many short strings, each of which a call makes longer until they
/// are too heavy together, and an element behind them that may fail.
fn swollen(numbers: &mut Numbers) -> Vec<String> {
    let last = numbers.one(&["\"0.02\"", "\"free\"", "\"0.00\"", "{a=\"0.01\"}"]);
    let call = numbers.one(&["per(\"12345.67\",e)", "sub(e,\"12345.67\")", "concat(e,e)"]);
    let mut lines = vec!["local s = []", "append to s with \"0.01\""];
    lines.extend(["append to s with s"; 10]);
    let mut lines: Vec<String> = lines.into_iter().map(str::to_string).collect();
    lines.push(format!("append to s with {last}"));
    lines.push(format!("foreach e in s replacewith {call}"));
    lines
}

/// A list of prices, or of elements that an expression with lets treats in
/// several ways, and a command over it.
fn varied(numbers: &mut Numbers) -> Vec<String> {
    let long = format!("{{a=\"{}\"}}", "l".repeat(4_000));
    let mixed = ["\"x\"", "{a=\"1\"}", "{b=\"1\"}", &long];
    let priced = ["\"0.05\"", "\"-2.00\"", "\"12.50\"", "\"\""];
    let is_priced = numbers.below(3) == 0;
    let mut lines = vec!["local s = []".to_string()];
    for _ in 0..2 + numbers.below(3) {
        let element = numbers.one(if is_priced { &priced } else { &mixed });
        lines.push(format!("append to s with {element}"));
    }
    let expression = match is_priced {
        true => format!("{}(e,{})", numbers.one(&FUNCTIONS), price(numbers)),
        false => of_mixed(numbers),
    };
    lines.push(match numbers.below(2) {
        0 => format!("foreach e in s replacewith {expression}"),
        _ => format!("filtereach e in s with {expression}"),
    });
    lines
}

/// DENIED, FAILED, FULL or done, one for this element and one for that.
fn of_mixed(numbers: &mut Numbers) -> String {
    let heavy = "h".repeat(4_200);
    let second = match numbers.below(2) {
        0 => "w",
        _ => numbers.one(&["x", "k", "\"\"", "\"0\"", "{a=k}", "[]"]),
    };
    match numbers.below(6) {
        0 | 1 => format!("let k=e.a in {second}"),
        2 | 3 => format!("let k=concat(e.a,\"{heavy}\") in {second}"),
        4 => format!("let k=e.a in concat(k,\"{heavy}\")"),
        _ => numbers
            .one(&["let e=\"\" in e", "let s=\"\" in w"])
            .to_string(),
    }
}

pub fn any_program(numbers: &mut Numbers) -> String {
    let sender = match numbers.below(3) {
        0 => "admin",
        _ => principal(numbers),
    };
    let password = match numbers.below(24) {
        0 => "",
        _ => sender,
    };
    let count = numbers.below(4);
    let mut lines: Vec<String> = match numbers.below(80) {
        0 => swollen(numbers),
        1..=8 => varied(numbers),
        _ => (0..count).map(|_| command(numbers)).collect(),
    };
    lines.push(match numbers.below(200) {
        0 => "exit".to_string(),
        _ => format!("return {}", expression(numbers)),
    });
    let lines: Vec<&str> = lines.iter().map(String::as_str).collect();
    program(sender, password, &lines)
}
