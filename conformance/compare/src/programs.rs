//! Programs that look random: whole ones with odd spaces and comments, and damaged ones.

use crate::prices::price;
use crate::random::Random;

const NAMES: [&str; 12] = ["admin", "anyone", "bob", "carol", "x", "y", "z", "song_1", "Queue", "a9_", "sets", "doo"];
const KEYWORDS: [&str; 35] = [
    "all", "append", "as", "change", "create", "default", "delegate", "delegation", "delegator", "delete", "do", "exit",
    "foreach", "in", "local", "password", "principal", "read", "replacewith", "return", "set", "to", "write", "split",
    "concat", "tolower", "notequal", "equal", "filtereach", "with", "let", "add", "sub", "times", "per",
];
const FUNCTIONS: [&str; 9] = ["split", "concat", "tolower", "add", "sub", "times", "per", "equal", "notequal"];
const RIGHTS: [&str; 4] = ["read", "write", "append", "delegate"];
const TEXTS: [&str; 6] = ["", "s", "Blue Moon", "-_,;.?! 9", "a b", "0"];

fn one<'a>(random: &mut Random, words: &[&'a str]) -> &'a str {
    words[random.below(words.len())]
}

/// A name; rarely a keyword, or one of 255 or 256 bytes.
fn name(random: &mut Random) -> String {
    match random.below(200) {
        0 => one(random, &KEYWORDS).to_string(),
        1 => "n".repeat(255 + random.below(2)),
        _ => one(random, &NAMES).to_string(),
    }
}

fn string(random: &mut Random) -> String {
    format!("\"{}\"", one(random, &TEXTS))
}

/// Nothing or spaces, where tokens may touch.
fn gap(random: &mut Random) -> &'static str {
    ["", "", "", " ", "  "][random.below(5)]
}

/// Spaces, where tokens must be parted.
fn space(random: &mut Random) -> &'static str {
    [" ", " ", " ", "   "][random.below(4)]
}

fn operand(random: &mut Random) -> String {
    match random.below(4) {
        0 | 1 => name(random),
        2 => format!("{}{}.{}{}", name(random), gap(random), gap(random), name(random)),
        _ if random.below(3) == 0 => price(random),
        _ => string(random),
    }
}

/// A call of a function, with gaps. Rarely it has another number of arguments than the function takes, a call for an argument, or a
/// parenthesis too few or too many.
fn call(random: &mut Random) -> String {
    let function = one(random, &FUNCTIONS);
    let count = match random.below(20) {
        0 => random.below(4),
        _ if function == "tolower" => 1,
        _ => 2,
    };
    let arguments: Vec<String> = (0..count)
        .map(|_| {
            let argument = match random.below(80) {
                0 | 1 => call(random),
                2 => lets(random),
                _ => operand(random),
            };
            format!("{}{argument}{}", gap(random), gap(random))
        })
        .collect();
    let arguments = arguments.join(",");
    match random.below(60) {
        0 => format!("{function} {arguments}"),
        1 => format!("{function}({arguments}"),
        2 => format!("({function}({arguments}))"),
        _ => format!("{function}{}({arguments})", gap(random)),
    }
}

fn field(random: &mut Random) -> String {
    match random.below(80) {
        0 => call(random),
        1 => lets(random),
        _ => operand(random),
    }
}

/// A let, with gaps and often with another in one of its expressions. Rarely its name is none, or a part of it is missing.
fn lets(random: &mut Random) -> String {
    let name = match random.below(80) {
        0 => operand(random),
        1 => one(random, &KEYWORDS).to_string(),
        _ => name(random),
    };
    let (first, second) = (expression(random), expression(random));
    let begins = format!("let{}{name}{}={}", space(random), gap(random), gap(random));
    match random.below(80) {
        0 => format!("{begins}{first}"),
        1 => format!("{begins}{first} in"),
        2 => format!("{begins} in {second}"),
        3 => format!("({begins}{first} in {second})"),
        // A string or a mark ends by itself.
        4..=40 if first.ends_with(['"', ')', '}', ']']) => format!("{begins}{first}{}in{}{second}", gap(random), space(random)),
        _ => format!("{begins}{first}{}in{}{second}", space(random), space(random)),
    }
}

fn expression(random: &mut Random) -> String {
    match random.below(9) {
        8 => lets(random),
        0..=2 => operand(random),
        3 => "[]".to_string(),
        4 | 5 => call(random),
        _ => {
            let count = 1 + random.below(3);
            let fields: Vec<String> = (0..count)
                .map(|_| format!("{}{}{}={}{}", gap(random), name(random), gap(random), gap(random), field(random)))
                .collect();
            format!("{{{}{}}}", fields.join(","), gap(random))
        }
    }
}

fn delegation(random: &mut Random, word: &str) -> String {
    let target = if random.below(4) == 0 { "all".to_string() } else { name(random) };
    let words = [word.to_string(), "delegation".to_string(), target, name(random), one(random, &RIGHTS).to_string()];
    format!("{}{}->{}{}", words.join(space(random)), gap(random), gap(random), name(random))
}

/// Rarely with the word that the other command has.
fn over_a_list(random: &mut Random, command: &str, word: &str) -> String {
    let part = space(random);
    let word = if random.below(30) == 0 { one(random, &["with", "replacewith"]) } else { word };
    format!("{command}{part}{}{part}in{part}{}{part}{word}{part}{}", name(random), name(random), expression(random))
}

fn command(random: &mut Random) -> String {
    let part = space(random);
    match random.below(10) {
        0 => format!("create{part}principal{part}{}{part}{}", name(random), string(random)),
        1 => format!("change{part}password{part}{}{}{}", name(random), gap(random), string(random)),
        2 => format!("set{part}{}{}={}{}", name(random), gap(random), gap(random), expression(random)),
        3 => format!("append{part}to{part}{}{part}with{part}{}", name(random), expression(random)),
        4 => format!("local{part}{}{}={}{}", name(random), gap(random), gap(random), expression(random)),
        5 => over_a_list(random, "foreach", "replacewith"),
        9 => over_a_list(random, "filtereach", "with"),
        6 => delegation(random, "set"),
        7 => delegation(random, "delete"),
        _ => format!("default{part}delegator{}={}{}", gap(random), gap(random), name(random)),
    }
}

/// Spaces before and behind a line, and rarely a comment.
fn dressed(random: &mut Random, line: String) -> String {
    let comment = if random.below(8) == 0 { "// a;b:c.d?e-f! 9" } else { "" };
    let before = if random.below(8) == 0 { "  " } else { "" };
    format!("{before}{line}{}{comment}", gap(random))
}

/// A program that parses, unless a name in it is a keyword or too long, or a call, a let or a command over a list in it is miswritten.
pub fn whole(random: &mut Random) -> Vec<u8> {
    let mut lines = Vec::new();
    let part = space(random);
    let login = format!("as{part}principal{part}{}{part}password{}{}{}do", name(random), gap(random), string(random), gap(random));
    lines.push(dressed(random, login));
    for _ in 0..random.below(6) {
        let line = command(random);
        lines.push(dressed(random, line));
    }
    let last = match random.below(3) {
        0 => "exit".to_string(),
        _ => format!("return{part}{}", expression(random)),
    };
    lines.push(dressed(random, last));
    for _ in 0..random.below(3) {
        let at = random.below(lines.len() + 1);
        lines.insert(at, "// a line of its own".to_string());
    }
    let mut text = lines.join("\n").into_bytes();
    text.extend_from_slice(if random.below(2) == 0 { b"\n***" } else { b"\n***\n" });
    text
}

/// One to three bytes changed, taken out or put in, or two lines swapped.
pub fn damage(random: &mut Random, text: &mut Vec<u8>) {
    const BYTES: &[u8] = b" \n\t\"={}[]().,->/*_:;aZ09\x00\x7f\xff";
    for _ in 0..1 + random.below(3) {
        let at = random.below(text.len());
        let byte = BYTES[random.below(BYTES.len())];
        match random.below(5) {
            0 => text[at] = byte,
            1 => text.insert(at, byte),
            2 | 3 if text.len() > 1 => {
                text.remove(at);
            }
            _ => {
                let mut lines: Vec<&[u8]> = text.split(|b| *b == b'\n').collect();
                let (a, b) = (random.below(lines.len()), random.below(lines.len()));
                lines.swap(a, b);
                *text = lines.join(&b'\n');
            }
        }
    }
}
