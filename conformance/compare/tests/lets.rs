//! Expressions of many lets, beside the model: random trees of lets in the first and in the second expressions of others, up to as many as a program
//! can have, whose names come near the weight's limit together. The answer and every byte of the three buffers are compared.
//!
//! In the gate 10,000 programs are run. For more of them, or others:
//!
//!     LETS=1000000 SEED=7 cargo test --offline --release -p compare --test lets -- --nocapture

use compare::random::Random;
use compare::seen::{each_seeded, must_come, note, setting, Seen};
use compare::server::{run, Answer};
use model::calls;
use model::observe::lets::{BOUND, ELEMENTS, LEFT, UNDONE};
use model::observe::{expressions, PLACES};
use model::parse::LONGEST_PROGRAM;
use model::replay::{padded, shortest_names};
use model::text::BUFFER;

/// How many lets a program may have that is done.
const SIZES: [&str; 4] = ["done with lets: 1 to 9", "done with lets: 10 to 99", "done with lets: 100 to 999", "done with lets: 1000 or more"];

/// Bob may read the string t and the record r, may read and write the list l, and has no right on the string s.
const STATE: &str = "O\nP|admin|a|0\nN|anyone|0\nP|bob|b|0\nD|anyone\nV|t|S|text\nV|r|R\nF|a|1\nF|b|2\nV|l|L\nS|one\nR\nF|a|1\nS|\nR\nF|b|2\nV|s|S|secret\n\
                     A|t|admin|r|bob\nA|r|admin|r|bob\nA|l|admin|r|bob\nA|l|admin|w|bob\n";

/// What the trees of one program are made of.
struct Plan {
    /// Names that nothing has, to be taken one after the other.
    names: Vec<String>,
    /// How long the strings are.
    length: usize,
    /// One of so many parts is what may not be done.
    mishaps: usize,
    /// Of ten parts of a tree so many are in first expressions.
    firsts: usize,
}

impl Plan {
    fn of(random: &mut Random, lets: usize) -> Plan {
        let mut names = shortest_names(lets + 60).split_off(60);
        if random.below(4) == 0 {
            random.shuffle(&mut names);
        }
        let full = 8_192 / lets;
        Plan {
            names,
            length: if lets >= 1_000 { 0 } else { [0, 0, full.saturating_sub(3), full, 2 * full, random.below(60)][random.below(6)] },
            mishaps: [8, 60, 400, 1_000_000][random.below(4)],
            firsts: [0, 3, 7, 10][random.below(4)],
        }
    }

    fn leaf(&self, random: &mut Random, around: &[String]) -> String {
        if random.below(self.mishaps) == 0 {
            let heavy = format!("\"{}\"", "h".repeat(8_190 + random.below(5)));
            return ["s", "s", "nosuch", "r.c", "y.a", "concat(t,r)", "equal(l,t)", &heavy][random.below(8)].to_string();
        }
        match random.below(8) {
            0 => ["t", "r.a", "r", "[]", "l", "concat(t,r.b)", "equal(r,r)"][random.below(7)].to_string(),
            1 | 2 if !around.is_empty() => around[random.below(around.len())].clone(),
            3 if !around.is_empty() && random.below(self.mishaps.min(40)) == 0 => format!("equal({},t)", around[random.below(around.len())]),
            _ => format!("\"{}\"", "x".repeat(self.length)),
        }
    }

    /// Mostly a name of its own; rarely one that is defined.
    fn name(&mut self, random: &mut Random, around: &[String]) -> String {
        if random.below(self.mishaps) == 0 {
            let defined = ["t", "s", "y", "m"].map(str::to_string);
            let all: Vec<&String> = defined.iter().chain(around).collect();
            return all[random.below(all.len())].clone();
        }
        self.names.pop().expect("as many names as lets")
    }

    /// An expression of so many lets, in which the names around it may be read.
    fn tree(&mut self, random: &mut Random, lets: usize, around: &mut Vec<String>) -> String {
        if lets == 0 {
            return self.leaf(random, around);
        }
        let name = self.name(random, around);
        let rest = lets - 1;
        let in_first = match random.below(3) {
            0 => random.below(rest + 1),
            _ => rest * self.firsts / 10,
        };
        let first = self.tree(random, in_first, around);
        around.push(name.clone());
        let second = self.tree(random, rest - in_first, around);
        around.pop();
        format!("let {name}={first} in {second}")
    }
}

/// How many lets: few mostly.
fn size(random: &mut Random) -> usize {
    match random.below(24) {
        0 => 1_000 + random.below(60),
        1..=3 => 100 + random.below(400),
        4..=11 => 10 + random.below(40),
        _ => 1 + random.below(9),
    }
}

/// A program of one such expression, in each place where one may stand.
fn program(random: &mut Random, expression: &str) -> Vec<u8> {
    let line = match random.below(8) {
        0 => format!("set new = {expression}"),
        1 => format!("append to l with {expression}"),
        2 => format!("local new = {expression}"),
        3 => format!("foreach y in l replacewith {expression}"),
        4 => format!("filtereach y in l with {expression}"),
        5 => format!("local q = {expression}"),
        _ => format!("return {expression}"),
    };
    let (before, after) = (["", "local m = \"\"\n"][random.below(2)], if line.starts_with("return") { "" } else { "return l\n" });
    format!("as principal {} do\n{before}{line}\n{after}***", ["admin password \"a\"", "bob password \"b\""][random.below(2)]).into_bytes()
}

fn both(seen: &mut Seen, random: &mut Random) {
    let lets = size(random);
    let mut plan = Plan::of(random, lets);
    let expression = plan.tree(random, lets, &mut Vec::new());
    let text = program(random, &expression);
    note(seen, if text.len() <= LONGEST_PROGRAM { "short enough" } else { "too long" });
    let state = padded(STATE.replace('|', "\t").as_bytes());
    let told = expressions(&state, &text);
    told.iter().for_each(|words| note(seen, words));
    if told.iter().any(|words| words.starts_with("let in ")) {
        note(seen, SIZES[lets.ilog10() as usize]);
    }
    let mut proved = [state, vec![1; BUFFER], vec![2; BUFFER]];
    let mut model = proved.clone();
    let [lent, work, output] = &mut proved;
    let answer = run(lent, work, output, &text);
    let [lent, work, output] = &mut model;
    let report = calls::run(lent, work, output, &text).expect("a right call");
    note(seen, &format!("{:?}", report.end));
    assert_eq!(answer, Answer::Ended(report), "{}", String::from_utf8_lossy(&text));
    assert!(proved == model, "buffers after {}", String::from_utf8_lossy(&text));
}

#[test]
fn many_lets() {
    let count = setting("LETS", 10_000);
    let seed = setting("SEED", 20_261_118);
    println!("{count} programs, seed {seed}");
    let seen = each_seeded(count, seed, both);
    must_come(&seen, SIZES.iter().chain(&["Returned", "Denied", "Failed", "Full", "short enough", "too long"]));
    must_come(&seen, BOUND[..3].iter().chain(&BOUND[5..]).chain(&UNDONE).chain([&LEFT]));
    for place in PLACES {
        assert!(seen.contains_key(&format!("let in {place}")), "a let was never done in {place}");
    }
    for command in ["foreach", "filtereach"] {
        assert!(ELEMENTS.iter().any(|words| seen.contains_key(&format!("{command}: {words}"))), "elements of {command} never differed");
    }
}
