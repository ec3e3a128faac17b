//! Programs that mean something to one another: several principals share a few variables, hand rights on and withdraw them, fill lists and
//! come near the weight's limit. Most can be done, many cannot.

use crate::older::{Names, OLDER};
use crate::prices::{nearly, price, RARE};
use crate::programs;
use crate::random::Random;

pub const PRINCIPALS: [&str; 6] = ["admin", "anyone", "bob", "carol", "dave", "eve"];
pub const VARIABLES: [&str; 6] = ["list", "x", "r", "queue", "song", "y"];
const LOCALS: [&str; 3] = ["l", "m", "x"];
const RIGHTS: [&str; 4] = ["read", "write", "append", "delegate"];
const LABELS: [&str; 3] = ["a", "b", "key"];
const FUNCTIONS: [&str; 3] = ["split", "concat", "tolower"];
const SUMS: [&str; 4] = ["add", "sub", "times", "per"];
const COMPARISONS: [&str; 2] = ["equal", "notequal"];

/// Records as r is at first, or nearly.
const RECORDS: [&str; 6] =
    ["{a=\"1\",key=\"F\"}", "{key=\"F\",a=\"1\"}", "{a=\"1\",key=\"G\"}", "{a=\"1\",b=\"F\"}", "{a=\"1\"}", "{key=\"F\",a=\"2.25\"}"];

/// The names of lets, mostly.
const LETS: [&str; 5] = ["k", "n", "i", "j", "word"];

/// Names that no principal gets: two that share a hash with bob's, one told from his by its case and one with which his begins, a variable's, one that
/// begins with admin's.
const STRANGERS: [&str; 6] = ["cPb", "bpC", "Bob", "bo", "list", "admins"];

/// What a state may have older names for.
pub const RENAMED: Names = Names { principals: &["bob", "carol", "dave", "eve"], variables: &["song", "queue", "y", "list"], labels: &LABELS };

fn one<'a>(random: &mut Random, words: &[&'a str]) -> &'a str {
    words[random.below(words.len())]
}

/// A short text mostly; a long one where the weight's limit is to be met.
fn string(random: &mut Random) -> String {
    let length = match random.below(60) {
        0 => 8_000 + random.below(400),
        1 | 2 => 1_000 + random.below(3_500),
        _ => random.below(9),
    };
    let word = one(random, &["song ", "Blue Moon", "a", "-;,.?!_ 0"]);
    format!("\"{}\"", word.chars().cycle().take(length).collect::<String>())
}

/// How many of the principals and of the variables the opening makes. Names are mostly of these.
#[derive(Clone, Copy)]
pub struct World {
    principals: usize,
    variables: usize,
}

impl World {
    pub fn new(random: &mut Random) -> World {
        World { principals: 3 + random.below(4), variables: 2 + random.below(5) }
    }

    /// Rarely an older name, as which no program can write it.
    fn principal(self, random: &mut Random) -> &'static str {
        if random.below(80) == 0 {
            return one(random, &OLDER);
        }
        let known = if random.below(24) == 0 { PRINCIPALS.len() } else { self.principals };
        PRINCIPALS[random.below(known)]
    }

    fn variable(self, random: &mut Random) -> &'static str {
        if random.below(120) == 0 {
            return one(random, &OLDER);
        }
        let known = if random.below(24) == 0 { VARIABLES.len() } else { self.variables };
        VARIABLES[random.below(known)]
    }
}

fn operand(random: &mut Random, world: World) -> String {
    match random.below(12) {
        0..=3 => world.variable(random).to_string(),
        4 => one(random, &LOCALS).to_string(),
        5 => format!("{}.{}", one(random, &["r", "r", "x", "l"]), one(random, &LABELS)),
        _ => string(random),
    }
}

/// So many letters, some of which tolower changes.
fn letters(count: usize) -> String {
    format!("\"{}\"", "Moon ".chars().cycle().take(count).collect::<String>())
}

/// What a function is called with: mostly a string, often another value or a name that is none, rarely what is no value at all.
fn argument(random: &mut Random, world: World) -> String {
    match random.below(48) {
        0 => letters(8_150 + random.below(80)),
        1 | 2 => letters(4_060 + random.below(60)),
        3..=8 => operand(random, world),
        9..=11 => one(random, &["list", "queue", "r", "nosuch", "r.nosuch", "song.a"]).to_string(),
        12 => one(random, &["[]", "{a=\"1\"}", "", "(x)"]).to_string(),
        13 if random.below(2) == 0 => call(random, world),
        13 => lets(random, world, &[]),
        14..=20 => one(random, &["r.a", "r.key"]).to_string(),
        21..=30 => one(random, &["x", "song", "l"]).to_string(),
        _ => string(random),
    }
}

/// A call with a result that weighs 8,192, or a little more or less.
fn call_at_the_limit(random: &mut Random) -> String {
    let more = random.below(4);
    match random.below(3) {
        0 => format!("concat({},{})", letters(4_095), letters(4_095 + more)),
        1 => format!("split({},{})", letters(8_182 + more), string(random)),
        _ => format!("tolower({})", letters(8_190 + more)),
    }
}

/// What a function on prices is called with: mostly a price, sometimes what is nearly one, rarely a heavy string or what another function takes.
fn summand(random: &mut Random, world: World) -> String {
    match random.below(40) {
        0 => format!("\"{}\"", "9".repeat(8_186 + random.below(12))),
        1 | 2 => nearly(random),
        3..=5 => argument(random, world),
        6..=12 => one(random, &["song", "y", "l", "r.a"]).to_string(),
        _ => price(random),
    }
}

/// What is compared: often a record.
fn compared(random: &mut Random, world: World) -> String {
    match random.below(4) {
        0 => argument(random, world),
        1 => string(random),
        2 => one(random, &["r.a", "y", "l", "m"]).to_string(),
        _ => "r".to_string(),
    }
}

/// Mostly with as many arguments as the function takes, and between parentheses.
fn call(random: &mut Random, world: World) -> String {
    match random.below(120) {
        0 | 1 => return call_at_the_limit(random),
        2..=6 => return one(random, &RARE).to_string(),
        _ => {}
    }
    let (functions, value): (&[&str], fn(&mut Random, World) -> String) = match random.below(5) {
        0 | 1 => (&SUMS, summand),
        2 | 3 => (&FUNCTIONS, argument),
        _ => (&COMPARISONS, compared),
    };
    let function = one(random, functions);
    let count = match random.below(24) {
        0 => random.below(4),
        _ if function == "tolower" => 1,
        _ => 2,
    };
    let arguments = (0..count).map(|_| value(random, world)).collect::<Vec<String>>().join(",");
    match random.below(80) {
        0 => format!("{function} {arguments}"),
        1 => format!("{function}({arguments}"),
        2 => format!("({function}({arguments}))"),
        _ => format!("{function}({arguments})"),
    }
}

fn field(random: &mut Random, world: World) -> String {
    match random.below(96) {
        0 if random.below(2) == 0 => lets(random, world, &[]),
        0 => call(random, world),
        1..=32 => operand(random, world),
        _ => string(random),
    }
}

/// Mostly a name that nothing has; sometimes one of a variable, of a local or of an element, rarely none.
fn let_name(random: &mut Random, world: World) -> &'static str {
    match random.below(60) {
        0..=4 => world.variable(random),
        5..=7 => one(random, &LOCALS),
        8 | 9 => "y1",
        10 => one(random, &["k.a", "in", "let", "s"]),
        _ => one(random, &LETS),
    }
}

/// An expression of a let: often another let, the name of one around it, or a string such that one name, or two together, weigh as much as they may.
fn let_part(random: &mut Random, world: World, around: &[&str]) -> String {
    match random.below(40) {
        0..=6 => lets(random, world, around),
        7..=14 if !around.is_empty() => match random.below(4) {
            0 => format!("{}(r,{})", one(random, &COMPARISONS), one(random, around)),
            1 => format!("concat({},{})", one(random, around), argument(random, world)),
            2 => format!("{}.a", one(random, around)),
            _ => one(random, around).to_string(),
        },
        15 => one(random, &LETS).to_string(),
        16 => letters(8_184 + random.below(12)),
        17 => letters(4_084 + random.below(16)),
        18..=20 => one(random, &RECORDS).to_string(),
        21 | 22 => format!("let k={} in {}(r,k)", one(random, &RECORDS), one(random, &COMPARISONS)),
        _ => plain(random, world),
    }
}

/// Rarely it is not written as it should be.
fn lets(random: &mut Random, world: World, around: &[&str]) -> String {
    let name = let_name(random, world);
    let first = let_part(random, world, around);
    let second = let_part(random, world, &[around, &[name]].concat());
    match random.below(160) {
        0 => format!("let {name}={first}"),
        1 => format!("let {name}={first} in"),
        2 => format!("(let {name}={first} in {second})"),
        _ => format!("let {name}={first} in {second}"),
    }
}

fn expression(random: &mut Random, world: World) -> String {
    if random.below(5) == 0 { lets(random, world, &[]) } else { plain(random, world) }
}

fn plain(random: &mut Random, world: World) -> String {
    match random.below(13) {
        0 | 1 => "[]".to_string(),
        2 | 3 => {
            let fields: Vec<String> = (0..1 + random.below(3))
                .map(|at| {
                    let label = if random.below(12) == 0 { "a" } else { LABELS[at] };
                    format!("{label}={}", field(random, world))
                })
                .collect();
            format!("{{{}}}", fields.join(","))
        }
        4..=6 => call(random, world),
        _ => operand(random, world),
    }
}

/// What foreach replaces by, and what filtereach keeps for: y1 is the element.
fn replacement(random: &mut Random, world: World) -> String {
    match random.below(22) {
        0 | 1 => "y1".to_string(),
        2 => "{a=y1.a,b=\"0\"}".to_string(),
        3 => "{key=y1}".to_string(),
        4 => string(random),
        5 => format!("{}(y1,{})", one(random, &["split", "concat"]), argument(random, world)),
        6 => format!("{}({},y1.a)", one(random, &["split", "concat"]), argument(random, world)),
        7 => one(random, &["tolower(y1)", "tolower(y1.a)", "split(y1.a,y1.a)"]).to_string(),
        // Too heavy for one element, where a later one may be no string.
        8 => format!("{}({},{})", one(random, &["split", "concat"]), one(random, &["y1", "y1.a"]), letters(8_185 + random.below(16))),
        9 => format!("{}(y1,{})", one(random, &SUMS), summand(random, world)),
        10 => format!("{}({},y1)", one(random, &SUMS), summand(random, world)),
        11 => format!("{}(y1.a,{})", one(random, &SUMS), summand(random, world)),
        12 => format!("{}({},y1.a)", one(random, &SUMS), price(random)),
        13 | 14 => format!("{}({},{})", one(random, &COMPARISONS), one(random, &["y1", "y1.a"]), compared(random, world)),
        15 | 16 => format!("let k={} in {}", one(random, &["y1", "y1.a"]), let_part(random, world, &["k", "y1"])),
        _ => expression(random, world),
    }
}

fn delegation(random: &mut Random, world: World, sender: &str, word: &str) -> String {
    let target = if random.below(4) == 0 { "all" } else { world.variable(random) };
    let right = one(random, &RIGHTS);
    let giver = if random.below(4) == 0 { world.principal(random) } else { sender };
    format!("{word} delegation {target} {giver} {right} -> {}", world.principal(random))
}

fn command(random: &mut Random, world: World, sender: &str) -> String {
    let is_admin = sender == "admin" || random.below(12) == 0;
    match random.below(20) {
        0 if is_admin => format!("create principal {} \"s\"", one(random, &PRINCIPALS)),
        1 if is_admin => format!("default delegator = {}", world.principal(random)),
        2 => format!("change password {} \"{}\"", if is_admin { world.principal(random) } else { sender }, one(random, &["s", "s", "s", "t"])),
        3..=6 => format!("set {} = {}", world.variable(random), expression(random, world)),
        7..=9 => format!("append to {} with {}", one(random, &["list", "list", "queue", "l"]), expression(random, world)),
        10 | 11 => format!("local {} = {}", one(random, &LOCALS), expression(random, world)),
        12 | 13 => {
            let element = if random.below(8) == 0 { world.variable(random) } else { "y1" };
            let command = one(random, &["foreach", "filtereach"]);
            let word = match random.below(48) {
                0 => one(random, &["with", "replacewith"]),
                _ if command == "foreach" => "replacewith",
                _ => "with",
            };
            format!("{command} {element} in {} {word} {}", one(random, &["list", "list", "queue", "l", "x"]), replacement(random, world))
        }
        14..=17 => delegation(random, world, sender, "set"),
        _ => delegation(random, world, sender, "delete"),
    }
}

/// A list of many short strings, each of which a call makes longer until they are too heavy together, and an element behind them that may fail.
fn swollen(random: &mut Random) -> Vec<String> {
    let last = match random.below(3) {
        0 => nearly(random),
        1 => price(random),
        _ => one(random, &["\"0.00\"", "{a=\"0.01\"}"]).to_string(),
    };
    let call = one(random, &["per(\"12345.67\",y1)", "sub(y1,\"1234567.00\")", "add(\"-9000000.00\",y1)", "concat(y1,y1)"]);
    let mut lines = vec!["local s = []".to_string(), format!("append to s with {}", one(random, &["\"0.01\"", "\"0.02\""]))];
    lines.extend((0..10).map(|_| "append to s with s".to_string()));
    lines.push(format!("append to s with {last}"));
    lines.push(format!("foreach y1 in s replacewith {call}"));
    lines
}

/// A list of prices, or of elements that one expression treats in several ways, and a command over it.
fn varied(random: &mut Random, world: World) -> Vec<String> {
    let long = format!("{{a={}}}", letters(4_000));
    let is_priced = random.below(3) == 0;
    let elements: &[&str] = if is_priced { &["\"0.05\"", "\"-2.00\"", "\"12.50\""] } else { &["\"one\"", "{a=\"1\"}", "{b=\"0\"}", &long] };
    let mut lines = vec!["local s = []".to_string()];
    for _ in 0..2 + random.below(3) {
        lines.push(format!("append to s with {}", one(random, elements)));
    }
    let expression = if is_priced { of_prices(random) } else { of_mixed(random, world) };
    lines.push(match random.below(2) {
        0 => format!("foreach y1 in s replacewith {expression}"),
        _ => format!("filtereach y1 in s with {expression}"),
    });
    lines
}

fn of_prices(random: &mut Random) -> String {
    match random.below(8) {
        0 => "tolower(y1)".to_string(),
        1..=4 => format!("{}(y1,{})", one(random, &SUMS), price(random)),
        5 => format!("{}({},y1)", one(random, &["split", "concat"]), price(random)),
        _ => format!("{}(y1,{})", one(random, &COMPARISONS), one(random, &["\"0.05\"", "\"12.50\"", "r"])),
    }
}

/// DENIED, FAILED, FULL or done, one for this element and one for that.
fn of_mixed(random: &mut Random, world: World) -> String {
    let second = match random.below(3) {
        0 => one(random, &["k", "\"\"", "\"0\"", "{a=k}", "[]", "equal(k,\"1\")"]),
        _ => world.variable(random),
    };
    match random.below(8) {
        0 | 1 => format!("let k=y1.a in {second}"),
        2..=4 => format!("let k=concat(y1.a,{}) in {second}", letters(4_200)),
        5 => format!("let k=y1.a in concat(k,{})", letters(4_200)),
        6 => one(random, &["equal(y1,r)", "notequal(r,y1)", "equal(y1,\"one\")"]).to_string(),
        _ => one(random, &["let y1=\"\" in y1", "let s=\"\" in x", "let k=y1 in let k=y1 in k"]).to_string(),
    }
}

/// Mostly a principal.
fn sender(random: &mut Random, world: World) -> &'static str {
    match random.below(48) {
        0 => one(random, &STRANGERS),
        1..=16 => "admin",
        _ => world.principal(random),
    }
}

/// A program of somebody who mostly has a name and knows the password. `last` may end the history.
fn program(random: &mut Random, world: World, last: bool) -> Vec<u8> {
    let sender = sender(random, world);
    let password = if random.below(16) == 0 { one(random, &["t", ""]) } else { "s" };
    let mut lines = vec![format!("as principal {sender} password \"{password}\" do")];
    match random.below(300) {
        0 => lines.extend(swollen(random)),
        1..=3 => lines.push(format!("create principal {sender} \"{password}\"")),
        4..=24 => lines.extend(varied(random, world)),
        25..=27 => {
            let name = one(random, &VARIABLES);
            lines.push(format!("{} {name} = let {name}=\"1\" in {name}", one(random, &["set", "local"])));
        }
        _ => (0..random.below(4)).for_each(|_| lines.push(command(random, world, sender))),
    }
    lines.push(if last && random.below(2) == 0 { "exit".to_string() } else { format!("return {}", expression(random, world)) });
    lines.push("***".to_string());
    lines.join("\n").into_bytes()
}

/// One program of a history: by the generator above, of odd spelling, or damaged.
pub fn next(random: &mut Random, world: World, last: bool) -> Vec<u8> {
    let mut text = match random.below(12) {
        0 => programs::whole(random),
        _ => program(random, world, last),
    };
    if random.below(12) == 0 {
        programs::damage(random, &mut text);
    }
    text
}

/// What admin does first, so that there is something to share.
pub fn opening(random: &mut Random, world: World) -> Vec<u8> {
    let mut lines = vec!["as principal admin password \"s\" do".to_string()];
    for name in &PRINCIPALS[2..world.principals] {
        lines.push(format!("create principal {name} \"s\""));
    }
    for name in &VARIABLES[..world.variables] {
        let value = match *name {
            "list" | "queue" => "[]",
            "r" => one(random, &["{a=\"1\",key=\"F\"}", "{a=\"2.25\",key=\"F\"}"]),
            "song" | "y" => one(random, &["\"text\"", "\"12.50\"", "\"-0.05\""]),
            _ => "\"text\"",
        };
        lines.push(format!("set {name} = {value}"));
    }
    let priced = random.below(2) == 0;
    for _ in 0..random.below(4) {
        let values: &[&str] = if priced { &["\"0.15\"", "\"-9.99\"", "\"0.00\""] } else { &["\"one\"", "{a=\"1\"}", "{a=\"0.25\"}", "\"\""] };
        lines.push(format!("append to list with {}", one(random, values)));
    }
    for _ in 0..random.below(16) {
        lines.push(format!(
            "set delegation {} admin {} -> {}",
            VARIABLES[random.below(world.variables)],
            one(random, &RIGHTS),
            PRINCIPALS[random.below(world.principals)]
        ));
    }
    lines.push("return \"\"\n***".to_string());
    lines.join("\n").into_bytes()
}
