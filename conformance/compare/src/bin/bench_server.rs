//! Times of the proved server as ratios to the model, in one run: `cargo run --release --bin bench_server`. Both sides get the same bytes: before each
//! call the state's buffer is set to the same one, and both clear the output and the work buffer themselves, as document 01 asks. With a folder as
//! its argument it also writes the figures: `cargo run --release --bin bench_server ../docs` puts the table into performance.md, between the two
//! lines that say where, and draws performance.svg.

use std::env;
use std::fmt::Write;
use std::fs;
use std::hint::black_box;
use std::path::Path;
use std::time::Duration;

use compare::former::{former, padded, text};
use compare::page;
use compare::server;
use compare::timing::{time, Line};
use model::calls;
use model::parse::LONGEST_PROGRAM;
use model::replay::shortest_names;
use model::text::BUFFER;

struct Buffers {
    state: Vec<u8>,
    work: Vec<u8>,
    output: Vec<u8>,
}

impl Buffers {
    fn new() -> Buffers {
        Buffers { state: vec![0; BUFFER], work: vec![0; BUFFER], output: vec![0; BUFFER] }
    }
}

fn program(sender: &str, password: &str, lines: &[String]) -> Vec<u8> {
    format!("as principal {sender} password \"{password}\" do\n{}\n***", lines.join("\n")).into_bytes()
}

/// A server that the model made and to which it sent programs of admin's, each of which is done.
fn server_after(programs: &[Vec<String>]) -> Vec<u8> {
    let mut lent = Buffers::new();
    calls::make(&mut lent.state, b"desk").expect("a good password");
    for lines in programs {
        let mut lines = lines.clone();
        lines.push("return \"\"".to_string());
        let text = program("admin", "desk", &lines);
        assert!(text.len() <= LONGEST_PROGRAM, "a program of {} bytes", text.len());
        let report = calls::run(&mut lent.state, &mut lent.work, &mut lent.output, &text).expect("a right call");
        assert_eq!(report.end, model::engine::End::Returned, "{}", String::from_utf8_lossy(&lent.output[..report.bytes]));
    }
    lent.state
}

/// Both sides run the program on the same state, which is copied into place before each call; the time of that copy is part of both.
fn run_line(name: &str, state: &[u8], text: &[u8]) -> Line {
    let (mut ours, mut theirs) = (Buffers::new(), Buffers::new());
    ours.state.copy_from_slice(state);
    theirs.state.copy_from_slice(state);
    server::run(&mut ours.state, &mut ours.work, &mut ours.output, text);
    calls::run(&mut theirs.state, &mut theirs.work, &mut theirs.output, text).expect("a right call");
    assert!(ours.state == theirs.state && ours.output == theirs.output, "{name}: the two sides differ");
    let proved = time(|| {
        ours.state.copy_from_slice(state);
        black_box(server::run(&mut ours.state, &mut ours.work, &mut ours.output, black_box(text)));
        ours.output[0] as usize
    });
    let model = time(|| {
        theirs.state.copy_from_slice(state);
        black_box(calls::run(&mut theirs.state, &mut theirs.work, &mut theirs.output, black_box(text))).map_or(0, |report| report.bytes)
    });
    Line { name: name.to_string(), proved, model }
}

fn ask_line(name: &str, state: &[u8], principal: &str, variable: &str) -> Line {
    let (p, x) = (principal.as_bytes(), variable.as_bytes());
    let expected = calls::ask(state, p, x, b'r').expect("a right question");
    let answer = server::ask(state, p, x, b'r');
    assert_eq!(answer, expected.map_or(server::Answer::No, server::Answer::Yes), "{name}: the two sides differ");
    let proved = time(|| {
        black_box(server::ask(black_box(state), p, x, b'r'));
        0
    });
    let model = time(|| black_box(calls::ask(black_box(state), p, x, b'r')).map_or(0, |length| length.unwrap_or(0)));
    Line { name: name.to_string(), proved, model }
}

/// Both sides bring the state over, from the former lines into a buffer that holds the state already: it is written whole each time.
fn bring_line(name: &str, state: &[u8]) -> Line {
    let old = padded(&former(text(state), 4_294_967_295));
    let (mut ours, mut theirs) = (vec![1; BUFFER], vec![2; BUFFER]);
    assert_eq!(server::bring(&old, &mut ours), server::Answer::Ready, "{name}");
    calls::bring(&old, &mut theirs).expect("a right call");
    assert!(ours == theirs, "{name}: the two sides differ");
    let proved = time(|| {
        black_box(server::bring(black_box(&old), &mut ours));
        ours[0] as usize
    });
    let model = time(|| {
        black_box(calls::bring(black_box(&old), &mut theirs)).expect("a right call");
        theirs[0] as usize
    });
    Line { name: name.to_string(), proved, model }
}

/// Clearing the three lent buffers and copying one: what any run of document 01 has to do.
fn clearing() -> Duration {
    let mut lent = Buffers::new();
    let state = vec![7; BUFFER];
    time(|| {
        lent.output.fill(black_box(0));
        lent.work.fill(black_box(0));
        lent.state.fill(black_box(0));
        lent.state.copy_from_slice(black_box(&state));
        black_box(&lent.state)[0] as usize
    })
}

/// 300 principals, 200 assertions: a chain of read on `list` of so many steps to `last`, and others beside it.
fn venue(depth: usize) -> (Vec<u8>, String) {
    let name = |n: usize| format!("p{n}");
    let mut programs = Vec::new();
    for part in 0..10 {
        programs.push((0..30).map(|n| format!("create principal {} \"s\"", name(30 * part + n))).collect());
    }
    let mut lines = vec!["set list = []".to_string(), "set other = []".to_string()];
    for step in 0..depth {
        let from = if step == 0 { "admin".to_string() } else { name(step - 1) };
        lines.push(format!("set delegation list {from} delegate -> {}", name(step)));
    }
    programs.push(lines);
    let reads = (0..depth).map(|step| {
        let from = if step == 0 { "admin".to_string() } else { name(step - 1) };
        format!("set delegation list {from} read -> {}", name(step))
    });
    programs.push(reads.collect());
    let rest: Vec<String> =
        (0..200 - 2 * depth).map(|n| format!("set delegation other admin {} -> {}", ["read", "write"][n % 2], name(100 + n))).collect();
    programs.push(rest[..rest.len() / 2].to_vec());
    programs.push(rest[rest.len() / 2..].to_vec());
    (server_after(&programs), name(depth - 1))
}

/// A state at the weight's limit: a long list, some principals, some assertions.
fn heavy() -> Vec<u8> {
    let mut lines = vec!["set list = []".to_string(), "set x = \"\"".to_string()];
    lines.extend((0..20).map(|n| format!("create principal p{n} \"s\"")));
    lines.extend((0..20).map(|n| format!("set delegation list admin read -> p{n}")));
    let mut programs = vec![lines];
    for part in 0..7 {
        programs.push((0..10).map(|n| format!("append to list with {{song=\"{}\",key=\"F{part}{n}\"}}", "s".repeat(90))).collect());
    }
    let state = server_after(&programs);
    let weight = model::text::decode(&state).expect("well formed").0.weight();
    programs.push(vec![format!("set x = \"{}\"", "w".repeat(8_192 - weight))]);
    let state = server_after(&programs);
    assert_eq!(model::text::decode(&state).expect("well formed").0.weight(), 8_192);
    state
}

fn session() -> (Vec<u8>, Vec<Vec<u8>>) {
    let fresh = server_after(&[]);
    let first = ["create principal rosa \"r1\"", "set queue = []", "set delegation queue admin append -> rosa", "return queue"];
    let second = ["append to queue with {song=\"Blue Moon\",key=\"F\"}", "return \"ok\""];
    let lines = |of: &[&str]| of.iter().map(|line| line.to_string()).collect::<Vec<String>>();
    (fresh, vec![program("admin", "desk", &lines(&first)), program("rosa", "r1", &lines(&second))])
}

fn measured() -> Vec<Line> {
    let mut lines = Vec::new();
    let (fresh, programs) = session();
    lines.push(run_line("session of 01, first program", &fresh, &programs[0]));
    let mut lent = Buffers::new();
    lent.state.copy_from_slice(&fresh);
    calls::run(&mut lent.state, &mut lent.work, &mut lent.output, &programs[0]).expect("a right call");
    lines.push(run_line("session of 01, second program", &lent.state, &programs[1]));
    lines.push(ask_line("question after the first program", &lent.state, "admin", "queue"));
    for depth in [1, 5, 50, 100] {
        let (state, last) = venue(depth);
        let text = program(&last, "s", &["return list".to_string()]);
        lines.push(run_line(&format!("venue of 300, chain of {depth}: a read"), &state, &text));
        lines.push(ask_line(&format!("venue of 300, chain of {depth}: question"), &state, &last, "list"));
    }
    let state = heavy();
    lines.push(run_line("state at the weight limit: a set", &state, &program("admin", "desk", &["set x = \"\"".to_string(), "return x".to_string()])));
    lines.push(run_line("state at the weight limit: its list returned", &state, &program("admin", "desk", &["return list".to_string()])));
    lines.push(ask_line("state at the weight limit: question", &state, "p19", "list"));
    for count in [500, 1_000, 2_000] {
        let mut commands: Vec<String> = (0..count - 1).map(|_| "set x=y".to_string()).collect();
        commands.push("return x".to_string());
        let state = server_after(&[vec!["set x = \"1\"".to_string(), "set y = \"2\"".to_string()]]);
        lines.push(run_line(&format!("program of {count} commands"), &state, &program("admin", "desk", &commands)));
    }
    lines
}

/// Programs of one command over and over, `set x=` and each of these expressions, all with the same number of commands, which is as many as fit where
/// the command is longest.
fn repeated(expressions: &[&str], state: &[u8]) -> Vec<Line> {
    let last = "return x".to_string();
    let longest = expressions.iter().map(|expression| format!("set x={expression}\n").len()).max().expect("an expression");
    let count = (LONGEST_PROGRAM - program("admin", "desk", &[last.clone()]).len()) / longest;
    let line = |expression: &&str| {
        let mut commands = vec![format!("set x={expression}"); count];
        commands.push(last.clone());
        run_line(&format!("{count} times `set x={expression}`"), state, &program("admin", "desk", &commands))
    };
    expressions.iter().map(line).collect()
}

/// What a call of each function on strings costs beside a plain `set`, which comes first.
fn functions() -> Vec<Line> {
    let state = server_after(&[vec!["set x = \"\"".to_string(), "set y = \"Blue Moon\"".to_string()]]);
    repeated(&["y", "concat(y,\"a\")", "tolower(y)", "split(y,\"a\")"], &state)
}

/// The same for the functions on prices; then one call by itself, and what a list of bills costs, by a field of each and by its price.
fn prices() -> Vec<Line> {
    let state = server_after(&[["set x = \"\"", "set y = \"12.50\"", "set z = \"-2.25\""].map(str::to_string).to_vec()]);
    let mut lines = repeated(&["y", "add(y,z)", "sub(y,z)", "times(y,z)", "per(y,z)"], &state);
    for call in ["add(\"12.50\",\"2.25\")", "times(\"12.50\",\"2.25\")", "per(\"9999999.99\",\"3.00\")"] {
        lines.push(run_line(&format!("`return {call}`"), &state, &program("admin", "desk", &[format!("return {call}")])));
    }
    let mut making = vec!["set bills = []".to_string(), "append to bills with {rate=\"12.50\",hours=\"2.25\"}".to_string()];
    making.extend(vec!["append to bills with bills".to_string(); 8]);
    let bills = server_after(&[making]);
    for expression in ["b.rate", "times(b.rate,b.hours)"] {
        let commands = [format!("foreach b in bills replacewith {expression}"), "return \"\"".to_string()];
        lines.push(run_line(&format!("256 bills: each `{expression}`"), &bills, &program("admin", "desk", &commands)));
    }
    lines
}

/// A state at the weight limit whose list l has as many elements as there can be: empty strings.
fn longest_list() -> (Vec<u8>, usize) {
    let count = 8_192 - 28 - 2;
    let state = padded(format!("O\nP\tadmin\tdesk\t0\nN\tanyone\t0\nD\tanyone\nV\tl\tL\n{}", "S\t\n".repeat(count)).as_bytes());
    assert_eq!(model::text::decode(&state).expect("well formed").0.weight(), 8_192);
    (state, count)
}

/// What foreach and filtereach cost over the longest list, without a let and with one; the first is the plainest foreach and the second has a let.
fn over_lists() -> Vec<Line> {
    let (state, count) = longest_list();
    let commands = [
        "foreach e in l replacewith e",
        "foreach e in l replacewith let z=e in z",
        "filtereach e in l with e",
        "filtereach e in l with \"0\"",
        "filtereach e in l with equal(e,\"\")",
        "filtereach e in l with let z=e in equal(z,\"\")",
    ];
    let line = |command: &&str| {
        let text = program("admin", "desk", &[command.to_string(), "return \"\"".to_string()]);
        run_line(&format!("list of {count}: `{command}`"), &state, &text)
    };
    let mut lines: Vec<Line> = commands.iter().map(line).collect();
    let text = program("admin", "desk", &["filtereach e in list with equal(e.key,\"F00\")".to_string(), "return \"\"".to_string()]);
    lines.push(run_line("state at the weight limit: filtereach over its 70 records", &heavy(), &text));
    lines
}

/// A foreach whose expression has a hundred terms that the sender may read, by a chain of 61 steps, and at last one that it may not, over a list of a
/// thousand elements none of which comes that far: each has to be tried, since one that came there would be DENIED.
fn barred() -> Line {
    let principals: String = (0..60).map(|at| format!("P\tp{at}\t\t0\n")).collect();
    let from = |at: usize| if at == 0 { "admin".to_string() } else { format!("p{}", at - 1) };
    let chain: String = (0..60).map(|at| format!("A\ta\t{}\tr\tp{at}\n", from(at))).collect();
    let state = padded(
        format!(
            "O\nP\tadmin\tdesk\t0\nN\tanyone\t0\nP\trosa\tr1\t0\n{principals}D\tanyone\nV\ta\tS\t\nV\tsecret\tS\t\nV\tl\tL\n{}\
             {chain}A\ta\tp59\tr\trosa\nA\tl\tadmin\tr\trosa\nA\tl\tadmin\tw\trosa\n",
            "S\t\n".repeat(1_000)
        )
        .as_bytes(),
    );
    let lets: String = (0..100).map(|at| format!("let z{at}=a in ")).collect();
    let text = program("rosa", "r1", &[format!("foreach e in l replacewith {lets}let w=e.k in secret"), "return \"\"".to_string()]);
    run_line("list of 1000: a foreach with 100 lets, FAILED before what may not be read", &state, &text)
}

/// Programs of one expression that is as many lets as fit: each in the second expression of the one before it, with a name of its own, and each in the
/// first expression of the one before it.
fn lets() -> Vec<Line> {
    let fresh = server_after(&[]);
    let living: String = shortest_names(1_365).iter().map(|name| format!("let {name}=\"\"in ")).collect();
    let deep = 1_630;
    [("1365 lets, all names living", living + "\"\""), ("1630 lets, each in the first of another", format!("{}\"\"{}", "let a=".repeat(deep), "in\"\"".repeat(deep)))]
        .into_iter()
        .map(|(name, expression)| {
            let text = program("admin", "desk", &[format!("return {expression}")]);
            assert!(text.len() <= LONGEST_PROGRAM && text.len() > 16_350, "a program of {} bytes", text.len());
            run_line(name, &fresh, &text)
        })
        .collect()
}

/// Two records x and y of so many fields with labels of two letters and empty texts, y with the fields of x in the opposite order.
fn records(count: usize) -> Vec<u8> {
    let labels = shortest_names(52 + count).split_off(52);
    let record = |labels: &[String]| labels.iter().map(|label| format!("F\t{label}\t\n")).collect::<String>();
    let turned: Vec<String> = labels.iter().rev().cloned().collect();
    let variables: String = [("x", &labels), ("y", &turned)].iter().map(|(name, labels)| format!("V\t{name}\tR\n{}", record(labels))).collect();
    let state = padded(format!("O\nP\tadmin\tdesk\t0\nN\tanyone\t0\nD\tanyone\n{variables}").as_bytes());
    assert!(model::text::decode(&state).is_some(), "two records of {count} fields");
    state
}

/// What comparing two records costs: as many fields as fit, written alike and in the opposite order, and half as many.
fn comparisons() -> Vec<Line> {
    let line = |count: usize, call: &str, what: &str| {
        let text = program("admin", "desk", &[format!("return {call}")]);
        run_line(&format!("two records of {count} fields, {what}: `{call}`"), &records(count), &text)
    };
    vec![line(1_360, "equal(x,x)", "written alike"), line(680, "equal(x,y)", "in the opposite order"), line(1_360, "equal(x,y)", "in the opposite order")]
}

/// What it costs to bring states over: the session's, the venue's, and one that then stands at the weight limit.
fn bringing() -> Vec<Line> {
    let (fresh, programs) = session();
    let mut lent = Buffers::new();
    lent.state.copy_from_slice(&fresh);
    for program in &programs {
        calls::run(&mut lent.state, &mut lent.work, &mut lent.output, program).expect("a right call");
    }
    vec![
        bring_line("session of 01: brought over", &lent.state),
        bring_line("venue of 300, chain of 50: brought over", &venue(50).0),
        bring_line("state at the weight limit: brought over", &heavy()),
    ]
}

/// A line of the table for a sheet, and how long the question takes on the same state for the name that it takes longest for.
struct SheetLine {
    state: String,
    line: Line,
    question: Duration,
}

impl SheetLine {
    fn relation(&self) -> String {
        let times = self.line.proved.as_secs_f64() / self.question.as_secs_f64();
        format!("{}: {times:.2} times ({:.1?} for the question)", self.state, self.question)
    }
}

/// Both sides print the sheet into an output that holds it already: it is written whole each time. The worst of some names for the question is found
/// by asking.
fn sheet_line(name: &str, state: &[u8], variable: &str, names: &[&str]) -> SheetLine {
    let x = variable.as_bytes();
    let (mut ours, mut theirs) = (vec![1; BUFFER], vec![2; BUFFER]);
    let listed = calls::sheet(state, &mut theirs, x).expect("a right call");
    assert_eq!(server::sheet(state, &mut ours, x), server::Answer::Listed(listed), "{name}: the two sides differ");
    assert!(ours == theirs, "{name}: the two sides differ");
    let proved = time(|| {
        black_box(server::sheet(black_box(state), &mut ours, x));
        ours[0] as usize
    });
    let model = time(|| black_box(calls::sheet(black_box(state), &mut theirs, x)).map_or(0, |listed| listed.lines));
    let questions = names.iter().flat_map(|name| b"rwad".map(|right| (name.as_bytes(), right)));
    let question = questions.map(|(p, right)| {
        time(|| {
            black_box(server::ask(black_box(state), p, x, right));
            0
        })
    });
    let question = question.max().expect("a name");
    SheetLine { state: name.to_string(), line: Line { name: format!("{name}: sheet"), proved, model }, question }
}

/// A state of so many principals with the shortest names, a variable x, and these assertions, where that is light enough.
fn crowd(count: usize, assertions: &str) -> Option<Vec<u8>> {
    let people: String = shortest_names(count - 2).iter().map(|name| format!("P\t{name}\t\t0\n")).collect();
    let state = padded(format!("O\nP\tadmin\t\t0\nN\tanyone\t0\n{people}D\tanyone\nV\tx\tS\t\n{assertions}").as_bytes());
    model::text::decode(&state).is_some().then_some(state)
}

/// The longest chain that fits, from admin to anyone through all principals, and how long it is: a marking of everyone goes over all of it in each round.
fn longest_chain() -> (Vec<u8>, usize) {
    let chain = |count: usize| {
        let letters = shortest_names(count - 2);
        let row: Vec<&str> = ["admin"].into_iter().chain(letters.iter().map(String::as_str)).chain(["anyone"]).collect();
        let assertions: String = row.windows(2).map(|pair| format!("A\tx\t{}\tr\t{}\n", pair[0], pair[1])).collect();
        crowd(count, &assertions).map(|state| (state, count - 1))
    };
    (2..634).rev().find_map(chain).expect("a chain that fits")
}

/// 30 principals in a row from admin to anyone, and as many assertions as fit: from each to the next and to all before it, for each right, those of
/// the far end first. A chain is up to 29 long, and each round marks one more.
fn thicket() -> (Vec<u8>, usize) {
    const COUNT: usize = 30;
    let letters = shortest_names(COUNT - 2);
    let row: Vec<&str> = ["admin"].into_iter().chain(letters.iter().map(String::as_str)).chain(["anyone"]).collect();
    let steps = (0..COUNT).rev().flat_map(|from| (0..=from + 1).rev().filter(|to| *to < COUNT).map(move |to| (from, to)));
    let (next, back): (Vec<_>, Vec<_>) = steps.partition(|(from, to)| from < to);
    let entry = |from: usize, right: &str, to: usize| format!("A\tx\t{}\t{right}\t{}\n", row[from], row[to]);
    let all = next.into_iter().chain(back).flat_map(|(from, to)| ["r", "w", "a", "d"].map(|right| entry(from, right, to)));
    let assertions: Vec<String> = all.take((8_192 - 12 * COUNT - 2) / 4).collect();
    (crowd(COUNT, &assertions.concat()).expect("a light state"), assertions.len())
}

/// What a sheet costs: of the session, of the venue, of as many principals as can be beside a variable, of the longest chain, and of many assertions.
fn sheets() -> Vec<SheetLine> {
    let (fresh, programs) = session();
    let mut lent = Buffers::new();
    lent.state.copy_from_slice(&fresh);
    calls::run(&mut lent.state, &mut lent.work, &mut lent.output, &programs[0]).expect("a right call");
    let (venue, last) = venue(50);
    let (chain, steps) = longest_chain();
    let (thicket, assertions) = thicket();
    let most = crowd(634, "").expect("a light state");
    vec![
        sheet_line("session of 01, after the first program", &lent.state, "queue", &["rosa", "anyone"]),
        sheet_line("venue of 300, chain of 50", &venue, "list", &[&last, "p299", "anyone"]),
        sheet_line("634 principals, the most", &most, "x", &["anyone", "jp"]),
        sheet_line(&format!("chain of {steps}, the longest"), &chain, "x", &["anyone", "z"]),
        sheet_line(&format!("{assertions} assertions, chain of 29"), &thicket, "x", &["anyone", "z", "B"]),
    ]
}

/// How foreach with a let stands to the plainest foreach.
fn relation_of_let(lines: &[Line]) -> String {
    let (plain, with) = (&lines[0], &lines[1]);
    let times = with.proved.as_secs_f64() / plain.proved.as_secs_f64();
    format!("A foreach with a let takes {times:.2} times one without.")
}

/// How the line of a function stands to that of the plain `set`, which is the first.
fn relation(name: &str, lines: &[Line], at: usize) -> String {
    let (plain, called) = (&lines[0], &lines[at]);
    let times = called.proved.as_secs_f64() / plain.proved.as_secs_f64();
    let ratios = called.ratio() / plain.ratio();
    format!("A set with {name} takes {times:.2} times a plain one; its ratio to the model is {ratios:.2} times that of the plain one.")
}

fn table(lines: &[Line], clear: Duration) -> String {
    let mut text = String::from("| work | server | model | ratio |\n|---|---|---|---|\n");
    for line in lines {
        writeln!(text, "| {} | {} |", line.name, line.times()).expect("a line");
    }
    writeln!(text, "| clearing three lent buffers and copying one | {clear:.1?} | | |").expect("a line");
    text
}

/// The ratios as bars, on a logarithmic scale from 1/16 to 16.
fn plot(lines: &[Line]) -> String {
    let (left, width, step) = (450.0, 420.0, 22.0);
    let height = step * (lines.len() as f64 + 2.0);
    let place = |ratio: f64| left + width * ((ratio.log2() + 4.0) / 8.0).clamp(0.0, 1.0);
    let mut text = format!(
        "<svg xmlns=\"http://www.w3.org/2000/svg\" width=\"920\" height=\"{height}\" font-family=\"sans-serif\" font-size=\"12\">\n\
         <rect width=\"100%\" height=\"100%\" fill=\"white\"/>\n"
    );
    for power in [-4, -2, 0, 2, 4] {
        let ratio = 2f64.powi(power);
        let (x, colour) = (place(ratio), if power == 0 { "#000" } else { "#ccc" });
        writeln!(text, "<line x1=\"{x}\" y1=\"20\" x2=\"{x}\" y2=\"{}\" stroke=\"{colour}\"/>", height - 10.0).expect("a line");
        writeln!(text, "<text x=\"{x}\" y=\"14\" text-anchor=\"middle\">{ratio}</text>").expect("a line");
    }
    for (at, line) in lines.iter().enumerate() {
        let y = 26.0 + step * at as f64;
        let (one, end) = (place(1.0), place(line.ratio()));
        let colour = if line.ratio() <= 1.0 { "#2a7" } else { "#c63" };
        writeln!(text, "<text x=\"{}\" y=\"{}\" text-anchor=\"end\">{}</text>", left - 10.0, y + 12.0, line.name).expect("a line");
        writeln!(text, "<rect x=\"{}\" y=\"{y}\" width=\"{}\" height=\"16\" fill=\"{colour}\"/>", one.min(end), (one - end).abs().max(1.0)).expect("a line");
        writeln!(text, "<text x=\"{}\" y=\"{}\">{:.2}</text>", one.max(end) + 5.0, y + 12.0, line.ratio()).expect("a line");
    }
    text + "</svg>\n"
}

fn main() {
    let clear = clearing();
    let mut lines = measured();
    let small = lines[0].proved.as_secs_f64() / clear.as_secs_f64();
    let (functions, prices) = (functions(), prices());
    let over_lists = over_lists();
    let relation = format!("{} {} {}", relation("concat", &functions, 1), relation("times", &prices, 3), relation_of_let(&over_lists));
    lines.extend(functions.into_iter().chain(prices).chain(over_lists));
    lines.push(barred());
    lines.extend(lets().into_iter().chain(comparisons()));
    lines.extend(bringing());
    let sheets = sheets();
    let relations: String = sheets.iter().map(|sheet| format!("- {}\n", sheet.relation())).collect();
    lines.extend(sheets.into_iter().map(|sheet| sheet.line));
    let text = format!(
        "{}\nThe session's first program takes {small:.1} times the time of clearing and copying. {relation}\n\n\
         A sheet as a multiple of a question on the same state, for the name that the question takes longest for:\n\n{relations}",
        table(&lines, clear)
    );
    print!("{text}");
    if let Some(folder) = env::args().nth(1) {
        page::write(&Path::new(&folder).join("performance.md"), "figures", &text);
        fs::write(Path::new(&folder).join("performance.svg"), plot(&lines)).expect("the plot is written");
    }
}
