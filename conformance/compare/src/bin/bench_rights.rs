//! Times of the proved search as ratios to the model's, in one run: `cargo run --release --bin bench_rights`.
//! Both get the same assertions in memory, the proved search packed and the model as records; nothing is converted while the clock runs.
//! With a folder as its argument, `cargo run --release --bin bench_rights ../docs`, it also puts the table into performance.md, between
//! the two lines that say where.

use compare::page;
use compare::random::Random;
use compare::rights::{pack, shortest, Answer};
use compare::timing::{time, Line};
use model::rights::{Assertion, Outcome, ANYONE};
use std::env;
use std::fmt::Write;
use std::hint::black_box;
use std::path::Path;

const VARIABLE: u16 = 7;
const RIGHT: u16 = 2;

/// The most assertions that the search takes.
const ASSERTIONS: usize = 2048;

struct Question {
    name: String,
    standing: Vec<Assertion>,
    count: usize,
    principal: usize,
}

fn step(from: usize, to: usize) -> Assertion {
    Assertion {
        variable: VARIABLE,
        from: from as u16,
        right: RIGHT,
        to: to as u16,
    }
}

/// The principal so many steps from admin on a chain that leaves anyone out.
fn on_chain(place: usize) -> usize {
    if place == 0 {
        0
    } else {
        place + 1
    }
}

/// Admin to 2, 2 to 3, and so on: the last is `depth` steps away.
fn chain(depth: usize) -> Vec<Assertion> {
    (0..depth)
        .map(|place| step(on_chain(place), on_chain(place + 1)))
        .collect()
}

/// Chains in three orders of entry, asked for their last name.
fn chains(random: &mut Random) -> Vec<Question> {
    let mut all = Vec::new();
    for depth in [1, 10, 100, 1000] {
        let forwards = chain(depth);
        let (mut backwards, mut shuffled) = (forwards.clone(), forwards.clone());
        backwards.reverse();
        random.shuffle(&mut shuffled);
        for (order, standing) in [
            ("forwards", forwards),
            ("backwards", backwards),
            ("shuffled", shuffled),
        ] {
            all.push(Question {
                name: format!("chain of {depth}, entered {order}"),
                standing,
                count: depth + 2,
                principal: on_chain(depth),
            });
        }
    }
    all
}

/// As many assertions as can be among so many principals, none of them to the last.
fn dense(random: &mut Random, count: usize) -> [Question; 2] {
    let standing: Vec<Assertion> = (0..ASSERTIONS)
        .map(|_| step(random.below(count - 1), 2 + random.below(count - 3)))
        .collect();
    let asked = |answer: &str, principal: usize| Question {
        name: format!("{ASSERTIONS} assertions, {count} principals, {answer}"),
        standing: standing.clone(),
        count,
        principal,
    };
    [
        asked("yes", 2 + random.below(count - 3)),
        asked("no", count - 1),
    ]
}

fn mixed(random: &mut Random) -> Question {
    let standing = (0..ASSERTIONS)
        .map(|i| Assertion {
            variable: random.below(100) as u16,
            right: random.below(4) as u16,
            ..step(
                random.below(50),
                if i % 7 == 0 { 1 } else { random.below(50) },
            )
        })
        .collect();
    Question {
        name: format!("{ASSERTIONS} assertions on 100 variables"),
        standing,
        count: 50,
        principal: 49,
    }
}

/// A chain through all principals but anyone, who is asked for, and as many assertions as fit that lead back on it, one name back, then
/// two, and so on. Those from the far end are entered first, so that each round marks one name and walks all that were entered.
fn worst(count: usize) -> Question {
    let depth = count - 2;
    let back = (1..=depth).flat_map(|by| {
        (by..=depth)
            .rev()
            .map(move |place| step(on_chain(place), on_chain(place - by)))
    });
    let mut standing = chain(depth);
    standing.extend(back.take(ASSERTIONS - depth));
    standing.sort_by_key(|step| std::cmp::Reverse(step.from));
    Question {
        name: format!("{ASSERTIONS} assertions, {count} principals, a chain and ways back, no"),
        standing,
        count,
        principal: usize::from(ANYONE),
    }
}

fn questions() -> Vec<Question> {
    let mut all = chains(&mut Random(2));
    let mut random = Random(1);
    for count in [50, 200, 1000] {
        all.extend(dense(&mut random, count));
    }
    all.push(mixed(&mut random));
    all.push(worst(682));
    all
}

/// Both searches find the same; how long each takes.
fn measured(question: &Question) -> (Outcome, Line) {
    let Question {
        name,
        standing,
        count,
        principal,
    } = question;
    let packed: Vec<u64> = standing.iter().map(pack).collect();
    let ours = |packed: &[u64]| shortest(packed, *count, VARIABLE, RIGHT, *principal);
    let theirs = |standing: &[Assertion]| {
        model::rights::shortest(standing, *count, VARIABLE, RIGHT, *principal)
    };
    let found = theirs(standing);
    assert_eq!(ours(&packed), Answer::Found(found), "{name}");
    let proved = time(|| match ours(black_box(&packed)) {
        Answer::Found(found) => found.rounds,
        Answer::Refused => 0,
    });
    let model = time(|| theirs(black_box(standing)).rounds);
    let name = name.clone();
    (
        found,
        Line {
            name,
            proved,
            model,
        },
    )
}

fn main() {
    let mut text = String::from(
        "| search | answer | rounds begun | proved | model | ratio |\n|---|---|---|---|---|---|\n",
    );
    for question in questions() {
        let (found, line) = measured(&question);
        let answer = found
            .length
            .map_or("no".to_string(), |length| format!("yes, {length} long"));
        writeln!(
            text,
            "| {} | {answer} | {} | {} |",
            line.name,
            found.rounds,
            line.times()
        )
        .expect("a line");
    }
    print!("{text}");
    if let Some(folder) = env::args().nth(1) {
        let path = Path::new(&folder).join("performance.md");
        page::write(&path, "search figures", &text);
    }
}
