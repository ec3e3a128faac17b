//! The proved search against the model, on random assertions: sparse and dense, chains entered forwards, backwards and shuffled, with
//! other variables and rights among them, and with principals, counts and sizes at and past their bounds. The lengths and the rounds begun
//! are compared, and the rounds also with what everybody's lengths say of them. What came up is told from the assertions themselves, and
//! each kind must.
//!
//!     GRAPHS=1000000 SEED=7 cargo test --offline --release -p compare --test rights -- --nocapture

use compare::random::Random;
use compare::rights::{pack, shortest, shortest_into, Answer};
use compare::seen::{must_come, note, setting, side_by_side, Seen, WORKERS};
use compare::steps::{has_ring, lengths};
use model::rights::{Assertion, Outcome, ANYONE};

/// The most that the search takes.
const COUNTS: usize = 1024;
const ASSERTIONS: usize = 2048;

/// What is asked for.
const VARIABLE: u16 = 1;
const RIGHT: u16 = 2;

/// What must come: of answers and of assertions.
const EXPECTED: [&str; 29] = [
    "yes 0",
    "yes 1",
    "yes 2",
    "yes 3",
    "yes 4",
    "yes 5",
    "yes 6",
    "yes 7",
    "yes 8",
    "yes 9",
    "yes 10 to 99",
    "yes 100 or more",
    "no after 1 round",
    "no after 2 to 9 rounds",
    "no after 10 to 99 rounds",
    "no after 100 rounds or more",
    "principal outside",
    "refused",
    "yes in the middle of a round",
    "anyone reached in the first round",
    "by anyone's step alone",
    "by anyone's step, in a round in which no assertion is walked",
    "no assertion for the right",
    "assertions, and none from admin",
    "ring that admin does not reach",
    "step to oneself",
    "assertion from anyone",
    "assertion from anyone, who has the right",
    "assertion that names no principal",
];

fn step(from: u16, to: u16) -> Assertion {
    Assertion {
        variable: VARIABLE,
        from,
        right: RIGHT,
        to,
    }
}

/// Assertions among `count` principals; now and then one that names a principal past them.
fn assertions(random: &mut Random, count: usize, size: usize) -> Vec<Assertion> {
    let others = random.below(4) == 0;
    let outside = if random.below(4) == 0 { 3 } else { 0 };
    let named = (count + outside).clamp(1, 65_536);
    (0..size)
        .map(|_| Assertion {
            variable: if others {
                random.below(3) as u16
            } else {
                VARIABLE
            },
            from: random.below(named) as u16,
            right: if others {
                random.below(4) as u16
            } else {
                RIGHT
            },
            to: random.below(named) as u16,
        })
        .collect()
}

/// A chain through all principals but anyone, in one of three orders of entry; at times anyone comes in somewhere.
fn chain(random: &mut Random, count: usize) -> Vec<Assertion> {
    let mut way: Vec<u16> = (2..count as u16).collect();
    random.shuffle(&mut way);
    let mut from = 0;
    let mut steps = Vec::new();
    for to in way {
        steps.push(step(from, to));
        from = to;
    }
    if random.below(3) == 0 {
        steps.push(step(random.below(count) as u16, ANYONE));
    }
    match random.below(3) {
        0 => {}
        1 => steps.reverse(),
        _ => random.shuffle(&mut steps),
    }
    if random.below(4) == 0 && !steps.is_empty() {
        steps.remove(random.below(steps.len()));
    }
    steps
}

/// How many principals, and the assertions.
fn any(random: &mut Random) -> (usize, Vec<Assertion>) {
    match random.below(100) {
        // dense, and at the bounds
        0 => {
            let count = [2, 60, 1000, COUNTS, COUNTS + 1][random.below(5)];
            let size = [ASSERTIONS - 1, ASSERTIONS, ASSERTIONS + 1][random.below(3)];
            (count, assertions(random, count, size))
        }
        1 => {
            let count = 2 + random.below(COUNTS - 1);
            (count, chain(random, count))
        }
        2 => {
            let count = 2 + random.below(150);
            (count, chain(random, count))
        }
        3..=40 => {
            let count = 2 + random.below(20);
            (count, chain(random, count))
        }
        // sparse
        41..=75 => {
            let count = random.below(40);
            let size = random.below(count + 2);
            (count, assertions(random, count, size))
        }
        _ => {
            let count = random.below(30);
            let size = random.below(4 * count + 1);
            (count, assertions(random, count, size))
        }
    }
}

/// The assertions as both sides take them, those of them that count, and everybody's lengths by them.
struct Graph {
    count: usize,
    standing: Vec<Assertion>,
    packed: Vec<u64>,
    steps: Vec<Assertion>,
    lengths: Vec<Option<usize>>,
}

impl Graph {
    fn of(count: usize, standing: Vec<Assertion>) -> Graph {
        let mut steps = standing.clone();
        steps.retain(|step| (step.variable, step.right) == (VARIABLE, RIGHT));
        steps.retain(|step| usize::from(step.from.max(step.to)) < count);
        Graph {
            count,
            packed: standing.iter().map(pack).collect(),
            lengths: lengths(&steps, count),
            steps,
            standing,
        }
    }

    fn length(&self, principal: u16) -> Option<usize> {
        self.lengths.get(usize::from(principal)).copied().flatten()
    }

    fn is_refused(&self) -> bool {
        self.count > COUNTS || self.standing.len() > ASSERTIONS
    }

    /// What the search must tell: on a yes as many rounds as the length, on a no one more than the longest of everybody's lengths.
    fn related(&self, principal: usize) -> Outcome {
        let Some(&length) = self.lengths.get(principal) else {
            return Outcome {
                length: None,
                rounds: 0,
            };
        };
        let longest = self.lengths.iter().flatten().max().expect("admin's length");
        let rounds = length.unwrap_or(longest + 1);
        Outcome { length, rounds }
    }

    /// The first of the assertions: a seed gives the others again.
    fn shown(&self) -> String {
        let first = &self.standing[..self.standing.len().min(30)];
        format!("{} assertions, {first:?}", self.standing.len())
    }

    /// Asks both sides; the proved one is lent this number for the rounds.
    fn asked(&self, principal: usize, lent: u64) -> Answer {
        let (count, mut rounds) = (self.count, lent);
        let told = || format!("principal {principal} of {count}, {}", self.shown());
        let proved = shortest_into(&self.packed, count, VARIABLE, RIGHT, principal, &mut rounds);
        if self.is_refused() {
            assert_eq!((proved, rounds), (Answer::Refused, lent), "{}", told());
            return proved;
        }
        let model = model::rights::shortest(&self.standing, count, VARIABLE, RIGHT, principal);
        assert_eq!(proved, Answer::Found(model), "{}", told());
        assert_eq!(model, self.related(principal), "{}", told());
        proved
    }
}

/// What is worth seeing in an answer.
fn answer_observed(seen: &mut Seen, graph: &Graph, principal: usize, answer: Answer) {
    let Answer::Found(Outcome { length, rounds }) = answer else {
        return note(seen, "refused");
    };
    if principal >= graph.count {
        return note(seen, "principal outside");
    }
    match (length, rounds) {
        (Some(length @ 0..=9), _) => note(seen, &format!("yes {length}")),
        (Some(10..=99), _) => note(seen, "yes 10 to 99"),
        (Some(_), _) => note(seen, "yes 100 or more"),
        (None, 1) => note(seen, "no after 1 round"),
        (None, ..=9) => note(seen, "no after 2 to 9 rounds"),
        (None, 10..=99) => note(seen, "no after 10 to 99 rounds"),
        (None, _) => note(seen, "no after 100 rounds or more"),
    }
    match length {
        Some(length @ 1..) => way_observed(seen, graph, principal as u16, length),
        None if graph.steps.is_empty() => note(seen, "no assertion for the right"),
        None if rounds == 1 => note(seen, "assertions, and none from admin"),
        _ => {}
    }
}

/// What is worth seeing in how the search comes to a principal other than admin.
fn way_observed(seen: &mut Seen, graph: &Graph, principal: u16, length: usize) {
    let mut tell = |is_so: bool, what: &str| is_so.then(|| note(seen, what));
    let marked = graph.lengths.iter().filter(|other| **other == Some(length));
    tell(marked.count() > 1, "yes in the middle of a round");
    tell(
        principal == ANYONE && length == 1,
        "anyone reached in the first round",
    );
    // Who was marked in the round before, and the assertions from there.
    let before = Some(length - 1);
    let is_walked = |step: &&Assertion| graph.length(step.from) == before;
    let mut walked = graph.steps.iter().filter(is_walked).peekable();
    if graph.length(ANYONE) == before {
        let is_none = walked.peek().is_none();
        tell(
            is_none,
            "by anyone's step, in a round in which no assertion is walked",
        );
        tell(
            walked.all(|step| step.to != principal),
            "by anyone's step alone",
        );
    }
}

/// What is worth seeing in the assertions.
fn graph_observed(seen: &mut Seen, graph: &Graph) {
    let mut tell = |is_so: bool, what: &str| is_so.then(|| note(seen, what));
    let steps = &graph.steps;
    let has = |principal: u16| graph.length(principal).is_some();
    let mut idle = steps.clone();
    idle.retain(|step| !has(step.from) && !has(step.to));
    tell(has_ring(idle), "ring that admin does not reach");
    tell(
        steps.iter().any(|step| step.from == step.to),
        "step to oneself",
    );
    let is_from_anyone = steps.iter().any(|step| step.from == ANYONE);
    tell(is_from_anyone, "assertion from anyone");
    tell(
        is_from_anyone && has(ANYONE),
        "assertion from anyone, who has the right",
    );
    let is_outside = |step: &Assertion| usize::from(step.from.max(step.to)) >= graph.count;
    tell(
        graph.standing.iter().any(is_outside),
        "assertion that names no principal",
    );
}

fn graphs(seed: u64, graphs: u64) -> Seen {
    let (mut seen, mut random) = (Seen::new(), Random(seed));
    for _ in 0..graphs {
        let (count, standing) = any(&mut random);
        let graph = Graph::of(count, standing);
        graph_observed(&mut seen, &graph);
        let mut principals = vec![0, 1, count];
        principals.extend([random.below(count + 1), random.below(count + 1)]);
        if random.below(50) == 0 {
            principals.push(usize::MAX);
        }
        for principal in principals {
            let answer = graph.asked(principal, random.number());
            answer_observed(&mut seen, &graph, principal, answer);
        }
    }
    seen
}

/// Two runs side by side, and what they must have met together.
#[test]
fn as_the_model_on_random_assertions() {
    let (count, seed) = (setting("GRAPHS", 20_000), setting("SEED", 2024));
    println!("{count} graphs, seed {seed}");
    let seen = side_by_side(|worker| graphs(WORKERS * seed + worker, count / WORKERS));
    must_come(&seen, &EXPECTED);
}

fn yes(length: usize) -> Answer {
    Answer::Found(Outcome {
        length: Some(length),
        rounds: length,
    })
}

fn no(rounds: usize) -> Answer {
    Answer::Found(Outcome {
        length: None,
        rounds,
    })
}

#[test]
fn fields_do_not_run_into_each_other() {
    let top = Assertion {
        variable: 65_535,
        from: 0,
        right: 65_535,
        to: 1023,
    };
    let packed = [pack(&top)];
    assert_eq!(shortest(&packed, 1024, 65_535, 65_535, 1023), yes(1));
    assert_eq!(shortest(&packed, 1024, 65_535, 65_534, 1023), no(1));
    assert_eq!(shortest(&packed, 1024, 65_534, 65_535, 1023), no(1));
    assert_eq!(shortest(&packed, 1024, 65_535, 65_535, 1022), no(2));
    assert_eq!(shortest(&packed, 1023, 65_535, 65_535, 1023), no(0));
}

/// All principals but one are on it: the most rounds that there can be.
#[test]
fn the_longest_chains() {
    let last = COUNTS as u16 - 1;
    let mut line: Vec<Assertion> = (2..last).map(|from| step(from, from + 1)).collect();
    line.push(step(0, 2));
    for _ in 0..2 {
        let past_anyone = Graph::of(COUNTS, line.clone());
        assert_eq!(past_anyone.asked(COUNTS - 1, 7), yes(COUNTS - 2));
        assert_eq!(past_anyone.asked(1, 7), no(COUNTS - 1));
        // Anyone in the place of the last, who then is one step further.
        let mut through = line.clone();
        let end = through.iter_mut().find(|step| step.to == last);
        end.expect("the last step").to = ANYONE;
        let through = Graph::of(COUNTS, through);
        assert_eq!(through.asked(1, 7), yes(COUNTS - 2));
        assert_eq!(through.asked(COUNTS - 1, 7), yes(COUNTS - 1));
        line.reverse();
    }
}

/// Around the sizes at which a search gets the larger of its two boards: 3 numbers for a principal, and 1 for an assertion.
#[test]
fn boards_of_both_sizes() {
    let mut random = Random(7);
    for (count, size) in [(62, 66), (63, 66), (64, 60), (80, 12), (84, 0), (85, 0)] {
        for size in size..size + 8 {
            let graph = Graph::of(count, assertions(&mut random, count, size));
            for principal in 0..=count {
                graph.asked(principal, 7);
            }
        }
    }
}

#[test]
fn a_refusal_leaves_the_number_that_was_lent() {
    let full = vec![step(0, 1); ASSERTIONS + 1];
    for lent in [0, 1, 4096, u64::MAX] {
        assert_eq!(
            Graph::of(COUNTS + 1, vec![]).asked(0, lent),
            Answer::Refused
        );
        assert_eq!(Graph::of(2, full.clone()).asked(1, lent), Answer::Refused);
    }
}
