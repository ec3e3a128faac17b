//! The four functions on prices by the proved server, beside the model: on all pairs of a grid of some thousand amounts, about four million calls, and on
//! all short strings that are made of the bytes of prices. Every printed byte is compared.
//!
//! Results are asked for many at a time, as elements that a program appends and returns. A call that is FAILED ends its program and so has one of its
//! own, `return times("..","..")`; every sixteenth of the others is sent like that as well.

use std::collections::{BTreeMap, BTreeSet};

use compare::random::Random;
use compare::seen::{setting, side_by_side, Seen, WORKERS};
use compare::server::{make, run, Answer};
use model::observe::prices::{outcome, FAILURES, ROUNDINGS};
use model::parse::LONGEST_PROGRAM;
use model::prices::Price;
use model::syntax::Operation;
use model::text::BUFFER;

const FUNCTIONS: [(&str, Operation); 4] = [
    ("add", Operation::Add),
    ("sub", Operation::Sub),
    ("times", Operation::Times),
    ("per", Operation::Per),
];

/// 9999999.99, in hundredths.
const MOST: i128 = 999_999_999;

/// How many amounts above zero the grid has.
const ABOVE: usize = 501;

/// Amounts with a neighbour on each side, which carry, borrow or come to a half: every small one, powers of ten, their halves and thirds, the limit.
fn plain() -> Vec<i128> {
    let powers = (2..=9).map(|power| 10_i128.pow(power));
    let near = |amount: i128| [-5, -2, -1, 0, 1, 2, 5].map(|step| amount + step);
    let parts = powers.flat_map(|power| [power, power / 2, power / 3, 2 * power / 3]);
    let divisors = [
        150, 175, 200, 225, 250, 300, 350, 400, 600, 700, 800, 900, 1_600, 2_000, 12_500,
    ];
    (1..=105)
        .chain(parts.flat_map(near))
        .chain(divisors)
        .chain(MOST - 9..=MOST)
        .collect()
}

/// Amounts whose product or quotient is just within the limit or just beyond it: the neighbours of its square root, pairs that make exactly what is a
/// half or less beyond it, and what a divisor below 1.00 brings there.
fn edges() -> Vec<i128> {
    const BEYOND: i128 = 100_000_000_000;
    let root = 316_224..=316_231;
    let divisors = [
        101, 110, 123, 125, 155, 201, 310, 333, 449, 601, 775, 999, 1_001, 1_550, 1_803, 2_993,
        9_999, 10_001, 10_597, 21_649, 64_947, 99_999,
    ];
    let products = divisors.into_iter().flat_map(|divisor| {
        [
            divisor,
            BEYOND / divisor - 1,
            BEYOND / divisor,
            BEYOND / divisor + 1,
        ]
    });
    let quotients = [1, 2, 3, 7, 10, 33, 49, 50, 51, 99]
        .into_iter()
        .flat_map(|divisor| {
            let dividend = 10_000_000 * divisor;
            [dividend - 1, dividend, dividend + 1]
        });
    root.chain(products).chain(quotients).collect()
}

/// The amounts above zero, those named and as many of all sizes that look random; then the same below zero, and zero.
fn grid() -> Vec<Price> {
    let mut random = Random(20_261_117);
    let mut above: BTreeSet<i128> = plain()
        .into_iter()
        .chain(edges())
        .filter(|amount| (1..=MOST).contains(amount))
        .collect();
    assert!(above.len() < ABOVE, "{} amounts are named", above.len());
    while above.len() < ABOVE {
        let digits = 1 + random.below(9) as u32;
        above.insert(1 + random.below(10_usize.pow(digits) - 1) as i128);
    }
    let signed = above.iter().flat_map(|amount| [*amount, -*amount]);
    signed
        .chain([0])
        .map(|amount| Price::of(amount).expect("within the limit"))
        .collect()
}

/// A server and its buffers. No program here leaves more than a count.
struct Desk {
    state: Vec<u8>,
    work: Vec<u8>,
    output: Vec<u8>,
}

impl Desk {
    fn new() -> Desk {
        let mut state = vec![0; BUFFER];
        assert_eq!(make(&mut state, b""), Answer::Ready);
        Desk {
            state,
            work: vec![0; BUFFER],
            output: vec![0; BUFFER],
        }
    }

    /// Sends a program of admin's, which must print just this.
    fn prints(&mut self, commands: &str, expected: &str) {
        let program = format!("as principal admin password\"\"do\n{commands}***");
        let answer = run(
            &mut self.state,
            &mut self.work,
            &mut self.output,
            program.as_bytes(),
        );
        let Answer::Ended(report) = answer else {
            panic!("{answer:?} for {program}")
        };
        let printed = &self.output[..report.bytes];
        assert!(
            printed == expected.as_bytes(),
            "{program} prints {}",
            String::from_utf8_lossy(printed)
        );
    }

    /// A program of one return.
    fn returns(&mut self, call: &str, expected: Option<&str>) {
        let line = match expected {
            Some(text) => format!("{{\"status\":\"RETURNING\",\"output\":\"{text}\"}}\n"),
            None => "{\"status\":\"FAILED\"}\n".to_string(),
        };
        self.prints(&format!("return {call}\n"), &line);
    }
}

/// Calls that wait to be sent together, and the elements that they give.
#[derive(Default)]
struct Batch {
    commands: String,
    elements: Vec<String>,
}

impl Batch {
    /// What a program has besides the commands, and a little more.
    const ROOM: usize = 100;

    fn add(&mut self, desk: &mut Desk, call: &str, result: &str) {
        self.commands += &format!("append to l with {call}\n");
        self.elements.push(format!("\"{result}\""));
        if self.commands.len() + 2 * Batch::ROOM > LONGEST_PROGRAM {
            self.send(desk);
        }
    }

    fn send(&mut self, desk: &mut Desk) {
        let appended = "{\"status\":\"APPEND\"}\n".repeat(self.elements.len());
        let returned = format!(
            "{{\"status\":\"RETURNING\",\"output\":[{}]}}\n",
            self.elements.join(",")
        );
        let commands = format!("local l=[]\n{}return l\n", self.commands);
        desk.prints(
            &commands,
            &format!("{{\"status\":\"LOCAL\"}}\n{appended}{returned}"),
        );
        *self = Batch::default();
    }
}

/// One side's half of the pairs, and what became of them.
struct Half {
    desk: Desk,
    batch: Batch,
    seen: BTreeMap<(usize, &'static str), u64>,
    given: u64,
}

impl Half {
    fn call(&mut self, function: usize, first: &str, second: &str) {
        let (word, operation) = FUNCTIONS[function];
        let call = format!("{word}(\"{first}\",\"{second}\")");
        for kind in outcome(operation, first.as_bytes(), second.as_bytes()) {
            *self.seen.entry((function, kind)).or_default() += 1;
        }
        let Some(price) = operation.of_texts(first.as_bytes(), second.as_bytes()) else {
            return self.desk.returns(&call, None);
        };
        let result = String::from_utf8(price.text()).expect("ASCII");
        if self.given.is_multiple_of(16) {
            self.desk.returns(&call, Some(&result));
        }
        self.given += 1;
        self.batch.add(&mut self.desk, &call, &result);
    }

    /// What came, by function and kind.
    fn told(self) -> Seen {
        self.seen
            .into_iter()
            .map(|((function, kind), times)| (format!("{}: {kind}", FUNCTIONS[function].0), times))
            .collect()
    }
}

/// All pairs whose first amount is this worker's.
fn pairs(grid: &[String], worker: u64) -> Seen {
    let mut half = Half {
        desk: Desk::new(),
        batch: Batch::default(),
        seen: BTreeMap::new(),
        given: 0,
    };
    for first in grid.iter().skip(worker as usize).step_by(WORKERS as usize) {
        for second in grid {
            (0..FUNCTIONS.len()).for_each(|function| half.call(function, first, second));
        }
    }
    half.batch.send(&mut half.desk);
    half.told()
}

/// What must come of each function. No quotient comes to the limit, or beyond it, by being rounded: only a divisor below 1.00 brings one there, and by
/// such a divisor quotients are more than a hundredth apart.
fn must_come(seen: &Seen) {
    let [above, below] = [FAILURES[4], FAILURES[5]];
    let sums = vec![ROUNDINGS[0], above, below];
    let products = ROUNDINGS
        .into_iter()
        .chain([above, below, FAILURES[6]])
        .collect();
    let quotients = ROUNDINGS[..6]
        .iter()
        .copied()
        .chain(FAILURES[2..6].iter().copied())
        .collect();
    for ((word, _), kinds) in FUNCTIONS
        .iter()
        .zip([sums.clone(), sums, products, quotients])
    {
        for kind in kinds {
            let times = seen.get(&format!("{word}: {kind}")).copied().unwrap_or(0);
            assert!(times > 0, "never came: {word}: {kind}");
        }
    }
}

#[test]
fn every_pair_of_a_grid() {
    let grid: Vec<String> = grid()
        .into_iter()
        .map(|price| String::from_utf8(price.text()).expect("ASCII"))
        .collect();
    println!(
        "{} amounts, {} pairs, four functions",
        grid.len(),
        grid.len() * grid.len()
    );
    assert!(grid.len() * grid.len() >= 1_000_000);
    let seen = side_by_side(|worker| pairs(&grid, worker));
    must_come(&seen);
}

/// All strings of so many bytes of an alphabet at most.
fn strings(alphabet: &str, longest: u64) -> Vec<String> {
    let mut all = vec![String::new()];
    let mut from = 0;
    for _ in 0..longest {
        let shorter = all[from..].to_vec();
        from = all.len();
        all.extend(
            shorter
                .iter()
                .flat_map(|text| alphabet.chars().map(move |byte| format!("{text}{byte}"))),
        );
    }
    all
}

#[test]
fn every_short_string() {
    let longest = setting("LONGEST", 5);
    let all = strings("-.019 ", longest);
    let mut desk = Desk::new();
    let mut prices = 0;
    for text in &all {
        let price = Price::read(text.as_bytes())
            .map(|price| String::from_utf8(price.text()).expect("ASCII"));
        prices += u64::from(price.is_some());
        desk.returns(&format!("add(\"{text}\",\"0.00\")"), price.as_deref());
        desk.returns(&format!("add(\"0.00\",\"{text}\")"), price.as_deref());
    }
    println!(
        "{} strings of up to {longest} bytes, {prices} of them prices",
        all.len()
    );
    assert!(prices > 100, "hardly a price");
}
