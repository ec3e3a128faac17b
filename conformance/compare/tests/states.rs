//! The proved check of a state and its look-ups against the model, on random states of many shapes, whole and damaged: well formed or
//! not, every figure, every assertion, principals and variables by name and by number.

use compare::damage::Damage;
use compare::former::Form;
use compare::plans::{name, Plan, Shape};
use compare::random::Random;
use compare::states::{self, figures, value_text, Answer, FIGURES, ROOM};
use model::observe::older::is_older;
use model::state::State;
use model::text::{decode, BUFFER};
use model::value::{Item, Value};
use std::collections::BTreeMap;
use std::fmt::Debug;

const STATES: usize = 120_000;

/// What a byte of the room is before a call.
const DIRT: u8 = 0xa5;

struct Comparison {
    random: Random,
    figures: Vec<u64>,
    room: Vec<u8>,
    looked_up: BTreeMap<&'static str, usize>,
}

impl Comparison {
    fn new(seed: u64) -> Comparison {
        Comparison { random: Random(seed), figures: vec![7; FIGURES], room: vec![DIRT; ROOM], looked_up: BTreeMap::new() }
    }

    /// Whether the buffer is well formed; both must say so, and the same of all else.
    fn compare(&mut self, buffer: &[u8]) -> bool {
        let model = decode(buffer).map(|(state, _)| state);
        let expected = match &model {
            Some(state) => Answer::Found(0, figures(state)),
            None => Answer::Bad,
        };
        let proved = states::check(buffer, &mut self.figures);
        same(&owned(proved), &expected, buffer);
        let Some(state) = model else {
            let answer = owned(states::principal(buffer, b"admin", &mut self.room));
            same(&answer, &Answer::Bad, buffer);
            same(&states::principal_count(buffer, b"admin"), &Answer::Bad, buffer);
            return false;
        };
        self.older_names(&state);
        let few = state.principals.count() + usize::from(state.variables.count()) < 20;
        if few && self.random.below(30) == 0 {
            self.look_up_all(buffer, &state);
        } else {
            self.look_up_some(buffer, &state);
        }
        true
    }

    /// Names and labels that became keywords later, which a state may hold.
    fn older_names(&mut self, state: &State) {
        let has_label = |item: &Item| matches!(item, Item::Record(record) if record.fields().iter().any(|field| is_older(field.label)));
        let has_labels = |value: &Value| match value {
            Value::Item(item) => has_label(item),
            Value::List(list) => list.items().iter().any(has_label),
        };
        for (is_so, kind) in [
            (state.principals.iter().any(|one| is_older(one.name)), "older principal"),
            (state.variables.iter().any(|one| is_older(one.name)), "older variable"),
            (state.variables.iter().any(|one| has_labels(&one.value)), "older label"),
        ] {
            if is_so {
                *self.looked_up.entry(kind).or_default() += 1;
            }
        }
    }

    fn look_up_some(&mut self, buffer: &[u8], state: &State) {
        let (people, variables) = (state.principals.count(), usize::from(state.variables.count()));
        let principal = state.principals.get(self.random.below(people) as u16).name.to_vec();
        self.principal(buffer, state, &principal);
        if variables > 0 {
            let variable = state.variables.get(self.random.below(variables) as u16).name.to_vec();
            self.variable(buffer, state, &variable);
        }
        let other = self.other_name(&principal);
        match self.random.below(2) {
            0 => self.principal(buffer, state, &other),
            _ => self.variable(buffer, state, &other),
        }
        match self.random.below(2) {
            0 => self.principal_name(buffer, state, self.random.0 as usize % (people + 2)),
            _ => self.variable_name(buffer, state, self.random.0 as usize % (variables + 2)),
        }
    }

    fn look_up_all(&mut self, buffer: &[u8], state: &State) {
        let people: Vec<Vec<u8>> = state.principals.iter().map(|p| p.name.to_vec()).collect();
        let variables: Vec<Vec<u8>> = state.variables.iter().map(|v| v.name.to_vec()).collect();
        for name in people.iter().chain(&variables) {
            self.principal(buffer, state, name);
            self.variable(buffer, state, name);
        }
        for number in (0..people.len() + 2).chain([4_096, usize::MAX]) {
            self.principal_name(buffer, state, number);
        }
        for number in (0..variables.len() + 2).chain([4_096, usize::MAX]) {
            self.variable_name(buffer, state, number);
        }
    }

    /// A name that may not be there: another, an empty one, one with a byte more or less, or with bytes that no name has.
    fn other_name(&mut self, like: &[u8]) -> Vec<u8> {
        let mut other = like.to_vec();
        match self.random.below(6) {
            0 => other.clear(),
            1 => other.push(b'_'),
            2 => other.truncate(like.len() - 1),
            3 => other.extend_from_slice(b"\t"),
            4 => other = vec![b'n'; 300],
            _ => other = name(&mut self.random),
        }
        other
    }

    fn principal(&mut self, buffer: &[u8], state: &State, name: &[u8]) {
        let expected = match state.principals.find(name) {
            None => Answer::Missing,
            Some(number) => match state.principals.get(number).password {
                None => Answer::Unkept(usize::from(number)),
                Some(password) => Answer::Found(usize::from(number), password.to_vec()),
            },
        };
        let proved = owned(states::principal(buffer, name, &mut self.room));
        self.settle("principal by name", proved, expected, buffer);
        self.principal_count(buffer, state, name);
    }

    fn principal_count(&mut self, buffer: &[u8], state: &State, name: &[u8]) {
        let expected = match state.principals.find(name) {
            None => Answer::Missing,
            Some(number) => Answer::Found(0, state.principals.get(number).completed),
        };
        same(&states::principal_count(buffer, name), &expected, buffer);
        let kind = match expected {
            Answer::Missing => "no count: no such principal",
            Answer::Found(_, 1_000_000_000..) => "count of ten digits",
            Answer::Found(_, 0) => "count of 0",
            _ => "another count",
        };
        *self.looked_up.entry(kind).or_default() += 1;
    }

    fn variable(&mut self, buffer: &[u8], state: &State, name: &[u8]) {
        let expected = match state.variables.find(name) {
            None => Answer::Missing,
            Some(number) => Answer::Found(usize::from(number), value_text(&state.variables.get(number).value)),
        };
        let proved = owned(states::variable(buffer, name, &mut self.room));
        self.settle("variable by name", proved, expected, buffer);
    }

    fn principal_name(&mut self, buffer: &[u8], state: &State, number: usize) {
        let expected = match state.principals.iter().nth(number) {
            None => Answer::Missing,
            Some(principal) => Answer::Found(number, principal.name.to_vec()),
        };
        let proved = owned(states::principal_name(buffer, number, &mut self.room));
        self.settle("principal by number", proved, expected, buffer);
    }

    fn variable_name(&mut self, buffer: &[u8], state: &State, number: usize) {
        let expected = match state.variables.iter().nth(number) {
            None => Answer::Missing,
            Some(variable) => Answer::Found(number, variable.name.to_vec()),
        };
        let proved = owned(states::variable_name(buffer, number, &mut self.room));
        self.settle("variable by number", proved, expected, buffer);
    }

    /// The same answer, and nothing else written.
    fn settle(&mut self, kind: &'static str, proved: Answer<Vec<u8>>, expected: Answer<Vec<u8>>, buffer: &[u8]) {
        same(&proved, &expected, buffer);
        let written = match &proved {
            Answer::Found(_, text) => text.len(),
            _ => 0,
        };
        self.room[..written].fill(DIRT);
        if self.random.below(20) == 0 {
            assert!(self.room.iter().all(|byte| *byte == DIRT), "{kind}: more written than said");
        }
        *self.looked_up.entry(kind).or_default() += 1;
        let end = match proved {
            Answer::Missing => "missing",
            Answer::Unkept(_) => "no password kept",
            _ => "found",
        };
        *self.looked_up.entry(end).or_default() += 1;
    }
}

fn owned<T: Clone>(answer: Answer<&[T]>) -> Answer<Vec<T>> {
    match answer {
        Answer::Refused => Answer::Refused,
        Answer::Bad => Answer::Bad,
        Answer::Missing => Answer::Missing,
        Answer::Unkept(number) => Answer::Unkept(number),
        Answer::Found(number, part) => Answer::Found(number, part.to_vec()),
    }
}

fn same<T: PartialEq + Debug>(proved: &T, model: &T, buffer: &[u8]) {
    if proved != model {
        let end = buffer.iter().rposition(|byte| *byte != 0).map_or(0, |at| at + 1);
        panic!("proved {proved:?}, model {model:?} on {:?}", String::from_utf8_lossy(&buffer[..end]));
    }
}

#[derive(Default)]
struct Seen {
    good: usize,
    bad: usize,
    shapes: BTreeMap<Shape, usize>,
    damages: BTreeMap<Damage, (usize, usize)>,
    looked_up: BTreeMap<&'static str, usize>,
}

/// So many states, every second damaged.
fn states(seed: u64, count: usize) -> Seen {
    let mut seen = Seen::default();
    let mut comparison = Comparison::new(seed ^ 1);
    let mut random = Random(seed);
    let mut buffer = vec![0; BUFFER];
    let mut scratch = vec![0; BUFFER];
    for at in 0..count {
        let shape = Shape::any(&mut random, Form::Counted);
        let mut text = Plan::of(&mut random, shape, Form::Counted).text(&mut scratch);
        let mut done = None;
        while at % 2 == 1 && done.is_none() {
            let damage = Damage::ALL[random.below(Damage::ALL.len())];
            if let Some(damaged) = damage.done(&mut random, &text, Form::Counted) {
                text = damaged;
                done = Some(damage);
            }
        }
        buffer[..text.len()].copy_from_slice(&text);
        let good = comparison.compare(&buffer);
        buffer[..text.len()].fill(0);
        match done {
            None => {
                assert!(good, "{shape:?}: not well formed");
                *seen.shapes.entry(shape).or_default() += 1;
            }
            Some(damage) => {
                assert!(!good || !damage.always_bad(), "{damage:?}: well formed");
                let (whole, broken) = seen.damages.entry(damage).or_default();
                *if good { whole } else { broken } += 1;
            }
        }
        *if good { &mut seen.good } else { &mut seen.bad } += 1;
    }
    seen.looked_up = comparison.looked_up;
    seen
}

/// What look-ups must have met.
const KINDS: [&str; 14] = [
    "principal by name", "variable by name", "principal by number", "variable by number", "found", "missing", "no password kept", "count of 0",
    "count of ten digits", "another count", "no count: no such principal", "older principal", "older variable", "older label",
];

/// Two runs side by side, and what each of them must have met.
#[test]
fn random_states() {
    let seed = 20_261_206;
    println!("seed {seed}");
    let runs = std::thread::scope(|scope| {
        let runs = [seed, seed + 1].map(|seed| scope.spawn(move || states(seed, STATES / 2)));
        runs.map(|run| run.join().expect("the same answers"))
    });
    for seen in runs {
        println!("{} states: {} well formed, {} not", STATES / 2, seen.good, seen.bad);
        println!("whole: {:?}", seen.shapes);
        println!("damaged (well formed all the same, not well formed): {:?}", seen.damages);
        println!("look-ups: {:?}", seen.looked_up);
        assert!(seen.good > STATES / 10 && seen.bad > STATES / 10);
        for shape in Shape::ALL {
            assert!(seen.shapes.contains_key(&shape), "never came: {shape:?}");
        }
        for damage in Damage::ALL {
            let (_, broken) = seen.damages.get(&damage).copied().unwrap_or_default();
            assert!(broken > 0, "never came, or never broke a state: {damage:?}");
        }
        for kind in KINDS {
            assert!(seen.looked_up.contains_key(kind), "never came: {kind}");
        }
    }
}

/// Every weight around the limit, by one string.
#[test]
fn around_the_limit() {
    let mut comparison = Comparison::new(1);
    for length in 8_130..8_200 {
        let mut text = b"O\nP\tadmin\tdesk\t0\nN\tanyone\t0\nD\tanyone\nV\tx\tS\t".to_vec();
        text.resize(text.len() + length, b's');
        text.push(b'\n');
        text.resize(BUFFER, 0);
        assert_eq!(comparison.compare(&text), length <= 8_162);
    }
}

/// Every width that a count has, at the limit of the weight: it weighs the same whatever it is.
#[test]
fn counts_of_every_width() {
    let mut comparison = Comparison::new(2);
    for digits in 0..11 {
        for count in [10u64.pow(digits), 10u64.pow(digits) - 1, u64::from(u32::MAX) + u64::from(digits)] {
            let text = format!("O\nP\tadmin\tdesk\t{count}\nN\tanyone\t{count}\nD\tanyone\nV\tx\tS\t{}\n", "s".repeat(8_162));
            let mut text = text.into_bytes();
            text.resize(BUFFER, 0);
            assert_eq!(comparison.compare(&text), count <= u64::from(u32::MAX), "{count}");
        }
    }
}

#[test]
fn wrong_sizes() {
    let mut fresh = b"O\nP\tadmin\tdesk\t0\nN\tanyone\t7\nD\tanyone\n".to_vec();
    fresh.resize(BUFFER + 1, 0);
    let mut figures = vec![7; FIGURES];
    let mut room = vec![DIRT; ROOM];
    for size in [0, 1, 37, BUFFER - 1, BUFFER + 1] {
        let state = &fresh[..size];
        assert_eq!(states::check(state, &mut figures), Answer::Refused);
        assert_eq!(states::principal(state, b"admin", &mut room), Answer::Refused);
        assert_eq!(states::variable(state, b"admin", &mut room), Answer::Refused);
        assert_eq!(states::principal_name(state, 0, &mut room), Answer::Refused);
        assert_eq!(states::variable_name(state, 0, &mut room), Answer::Refused);
        assert_eq!(states::principal_count(state, b"admin"), Answer::Refused);
    }
    let state = &fresh[..BUFFER];
    assert_eq!(states::check(state, &mut figures[1..]), Answer::Refused);
    assert_eq!(states::principal(state, b"admin", &mut room[1..]), Answer::Refused);
    assert_eq!(states::variable(state, b"admin", &mut room[1..]), Answer::Refused);
    assert_eq!(states::principal_name(state, 0, &mut room[1..]), Answer::Refused);
    assert_eq!(states::variable_name(state, 0, &mut room[1..]), Answer::Refused);
    assert!(figures.iter().all(|number| *number == 7) && room.iter().all(|byte| *byte == DIRT));
    assert_eq!(states::principal(state, b"admin", &mut room), Answer::Found(0, &b"desk"[..]));
    assert_eq!(states::principal_count(state, b"anyone"), Answer::Found(0, 7));
    assert_eq!(states::principal_count(state, b"rosa"), Answer::Missing);
}
