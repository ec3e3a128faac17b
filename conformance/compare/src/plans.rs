//! States that look random, of many shapes: planned with their own bytes, and then built and written by the model.

use crate::former::{self, Form};
use crate::random::Random;
use model::names::{keyword, may_be_kept};
use model::rights::Assertion;
use model::state::{Principals, State, COUNT_WEIGHT, HEAVIEST};
use model::text::encode;
use model::value::{Field, Item, List, Record, Value};
use std::rc::Rc;

type Bytes = Vec<u8>;

#[derive(Clone)]
enum Part {
    Text(Bytes),
    Fields(Vec<(Bytes, Bytes)>),
}

#[derive(Clone)]
enum Content {
    One(Part),
    Many(Vec<Part>),
}

/// A name, a password or none, and the programs completed.
type Person = (Bytes, Option<Bytes>, u32);

#[derive(Clone)]
pub struct Plan {
    form: Form,
    open: bool,
    /// The one count of the former lines.
    completed: u32,
    principals: Vec<Person>,
    delegator: u16,
    variables: Vec<(Bytes, Content)>,
    assertions: Vec<Assertion>,
}

/// What a plan is about.
#[derive(Clone, Copy, PartialEq, Eq, PartialOrd, Ord, Debug)]
pub enum Shape {
    Fresh,
    Small,
    ManyPrincipals,
    ManyVariables,
    ManyElements,
    ManyFields,
    ManyAssertions,
    LongString,
    LongNames,
    /// At the limit of the weight, or one or two below.
    Full,
    /// For a former state: brought over, it weighs as much as it may, or one or two more or less.
    FullWhenBrought,
}

impl Shape {
    pub const ALL: [Shape; 10] = [
        Shape::Fresh,
        Shape::Small,
        Shape::ManyPrincipals,
        Shape::ManyVariables,
        Shape::ManyElements,
        Shape::ManyFields,
        Shape::ManyAssertions,
        Shape::LongString,
        Shape::LongNames,
        Shape::Full,
    ];

    /// Most are small, because the others take long.
    pub fn any(random: &mut Random, form: Form) -> Shape {
        match random.below(200) {
            at @ 0..=8 => Shape::ALL[at + 1],
            9..=12 => Shape::Fresh,
            13..=20 => Shape::LongNames,
            21..=40 => Shape::Full,
            41..=80 if form == Form::Former => Shape::FullWhenBrought,
            _ => Shape::Small,
        }
    }
}

const LETTERS: &[u8] = b"abcdefghijklmnopqrstuvwxyzABCDEFGHIJKLMNOPQRSTUVWXYZ";
const WORD: &[u8] = b"abcdefghijklmnopqrstuvwxyzABCDEFGHIJKLMNOPQRSTUVWXYZ0123456789_";
const STRING: &[u8] = b"abcdefghijklmnopqrstuvwxyzABCDEFGHIJKLMNOPQRSTUVWXYZ0123456789_ ,;.?!-";

/// Names that are easy to mistake for others: keywords with more or less of them, some with the same hash, and those that became keywords later.
const NAMES: [&str; 30] = [
    "rosa", "queue", "x", "y", "admi", "admins", "anyon", "anyones", "a9_", "Set", "sets", "al", "alls", "Aa", "BB", "AaAa",
    "AaBB", "BBAa", "BBBB", "wit", "splits", "tolowe", "add", "sub", "times", "per", "adds", "Sub", "time", "pe",
];

fn run(random: &mut Random, bytes: &[u8], length: usize) -> Bytes {
    (0..length).map(|_| bytes[random.below(bytes.len())]).collect()
}

pub fn name(random: &mut Random) -> Bytes {
    match random.below(40) {
        0..=25 => NAMES[random.below(NAMES.len())].as_bytes().to_vec(),
        26 => vec![b'k'; 254 + random.below(2)],
        _ => {
            let more = random.below(12);
            let mut name = run(random, LETTERS, 1);
            name.extend(run(random, WORD, more));
            if !may_be_kept(&name) {
                name.push(b'_');
            }
            name
        }
    }
}

fn string(random: &mut Random) -> Bytes {
    let length = match random.below(30) {
        0..=6 => 0,
        7..=28 => random.below(20),
        _ => random.below(700),
    };
    run(random, STRING, length)
}

/// The n-th of many short names: two bytes as far as they go, none of them a keyword.
pub fn short_name(n: usize) -> Bytes {
    let (first, second) = (LETTERS[n % 52], WORD[n / 52 % 63]);
    let mut name = vec![first, second];
    if n >= 52 * 63 || keyword(&name).is_some() {
        name.push(WORD[n / 52 / 63]);
    }
    name
}

fn fields(random: &mut Random, count: usize) -> Vec<(Bytes, Bytes)> {
    let mut all: Vec<(Bytes, Bytes)> = Vec::new();
    for _ in 0..count {
        let label = name(random);
        if all.iter().all(|field| field.0 != label) {
            all.push((label, string(random)));
        }
    }
    all
}

fn part(random: &mut Random) -> Part {
    match random.below(3) {
        0 => {
            let count = 1 + random.below(4);
            Part::Fields(fields(random, count))
        }
        _ => Part::Text(string(random)),
    }
}

fn content(random: &mut Random) -> Content {
    match random.below(5) {
        0..=2 => Content::One(part(random)),
        _ => {
            let count = random.below(6);
            Content::Many((0..count).map(|_| part(random)).collect())
        }
    }
}

fn assertions(random: &mut Random, plan: &Plan, count: usize) -> Vec<Assertion> {
    if plan.variables.is_empty() {
        return Vec::new();
    }
    (0..count)
        .map(|_| Assertion {
            variable: random.below(plan.variables.len()) as u16,
            from: random.below(plan.principals.len()) as u16,
            right: random.below(4) as u16,
            to: random.below(plan.principals.len()) as u16,
        })
        .collect()
}

impl Plan {
    fn fresh(random: &mut Random, form: Form) -> Plan {
        let admin = (b"admin".to_vec(), Some(string(random)), former::count(random));
        let anyone = (b"anyone".to_vec(), (random.below(4) == 0).then(|| string(random)), former::count(random));
        Plan {
            form,
            open: random.below(3) > 0,
            completed: former::count(random),
            principals: vec![admin, anyone],
            delegator: 1,
            variables: Vec::new(),
            assertions: Vec::new(),
        }
    }

    fn small(random: &mut Random, form: Form) -> Plan {
        let mut plan = Plan::fresh(random, form);
        for _ in 0..random.below(5) {
            let (name, password) = (name(random), string(random));
            plan.add_principal(name, password, former::count(random));
        }
        for _ in 0..random.below(6) {
            let (name, content) = (name(random), content(random));
            plan.add_variable(name, content);
        }
        plan.delegator = random.below(plan.principals.len()) as u16;
        let count = random.below(10);
        plan.assertions = assertions(random, &plan, count);
        plan
    }

    fn add_principal(&mut self, name: Bytes, password: Bytes, completed: u32) {
        if self.principals.iter().all(|other| other.0 != name) {
            self.principals.push((name, Some(password), completed));
        }
    }

    fn add_variable(&mut self, name: Bytes, content: Content) {
        if self.variables.iter().all(|other| other.0 != name) {
            self.variables.push((name, content));
        }
    }

    /// A state of a shape, within the limit of the weight of its form.
    pub fn of(random: &mut Random, shape: Shape, form: Form) -> Plan {
        let mut plan = match shape {
            Shape::Fresh => Plan::fresh(random, form),
            _ => Plan::small(random, form),
        };
        plan.take_shape(random, shape);
        plan.lighten();
        plan
    }

    fn take_shape(&mut self, random: &mut Random, shape: Shape) {
        match shape {
            Shape::Fresh | Shape::Small => {}
            Shape::ManyPrincipals => self.many_principals(random, 2_400),
            Shape::ManyVariables => {
                let count = random.below(2_400);
                self.variables = (0..count).map(|n| (short_name(n), Content::One(Part::Text(Vec::new())))).collect();
                self.assertions = assertions(random, self, 40);
            }
            Shape::ManyElements => {
                let count = random.below(7_000);
                let some = random.below(50) == 0;
                let element = if some { Part::Fields(vec![(b"l".to_vec(), Vec::new())]) } else { Part::Text(Vec::new()) };
                self.add_variable(b"elements".to_vec(), Content::Many(vec![element; count]));
            }
            Shape::ManyFields => {
                let count = 1 + random.below(1_500);
                let all = (0..count).map(|n| (short_name(n), Vec::new())).collect();
                self.add_variable(b"labels".to_vec(), Content::One(Part::Fields(all)));
            }
            Shape::ManyAssertions => self.many_assertions(random),
            Shape::LongString => {
                let length = random.below(7_500);
                let text = run(random, STRING, length);
                self.add_variable(b"long".to_vec(), Content::One(Part::Text(text)));
            }
            Shape::LongNames => self.long_names(random),
            Shape::Full => {
                self.lighten();
                let below = random.below(3);
                self.fill(HEAVIEST - below);
            }
            Shape::FullWhenBrought => self.full_when_brought(random),
        }
    }

    fn many_principals(&mut self, random: &mut Random, most: usize) {
        self.principals.truncate(2);
        let count = random.below(most);
        self.principals.extend((0..count).map(|n| (short_name(n), Some(Vec::new()), former::count(random))));
        self.delegator = random.below(self.principals.len()) as u16;
        let count = random.below(40);
        self.assertions = assertions(random, self, count);
    }

    fn many_assertions(&mut self, random: &mut Random) {
        let few = 1 + random.below(LETTERS.len());
        self.principals.truncate(2);
        self.principals.extend(LETTERS[..few].iter().map(|letter| (vec![*letter], Some(Vec::new()), former::count(random))));
        self.delegator = random.below(self.principals.len()) as u16;
        self.variables = LETTERS[..few].iter().map(|letter| (vec![*letter], Content::Many(Vec::new()))).collect();
        let count = random.below(2_000);
        self.assertions = assertions(random, self, count);
    }

    fn long_names(&mut self, random: &mut Random) {
        for at in 0..random.below(8) {
            let mut long = run(random, WORD, 254);
            long.insert(0, LETTERS[at]);
            self.add_variable(long.clone(), Content::One(Part::Fields(vec![(long.clone(), Vec::new())])));
            self.add_principal(long, Vec::new(), former::count(random));
        }
        let count = random.below(6);
        self.assertions = assertions(random, self, count);
    }

    /// The more principals there are, the lighter the former state.
    fn full_when_brought(&mut self, random: &mut Random) {
        if random.below(3) == 0 {
            self.many_principals(random, 640);
        }
        while self.with(|state| state.weight()) > HEAVIEST {
            self.thin_out();
        }
        let spared = COUNT_WEIGHT * self.principals.len() + 1;
        self.fill(HEAVIEST - spared + random.below(4));
    }

    /// By the rules of its form.
    fn weight(&self) -> usize {
        match self.form {
            Form::Former => self.with(|state| state.former_weight()),
            Form::Counted => self.with(|state| state.weight()),
        }
    }

    fn lighten(&mut self) {
        while self.weight() > HEAVIEST {
            self.thin_out();
        }
    }

    /// Takes some assertions, variables and principals away.
    fn thin_out(&mut self) {
        self.assertions.truncate(self.assertions.len() * 3 / 4);
        self.variables.truncate(self.variables.len() * 7 / 8);
        self.principals.truncate(2.max(self.principals.len() * 7 / 8));
        let (people, variables) = (self.principals.len(), self.variables.len());
        self.delegator = self.delegator.min(people as u16 - 1);
        self.assertions.retain(|a| {
            usize::from(a.variable) < variables && usize::from(a.from) < people && usize::from(a.to) < people
        });
    }

    /// One more variable, so that the state weighs so much, where there is room for it.
    pub fn fill(&mut self, weight: usize) {
        let name = b"filler".to_vec();
        if let Some(length) = weight.checked_sub(self.weight() + 1 + name.len()) {
            self.add_variable(name, Content::One(Part::Text(vec![b'f'; length])));
        }
    }

    /// The text of the state, as the model writes it, or the same in the former lines.
    pub fn text(&self, buffer: &mut [u8]) -> Bytes {
        let length = self.with(|state| encode(state, buffer));
        match self.form {
            Form::Former => former::former(&buffer[..length], self.completed),
            Form::Counted => buffer[..length].to_vec(),
        }
    }

    /// Builds the state by the model's own types.
    fn with<T>(&self, use_it: impl FnOnce(&State) -> T) -> T {
        let mut principals = Principals::default();
        for (name, password, completed) in &self.principals {
            principals.add(name, password.as_deref(), *completed);
        }
        let mut state = State::new(self.open, principals, self.delegator);
        for (name, content) in &self.variables {
            state.variables.add(name, value(content));
        }
        for assertion in &self.assertions {
            state.enter(*assertion);
        }
        use_it(&state)
    }
}

fn item(part: &Part) -> Item<'_> {
    match part {
        Part::Text(text) => Item::Text(text),
        Part::Fields(fields) => {
            let fields: Vec<Field> = fields.iter().map(|(label, text)| Field { label, text }).collect();
            Item::Record(Record::new(&fields))
        }
    }
}

fn value(content: &Content) -> Value<'_> {
    match content {
        Content::One(part) => Value::Item(item(part)),
        Content::Many(parts) => {
            let mut list = List::with_room(parts.len());
            parts.iter().for_each(|part| list.push(item(part)));
            Value::List(Rc::new(list))
        }
    }
}
