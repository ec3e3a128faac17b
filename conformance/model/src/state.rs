//! The state: principals, variables, assertions, and their weight (01, State
//! text and Weight; 02, M-101). Each part keeps its weight as it changes.

use crate::names::{Numbers, QuickSet};
use crate::rights::{Assertion, ADMIN, ANYONE};
use crate::value::{List, Value};

/// The most that a state with its locals, or one value, may weigh.
pub const HEAVIEST: usize = 8_192;

/// M-101: what a principal weighs more than in the former lines, for its
/// count, however many digits that has.
pub const COUNT_WEIGHT: usize = 10;

#[derive(Clone, Copy, PartialEq, Eq, Debug)]
pub struct Principal<'a> {
    pub name: &'a [u8],
    /// None is a principal that has no password, which is not an empty one.
    pub password: Option<&'a [u8]>,
    /// How many programs it has completed.
    pub completed: u32,
}

impl Principal<'_> {
    fn password_weight(&self) -> usize {
        self.password.map_or(0, <[u8]>::len)
    }
}

/// Principals in order of creation.
#[derive(Clone, Default, Debug)]
pub struct Principals<'a> {
    entries: Vec<Principal<'a>>,
    numbers: Numbers<'a>,
    weight: usize,
}

impl<'a> Principals<'a> {
    pub fn count(&self) -> usize {
        self.entries.len()
    }

    pub fn iter(&self) -> impl Iterator<Item = &Principal<'a>> {
        self.entries.iter()
    }

    pub fn get(&self, number: u16) -> &Principal<'a> {
        &self.entries[usize::from(number)]
    }

    pub fn find(&self, name: &[u8]) -> Option<u16> {
        self.numbers.get(name).copied()
    }

    /// What the principal's name counts: 1 for admin and anyone.
    fn name_weight(&self, number: u16) -> usize {
        match number {
            ADMIN | ANYONE => 1,
            _ => self.get(number).name.len(),
        }
    }

    /// The new principal's number; none where the name exists.
    pub fn add(
        &mut self,
        name: &'a [u8],
        password: Option<&'a [u8]>,
        completed: u32,
    ) -> Option<u16> {
        let number = self.entries.len() as u16;
        if self.find(name).is_some() {
            return None;
        }
        self.numbers.insert(name, number);
        let principal = Principal {
            name,
            password,
            completed,
        };
        self.entries.push(principal);
        self.weight += 1 + COUNT_WEIGHT + self.name_weight(number) + principal.password_weight();
        Some(number)
    }

    /// The principal has completed one program more. Its count stays at
    /// 4294967295 once there.
    pub fn complete(&mut self, number: u16) {
        let completed = &mut self.entries[usize::from(number)].completed;
        *completed = completed.saturating_add(1);
    }

    pub fn set_password(&mut self, number: u16, password: &'a [u8]) {
        let principal = &mut self.entries[usize::from(number)];
        self.weight -= principal.password_weight();
        self.weight += password.len();
        principal.password = Some(password);
    }
}

#[derive(Clone, PartialEq, Eq, Debug)]
pub struct Variable<'a> {
    pub name: &'a [u8],
    pub value: Value<'a>,
}

impl<'a> Variable<'a> {
    /// What a variable of this name and value weighs.
    pub fn weighing(name: &[u8], value: &Value<'a>) -> usize {
        1 + name.len() + value.weight()
    }
}

/// Variables, shared or local, in order of creation.
#[derive(Clone, Default, Debug)]
pub struct Variables<'a> {
    entries: Vec<Variable<'a>>,
    numbers: Numbers<'a>,
    weight: usize,
}

impl<'a> Variables<'a> {
    pub fn count(&self) -> u16 {
        self.entries.len() as u16
    }

    pub fn weight(&self) -> usize {
        self.weight
    }

    pub fn iter(&self) -> impl Iterator<Item = &Variable<'a>> {
        self.entries.iter()
    }

    pub fn get(&self, number: u16) -> &Variable<'a> {
        &self.entries[usize::from(number)]
    }

    pub fn find(&self, name: &[u8]) -> Option<u16> {
        self.numbers.get(name).copied()
    }

    /// The new variable's number; none where the name exists.
    pub fn add(&mut self, name: &'a [u8], value: Value<'a>) -> Option<u16> {
        if self.find(name).is_some() {
            return None;
        }
        let number = self.count();
        self.numbers.insert(name, number);
        self.weight += Variable::weighing(name, &value);
        self.entries.push(Variable { name, value });
        Some(number)
    }

    /// The newest goes.
    pub fn remove_last(&mut self) {
        if let Some(Variable { name, value }) = self.entries.pop() {
            self.numbers.remove(name);
            self.weight -= Variable::weighing(name, &value);
        }
    }

    pub fn set(&mut self, number: u16, value: Value<'a>) {
        let kept = &mut self.entries[usize::from(number)].value;
        self.weight -= kept.weight();
        self.weight += value.weight();
        *kept = value;
    }

    /// Adds to the end of a list: another list's items, or anything else as
    /// one item. None where the variable holds no list.
    pub fn append(&mut self, number: u16, value: Value<'a>) -> Option<()> {
        let Value::List(shared) = &mut self.entries[usize::from(number)].value else {
            return None;
        };
        let list: &mut List<'a> = std::rc::Rc::make_mut(shared);
        self.weight -= list.weight();
        match value {
            Value::Item(item) => list.push(item),
            Value::List(other) => list.join(&other),
        }
        self.weight += list.weight();
        Some(())
    }
}

/// The assertions that stand, in order of entry. Their weight is kept by the
/// state, which knows the names.
#[derive(Clone, Default, Debug)]
struct Standing {
    assertions: Vec<Assertion>,
    members: QuickSet<u64>,
    weight: usize,
}

fn member(assertion: &Assertion) -> u64 {
    let Assertion {
        variable,
        from,
        right,
        to,
    } = *assertion;
    [variable, from, right, to]
        .into_iter()
        .fold(0, |packed, part| packed << 16 | u64::from(part))
}

#[derive(Clone, Debug)]
pub struct State<'a> {
    pub open: bool,
    pub principals: Principals<'a>,
    /// The default delegator.
    pub delegator: u16,
    /// The shared variables.
    pub variables: Variables<'a>,
    standing: Standing,
}

impl<'a> State<'a> {
    /// A state without variables and assertions.
    pub fn new(open: bool, principals: Principals<'a>, delegator: u16) -> Self {
        State {
            open,
            principals,
            delegator,
            variables: Variables::default(),
            standing: Standing::default(),
        }
    }

    /// The state that making a server leaves.
    pub fn fresh(password: &'a [u8]) -> State<'a> {
        let mut principals = Principals::default();
        principals.add(b"admin", Some(password), 0);
        principals.add(b"anyone", None, 0);
        State::new(true, principals, ANYONE)
    }

    pub fn weight(&self) -> usize {
        self.principals.weight + self.variables.weight + self.standing.weight
    }

    /// What it weighed before M-101.
    pub fn former_weight(&self) -> usize {
        self.weight() - COUNT_WEIGHT * self.principals.count()
    }

    pub fn standing(&self) -> &[Assertion] {
        &self.standing.assertions
    }

    /// Variable + 1 + q + p.
    fn assertion_weight(&self, assertion: &Assertion) -> usize {
        self.variables.get(assertion.variable).name.len()
            + 1
            + self.principals.name_weight(assertion.from)
            + self.principals.name_weight(assertion.to)
    }

    /// Enters an assertion at the end; false where it stands, and then it
    /// keeps its place.
    pub fn enter(&mut self, assertion: Assertion) -> bool {
        let new = self.standing.members.insert(member(&assertion));
        if new {
            self.standing.assertions.push(assertion);
            self.standing.weight += self.assertion_weight(&assertion);
        }
        new
    }

    /// Withdraws those of the assertions that stand.
    pub fn withdraw(&mut self, assertions: impl Iterator<Item = Assertion>) {
        let before = self.standing.members.len();
        for assertion in assertions {
            if self.standing.members.remove(&member(&assertion)) {
                self.standing.weight -= self.assertion_weight(&assertion);
            }
        }
        let members = &self.standing.members;
        if members.len() < before {
            self.standing
                .assertions
                .retain(|assertion| members.contains(&member(assertion)));
        }
    }
}
