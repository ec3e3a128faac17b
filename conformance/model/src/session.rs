//! A program at work: the state's copy, the locals, and who sent the program.

use crate::rights::{self, Assertion, Right, ADMIN};
use crate::state::{State, Variable, Variables, HEAVIEST};
use crate::strings::{Maker, Strings};
use crate::value::Value;

/// Why a program is not completed, in the order in which one goes before
/// another.
#[derive(Clone, Copy, PartialEq, Eq, PartialOrd, Ord, Debug)]
pub enum Undone {
    Denied,
    Failed,
    Full,
}

/// Where a variable is kept.
#[derive(Clone, Copy, PartialEq, Eq, Debug)]
pub enum Place {
    Shared(u16),
    Local(u16),
}

#[derive(Clone)]
pub struct Session<'a> {
    pub state: State<'a>,
    pub locals: Variables<'a>,
    /// The names that live within an expression only: the y of a foreach or a
    /// filtereach, and those of lets.
    pub element: Option<Variable<'a>>,
    pub bound: Variables<'a>,
    /// The sender's number.
    pub sender: u16,
    /// Makes strings that are no part of the state's text or of the program.
    pub maker: Maker<'a>,
    /// What is known of the sender's rights on each shared variable.
    known: Vec<Known>,
}

/// Answers already given, one bit a right. An answer holds until an assertion
/// about the variable is entered or withdrawn.
#[derive(Clone, Copy, Default)]
struct Known {
    asked: u8,
    granted: u8,
}

impl<'a> Session<'a> {
    pub fn new(state: State<'a>, sender: u16, strings: &'a Strings) -> Session<'a> {
        Session {
            state,
            locals: Variables::default(),
            element: None,
            bound: Variables::default(),
            sender,
            maker: Maker::new(strings),
            known: Vec::new(),
        }
    }

    pub fn by_admin(&self) -> bool {
        self.sender == ADMIN
    }

    /// Whether the program was sent under this name.
    pub fn by(&self, name: &[u8]) -> bool {
        self.state.principals.get(self.sender).name == name
    }

    /// The weight of the state with its locals.
    pub fn weight(&self) -> usize {
        self.state.weight() + self.locals.weight()
    }

    /// Where the variable of this name is kept. No name is shared and local at
    /// once.
    pub fn find(&self, name: &[u8]) -> Option<Place> {
        match self.state.variables.find(name) {
            Some(number) => Some(Place::Shared(number)),
            None => self.locals.find(name).map(Place::Local),
        }
    }

    pub fn value(&self, place: Place) -> &Value<'a> {
        match place {
            Place::Shared(number) => &self.state.variables.get(number).value,
            Place::Local(number) => &self.locals.get(number).value,
        }
    }

    /// What the name stands for; none where it is not defined. No name stands
    /// for two things.
    pub fn read(&self, name: &[u8]) -> Option<&Value<'a>> {
        match &self.element {
            Some(element) if element.name == name => return Some(&element.value),
            _ => {}
        }
        match self.bound.find(name) {
            Some(number) => Some(&self.bound.get(number).value),
            None => self.find(name).map(|place| self.value(place)),
        }
    }

    pub fn is_defined(&self, name: &[u8]) -> bool {
        self.read(name).is_some()
    }

    /// Binds the name of a let to what its first expression came to, unless
    /// that is not done. FAILED where the name is defined; FULL where the names
    /// that live would weigh too much.
    pub fn bind(&mut self, name: &'a [u8], first: Result<Value<'a>, Undone>) -> Result<(), Undone> {
        if first != Err(Undone::Denied) && self.is_defined(name) {
            return Err(Undone::Failed);
        }
        let value = first?;
        if self.bound.weight() + Variable::weighing(name, &value) > HEAVIEST {
            return Err(Undone::Full);
        }
        self.bound.add(name, value);
        Ok(())
    }

    pub fn store(&mut self, place: Place, value: Value<'a>) {
        match place {
            Place::Shared(number) => self.state.variables.set(number, value),
            Place::Local(number) => self.locals.set(number, value),
        }
    }

    pub fn append(&mut self, place: Place, value: Value<'a>) -> Option<()> {
        match place {
            Place::Shared(number) => self.state.variables.append(number, value),
            Place::Local(number) => self.locals.append(number, value),
        }
    }

    /// Whether a chain leads to the principal.
    pub fn has(&self, principal: u16, right: Right, variable: u16) -> bool {
        let count = self.state.principals.count();
        rights::shortest(
            self.state.standing(),
            count,
            variable,
            right.number(),
            usize::from(principal),
        )
        .length
        .is_some()
    }

    /// Whether a chain leads to the sender.
    pub fn may(&mut self, right: Right, variable: u16) -> bool {
        if self.by_admin() {
            return true;
        }
        let number = usize::from(variable);
        if number >= self.known.len() {
            self.known.resize(number + 1, Known::default());
        }
        let bit = 1 << right.number();
        if self.known[number].asked & bit == 0 {
            let granted = self.has(self.sender, right, variable);
            let known = &mut self.known[number];
            known.asked |= bit;
            known.granted |= if granted { bit } else { 0 };
        }
        self.known[number].granted & bit != 0
    }

    fn forget(&mut self, variable: u16) {
        if let Some(known) = self.known.get_mut(usize::from(variable)) {
            *known = Known::default();
        }
    }

    pub fn enter(&mut self, assertion: Assertion) {
        if self.state.enter(assertion) {
            self.forget(assertion.variable);
        }
    }

    /// Withdraws `x from right -> to` for each of the variables x.
    pub fn withdraw(&mut self, variables: &[u16], from: u16, right: Right, to: u16) {
        variables.iter().for_each(|&variable| self.forget(variable));
        self.state
            .withdraw(variables.iter().map(|&variable| Assertion {
                variable,
                from,
                right: right.number(),
                to,
            }));
    }

    /// What `all` stands for: the shared variables on which the principal has
    /// delegate.
    pub fn delegable(&self, principal: u16) -> Vec<u16> {
        rights::holdings(
            self.state.standing(),
            self.state.principals.count(),
            self.state.variables.count(),
            Right::Delegate.number(),
            usize::from(principal),
        )
    }
}
