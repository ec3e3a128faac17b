//! Commands and whole programs (01, Commands and A run).
//!
//! Each command is asked three things in turn: is it denied by itself, can it
//! be done with its expression, and is what it leaves too heavy. DENIED goes
//! before FAILED and FAILED before FULL, whichever part of the command each is
//! in.

use std::rc::Rc;

use crate::lines::{status, Lines};
use crate::parse::parse;
use crate::rights::{Assertion, Right, ADMIN};
use crate::session::{Place, Session, Undone};
use crate::state::{State, HEAVIEST};
use crate::strings::Strings;
use crate::syntax::{Command, Delegation, Expression, Last, Program, Target};
use crate::value::{List, Value};

/// How a program ended.
#[derive(Clone, Copy, PartialEq, Eq, Debug)]
pub enum End {
    Returned,
    Exited,
    Denied,
    Failed,
    Full,
}

/// Runs a program on an open state: the lines, how it ended and, where it was
/// completed, the new state. What strings it makes are kept in `strings`.
pub fn run<'a>(
    state: State<'a>,
    program: &'a [u8],
    strings: &'a Strings,
    lines: &mut Lines,
) -> (End, Option<State<'a>>) {
    match complete(state, program, strings, lines) {
        Ok((end, state)) => (end, Some(state)),
        Err(undone) => {
            lines.restart();
            let (end, status) = match undone {
                Undone::Denied => (End::Denied, "DENIED"),
                Undone::Failed => (End::Failed, "FAILED"),
                Undone::Full => (End::Full, "FULL"),
            };
            lines.status(status);
            (end, None)
        }
    }
}

fn complete<'a>(
    state: State<'a>,
    program: &'a [u8],
    strings: &'a Strings,
    lines: &mut Lines,
) -> Result<(End, State<'a>), Undone> {
    let program = parse(program).ok_or(Undone::Failed)?;
    let sender = login(&state, &program)?;
    let mut session = Session::new(state, sender, strings);
    for command in &program.commands {
        session.step(command)?;
        lines.status(status(command));
    }
    let end = session.last(&program.last, lines)?;
    let mut state = session.state;
    state.principals.complete(sender);
    Ok((end, state))
}

/// The sender's number, where the name exists and the password is right. A
/// name that is missing is answered as a wrong password is (02, M-105).
pub fn login(state: &State, program: &Program) -> Result<u16, Undone> {
    let sender = state.principals.find(program.principal);
    let password = |number| state.principals.get(number).password;
    sender
        .filter(|&number| password(number) == Some(program.password))
        .ok_or(Undone::Denied)
}

impl<'a> Session<'a> {
    /// A command other than the last. After one that cannot be done the
    /// session is of no use.
    pub fn step(&mut self, command: &Command<'a>) -> Result<(), Undone> {
        if self.denied(command) {
            return Err(Undone::Denied);
        }
        self.perform(command)?;
        if self.weight() > HEAVIEST {
            return Err(Undone::Full);
        }
        Ok(())
    }

    fn last(&mut self, last: &Last<'a>, lines: &mut Lines) -> Result<End, Undone> {
        match last {
            Last::Exit if !self.by_admin() => Err(Undone::Denied),
            Last::Exit => {
                self.state.open = false;
                lines.status("EXITING");
                Ok(End::Exited)
            }
            Last::Return(expression) => {
                lines.returning(&self.evaluate(expression)?);
                Ok(End::Returned)
            }
        }
    }

    /// Whether the command is reserved to others or needs a right that is not
    /// had, its expression apart.
    fn denied(&mut self, command: &Command) -> bool {
        match command {
            Command::CreatePrincipal(..) | Command::DefaultDelegator(_) => !self.by_admin(),
            Command::ChangePassword(name, _) => !self.by_admin() && !self.by(name),
            Command::Set(name, _) => self.lacks_all(&[Right::Write], name),
            Command::Append(name, _) => self.lacks_all(&[Right::Write, Right::Append], name),
            Command::Local(..) => false,
            Command::Foreach(each) | Command::Filtereach(each) => {
                self.lacks_all(&[Right::Read], each.list)
                    || self.lacks_all(&[Right::Write], each.list)
            }
            Command::SetDelegation(delegation) => self.set_delegation_denied(delegation),
            Command::DeleteDelegation(delegation) => self.delete_delegation_denied(delegation),
        }
    }

    /// Whether the name is a shared variable's on which the sender has none of
    /// the rights.
    fn lacks_all(&mut self, rights: &[Right], name: &[u8]) -> bool {
        match self.find(name) {
            Some(Place::Shared(number)) => !rights.iter().any(|&right| self.may(right, number)),
            _ => false,
        }
    }

    /// Delegate is asked of the existing q, even where admin is the sender.
    fn set_delegation_denied(&self, delegation: &Delegation) -> bool {
        if !self.by_admin() && !self.by(delegation.from) {
            return true;
        }
        let Target::Variable(name) = delegation.target else {
            return false;
        };
        let from = self.state.principals.find(delegation.from);
        let variable = self.state.variables.find(name);
        match (from, variable) {
            (Some(from), Some(variable)) => !self.has(from, Right::Delegate, variable),
            _ => false,
        }
    }

    /// A principal may always give up what was delegated to it; who withdraws
    /// what it delegated to others needs delegate.
    fn delete_delegation_denied(&mut self, delegation: &Delegation) -> bool {
        if self.by_admin() {
            return false;
        }
        match delegation.target {
            Target::All => !self.by(delegation.from),
            Target::Variable(_) if self.by(delegation.to) => false,
            Target::Variable(_) if !self.by(delegation.from) => true,
            Target::Variable(name) => match self.state.variables.find(name) {
                Some(variable) => !self.may(Right::Delegate, variable),
                None => false,
            },
        }
    }

    /// Does a command that is not denied by itself.
    fn perform(&mut self, command: &Command<'a>) -> Result<(), Undone> {
        let done = match command {
            Command::CreatePrincipal(name, password) => self.create_principal(name, password),
            Command::ChangePassword(name, password) => self.change_password(name, password),
            Command::Set(name, expression) => return self.set(name, expression),
            Command::Append(name, expression) => {
                let value = self.evaluate(expression);
                let place = self.list(name).ok_or_else(|| failed_behind(&value))?;
                self.append(place, value?)
            }
            Command::Local(name, expression) => {
                let value = self.evaluate(expression);
                if self.find(name).is_some() {
                    return Err(failed_behind(&value));
                }
                self.locals.add(name, value?).map(|_| ())
            }
            Command::Foreach(each) => {
                let list = self.replaced(each)?;
                self.store_list(each.list, list)
            }
            Command::Filtereach(each) => {
                let list = self.filtered(each)?;
                self.store_list(each.list, list)
            }
            Command::SetDelegation(delegation) => self.set_delegation(delegation),
            Command::DeleteDelegation(delegation) => self.delete_delegation(delegation),
            Command::DefaultDelegator(name) => self.default_delegator(name),
        };
        done.ok_or(Undone::Failed)
    }

    /// Where the list of this name is kept, if the name is a list's.
    fn list(&self, name: &[u8]) -> Option<Place> {
        let place = self.find(name)?;
        self.value(place).list().map(|_| place)
    }

    fn store_list(&mut self, name: &[u8], list: List<'a>) -> Option<()> {
        let place = self.find(name)?;
        self.store(place, Value::List(Rc::new(list)));
        Some(())
    }

    fn change_password(&mut self, name: &[u8], password: &'a [u8]) -> Option<()> {
        let number = self.state.principals.find(name)?;
        self.state.principals.set_password(number, password);
        Some(())
    }

    fn default_delegator(&mut self, name: &[u8]) -> Option<()> {
        self.state.delegator = self.state.principals.find(name)?;
        Some(())
    }

    /// What is entered here is delegated to the new principal only, so the
    /// default delegator has delegate on the same variables before each of
    /// the four rights.
    fn create_principal(&mut self, name: &'a [u8], password: &'a [u8]) -> Option<()> {
        let number = self.state.principals.add(name, Some(password), 0)?;
        let delegator = self.state.delegator;
        let variables = self.delegable(delegator);
        for right in Right::ALL {
            self.delegate(&variables, delegator, right, number);
        }
        Some(())
    }

    /// A new variable is shared, and admin delegates every right on it to the
    /// sender.
    fn set(&mut self, name: &'a [u8], expression: &Expression<'a>) -> Result<(), Undone> {
        let value = self.evaluate(expression)?;
        match self.find(name) {
            Some(place) => self.store(place, value),
            None => {
                let number = self.state.variables.add(name, value);
                let number = number.ok_or(Undone::Failed)?;
                if !self.by_admin() {
                    for right in Right::ALL {
                        self.delegate(&[number], ADMIN, right, self.sender);
                    }
                }
            }
        }
        Ok(())
    }

    fn set_delegation(&mut self, delegation: &Delegation) -> Option<()> {
        let (variables, from, to) = self.resolve(delegation)?;
        self.delegate(&variables, from, delegation.right, to);
        Some(())
    }

    fn delete_delegation(&mut self, delegation: &Delegation) -> Option<()> {
        let (variables, from, to) = self.resolve(delegation)?;
        self.withdraw(&variables, from, delegation.right, to);
        Some(())
    }

    /// The variables, q and p of a delegation; none where one is missing.
    fn resolve(&self, delegation: &Delegation) -> Option<(Vec<u16>, u16, u16)> {
        let from = self.state.principals.find(delegation.from)?;
        let to = self.state.principals.find(delegation.to)?;
        let variables = match delegation.target {
            Target::All => self.delegable(from),
            Target::Variable(name) => vec![self.state.variables.find(name)?],
        };
        Some((variables, from, to))
    }

    /// Enters `x from right -> to` for each of the variables x, in their order.
    fn delegate(&mut self, variables: &[u16], from: u16, right: Right, to: u16) {
        for &variable in variables {
            self.enter(Assertion {
                variable,
                from,
                right: right.number(),
                to,
            });
        }
    }
}

/// What a command comes to that fails by itself: FAILED, unless its expression
/// is denied.
fn failed_behind(expression: &Result<Value, Undone>) -> Undone {
    match expression {
        Ok(_) => Undone::Failed,
        Err(undone) => Undone::Failed.min(*undone),
    }
}
