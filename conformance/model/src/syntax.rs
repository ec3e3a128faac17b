//! Abstract syntax of programs (01, Program text). Names and strings are parts
//! of the program's own bytes.

use std::iter;

use crate::rights::Right;

#[derive(Clone, PartialEq, Eq, Debug)]
pub struct Program<'a> {
    pub principal: &'a [u8],
    pub password: &'a [u8],
    pub commands: Vec<Command<'a>>,
    pub last: Last<'a>,
}

/// The last command: `exit` or `return` expression.
#[derive(Clone, PartialEq, Eq, Debug)]
pub enum Last<'a> {
    Exit,
    Return(Expression<'a>),
}

#[derive(Clone, PartialEq, Eq, Debug)]
pub enum Command<'a> {
    CreatePrincipal(&'a [u8], &'a [u8]),
    ChangePassword(&'a [u8], &'a [u8]),
    Set(&'a [u8], Expression<'a>),
    Append(&'a [u8], Expression<'a>),
    Local(&'a [u8], Expression<'a>),
    Foreach(Each<'a>),
    Filtereach(Each<'a>),
    SetDelegation(Delegation<'a>),
    DeleteDelegation(Delegation<'a>),
    DefaultDelegator(&'a [u8]),
}

/// `foreach element in list replacewith expression`, or `filtereach element in
/// list with expression`
#[derive(Clone, PartialEq, Eq, Debug)]
pub struct Each<'a> {
    pub element: &'a [u8],
    pub list: &'a [u8],
    pub expression: Expression<'a>,
}

/// `target from right -> to`
#[derive(Clone, Copy, PartialEq, Eq, Debug)]
pub struct Delegation<'a> {
    pub target: Target<'a>,
    pub from: &'a [u8],
    pub right: Right,
    pub to: &'a [u8],
}

#[derive(Clone, Copy, PartialEq, Eq, Debug)]
pub enum Target<'a> {
    All,
    Variable(&'a [u8]),
}

#[derive(Clone, PartialEq, Eq, Debug)]
pub enum Expression<'a> {
    Plain(Plain<'a>),
    Lets(Vec<Step<'a>>),
}

/// What evaluating an expression with lets in it does, in turn (02, M-106).
/// `let x = e in f` is the steps of e, then x is bound to the value at hand,
/// then come the steps of f, and x goes. Lets may be nested by the thousand, so
/// they are kept as a row and not one inside the other.
#[derive(Clone, PartialEq, Eq, Debug)]
pub enum Step<'a> {
    Evaluate(Plain<'a>),
    Bind(&'a [u8]),
    Unbind,
}

/// An expression without lets.
#[derive(Clone, PartialEq, Eq, Debug)]
pub enum Plain<'a> {
    Operand(Operand<'a>),
    EmptyList,
    /// Labels with operands, as written; a label may stand twice.
    Record(Vec<(&'a [u8], Operand<'a>)>),
    /// In a box, because most expressions are smaller and are moved about.
    Call(Box<Call<Operand<'a>>>),
}

/// A function and what it is called with (001, String functions and Filtering
/// lists; 02, M-104).
#[derive(Clone, Copy, PartialEq, Eq, Debug)]
pub enum Call<A> {
    Split(A, A),
    Concat(A, A),
    Tolower(A),
    Prices(Operation, A, A),
    Compare(Comparison, A, A),
}

/// What is asked of two values (02, M-106).
#[derive(Clone, Copy, PartialEq, Eq, Debug)]
pub enum Comparison {
    Equal,
    Notequal,
}

/// What is done with two prices (02, M-104).
#[derive(Clone, Copy, PartialEq, Eq, Debug)]
pub enum Operation {
    Add,
    Sub,
    Times,
    Per,
}

impl<A> Call<A> {
    pub fn arguments(&self) -> impl Iterator<Item = &A> {
        let (first, second) = match self {
            Call::Split(first, second)
            | Call::Concat(first, second)
            | Call::Prices(_, first, second)
            | Call::Compare(_, first, second) => (first, Some(second)),
            Call::Tolower(only) => (only, None),
        };
        iter::once(first).chain(second)
    }

    /// The same function called with its arguments changed; none where one
    /// cannot be.
    pub fn map<'b, B>(&'b self, mut change: impl FnMut(&'b A) -> Option<B>) -> Option<Call<B>> {
        Some(match self {
            Call::Split(first, second) => Call::Split(change(first)?, change(second)?),
            Call::Concat(first, second) => Call::Concat(change(first)?, change(second)?),
            Call::Tolower(only) => Call::Tolower(change(only)?),
            Call::Prices(operation, first, second) => {
                Call::Prices(*operation, change(first)?, change(second)?)
            }
            Call::Compare(comparison, first, second) => {
                Call::Compare(*comparison, change(first)?, change(second)?)
            }
        })
    }
}

/// 01's "value": x, x.y or a string.
#[derive(Clone, Copy, PartialEq, Eq, Debug)]
pub enum Operand<'a> {
    Variable(&'a [u8]),
    Field(&'a [u8], &'a [u8]),
    Text(&'a [u8]),
}
