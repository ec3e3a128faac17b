//! An independent model of the data server of document 01: shared variables,
//! principals and delegated rights. It is written from the papers alone and is
//! the partner of random tests and benchmarks.
//!
//! From the bottom up: [`bytes`] and [`names`] know the alphabets, [`syntax`],
//! [`token`] and [`parse`] the program text, [`value`], [`state`] and [`text`]
//! the state and its text, [`rights`] the chains, [`strings`], [`session`],
//! [`prices`], [`functions`], [`evaluate`], [`lines`] and [`engine`] what a
//! program does, [`sheet`] who may do what on paper, and [`calls`] what the host
//! program may call. [`observe`] and [`replay`] are for tests: the one tells what
//! became of the expressions in a program and what it met of older names, the
//! other plays scripts of calls.

#![forbid(unsafe_code)]

pub mod bytes;
pub mod calls;
pub mod engine;
pub mod evaluate;
pub mod functions;
pub mod lines;
pub mod names;
pub mod observe;
pub mod parse;
pub mod prices;
pub mod replay;
pub mod rights;
pub mod session;
pub mod sheet;
pub mod state;
pub mod strings;
pub mod syntax;
pub mod text;
pub mod token;
pub mod value;
