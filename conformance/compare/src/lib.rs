//! The proved code behind safe functions, for tests and benchmarks to call beside the model.

pub mod damage;
pub mod former;
pub mod histories;
pub mod older;
pub mod page;
pub mod parser;
pub mod plans;
pub mod prices;
pub mod programs;
pub mod random;
pub mod rights;
pub mod seen;
pub mod server;
pub mod states;
pub mod steps;
pub mod timing;
pub mod venues;
