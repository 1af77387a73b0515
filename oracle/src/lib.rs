//! A second, independent program for the rules of document 01: a notifier for
//! DNS Long-Lived Queries (RFC 8764), its tally, and runs that compare
//! another program with both.

pub mod calls;
pub mod clock;
pub mod cursor;
pub mod fault;
pub mod name;
pub mod query;
pub mod rules;
pub mod serve;
pub mod sound;
pub mod table;

pub mod tally;

pub mod compare;
pub mod coverage;
pub mod generate;
pub mod pairs;
pub mod random;
pub mod runs;
pub mod script;
pub mod server;
pub mod set_back;
pub mod told;
pub mod values;
pub mod variants;

#[cfg(test)]
mod moves;
#[cfg(test)]
mod spans;

pub use calls::{make, serve, tick, Served, Ticked};
