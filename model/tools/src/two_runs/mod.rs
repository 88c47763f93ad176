//! Demand 3 tried at random: two runs that agree on every non-member at the start and on the
//! requests of clean actors stay equal in all clean objects and in the replies to them.
//! The same trial with one rule broken must find a difference.

mod bound;
mod command;
mod describe;
mod report;
pub mod requests;
pub mod rules;
pub mod runs;
pub mod shrink;
pub mod start;
mod steps;
pub mod tally;
pub mod trial;

pub use command::command;
