//! What uses the reference model: random cases aimed at every outcome, and the commands that hold the
//! definitions, the proved programs and demand 3 to it.

#![forbid(unsafe_code)]

pub mod built_program;
pub mod copies;
pub mod definitions;
pub mod empty_kinds;
pub mod generate;
pub mod misread_groups;
pub mod misread_reclaim;
pub mod misread_rounds;
pub mod progress;
pub mod repository;
pub mod rights;
pub mod rng;
pub mod rows;
pub mod shared;
pub mod two_runs;
pub mod vectors;
