//! The built command, run as a process.

mod confine;
mod lost;
mod run;
mod words;
