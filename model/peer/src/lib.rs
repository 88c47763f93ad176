//! Holds the proved archive `libcaptable.a` to the reference model: the same answers on millions of
//! requests, images, imports and inputs, and what each call costs in time, stack and instructions.

pub mod archive;
pub mod bench;
pub mod calls;
pub mod cases;
pub mod convert;
pub mod differential;
pub mod fast;
pub mod group_samples;
pub mod groups;
pub mod instructions;
pub mod rights;
pub mod samples;
pub mod stack;
pub mod usage;
