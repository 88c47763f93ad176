//! Wrong readings of 2.8, as the model's own tests have them.

// The list is the one that the model's tests hold the model to.
#[path = "../../tests/misread_reclaim/mod.rs"]
mod readings;

pub use readings::{Misread, MisreadClean};
