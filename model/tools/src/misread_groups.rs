//! Wrong readings of 2.9, as the model's own tests have them.

// The list is the one that the model's tests hold the model to.
#[path = "../../tests/misread_groups/mod.rs"]
mod readings;

pub use readings::{access_read, test_read, Misread};
