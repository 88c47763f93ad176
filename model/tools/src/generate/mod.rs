//! Random tables, requests, empty copies, reclaims, tests, tables in groups, questions for a chain, images, tables to be
//! written, inputs and imports, each aimed at a chosen outcome.
//! All of it follows from the seed of the generator that is lent to it.

mod confinement;
mod empty_copies;
mod empty_requests;
mod groups;
mod images;
mod imports;
mod makers;
mod reclaims;
mod requests;
mod shown;
mod tables;

pub use confinement::{
    born_non_members, confinement_case, unlisted_wk, ConfinementCase, CONFINEMENT_NUMBERS,
};
pub use empty_copies::empty_copy_case;
pub use empty_requests::turn_to_empty;
pub use groups::{grouped_table, grouped_test};
pub use images::{
    confine_input, encode_input, image_case, image_of, newer_input, printed_number, write_case,
    WriteCase, CONFINE_NUMBERS, IMAGE_NUMBERS, INPUT_COUNT_AT, WRITE_NUMBERS,
};
pub use imports::{full_import, import_bytes, import_case, IMPORT_NUMBERS};
pub use makers::{allocate_by_made, destroy_of_made};
pub use reclaims::{reclaim_case, reclaim_through, ReclaimKind};
pub use requests::{
    actor_mut, any_request, bounded_fields, can_meet, likely_request, step_case, StepCase,
    STEP_REPLIES,
};
pub use shown::{layered_case, layered_test, shown_case, ShownCase, SHOWN_NUMBERS};
pub use tables::{
    any_damage, any_damage_in, any_maker, any_sound_table, damage, damaged_table, numbers_where,
    sound_table, without_makers, Damage, Shape,
};
