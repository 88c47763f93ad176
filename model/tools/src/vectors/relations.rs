//! Potential access: relations of full and of small tables, dense and sparse, and unsound tables.

use super::{digest, layout, Part};
use crate::generate::{any_damage, any_sound_table, sound_table, Shape};
use crate::rng::Rng;
use yavrinks_model::access::{potential_access, Access};
use yavrinks_model::groups::access_by_groups;
use yavrinks_model::table::Table;

/// Tables of all 64 objects from bare to full, tables of any shape, and unsound ones.
pub fn access_cases() -> Vec<Table> {
    let mut rng = Rng::new(0xACCE5);
    let mut tables = vec![Table::unborn(), Table::k()];
    for filled_percent in [2, 5, 10, 20, 50, 100] {
        for weak_percent in [0, 60, 95, 100] {
            let shape = Shape {
                born: 64,
                dead_percent: 10,
                active_percent: 50,
                stocked_percent: 0,
                filled_percent,
                weak_percent,
                made_percent: 50,
            };
            tables.push(sound_table(&mut rng, &shape));
        }
    }
    tables.extend((0..18).map(|_| any_sound_table(&mut rng)));
    for _ in 0..8 {
        let mut table = any_sound_table(&mut rng);
        any_damage(&mut rng, &mut table);
        tables.push(table);
    }
    tables
}

/// By the rules.
pub fn part() -> Part {
    worked("potential access: case, number, relation", potential_access)
}

/// By groups, of the same tables.
pub fn by_groups_part() -> Part {
    worked(
        "the same by groups: case, number, relation",
        access_by_groups,
    )
}

fn worked(heading: &'static str, work: fn(&Table) -> (u8, Access)) -> Part {
    let mut part = Part::new("access", heading);
    for table in access_cases() {
        let (number, access) = work(&table);
        let digest = digest::text(digest::of_relation(&access));
        part.add(&layout::table(&table), format!("{number} {digest}"));
    }
    part
}
