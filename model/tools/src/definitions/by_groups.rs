//! Groups, rows of potential access and bounds by groups (2.9), of small tables of several groups: the checker computes
//! a row number by number, and a bound too, each time from the beginning.

use super::cases::{GroupRow, Question};
use crate::generate::{any_damage, grouped_table, grouped_test};
use crate::rng::Rng;
use yavrinks_model::groups::test_by_groups;
use yavrinks_model::set;
use yavrinks_model::table::{Table, RD, TX, WK, WR};

/// What is asked of a table, in turn. wk comes twice, since it goes beyond the group.
const ROWS: [GroupRow; 6] = [
    GroupRow::Group,
    GroupRow::Over(WK),
    GroupRow::Over(RD),
    GroupRow::Over(WR),
    GroupRow::Over(TX),
    GroupRow::Over(WK),
];

/// How many questions there are: after the rows two tables whole, and two bounds.
pub const BY_GROUPS: usize = ROWS.len() + 4;

/// How many objects a table has of which rows are asked, one that is asked whole, and one of a test: with five of these
/// the checker now and then runs out of steps.
const FOR_ROWS: usize = 12;
const FOR_WHOLE: usize = 3;
const FOR_BOUNDS: usize = 4;

/// Of an unborn number and of three objects the group or the row of the turn. Then potential access of a table, and of
/// one that is not sound; a bound of several objects, and one that is not empty and leaves an object out.
pub fn by_groups(rng: &mut Rng, turn: usize) -> Question {
    let place = turn % BY_GROUPS;
    match BY_GROUPS - place {
        1 => bound_where(rng, |bound, outside| bound != 0 && bound != outside),
        2 => bound_where(rng, |bound, _| bound.count_ones() > 1),
        3 => {
            let mut table = grouped_table(rng, FOR_WHOLE, 64);
            any_damage(rng, &mut table);
            Question::AccessByGroups { table }
        }
        4 => {
            let table = grouped_table(rng, FOR_WHOLE, 64);
            Question::AccessByGroups { table }
        }
        _ => {
            let table = grouped_table(rng, FOR_ROWS, 64);
            let numbers = some_numbers(rng, &table);
            let row = ROWS[place];
            Question::ByGroups {
                table,
                row,
                numbers,
            }
        }
    }
}

/// A test that is asked for its bound: what is in it, and what could be, satisfy the condition.
fn bound_where(rng: &mut Rng, condition: impl Fn(u64, u64) -> bool) -> Question {
    loop {
        let case = grouped_test(rng, FOR_BOUNDS, 64);
        let bound = test_by_groups(&case.table, case.members, &case.list).bound;
        if condition(bound, case.table.born() & !case.members) {
            return Question::BoundByGroups(case);
        }
    }
}

/// An unborn number and three objects.
fn some_numbers(rng: &mut Rng, table: &Table) -> Vec<u8> {
    let born = table.born();
    let mut objects: Vec<u8> = set::numbers(born).collect();
    rng.shuffle(&mut objects);
    let unborn: Vec<u8> = set::numbers(!born).collect();
    let unborn = rng.pick(&unborn).expect("unborn number");
    [&[unborn], &objects[..3]].concat()
}
