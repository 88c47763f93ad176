//! Wrong readings of 2.9, each by what it would answer to a question of the definitions: to a group or a row of
//! potential access by groups, and to a bound. Tables are smaller here than elsewhere, and of rows one is asked, since
//! the checker takes long to refuse.

use super::cases::{Answer, Case, GroupRow, Question};
use crate::generate::{grouped_test, ConfinementCase};
use crate::misread_groups::Misread;
use crate::rng::Rng;
use crate::rows::row;
use yavrinks_model::groups::access_by_groups;
use yavrinks_model::table::{RD, TX, WK, WR};

/// How many objects a table has, and a limit to their numbers.
type Size = (usize, u8);

const FOR_ROWS: Size = (5, 64);
/// The stand-in is looked for from 0 on, and for every number anew.
const FOR_BOUNDS: Size = (3, 4);

/// How many tables are tried for a wrong reading. It may be right about all rows.
const TRIES: usize = 400;

/// What can be asked of an object. Each reading begins at another place, so that all of them are stated.
const ROWS: [GroupRow; 5] = [
    GroupRow::Over(WK),
    GroupRow::Group,
    GroupRow::Over(RD),
    GroupRow::Over(TX),
    GroupRow::Over(WR),
];

/// For each wrong reading a row that it has otherwise, with that answer; a bound for those that are right about rows,
/// since that takes ten times as long to refuse.
pub fn misread_groups(rng: &mut Rng) -> Vec<Case> {
    let mut wrong = Vec::new();
    for (place, misread) in Misread::ALL.into_iter().enumerate() {
        let mut rows = ROWS;
        rows.rotate_left(place % ROWS.len());
        let of_row = first(rng, FOR_ROWS, |test| misread_row(misread, &rows, &test));
        let told = of_row.or_else(|| first(rng, FOR_BOUNDS, |test| misread_bound(misread, test)));
        wrong.extend(told);
    }
    wrong
}

/// The first of some tests of which there is something wrong to say.
fn first(
    rng: &mut Rng,
    (born, limit): Size,
    wrong: impl Fn(ConfinementCase) -> Option<Case>,
) -> Option<Case> {
    (0..TRIES).find_map(|_| wrong(grouped_test(rng, born, limit)))
}

/// The first of the rows that the reading has otherwise for some number.
fn misread_row(misread: Misread, rows: &[GroupRow], test: &ConfinementCase) -> Option<Case> {
    let (table, members) = (&test.table, test.members);
    let (_, access) = misread.access(table, members);
    if access == access_by_groups(table).1 {
        return None;
    }
    let numbers = |of: &GroupRow| (0..64).map(|x| (*of, x)).collect::<Vec<_>>();
    rows.iter().flat_map(numbers).find_map(|(of, x)| {
        let set = match of {
            GroupRow::Group => misread.group(table, members, x),
            GroupRow::Over(right) => row(&access, right, x),
        };
        let question = Question::ByGroups {
            table: table.clone(),
            row: of,
            numbers: vec![x],
        };
        told(question, Answer::Sets(vec![set]))
    })
}

fn misread_bound(misread: Misread, test: ConfinementCase) -> Option<Case> {
    let wrong = misread.test(&test.table, test.members, &test.list);
    told(Question::BoundByGroups(test), Answer::Set(wrong.bound))
}

/// The question with the answer, unless that is right.
fn told(question: Question, answer: Answer) -> Option<Case> {
    let right = Case::new(question);
    (right.answer != answer).then_some(Case {
        question: right.question,
        answer,
    })
}
