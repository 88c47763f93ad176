//! Potential access and the bound by groups, 2.9 of document 02, against those by the rules: on random tables, sound
//! and not, and on those of the shared vectors, which have to tell wrong readings apart.

use yavrinks_model::access::{potential_access, Access};
use yavrinks_model::confinement::{confinement_test, Tested};
use yavrinks_model::groups::{access_by_groups, group_of, test_by_groups};
use yavrinks_model::set;
use yavrinks_model::table::{Table, ALL_RIGHTS};
use yavrinks_tools::generate::{
    any_sound_table, confinement_case, damaged_table, grouped_table, grouped_test, layered_test,
    ConfinementCase, Damage, CONFINEMENT_NUMBERS,
};
use yavrinks_tools::misread_groups::{access_read, test_read, Misread};
use yavrinks_tools::rng::Rng;
use yavrinks_tools::shared::{
    shared_access, shared_base_tests, shared_rounds, shared_tests, shared_tests_with_reclaims,
};
use yavrinks_tools::vectors::{access_cases, test_cases};

/// Sound tables, every second one in groups.
fn sound_tables(seed: u64, count: usize) -> impl Iterator<Item = Table> {
    let mut rng = Rng::new(seed);
    (0..count).map(move |turn| match turn % 2 {
        0 => any_sound_table(&mut rng),
        _ => {
            let born = rng.between(1, 64) as usize;
            grouped_table(&mut rng, born, 64)
        }
    })
}

/// Accepted tests: of any table, in layers, and in groups.
fn accepted_tests(seed: u64, count: usize) -> impl Iterator<Item = ConfinementCase> {
    let mut rng = Rng::new(seed);
    (0..count).map(move |turn| match turn % 3 {
        0 => confinement_case(&mut rng, 0),
        1 => layered_test(&mut rng),
        _ => {
            let born = rng.between(6, 64) as usize;
            grouped_test(&mut rng, born, 64)
        }
    })
}

/// The test by the rules, which by groups is the same.
fn tested(case: &ConfinementCase) -> Tested {
    let tested = confinement_test(&case.table, case.members, &case.list);
    let by_groups = test_by_groups(&case.table, case.members, &case.list);
    assert_eq!(by_groups, tested, "{case:?}");
    tested
}

#[test]
fn potential_access_is_the_same_by_groups() {
    let (mut partial, mut weak) = (0, 0);
    for table in sound_tables(90, 600) {
        assert!(table.is_sound());
        let (number, access) = access_by_groups(&table);
        assert_eq!((number, access.clone()), potential_access(&table));
        let rights = access.rights.iter().flatten();
        weak += rights.filter(|&&rights| rights == 4).count();
        let groups = set::numbers(table.born()).map(|n| group_of(&table, n));
        partial += groups
            .filter(|&g| g.count_ones() > 1 && g != table.born())
            .count();
    }
    println!("{partial} groups of middle size, {weak} times wk alone");
    assert!(partial > 5_000 && weak > 50_000, "{partial}, {weak}");
}

#[test]
fn an_unsound_table_is_refused_alike() {
    let mut rng = Rng::new(91);
    for kind in Damage::ALL {
        for _ in 0..40 {
            let table = damaged_table(&mut rng, kind);
            let refused = access_by_groups(&table);
            assert_eq!(refused, (1, Access::none()), "{kind:?}");
            assert_eq!(refused, potential_access(&table));
        }
    }
}

#[test]
fn the_bound_is_the_same_by_groups() {
    let (mut empty, mut partial) = (0, 0);
    for case in accepted_tests(92, 900) {
        let tested = tested(&case);
        assert!(tested.is_accepted());
        empty += usize::from(tested.bound == 0);
        let outside = case.table.born() & !case.members;
        partial += usize::from(tested.bound != 0 && tested.bound != outside);
    }
    assert!(empty > 60 && partial > 300, "{empty}, {partial}");
}

#[test]
fn every_test_is_answered_alike() {
    let mut rng = Rng::new(93);
    for aim in CONFINEMENT_NUMBERS {
        for _ in 0..200 {
            assert_eq!(tested(&confinement_case(&mut rng, aim)).number, aim);
        }
    }
}

/// Every born object is in one group, every other number in none, and two groups are the same or share nobody.
#[test]
fn groups_part_the_born_objects() {
    for table in sound_tables(94, 200) {
        let (_, access) = potential_access(&table);
        for x in 0..64 {
            let group = group_of(&table, x);
            assert_eq!(set::contains(group, x), table.is_born(x));
            assert!(set::numbers(group).all(|y| group_of(&table, y) == group));
            let row = access.rights[usize::from(x)];
            let all_four = (0..64).filter(|&y: &u8| row[usize::from(y)] == ALL_RIGHTS);
            assert_eq!(group, set::of(all_four));
        }
    }
}

/// The table with other numbers for its objects, and with what each of them holds in another order.
fn renumbered(rng: &mut Rng, table: &Table) -> (Table, Vec<u8>) {
    let mut numbers: Vec<u8> = (0..64).collect();
    rng.shuffle(&mut numbers);
    let mut other = Table::unborn();
    for (old, record) in table.records.iter().enumerate() {
        let new = other.record_mut(numbers[old]);
        new.status = record.status;
        new.slots = record.slots;
        for slot in new.slots.iter_mut().filter(|slot| !slot.is_empty()) {
            slot.target = numbers[usize::from(slot.target)];
        }
        rng.shuffle(&mut new.slots);
    }
    (other, numbers)
}

/// In which order joins come makes no difference.
#[test]
fn groups_do_not_go_by_the_order_in_the_table() {
    let mut rng = Rng::new(95);
    for table in sound_tables(96, 200) {
        let (other, numbers) = renumbered(&mut rng, &table);
        let new = |n: u8| numbers[usize::from(n)];
        for x in 0..64 {
            let group = set::numbers(group_of(&table, x)).map(new);
            assert_eq!(group_of(&other, new(x)), set::of(group));
        }
    }
}

/// The misread groups with nothing misread are the model's.
#[test]
fn nothing_misread_is_right() {
    for table in sound_tables(97, 300) {
        let found = access_read(None, &table, 0);
        assert_eq!(found, access_by_groups(&table));
    }
    for case in accepted_tests(98, 300) {
        let found = test_read(None, &case.table, case.members, &case.list);
        assert_eq!(found, tested(&case));
        let found = access_read(None, &case.table, case.members);
        assert_eq!(found, potential_access(&case.table));
    }
}

/// Let into the bound, what members hold brings in members alone. A member's link to a non-member is one of rd, wr or tx
/// (wk leads to the member), which is listed for it (12), and none leads to a member from what others hold (13).
#[test]
fn what_members_hold_would_bring_members_alone_into_the_bound() {
    let mut brought = 0;
    for case in accepted_tests(99, 600) {
        let with_members = Misread::MembersInBound.test(&case.table, case.members, &case.list);
        let right = tested(&case);
        assert_eq!(with_members.bound & !case.members, right.bound);
        brought += usize::from(with_members != right);
    }
    assert!(brought > 100, "{brought}");
}

/// How many of the tables a wrong reading says something else of.
fn telling_tables(misread: Misread, tables: &[Table]) -> usize {
    let told = |table: &&Table| misread.access(table, 0) != access_by_groups(table);
    tables.iter().filter(told).count()
}

/// Of how many of the tests it gives another bound; and of how many tables of them another potential access, where
/// members are those of the test.
fn telling_tests(misread: Misread, cases: &[ConfinementCase]) -> (usize, usize) {
    let bound = |case: &&ConfinementCase| {
        let wrong = misread.test(&case.table, case.members, &case.list);
        wrong != test_by_groups(&case.table, case.members, &case.list)
    };
    let access = |case: &&ConfinementCase| {
        let wrong = misread.access(&case.table, case.members);
        wrong != access_by_groups(&case.table)
    };
    (
        cases.iter().filter(bound).count(),
        cases.iter().filter(access).count(),
    )
}

/// The wrong readings whose bound is right: potential access alone can tell them.
const BOUND_IS_RIGHT: [Misread; 7] = [
    Misread::RdJoinsOneWay,
    Misread::OneLink,
    Misread::WkLinksAlone,
    Misread::MembersLeftOut,
    Misread::NotThroughOthers,
    Misread::AloneIsNoGroup,
    Misread::UnbornTakePart,
];

/// Fails unless so many of the cases tell each wrong reading from the right one, and the bounds those that they can
/// tell. What members hold is left out of potential access only where there are members.
fn expect_told(tables: &[Table], tests: &[ConfinementCase], least: usize) {
    let (all_tables, all_tests) = (tables.len(), tests.len());
    for misread in Misread::ALL {
        let in_tables = telling_tables(misread, tables);
        let (in_bounds, in_access) = telling_tests(misread, tests);
        println!(
            "{misread:?}: {in_tables} of {all_tables} tables; of {all_tests} tests {in_bounds} bounds, \
             {in_access} tables"
        );
        let told = match misread {
            Misread::MembersLeftOut => in_access,
            _ => in_tables + in_bounds,
        };
        assert!(told >= least, "{misread:?}");
        let bound_is_right = BOUND_IS_RIGHT.contains(&misread);
        assert_eq!(in_bounds == 0, bound_is_right, "{misread:?}");
    }
}

#[test]
fn the_shared_vectors_tell_wrong_readings_apart() {
    let (tables, answers): (Vec<Table>, Vec<(u8, Access)>) = shared_access().into_iter().unzip();
    assert!(tables.iter().map(access_by_groups).eq(answers));
    let files = [
        shared_base_tests(),
        shared_tests(),
        shared_rounds(),
        shared_tests_with_reclaims(),
    ];
    let tests: Vec<ConfinementCase> = files.into_iter().flatten().map(|one| one.test).collect();
    assert_eq!((tables.len(), tests.len()), (30, 500));
    expect_told(&tables, &tests, 15);
}

#[test]
fn random_tables_tell_wrong_readings_apart() {
    let tables: Vec<Table> = sound_tables(100, 300).collect();
    let tests: Vec<ConfinementCase> = accepted_tests(101, 300).collect();
    expect_told(&tables, &tests, 50);
}

/// The program `vectors` is asked for both ways on these.
#[test]
fn the_cases_of_vectors_tell_wrong_readings_apart() {
    expect_told(&access_cases(), &test_cases(), 10);
}
