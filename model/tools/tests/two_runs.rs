//! The check of demand 3: the model keeps the claim, every broken model is caught, and the rules
//! with nothing broken are the model's own.

use std::process::Command;

use yavrinks_model::confinement::confinement_test;
use yavrinks_model::runs::{claimed_record, clean_at_start, clean_part, run};
use yavrinks_model::set;
use yavrinks_model::step::{step, Request};
use yavrinks_model::table::Table;
use yavrinks_tools::empty_kinds::EmptyKind;
use yavrinks_tools::generate::{
    any_request, any_sound_table, can_meet, confinement_case, empty_copy_case, likely_request,
    step_case, CONFINEMENT_NUMBERS, STEP_REPLIES,
};
use yavrinks_tools::rng::Rng;
use yavrinks_tools::two_runs::rules::{Access, Compared, Naming, Rounds, StandIn, Unlisted};
use yavrinks_tools::two_runs::rules::{Destroyed, Empty, Makers, Makes, Recorded};
use yavrinks_tools::two_runs::rules::{Joins, Left, Reclaimable};
use yavrinks_tools::two_runs::rules::{Rules, Weakening, BROKEN};
use yavrinks_tools::two_runs::runs::Move;
use yavrinks_tools::two_runs::shrink::{replay, shrink};
use yavrinks_tools::two_runs::start::draw_start;
use yavrinks_tools::two_runs::tally::Actor;
use yavrinks_tools::two_runs::trial::{draw_pair, try_pairs, Drawn};

/// Pairs within which a broken model must be caught. For most a few hundred are enough.
const LIMIT: u64 = 20_000;

#[test]
fn the_model_keeps_the_claim() {
    let trial = try_pairs("document 01", &Rules::DOCUMENT, 1, 600);
    assert!(trial.found.is_none(), "{:?}", trial.found);
    assert_eq!(trial.pairs, 600);
    assert!(trial.lengths_differ > 400 && trial.starts_differ > 400);
    assert!(trial.bound_not_empty > 300 && trial.ends_differ > 500);
    assert!(trial.many_rounds > 50, "{}", trial.many_rounds);
    assert!(trial.made_clean > 300 && trial.tally.of_clean_by_others > 1000);
    assert!(trial.unlisted_in_one > 100 && trial.unlisted_in_both > 100);
    assert!(2 * (trial.unlisted_in_one + trial.unlisted_in_both) > trial.pairs);
    assert!(trial.used_in_one > 100);
    assert!(trial.tally.unlisted_reads > 100 && trial.tally.unlisted_fetches > 100);
    assert!(trial.empty_in_one > 100 && trial.tally.empty_by_others.of_clean > 100);
    for empty in [trial.tally.empty_by_clean, trial.tally.empty_by_others] {
        assert!(empty.all > 1000 && empty.on_filled > 500, "{empty:?}");
        assert!(empty.weakened_to_nothing > 50, "{empty:?}");
    }
    assert!(trial.made_by_clean > 500, "{}", trial.made_by_clean);
    assert!(trial.made_by_members > 100, "{}", trial.made_by_members);
    assert!(trial.made_by_others > 100, "{}", trial.made_by_others);
    assert!(trial.maker_dead_in_one > 20, "{}", trial.maker_dead_in_one);
    assert!(trial.makers_compared > 2000 && trial.makers_compared_with > 500);
    assert!(trial.makers_left_out > 300 && trial.makers_that_differ > 20);
    assert!(trial.reclaimed_in_one > 100);
    let tally = &trial.tally;
    assert!(tally.reclaimed_held > 200 && tally.reclaimed_held_across > 50);
    assert!(tally.makers_taken > 50, "{}", tally.makers_taken);
    let (clean, others) = (tally.anew_by_clean, tally.anew_by_others);
    assert!(
        clean.by_same > 20 && others.by_same > 50,
        "{clean:?} {others:?}"
    );
    assert!(clean.by_another + others.by_another > 5);
    // What is reclaimed stays on its side.
    assert_eq!(clean.crossed + others.crossed, 0);
    for code in 1..=9 {
        let (clean, others) = trial.tally.by_code(code);
        let counts = [clean.done, clean.refused, others.done, others.refused];
        assert!(
            counts.iter().all(|&count| count > 100),
            "{code}: {counts:?}"
        );
    }
    for actor in Actor::ALL {
        assert!(trial.tally.by_actor(actor).refused > 50, "{actor:?}");
    }
}

/// What the two start tables say of makers: those of members differ, those of the others do not, and the maker of an
/// object can be any that is born.
#[test]
fn start_tables_have_makers_of_every_kind() {
    let mut rng = Rng::new(55);
    let (mut differ, mut by_member, mut by_dead, mut by_itself) = (0, 0, 0, 0);
    for _ in 0..500 {
        let start = draw_start(&mut rng);
        for n in 0..64 {
            let (first, second) = (start.first.record(n), start.second.record(n));
            differ += u32::from(first.maker != second.maker);
            let outside = !set::contains(start.members, n) && first.maker != 64;
            let maker = first.maker % 64;
            by_member += u32::from(outside && set::contains(start.members, maker));
            by_dead += u32::from(outside && !start.first.record(maker).is_alive());
            by_itself += u32::from(outside && maker == n);
        }
    }
    println!("{differ} differ; by members {by_member}, by dead {by_dead}, by itself {by_itself}");
    assert!(differ > 200 && by_member > 200 && by_dead > 100 && by_itself > 100);
}

#[test]
fn small_cases_still_break_the_claim_and_only_under_the_broken_rule() {
    for broken in &BROKEN {
        let found = try_pairs(broken.name, &broken.rules, 1, LIMIT)
            .found
            .expect("caught");
        let small = shrink(&broken.rules, &found);
        assert!(small.moves.len() <= found.moves.len());
        assert!(small.moves.len() <= 6, "{}: {small:?}", broken.name);
        let under = |rules| replay(rules, &small.start, &small.moves);
        assert_eq!(under(&broken.rules), Some(small.difference.clone()));
        assert_eq!(under(&Rules::DOCUMENT), None);
    }
}

/// One of the two lists of a drawn pair.
fn requests(drawn: &Drawn, second: bool) -> Vec<Request> {
    let of_run = |next: &Move| match next {
        Move::First(request) => (!second).then(|| request.clone()),
        Move::Second(request) => second.then(|| request.clone()),
        Move::Both(request) => Some(request.clone()),
    };
    drawn.moves.iter().filter_map(of_run).collect()
}

/// Both tests answer alike, unless a member was given something that does not pass in one table.
#[test]
fn start_tables_differ_in_members_alone() {
    let mut rng = Rng::new(50);
    let mut numbers = [0; 14];
    for _ in 0..2000 {
        let start = draw_start(&mut rng);
        for n in set::numbers(!start.members) {
            assert_eq!(start.first.record(n), start.second.record(n));
        }
        let first = confinement_test(&start.first, start.members, &start.list);
        let second = confinement_test(&start.second, start.members, &start.list);
        assert!(first == second || first.number == 12 || second.number == 12);
        numbers[usize::from(first.number.max(second.number))] += 1;
    }
    // What is refused is there for some of the broken models.
    let refused = numbers[12] + numbers[13];
    assert!(numbers[12] > 50 && numbers[13] > 50, "{numbers:?}");
    assert!(refused < 700 && numbers[0] + refused == 2000, "{numbers:?}");
}

/// The claim once more, as document 01 states it: about two whole lists, with the model's
/// functions alone. It shows that the pairs drawn are those that the claim speaks of.
#[test]
fn drawn_pairs_are_two_runs_of_the_claim() {
    let mut rng = Rng::new(51);
    let mut left_out = 0;
    for _ in 0..300 {
        let drawn = draw_pair(&Rules::DOCUMENT, &mut rng);
        let start = &drawn.start;
        for n in set::numbers(!start.members) {
            assert_eq!(start.first.record(n), start.second.record(n));
        }
        let tested = confinement_test(&start.first, start.members, &start.list);
        let second = confinement_test(&start.second, start.members, &start.list);
        assert!(tested.is_accepted());
        assert_eq!(second, tested);
        let clean = clean_at_start(&start.first, start.members, tested.bound);
        assert_ne!(clean, 0);
        let in_second = clean_at_start(&start.second, start.members, tested.bound);
        assert_eq!(in_second, clean);
        let (first, second) = (requests(&drawn, false), requests(&drawn, true));
        let part = clean_part(&start.first, clean, &first);
        assert_eq!(clean_part(&start.second, clean, &second), part);
        let (_, first_end) = run(&start.first, &first);
        let (_, second_end) = run(&start.second, &second);
        for n in set::numbers(part.clean) {
            let [first, second] =
                [&first_end, &second_end].map(|end| claimed_record(end, part.compared, n));
            assert_eq!(first, second);
            left_out += u32::from(first_end.record(n) != second_end.record(n));
        }
        let runs = drawn.runs.expect("two runs");
        assert_eq!(runs.first.table, first_end);
        assert_eq!(runs.second.table, second_end);
        assert_eq!(runs.first.clean, part.clean);
        assert_eq!(runs.first.compared, part.compared);
    }
    assert!(left_out > 10, "{left_out}");
}

fn assert_same_step(rules: &Rules, table: &Table, request: &Request) {
    let mut lent = table.clone();
    let reply = rules.step_in_place(&mut lent, request);
    assert_eq!((reply, lent), step(table, request), "{request:?}");
}

#[test]
fn with_nothing_broken_a_step_is_the_models_step() {
    let mut rng = Rng::new(52);
    for _ in 0..10_000 {
        let table = any_sound_table(&mut rng);
        let request = any_request(&mut rng);
        assert_same_step(&Rules::DOCUMENT, &table, &request);
        let request = likely_request(&mut rng, &table);
        assert_same_step(&Rules::DOCUMENT, &table, &request);
    }
    for code in 1..=9 {
        for aim in STEP_REPLIES.into_iter().filter(|&aim| can_meet(code, aim)) {
            for _ in 0..100 {
                let case = step_case(&mut rng, code, aim);
                assert_same_step(&Rules::DOCUMENT, &case.table, &case.request);
            }
        }
    }
    for kind in EmptyKind::ALL {
        for _ in 0..100 {
            let case = empty_copy_case(&mut rng, kind);
            assert_same_step(&Rules::DOCUMENT, &case.table, &case.request);
        }
    }
}

#[test]
fn with_nothing_broken_the_test_is_the_models_test() {
    let mut rng = Rng::new(53);
    for aim in CONFINEMENT_NUMBERS {
        for _ in 0..400 {
            let case = confinement_case(&mut rng, aim);
            let expected = confinement_test(&case.table, case.members, &case.list);
            let found = Rules::DOCUMENT.confinement_test(&case.table, case.members, &case.list);
            assert_eq!(found, expected);
        }
    }
}

/// Whether rules can change a step with the code.
fn may_change(rules: &Rules, code: u8) -> bool {
    let weakening = rules.weakening != Weakening::ToWk;
    let empty = rules.empty != Empty::WhatItHeld;
    match code {
        1 => rules.makers == Makers::TakenByReader,
        3 => weakening || empty,
        4 | 6 => empty,
        7 => empty || rules.makes != Makes::OwnStock || rules.recorded != Recorded::Actor,
        8 => rules.destroyed != Destroyed::Kind,
        9 => {
            rules.reclaimable != Reclaimable::ByWr
                || rules.left != Left::Nothing
                || rules.joins != Joins::Actor
        }
        _ => false,
    }
}

/// A broken model departs from the document in steps of few codes, in the test or in what is compared, never in two of
/// these.
#[test]
fn a_broken_rule_leaves_the_rest_as_it_is() {
    let mut rng = Rng::new(54);
    for broken in &BROKEN {
        let rules = &broken.rules;
        let test_is_whole = rules.access == Access::AsWritten
            && rules.unlisted == Unlisted::WkAlone
            && rules.naming == Naming::All
            && rules.stand_in == StandIn::List
            && rules.rounds == Rounds::AsWritten;
        let steps_are_whole = !(1..=9).any(|code| may_change(rules, code));
        let claim_is_whole = rules.compared == Compared::MadeByClean;
        let whole = [test_is_whole, steps_are_whole, claim_is_whole];
        let broken_parts = whole.iter().filter(|part| !**part).count();
        assert_eq!(broken_parts, 1, "{}", broken.name);
        for _ in 0..300 {
            let table = any_sound_table(&mut rng);
            let request = likely_request(&mut rng, &table);
            if !may_change(rules, request.code()) {
                assert_same_step(rules, &table, &request);
            }
            let aim = rng.pick(&CONFINEMENT_NUMBERS).expect("number");
            let case = confinement_case(&mut rng, aim);
            let expected = confinement_test(&case.table, case.members, &case.list);
            let found = rules.confinement_test(&case.table, case.members, &case.list);
            if test_is_whole {
                assert_eq!(found, expected);
            }
        }
    }
}

fn command(words: &[&str]) -> (Option<i32>, String) {
    let output = Command::new(env!("CARGO_BIN_EXE_yavrinks-tools"))
        .arg("two-runs")
        .args(words)
        .output()
        .expect("output");
    let text = String::from_utf8(output.stdout).expect("text");
    (output.status.code(), text)
}

#[test]
fn the_command_tells_its_findings_by_text_and_status() {
    let (status, text) = command(&["--broken", "fetch-not-weakened"]);
    assert_eq!(status, Some(0));
    assert!(text.contains("caught at pair"));
    // No pair, nothing caught.
    let (status, text) = command(&["--broken", "rd-one-way", "--pairs", "0"]);
    assert_eq!(status, Some(1));
    assert!(text.contains("NOT CAUGHT"));
    for words in [
        &["--broken", "nothing"][..],
        &["--seed", "x"],
        &["--pairs"],
        &["pairs", "1"],
    ] {
        assert_eq!(command(words), (Some(2), String::new()));
    }
}
