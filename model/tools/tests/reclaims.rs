//! Reclaims in the cases of `vectors` and in those that are drawn: every kind comes, every reply, and each wrong
//! reading of 2.8 is told apart.

use std::collections::BTreeMap;

use yavrinks_model::runs::{clean_after, clean_at_start};
use yavrinks_model::step::{step, step_in_place, Request};
use yavrinks_model::table::Table;
use yavrinks_tools::generate::{reclaim_case, ReclaimKind, StepCase};
use yavrinks_tools::misread_reclaim::{Misread, MisreadClean};
use yavrinks_tools::rng::Rng;
use yavrinks_tools::two_runs::rules::Rules;
use yavrinks_tools::two_runs::runs::Move;
use yavrinks_tools::two_runs::trial::draw_pair;
use yavrinks_tools::vectors::{chain, edges, shared_step_cases, step_cases};

fn is_reclaim(case: &&StepCase) -> bool {
    matches!(case.request, Request::Reclaim { .. })
}

/// The kinds of a reclaim that is done.
fn kinds(table: &Table, request: &Request) -> Vec<ReclaimKind> {
    let Request::Reclaim { actor, t } = *request else {
        return Vec::new();
    };
    let target = table.record(actor).slots[usize::from(t)].target;
    let is_so = |kind: &ReclaimKind| kind.is_in(table, actor, target);
    ReclaimKind::ALL.into_iter().filter(is_so).collect()
}

#[test]
fn a_case_of_each_kind_is_done_and_is_so() {
    let mut rng = Rng::new(80);
    for kind in ReclaimKind::ALL {
        for _ in 0..50 {
            let case = reclaim_case(&mut rng, kind);
            assert!(case.table.is_sound());
            let (reply, after) = step(&case.table, &case.request);
            assert_eq!(reply, 0);
            assert!(after.is_sound());
            assert!(
                kinds(&case.table, &case.request).contains(&kind),
                "{kind:?}"
            );
        }
    }
}

/// Counts of the kinds among requests that are done, one after another or each on its table.
fn in_order(start: &Table, requests: &[Request]) -> (BTreeMap<ReclaimKind, u32>, u32) {
    let (mut counts, mut done) = (BTreeMap::new(), 0);
    let mut table = start.clone();
    for request in requests {
        let before = table.clone();
        if step_in_place(&mut table, request) == 0 {
            for kind in kinds(&before, request) {
                *counts.entry(kind).or_default() += 1;
            }
            done += u32::from(matches!(request, Request::Reclaim { .. }));
        }
    }
    (counts, done)
}

#[test]
fn steps_have_reclaims_of_every_kind_and_reply() {
    let cases = step_cases();
    let reclaims: Vec<&StepCase> = cases.iter().filter(is_reclaim).collect();
    let mut replies: BTreeMap<u8, u32> = BTreeMap::new();
    let mut of_kinds: BTreeMap<ReclaimKind, u32> = BTreeMap::new();
    for case in &reclaims {
        let reply = step(&case.table, &case.request).0;
        *replies.entry(reply).or_default() += 1;
        if reply == 0 {
            for kind in kinds(&case.table, &case.request) {
                *of_kinds.entry(kind).or_default() += 1;
            }
        }
    }
    println!("{} reclaims, {replies:?}, {of_kinds:?}", reclaims.len());
    assert!(replies.keys().eq(&[0, 1, 2, 3, 4, 6, 24]));
    assert!(replies.values().all(|&count| count >= 4));
    assert!(ReclaimKind::ALL.iter().all(|kind| of_kinds[kind] >= 1));
}

/// A number that was reclaimed is made anew, in the chain and at the edges.
#[test]
fn chains_reclaim_and_make_anew() {
    for (chain, least) in [(chain(), 10), (edges(), 3)] {
        let (counts, done) = in_order(&chain.start, &chain.requests);
        println!("{done} done, {counts:?}");
        assert!(done >= least, "{done}");
        let (mut reclaimed, mut anew) = (0_u64, 0);
        let mut table = chain.start.clone();
        for request in &chain.requests {
            let before = table.clone();
            if step_in_place(&mut table, request) != 0 {
                continue;
            }
            match *request {
                Request::Reclaim { actor, t } => {
                    reclaimed |= 1 << before.record(actor).slots[usize::from(t)].target;
                }
                Request::Allocate { n, .. } => anew += reclaimed >> n & 1,
                _ => {}
            }
        }
        println!("{anew} made anew");
        assert!(least < 10 || anew >= 3, "{anew}");
    }
}

/// Each by three cases at least that are not shared ones.
#[test]
fn the_cases_of_vectors_tell_wrong_readings_apart() {
    let own: Vec<StepCase> = step_cases()
        .into_iter()
        .skip(shared_step_cases().len())
        .collect();
    for misread in Misread::ALL {
        let told = own.iter().filter(is_reclaim).filter(|case| {
            let right = step(&case.table, &case.request);
            misread.step(&case.table, &case.request) != right
        });
        let count = told.count();
        println!("{misread:?}: {count}");
        assert!(count >= 3, "{misread:?}: {count}");
    }
}

/// What is no reclaim is as ever by every reading.
#[test]
fn wrong_readings_are_of_reclaim_alone() {
    for case in step_cases().iter().filter(|case| !is_reclaim(case)) {
        for misread in Misread::ALL {
            let right = step(&case.table, &case.request);
            assert_eq!(misread.step(&case.table, &case.request), right);
        }
    }
}

/// In drawn runs the clean objects are others by every wrong reading of them.
#[test]
fn drawn_runs_tell_wrong_readings_of_clean_apart() {
    let mut rng = Rng::new(81);
    let mut told = [0; MisreadClean::ALL.len()];
    for _ in 0..300 {
        let drawn = draw_pair(&Rules::DOCUMENT, &mut rng);
        let Some(runs) = &drawn.runs else {
            continue;
        };
        let start = &drawn.start;
        let clean = clean_at_start(&start.first, start.members, runs.tested.bound);
        let of_first = drawn.moves.iter().filter_map(|next| match next {
            Move::First(request) | Move::Both(request) => Some(request),
            Move::Second(_) => None,
        });
        let requests: Vec<&Request> = of_first.collect();
        for (misread, told) in MisreadClean::ALL.into_iter().zip(&mut told) {
            let mut table = start.first.clone();
            let (mut right, mut wrong) = (clean, clean);
            for request in &requests {
                let before = table.clone();
                let reply = step_in_place(&mut table, request);
                right = clean_after(&before, right, request, reply);
                wrong = misread.after(&before, wrong, request, reply);
            }
            *told += u32::from(right != wrong);
        }
    }
    println!("{told:?}");
    assert!(told.iter().all(|&count| count >= 20), "{told:?}");
}
