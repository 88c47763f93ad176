//! The counts of a trial as a table to read.

use super::tally::{Actor, Tally};
use super::trial::Trial;
use yavrinks_model::step::Code;

/// The counts of a trial, and the number of differences.
pub fn trial_text(trial: &Trial) -> String {
    let tally = &trial.tally;
    let (clean, others) = (tally.empty_by_clean, tally.empty_by_others);
    let (by_clean, by_others) = tally.by_code(Code::Reclaim.number());
    let (anew, anew_others) = (tally.anew_by_clean, tally.anew_by_others);
    let crossed = anew.crossed + anew_others.crossed;
    let mut text = codes_text(tally) + "\n" + &actors_text(tally) + "\n";
    let rows = [
        ("pairs of runs", trial.pairs),
        ("  with different start tables", trial.starts_differ),
        ("  with a bound that is not empty", trial.bound_not_empty),
        ("  with a bound of three rounds or more", trial.many_rounds),
        ("  with lists of different length", trial.lengths_differ),
        ("  with different tables at the end", trial.ends_differ),
        ("  with unlisted wk in one table", trial.unlisted_in_one),
        ("  with unlisted wk in both tables", trial.unlisted_in_both),
        ("  with it used in one run only", trial.used_in_one),
        ("  with empty copies in one run only", trial.empty_in_one),
        ("  with reclaims in one run only", trial.reclaimed_in_one),
        ("clean objects at the start", trial.clean_at_start),
        ("objects made clean on the way", trial.made_clean),
        ("objects made by others on the way", tally.by_code(7).1.done),
        ("clean objects made by clean ones", trial.made_by_clean),
        ("clean objects made by members", trial.made_by_members),
        ("clean objects made by others", trial.made_by_others),
        (
            "  with a maker dead in one run only",
            trial.maker_dead_in_one,
        ),
        ("makers of clean objects compared", trial.makers_compared),
        ("  that are not 64", trial.makers_compared_with),
        ("makers of clean objects left out", trial.makers_left_out),
        ("  that differ", trial.makers_that_differ),
        ("reclaims by clean actors", by_clean.done),
        ("reclaims by others", by_others.done),
        ("  of a number that another holds", tally.reclaimed_held),
        ("  that one across holds", tally.reclaimed_held_across),
        ("  of a clean object's maker", tally.makers_taken),
        ("made anew by clean, who reclaimed", anew.by_same),
        ("made anew by another clean one", anew.by_another),
        ("made anew by others, who reclaimed", anew_others.by_same),
        ("made anew by another of the others", anew_others.by_another),
        ("  from clean to others or back", crossed),
        ("done by others to clean objects", tally.of_clean_by_others),
        ("  read through unlisted wk", tally.unlisted_reads),
        ("  fetched through unlisted wk", tally.unlisted_fetches),
        ("empty copies by clean actors", clean.all),
        ("  on a filled slot", clean.on_filled),
        ("  weakened to nothing", clean.weakened_to_nothing),
        ("empty copies by others", others.all),
        ("  on a filled slot", others.on_filled),
        ("  weakened to nothing", others.weakened_to_nothing),
        ("  of a clean object's slot", others.of_clean),
    ];
    for (name, count) in rows {
        text.push_str(&format!("{name:<38}{count:>10}\n"));
    }
    let differences = u64::from(trial.found.is_some());
    text.push_str(&format!("\n{differences} differences\n"));
    text
}

/// Requests of both runs, by code.
fn codes_text(tally: &Tally) -> String {
    let mut text = format!(
        "{:<24}{:>22}{:>24}\n{:<24}{:>11}{:>11}{:>13}{:>11}\n",
        "requests", "by clean actors", "by others", "", "done", "refused", "done", "refused"
    );
    let known = Code::ALL.map(|code| (code.number(), code.label()));
    for (code, name) in known.into_iter().chain([(0, "other codes".into())]) {
        let (clean, others) = tally.by_code(code);
        text.push_str(&format!(
            "{:<24}{:>11}{:>11}{:>13}{:>11}\n",
            name, clean.done, clean.refused, others.done, others.refused
        ));
    }
    text
}

/// Requests of both runs, by who asked.
fn actors_text(tally: &Tally) -> String {
    let mut text = format!("{:<24}{:>11}{:>11}\n", "who asked", "done", "refused");
    for actor in Actor::ALL {
        let name = match actor {
            Actor::Clean => "clean objects",
            Actor::Member => "members",
            Actor::Bound => "bound objects",
            Actor::MadeByOthers => "objects made by others",
            Actor::Unborn => "unborn numbers",
            Actor::NoNumber => "actors above 63",
        };
        let count = tally.by_actor(actor);
        text.push_str(&format!(
            "{name:<24}{:>11}{:>11}\n",
            count.done, count.refused
        ));
    }
    text
}
