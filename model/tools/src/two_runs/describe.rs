//! A case that breaks the claim, put into words for someone who looks for the reason.

use super::rules::Rules;
use super::runs::{Difference, Move, Start};
use super::trial::Case;
use crate::rights::right_names;
use yavrinks_model::confinement::Tested;
use yavrinks_model::set;
use yavrinks_model::step::{Pair, Request};
use yavrinks_model::table::{Capability, Record, Table, DEAD, NO_MAKER, OBJECTS};

/// A case that breaks the claim: the start, the requests with their replies, what differs.
pub fn case_text(rules: &Rules, case: &Case) -> String {
    let mut text = start_text(rules, &case.start);
    let mut tables = [case.start.first.clone(), case.start.second.clone()];
    let mut replay =
        |run: usize, request: &Request| -> u8 { rules.step_in_place(&mut tables[run], request) };
    for next in &case.moves {
        let line = match next {
            Move::First(request) => {
                let reply = replay(0, request);
                format!("first run   {}: {reply}", request_text(request))
            }
            Move::Second(request) => {
                let reply = replay(1, request);
                format!("second run  {}: {reply}", request_text(request))
            }
            Move::Both(request) => {
                let replies = (replay(0, request), replay(1, request));
                let text = request_text(request);
                format!("both runs   {text}: {} and {}", replies.0, replies.1)
            }
        };
        text.push_str(&format!("  {line}\n"));
    }
    text.push_str(&difference_text(&case.difference, &tables));
    text
}

fn difference_text(difference: &Difference, tables: &[Table; 2]) -> String {
    match difference {
        Difference::Tests(first, second) => {
            let (first, second) = (tested_text(first), tested_text(second));
            format!("  the tests differ: {first} and {second}\n")
        }
        Difference::Replies(first, second) => {
            format!("  the replies to a clean request differ: {first} and {second}\n")
        }
        Difference::Clean(first, second) => {
            let (first, second) = (set_text(*first), set_text(*second));
            format!("  the clean objects differ: {first} and {second}\n")
        }
        Difference::Compared(first, second) => {
            let (first, second) = (set_text(*first), set_text(*second));
            format!("  the compared makers differ: {first} and {second}\n")
        }
        Difference::Object(n) => {
            let [first, second] = tables.each_ref().map(|table| record_text(table.record(*n)));
            format!(
                "  clean object {n} differs\n    first run:  {first}\n    second run: {second}\n"
            )
        }
    }
}

/// Members, list, bound and the born objects; those that differ are shown for both tables.
fn start_text(rules: &Rules, start: &Start) -> String {
    let entries: Vec<String> = start
        .list
        .iter()
        .map(|&(target, rights)| capability_text(Capability::new(target, rights)))
        .collect();
    let tested = rules.confinement_test(&start.first, start.members, &start.list);
    let mut text = format!(
        "  members {}, list [{}], {}\n",
        set_text(start.members),
        entries.join(" "),
        tested_text(&tested)
    );
    for n in 0..OBJECTS as u8 {
        let (first, second) = (start.first.record(n), start.second.record(n));
        if !first.is_born() {
            continue;
        }
        text.push_str(&format!("  object {n}: {}\n", record_text(first)));
        if first != second {
            text.push_str(&format!(
                "    in the second table: {}\n",
                record_text(second)
            ));
        }
    }
    text
}

/// What an accepted test found.
fn tested_text(tested: &Tested) -> String {
    format!(
        "bound {} in rounds {}",
        set_text(tested.bound),
        tested.rounds
    )
}

fn record_text(record: &Record) -> String {
    let status = if record.status == DEAD { "dead, " } else { "" };
    let kind = if record.is_active() {
        "active"
    } else {
        "passive"
    };
    let mut text = format!("{status}{kind}, word {}", record.word);
    if record.maker != NO_MAKER {
        text.push_str(&format!(", made by {}", record.maker));
    }
    if record.stock != 0 {
        text.push_str(&format!(", stock {}", set_text(record.stock)));
    }
    for (k, slot) in record.slots.iter().enumerate() {
        if !slot.is_empty() {
            text.push_str(&format!(", slot {k} {}", capability_text(*slot)));
        }
    }
    text
}

fn capability_text(capability: Capability) -> String {
    let names = right_names(capability.rights);
    format!("({}, {})", capability.target, names.join("+"))
}

fn set_text(set: u64) -> String {
    let numbers: Vec<String> = set::numbers(set).map(|n| n.to_string()).collect();
    format!("{{{}}}", numbers.join(", "))
}

fn pairs_text(list: &[Pair]) -> String {
    let pairs: Vec<String> = list.iter().map(|(i, j)| format!("{i}>{j}")).collect();
    format!("[{}]", pairs.join(" "))
}

/// A request with the fields of document 01, in its order.
fn request_text(request: &Request) -> String {
    let actor = request.actor();
    match request {
        Request::Read { t, .. } => format!("{actor} reads, t {t}"),
        Request::Write { t, word, .. } => format!("{actor} writes, t {t}, word {word}"),
        Request::Fetch { t, i, j, .. } => format!("{actor} fetches, t {t}, i {i}, j {j}"),
        Request::Store { t, i, j, .. } => format!("{actor} stores, t {t}, i {i}, j {j}"),
        Request::Revoke { t, j, .. } => format!("{actor} revokes, t {t}, j {j}"),
        Request::Send {
            t,
            word,
            list,
            reply,
            ..
        } => format!(
            "{actor} sends, t {t}, word {word}, list {}, reply {reply}",
            pairs_text(list)
        ),
        Request::Allocate {
            n,
            kind,
            part,
            i,
            list,
            ..
        } => format!(
            "{actor} allocates, n {n}, kind {kind}, part {}, i {i}, list {}",
            set_text(*part),
            pairs_text(list)
        ),
        Request::Destroy { t, .. } => format!("{actor} destroys, t {t}"),
        Request::Reclaim { t, .. } => format!("{actor} reclaims, t {t}"),
        Request::Unknown { code, .. } => format!("{actor} asks with code {code}"),
    }
}
