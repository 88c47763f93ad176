//! The first lines of a module of cases: the names that its statements use, and short words for the
//! values of the model.

/// The crates that the statements are about. What these stand on comes with them.
pub const CRATES: [&str; 10] = [
    "isolation",
    "captable",
    "chains",
    "groups",
    "group_tests",
    "report",
    "image_out",
    "take_grant",
    "wire",
    "entries",
];

pub const HEAD: &str = "\
-- Answers of the model, which the definitions have to give too.
use mathlib.Core.Path.{◌≡◌, refl}
use mathlib.Core.Bool.{Bool, true, false, ◌&&◌}
use mathlib.Core.List.{List, [], ◌∷◌, map}
use Prim.Native.Nat.{ℕ}
use Rattle.std.specs.Prelude.{Result, Ok, Err}
use Rattle.mask.specs.Sets.{bits, has}
use Rattle.table.specs.declared.Capability.{Capability}
use Rattle.table.specs.declared.Record.{Record}
use Rattle.table.specs.declared.Table.{Table}
use Rattle.table.specs.Cells.{record_at, put_record}
use Rattle.table.specs.Soundness.{sound}
use Rattle.rights.specs.declared.Need.TheVariants.{ReadOrWeak, Write, Send}
use Rattle.rights.specs.declared.Worth.{Worth}
use Rattle.rights.specs.Rows.{worth_of, need_met, weaken}
use Rattle.requests.specs.declared.Pair.{Pair}
use Rattle.requests.specs.Asks.{Ask, read, write, fetch, store, revoke, send, allocate, destroy, reclaim, unknown}
use Rattle.refusals.specs.Replies.{number}
use Rattle.copies.specs.Copies.{landed}
use Rattle.steps.specs.declared.Stepped.{Stepped}
use Rattle.steps.specs.Steps.{step_of, run_table, run_replies}
use Rattle.access.specs.declared.AccessRefusal.{AccessRefusal}
use Rattle.relation.specs.Relation.{rd, wr, wk, tx, table_holding}
use Rattle.access.specs.Answers.{access_of}
use Rattle.groups.specs.Groups.{group_of, row_by_groups}
use Rattle.groups.specs.Answers.{access_by_groups}
use Rattle.group_tests.specs.Bounds.{bound_by_groups}
use Rattle.bounds.specs.declared.Grown.{Grown}
use Rattle.confinement.specs.declared.TestRefusal.{TestRefusal}
use Rattle.confinement.specs.Refusals.{passes}
use Rattle.confinement.specs.Rounds.{objects_after}
use Rattle.confinement.specs.Tests.{test_of}
use Rattle.links.specs.Links.{word_edge}
use Rattle.walks.specs.declared.Walked.{Walked}
use Rattle.walks.specs.Chains.{least_chain}
use Rattle.chains.specs.declared.ChainRefusal.{ChainRefusal}
use Rattle.chains.specs.Answers.{chain_of}
use Rattle.image.specs.declared.Version.TheVariants.{One, Two}
use Rattle.image.specs.declared.ReadRefusal.{ReadRefusal}
use Rattle.image.specs.Images.{read_of}
use Rattle.image_out.specs.Written.{write_refusal, written_of}
use Rattle.take_grant.specs.declared.ImportRefusal.{ImportRefusal}
use Rattle.take_grant.specs.Imports.{import_of}
use Rattle.wire.specs.Wires.{ask_from}
use Rattle.entries.specs.Entries.{entries_in}
use Rattle.lines.specs.declared.Refused.{Refused}
use Rattle.report.specs.Decisions.{decision_of}
use Rattle.captable.specs.declared.Outcome.{Outcome}
use Rattle.captable.specs.Crossing.{stepped as stepped_out, related as related_out, found, chained, loaded as loaded_out, brought_in, written_number as write_number}
use Rattle.isolation.specs.Clean.{clean_at_start, clean_after, clean_at_end, clean_requests, clean_replies, compared_at_start, compared_at_end}

abbrev object : ℕ → ℕ → ℕ → ℕ → ℕ → Record
object status kind word stock maker = record { status = status; kind = kind; maker = maker; word = word; stock = stock }

abbrev unborn : Record
unborn = object 0 0 0 0 64

abbrev slot : ℕ → ℕ → Capability
slot target rights = record { target = target; rights = rights }

abbrev free : Capability
free = slot 0 0

abbrev pair : ℕ → ℕ → Pair
pair from to = record { from = from; to = to }

abbrev with_maker : Record → ℕ → Record
with_maker r maker = object r.status r.kind r.word r.stock maker

abbrev among : ℕ → ℕ → Bool
among set n = has n set

abbrev in_both : (ℕ → Bool) → (ℕ → Bool) → ℕ → Bool
in_both one other n = one n && other n

abbrev sound_if : Table → ℕ → ℕ → Bool
sound_if t n maker = sound (put_record t n (with_maker (record_at t n) maker))

-- What the calls answer, by the definitions of what crosses: these say what goes with a refusal.
abbrev outcome : Outcome → ℕ × Table
outcome o = (o.number, o.table)

abbrev stepped : Stepped → ℕ × Table
stepped s = outcome (stepped_out s)

abbrev tested : Result Grown TestRefusal → ℕ × ℕ × ℕ
tested r = ((found r).number, (found r).bound, (found r).rounds)

abbrev shown : Result Walked ChainRefusal → ℕ × ℕ × List ℕ
shown r = ((chained r).number, (chained r).count, (chained r).numbers)

abbrev related : Result (List ℕ) AccessRefusal → ℕ × List ℕ
related r = ((related_out r).number, (related_out r).rows)

abbrev loaded : Result Table ReadRefusal → ℕ × Table
loaded r = outcome (loaded_out r)

abbrev imported : Result Table ImportRefusal → ℕ × Table
imported r = outcome (brought_in r)

-- A refused decision has no bound, for which the model says 0.
abbrev decided : Result ℕ Refused → ℕ × ℕ
decided (Ok bound) = (0, bound)
decided (Err why) = (why.number, 0)
";
