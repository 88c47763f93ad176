//! A case as declarations of antt: its values under names of their own, then the statement that
//! the definition gives the expected answer. The checker proves it by computing the definition.

use super::cases::{Answer, Case, GroupRow, Part, Question};
use super::terms;
use crate::generate::{ConfinementCase, ShownCase};
use crate::rights::{Cells, Column};
use yavrinks_model::confinement::{Entry, Tested};
use yavrinks_model::links::Links;
use yavrinks_model::runs::CleanPart;
use yavrinks_model::set;
use yavrinks_model::step::Request;
use yavrinks_model::table::{Capability, Table, RD, WK, WR};

/// The room for the numbers of a chain.
const CHAIN_ROOM: usize = 63;

/// The declarations of a case. `unfolding` are the names that the checker has to look into.
pub fn declarations(case: &Case, number: usize, unfolding: &str) -> String {
    let outcome = match case.answer.number() {
        0 => "done".into(),
        number => format!("refused {number}"),
    };
    let mut writer = Writer {
        number,
        unfolding,
        own: Vec::new(),
        text: format!("-- case {number}: {}, {outcome}\n", case.question.subject()),
    };
    let asked = writer.question(&case.question);
    let (kind, expected) = writer.answer(&case.question, &case.answer);
    writer.computes(&kind, &asked, &expected);
    writer.text
}

/// The declarations of one case, as far as they are written.
struct Writer<'a> {
    number: usize,
    unfolding: &'a str,
    /// The names of the values above, which the statement has to look into too.
    own: Vec<String>,
    text: String,
}

/// The needs by their names in the definitions, with the columns that are about them.
const NEEDS: [(&str, Column); 3] = [
    ("ReadOrWeak", Column::Reads),
    ("Write", Column::Writes),
    ("Send", Column::Sends),
];

/// What a rights value is worth: the rights that a weakened copy has, and the three needs.
fn worth([weakened, reads, writes, sends]: &Cells) -> String {
    let weakened = if *weakened { WK } else { 0 };
    format!("({weakened}, {reads}, {writes}, {sends})")
}

/// The definition that gives the group, or over whom one has a right.
fn group_row(row: GroupRow, table: &str) -> String {
    let right = match row {
        GroupRow::Group => return format!("group_of (table_holding {table})"),
        GroupRow::Over(RD) => "rd",
        GroupRow::Over(WR) => "wr",
        GroupRow::Over(WK) => "wk",
        GroupRow::Over(_) => "tx",
    };
    format!("row_by_groups (table_holding {table}) {right}")
}

/// The number of the stand-in among 64: that of the lowest member.
fn stand_in(test: &ConfinementCase) -> u8 {
    set::numbers(test.members).next().expect("a member")
}

/// The numbers one link from each number.
fn link_words(test: &ConfinementCase) -> [u64; 64] {
    let mut links = Links::among(&test.table, test.table.born() & !test.members);
    for &(target, rights) in &test.list {
        links.add(stand_in(test), Capability::new(target, rights));
    }
    links.from
}

impl Writer<'_> {
    /// Declares the values of a question, and gives the term that answers it.
    fn question(&mut self, question: &Question) -> String {
        match question {
            Question::Clean {
                start,
                requests,
                parts,
            } => self.clean(start, requests, parts),
            Question::CleanAfter {
                table,
                clean,
                request,
            } => {
                let table = self.table("table", table);
                let ask = terms::ask(request);
                format!("bits 64 (clean_after {table} (among {clean}) ({ask}))")
            }
            Question::Step { table, request } => {
                let table = self.table("table", table);
                format!("stepped (step_of {table} ({}))", terms::ask(request))
            }
            Question::Landing { held, copies } => {
                let held = self.value("held", "Capability", &terms::capability(*held));
                let copies = terms::capabilities(copies.iter().copied());
                let copies = self.value("copies", "List Capability", &copies);
                format!("map (landed {held}) {copies}")
            }
            Question::Worth { values } => format!("map worth_of {}", self.bytes("values", values)),
            Question::Needs { values } => {
                let values = self.bytes("values", values);
                let maps = NEEDS.map(|(need, _)| format!("map (need_met {need}) {values}"));
                maps.join(", ")
            }
            Question::Weakening { held } => {
                let held = terms::capabilities(held.iter().copied());
                let held = self.value("held", "List Capability", &held);
                format!("map weaken {held}")
            }
            Question::Run { table, requests } => {
                let table = self.table("table", table);
                let asks = self.asks("requests", requests);
                format!("map number (run_replies {table} {asks}), run_table {table} {asks}")
            }
            Question::Test(case) => format!("tested (test_of {})", self.test(case)),
            Question::There { test, after } => {
                let test = self.test(test);
                let after = terms::numbers(after.iter().map(|&k| k as u64));
                format!("map (objects_after {test}) ({after})")
            }
            Question::Passing { list, held } => {
                let list = self.list(list);
                let held = terms::capabilities(held.iter().copied());
                let held = self.value("held", "List Capability", &held);
                format!("map (passes {list}) {held}")
            }
            Question::Chain(ShownCase { test, object }) => {
                format!("shown (chain_of {} {object})", self.test(test))
            }
            Question::LeastChain(ShownCase { test, object }) => {
                let words = terms::numbers(link_words(test));
                let words = self.value("words", "List ℕ", &words);
                format!(
                    "least_chain (word_edge {words}) {} {object}",
                    stand_in(test)
                )
            }
            Question::Access { table } => {
                format!("related (access_of {})", self.table("table", table))
            }
            Question::AccessByGroups { table } => {
                format!("related (access_by_groups {})", self.table("table", table))
            }
            Question::ByGroups {
                table,
                row,
                numbers,
            } => {
                let table = self.table("table", table);
                let numbers = self.bytes("of", numbers);
                format!("map ({}) {numbers}", group_row(*row, &table))
            }
            Question::BoundByGroups(case) => format!("bound_by_groups {}", self.test(case)),
            Question::Sound { table, n, makers } => {
                let table = self.table("table", table);
                let makers = self.bytes("makers", makers);
                format!("map (sound_if {table} {n}) {makers}")
            }
            Question::Read { image } => format!("loaded (read_of {})", self.bytes("image", image)),
            Question::Write {
                version,
                table,
                buffer,
            } => {
                let table = self.table("table", table);
                let buffer = self.bytes("buffer", buffer);
                let from = format!("{} {table} {buffer}", terms::version(*version));
                format!("write_number (write_refusal {from}), written_of {from}")
            }
            Question::Decision { input } => {
                format!("decided (decision_of {})", self.bytes("input", input))
            }
            Question::Import { bytes } => {
                format!("imported (import_of {})", self.bytes("bytes", bytes))
            }
            Question::RequestBytes { bytes } => format!("ask_from {}", self.bytes("bytes", bytes)),
            Question::ListBytes { bytes } => format!("entries_in {}", self.bytes("bytes", bytes)),
        }
    }

    /// Declares table and list of a test, and gives the arguments that a definition of it takes.
    fn test(&mut self, case: &ConfinementCase) -> String {
        let table = self.table("table", &case.table);
        let list = self.list(&case.list);
        format!("{table} {} {list}", case.members)
    }

    /// The definitions of clean objects, as one term: the checker then computes what they share once.
    fn clean(&mut self, start: &ConfinementCase, requests: &[Request], parts: &[Part]) -> String {
        let at_start = format!("clean_at_start {}", self.test(start));
        let (table, asks) = (self.name("table"), self.asks("requests", requests));
        let from = format!("{table} ({at_start}) {asks}");
        let term = |part: &Part| match part {
            Part::AtStart => format!("bits 64 ({at_start})"),
            Part::AtEnd => format!("bits 64 (clean_at_end {from})"),
            Part::Compared => {
                let compared = format!("compared_at_start {table} ({at_start})");
                let compared = format!("compared_at_end {table} ({at_start}) ({compared}) {asks}");
                format!("bits 64 (in_both (clean_at_end {from}) ({compared}))")
            }
            Part::Requests => format!("clean_requests {from}"),
            Part::Replies => format!("map number (clean_replies {from})"),
        };
        parts.iter().map(term).collect::<Vec<_>>().join(", ")
    }

    /// The types of the same, and what they are to compute to.
    fn clean_answer(&mut self, parts: &[Part], start: u64, along: &CleanPart) -> (String, String) {
        let (mut kinds, mut expected) = (Vec::new(), Vec::new());
        for part in parts {
            let (kind, term) = match part {
                Part::AtStart => ("ℕ", start.to_string()),
                Part::AtEnd => ("ℕ", along.clean.to_string()),
                Part::Compared => ("ℕ", along.compared.to_string()),
                Part::Requests => ("List Ask", self.asks("asked", &along.requests)),
                Part::Replies => ("List ℕ", terms::bytes(&along.replies)),
            };
            kinds.push(kind);
            expected.push(term);
        }
        (kinds.join(" × "), format!("({})", expected.join(", ")))
    }

    /// Declares the values of an answer, and gives its type and its term.
    fn answer(&mut self, question: &Question, answer: &Answer) -> (String, String) {
        let (kind, term) = match answer {
            Answer::Clean(start, along) => {
                let parts = match question {
                    Question::Clean { parts, .. } => parts.as_slice(),
                    _ => &[],
                };
                return self.clean_answer(parts, *start, along);
            }
            Answer::Set(set) => ("ℕ", set.to_string()),
            Answer::Table(number, table) => {
                let table = self.table_after(question, table);
                ("ℕ × Table", format!("({number}, {table})"))
            }
            Answer::Slots(slots) => {
                let slots = terms::capabilities(slots.iter().copied());
                ("List Capability", format!("({slots})"))
            }
            Answer::Worth(rows) if matches!(question, Question::Needs { .. }) => {
                let met = NEEDS.map(|(_, column)| {
                    let met = rows.iter().map(|cells| cells[column as usize]);
                    terms::truths(&met.collect::<Vec<_>>())
                });
                (
                    "List Bool × List Bool × List Bool",
                    format!("({})", met.join(", ")),
                )
            }
            Answer::Worth(rows) => {
                let rows: Vec<String> = rows.iter().map(worth).collect();
                ("List Worth", format!("({})", terms::list(&rows)))
            }
            Answer::Run(replies, table) => {
                let replies = terms::bytes(replies);
                let table = self.table_after(question, table);
                ("List ℕ × Table", format!("({replies}, {table})"))
            }
            Answer::Tested(Tested {
                number,
                bound,
                rounds,
            }) => ("ℕ × ℕ × ℕ", format!("({number}, {bound}, {rounds})")),
            Answer::There(sets) | Answer::Sets(sets) => {
                let sets = terms::numbers(sets.iter().copied());
                ("List ℕ", format!("({sets})"))
            }
            Answer::Passing(truths) | Answer::Sound(truths) => {
                ("List Bool", format!("({})", terms::truths(truths)))
            }
            Answer::Chain(_, chain) if matches!(question, Question::LeastChain(_)) => {
                ("List ℕ", format!("({})", terms::bytes(chain)))
            }
            Answer::Chain(number, chain) => {
                let mut numbers = chain.clone();
                numbers.resize(CHAIN_ROOM, 0);
                let numbers = self.bytes("numbers", &numbers);
                let count = chain.len();
                ("ℕ × ℕ × List ℕ", format!("({number}, {count}, {numbers})"))
            }
            Answer::Rows(number, rows) => {
                let rows = terms::numbers(rows.iter().copied());
                let rows = self.value("rows", "List ℕ", &rows);
                ("ℕ × List ℕ", format!("({number}, {rows})"))
            }
            Answer::Buffer(number, buffer) => {
                let buffer = self.bytes("after", buffer);
                ("ℕ × List ℕ", format!("({number}, {buffer})"))
            }
            Answer::Decided(number, bound) => ("ℕ × ℕ", format!("({number}, {bound})")),
            Answer::Ask(request) => ("Ask", format!("({})", terms::ask(request))),
            Answer::Entries(list) => ("List Capability", format!("({})", terms::entries(list))),
        };
        (kind.to_string(), term)
    }

    fn name(&self, stem: &str) -> String {
        format!("{stem}-{:04}", self.number)
    }

    /// Declares a value, and gives its name.
    fn value(&mut self, stem: &str, kind: &str, term: &str) -> String {
        let name = self.name(stem);
        self.text += &format!("{name} : {kind}\n{name} = {term}\n\n");
        self.own.push(name.clone());
        name
    }

    fn table(&mut self, stem: &str, table: &Table) -> String {
        self.value(stem, "Table", &terms::table(table))
    }

    fn list(&mut self, list: &[Entry]) -> String {
        self.value("list", "List Capability", &terms::entries(list))
    }

    fn asks(&mut self, stem: &str, requests: &[Request]) -> String {
        self.value(stem, "List Ask", &terms::asks(requests))
    }

    fn bytes(&mut self, stem: &str, bytes: &[u8]) -> String {
        self.value(stem, "List ℕ", &terms::bytes(bytes))
    }

    /// Declares the table of an answer, unless the question has the same one.
    fn table_after(&mut self, question: &Question, after: &Table) -> String {
        match question {
            Question::Step { table, .. } | Question::Run { table, .. } if table == after => {
                self.name("table")
            }
            _ => self.table("after", after),
        }
    }

    /// States that a term computes to another. `refl` gets all its arguments: the checker then
    /// computes the term once, where it would do so again for each argument that it has to find.
    fn computes(&mut self, kind: &str, term: &str, expected: &str) {
        let name = self.name("case");
        let (own, unfolding) = (self.own.join(" "), self.unfolding);
        self.text += &format!("{name} : ◌≡◌ {{A = {kind}}} ({term}) {expected}\n");
        self.text += &format!("unfolding {own} {unfolding}\n");
        self.text += &format!("{name} = refl {{0}} {{A = {kind}}} {{a = {expected}}}\n\n");
    }
}
