//! The cases: what the definitions are asked, and what the model answers.
//! Every expected value is computed here, by the model; only the shared tests and steps come with their own.

use crate::generate::{printed_number, ConfinementCase, ShownCase};
use crate::rights::{Cells, Row};
use crate::rows::{row, rows};
use yavrinks_model::access::potential_access;
use yavrinks_model::chain::chain;
use yavrinks_model::confine::confine;
use yavrinks_model::confinement::{confinement_test, passes, Entry, Tested, MAX_ENTRIES};
use yavrinks_model::groups::{access_by_groups, group_of, test_by_groups};
use yavrinks_model::image::{read, write, Version};
use yavrinks_model::refusal::Refusal;
use yavrinks_model::rounds::rounds;
use yavrinks_model::runs::{clean_after, clean_at_start, clean_part, run, CleanPart};
use yavrinks_model::set;
use yavrinks_model::step::{landed, step, weaken, Code, Request};
use yavrinks_model::table::{Capability, Table};
use yavrinks_model::take_grant::import;
use yavrinks_model::wire;

/// What is asked of the clean objects along a run.
#[derive(Clone, Copy, Debug, PartialEq, Eq)]
pub enum Part {
    AtStart,
    AtEnd,
    /// Those at the end whose makers are compared.
    Compared,
    Requests,
    Replies,
}

impl Part {
    pub const ALL: [Part; 5] = [
        Part::AtStart,
        Part::AtEnd,
        Part::Compared,
        Part::Requests,
        Part::Replies,
    ];
}

/// What is asked of an object by groups.
#[derive(Clone, Copy, Debug, PartialEq, Eq)]
pub enum GroupRow {
    Group,
    /// Over whom it has the right.
    Over(u8),
}

/// What is asked.
#[derive(Clone, Debug, PartialEq, Eq)]
pub enum Question {
    /// The clean objects along a run from an accepted test, their requests and the replies to these.
    Clean {
        start: ConfinementCase,
        requests: Vec<Request>,
        parts: Vec<Part>,
    },
    /// The clean objects after one request, where any numbers are clean before it.
    CleanAfter {
        table: Table,
        clean: u64,
        request: Request,
    },
    Step {
        table: Table,
        request: Request,
    },
    /// What a slot holds after each of some copies to it.
    Landing {
        held: Capability,
        copies: Vec<Capability>,
    },
    /// What some rights values are worth, whole.
    Worth {
        values: Vec<u8>,
    },
    /// Which of some rights values have what a request needs, for each of the three needs.
    Needs {
        values: Vec<u8>,
    },
    /// What some capabilities are weakened to.
    Weakening {
        held: Vec<Capability>,
    },
    Run {
        table: Table,
        requests: Vec<Request>,
    },
    Test(ConfinementCase),
    /// What is there after so many rounds of an accepted test, for some numbers of rounds.
    There {
        test: ConfinementCase,
        after: Vec<usize>,
    },
    /// Which of some capabilities pass, where a member holds them to non-members.
    Passing {
        list: Vec<Entry>,
        held: Vec<Capability>,
    },
    Chain(ShownCase),
    /// The least chain over the links of a case, as 64 words; the case is one whose chain is shown.
    LeastChain(ShownCase),
    Access {
        table: Table,
    },
    /// Potential access by groups.
    AccessByGroups {
        table: Table,
    },
    /// The group, or a row of potential access by groups, of some numbers of a sound table.
    ByGroups {
        table: Table,
        row: GroupRow,
        numbers: Vec<u8>,
    },
    /// The bound of an accepted test by groups.
    BoundByGroups(ConfinementCase),
    /// Whether a table is sound where a record has each of some makers.
    Sound {
        table: Table,
        n: u8,
        makers: Vec<u8>,
    },
    Read {
        image: Vec<u8>,
    },
    Write {
        version: Version,
        table: Table,
        buffer: Vec<u8>,
    },
    /// What the program decides of an input.
    Decision {
        input: Vec<u8>,
    },
    /// The table that a take-and-grant table becomes.
    Import {
        bytes: Vec<u8>,
    },
    /// Which request bytes are.
    RequestBytes {
        bytes: Vec<u8>,
    },
    /// Which list of a test bytes are.
    ListBytes {
        bytes: Vec<u8>,
    },
}

/// What is answered: a number, 0 for done, and what comes with it.
#[derive(Clone, Debug, PartialEq, Eq)]
pub enum Answer {
    /// The clean objects at the start, and what they have of the run.
    Clean(u64, CleanPart),
    /// The clean objects, or the bound.
    Set(u64),
    /// A set for each number that is asked about.
    Sets(Vec<u64>),
    Table(u8, Table),
    /// What the slot holds after each copy, or what each capability is weakened to.
    Slots(Vec<Capability>),
    /// What each rights value is worth.
    Worth(Vec<Cells>),
    /// The replies of a run and its last table.
    Run(Vec<u8>, Table),
    Tested(Tested),
    /// The objects that are there after each number of rounds.
    There(Vec<u64>),
    /// For each capability, whether it passes; where one does not, this counts as refused by 12.
    Passing(Vec<bool>),
    /// For each maker, whether the table is sound; where it is not, this counts as refused by 1.
    Sound(Vec<bool>),
    /// The object numbers of a chain.
    Chain(u8, Vec<u8>),
    /// The rows of a relation.
    Rows(u8, Vec<u64>),
    Buffer(u8, Vec<u8>),
    /// The bound comes with the number.
    Decided(u8, u64),
    /// A request; one without fields counts as refused by 2.
    Ask(Request),
    /// A list; one that is too long counts as refused by 11.
    Entries(Vec<Entry>),
}

/// A question with the answer that the definitions have to give.
#[derive(Clone, Debug, PartialEq, Eq)]
pub struct Case {
    pub question: Question,
    pub answer: Answer,
}

impl Case {
    /// The case with the model's answer.
    pub fn new(question: Question) -> Case {
        let answer = question.answer();
        Case { question, answer }
    }
}

const CLEAN: &str = "clean along a run";
const CLEAN_AFTER: &str = "clean after one";
const UNKNOWN: &str = "unknown code";
const LANDING: &str = "where a copy lands";
const WORTH: &str = "worth of rights";
const NEEDS: &str = "needed rights";
const WEAKENING: &str = "weakened rights";
const RUN: &str = "run, last reply";
const TEST: &str = "confinement test";
const THERE: &str = "there after rounds";
const PASSING: &str = "rights of a member";
const CHAIN: &str = "chain to an object";
const LEAST_CHAIN: &str = "least chain";
const ACCESS: &str = "potential access";
const GROUP: &str = "group of an object";
const ROW_BY_GROUPS: &str = "row by groups";
const ACCESS_BY_GROUPS: &str = "access by groups";
const BOUND_BY_GROUPS: &str = "bound by groups";
const SOUND: &str = "sound by makers";
const READ: &str = "image read";
const OLDER: &str = "image written, older";
const WRITTEN: &str = "image written";
const DECISION: &str = "what confine decides";
const IMPORT: &str = "import";
const REQUEST_BYTES: &str = "request as bytes";
const LIST_BYTES: &str = "list as bytes";

/// Everything that can be asked, in the order of the summary.
pub fn subjects() -> Vec<String> {
    let mut subjects = vec![CLEAN.to_string(), CLEAN_AFTER.to_string()];
    subjects.extend(Code::ALL.map(Code::label));
    let steps = [UNKNOWN, LANDING, WORTH, NEEDS, WEAKENING, RUN];
    let wholes = [TEST, THERE, PASSING, CHAIN, LEAST_CHAIN, ACCESS, SOUND];
    let groups = [GROUP, ROW_BY_GROUPS, ACCESS_BY_GROUPS, BOUND_BY_GROUPS];
    let images = [READ, OLDER, WRITTEN, DECISION];
    let bytes = [IMPORT, REQUEST_BYTES, LIST_BYTES];
    let others = steps.into_iter().chain(wholes).chain(groups);
    let others = others.chain(images).chain(bytes);
    subjects.extend(others.map(String::from));
    subjects
}

impl Question {
    /// The model's answer.
    fn answer(&self) -> Answer {
        match self {
            Question::Clean {
                start, requests, ..
            } => clean_answer(start, requests),
            Question::CleanAfter {
                table,
                clean,
                request,
            } => {
                let (reply, _) = step(table, request);
                Answer::Set(clean_after(table, *clean, request, reply))
            }
            Question::Step { table, request } => table_answer(step(table, request)),
            Question::Landing { held, copies } => {
                Answer::Slots(copies.iter().map(|&copy| landed(*held, copy)).collect())
            }
            Question::Worth { values } | Question::Needs { values } => {
                let cells = values.iter().map(|&value| Row::of_model(value).cells);
                Answer::Worth(cells.collect())
            }
            Question::Weakening { held } => {
                Answer::Slots(held.iter().copied().map(weaken).collect())
            }
            Question::Run { table, requests } => {
                let (replies, after) = run(table, requests);
                Answer::Run(replies, after)
            }
            Question::Test(case) => {
                let tested = confinement_test(&case.table, case.members, &case.list);
                Answer::Tested(tested)
            }
            Question::There { test, after } => {
                let added = rounds(&test.table, test.members, &test.list);
                let there = after.iter().map(|&k| there_after(&added, k));
                Answer::There(there.collect())
            }
            Question::Passing { list, held } => {
                Answer::Passing(held.iter().map(|&one| passes(list, one)).collect())
            }
            Question::Chain(ShownCase { test, object })
            | Question::LeastChain(ShownCase { test, object }) => {
                let (number, chain) = chain(&test.table, test.members, &test.list, *object);
                Answer::Chain(number, chain)
            }
            Question::Access { table } => {
                let (number, access) = potential_access(table);
                Answer::Rows(number, rows(&access))
            }
            Question::AccessByGroups { table } => {
                let (number, access) = access_by_groups(table);
                Answer::Rows(number, rows(&access))
            }
            Question::ByGroups {
                table,
                row,
                numbers,
            } => group_answer(table, *row, numbers),
            Question::BoundByGroups(test) => {
                let tested = test_by_groups(&test.table, test.members, &test.list);
                Answer::Set(tested.bound)
            }
            Question::Sound { table, n, makers } => {
                let sound = makers.iter().map(|&maker| sound_if(table, *n, maker));
                Answer::Sound(sound.collect())
            }
            Question::Read { image } => table_answer(read(image)),
            Question::Write {
                version,
                table,
                buffer,
            } => {
                let mut written = buffer.clone();
                let number = write(*version, table, &mut written);
                Answer::Buffer(number, written)
            }
            Question::Decision { input } => decision(&confine(input)),
            Question::Import { bytes } => table_answer(import(bytes)),
            Question::RequestBytes { bytes } => Answer::Ask(wire::decode(bytes)),
            Question::ListBytes { bytes } => Answer::Entries(wire::decode_list(bytes)),
        }
    }

    /// Which of the subjects is asked.
    pub fn subject(&self) -> String {
        let subject = match self {
            Question::Clean { .. } => CLEAN,
            Question::CleanAfter { .. } => CLEAN_AFTER,
            Question::Step { request, .. } => match Code::of(request.code()) {
                Some(code) => return code.label(),
                None => UNKNOWN,
            },
            Question::Landing { .. } => LANDING,
            Question::Worth { .. } => WORTH,
            Question::Needs { .. } => NEEDS,
            Question::Weakening { .. } => WEAKENING,
            Question::Run { .. } => RUN,
            Question::Test { .. } => TEST,
            Question::There { .. } => THERE,
            Question::Passing { .. } => PASSING,
            Question::Chain { .. } => CHAIN,
            Question::LeastChain { .. } => LEAST_CHAIN,
            Question::Access { .. } => ACCESS,
            Question::AccessByGroups { .. } => ACCESS_BY_GROUPS,
            Question::ByGroups { row, .. } => match row {
                GroupRow::Group => GROUP,
                GroupRow::Over(_) => ROW_BY_GROUPS,
            },
            Question::BoundByGroups(_) => BOUND_BY_GROUPS,
            Question::Sound { .. } => SOUND,
            Question::Read { .. } => READ,
            Question::Write { version, .. } => match version {
                Version::One => OLDER,
                Version::Two => WRITTEN,
            },
            Question::Decision { .. } => DECISION,
            Question::Import { .. } => IMPORT,
            Question::RequestBytes { .. } => REQUEST_BYTES,
            Question::ListBytes { .. } => LIST_BYTES,
        };
        subject.to_string()
    }
}

impl Answer {
    /// The number that is answered; of a run, that of its last request.
    pub fn number(&self) -> u8 {
        match self {
            Answer::Table(number, _)
            | Answer::Chain(number, _)
            | Answer::Rows(number, _)
            | Answer::Buffer(number, _)
            | Answer::Decided(number, _) => *number,
            Answer::Tested(tested) => tested.number,
            Answer::Run(replies, _) => replies.last().copied().unwrap_or(0),
            Answer::Ask(Request::Unknown { .. }) => 2,
            Answer::Entries(list) if list.len() > MAX_ENTRIES => 11,
            Answer::Passing(all) if all.contains(&false) => Refusal::RightNotListed.number(),
            Answer::Sound(all) if all.contains(&false) => Refusal::TableNotSound.number(),
            Answer::Clean(..) | Answer::Set(_) | Answer::Sets(_) | Answer::Slots(_) => 0,
            Answer::Worth(_) | Answer::There(_) => 0,
            Answer::Ask(_) | Answer::Entries(_) | Answer::Passing(_) | Answer::Sound(_) => 0,
        }
    }
}

fn sound_if(table: &Table, n: u8, maker: u8) -> bool {
    let mut table = table.clone();
    table.record_mut(n).maker = maker;
    table.is_sound()
}

/// What the model has by groups for each of the numbers.
fn group_answer(table: &Table, of: GroupRow, numbers: &[u8]) -> Answer {
    let (_, access) = access_by_groups(table);
    let set = |&n: &u8| match of {
        GroupRow::Group => group_of(table, n),
        GroupRow::Over(right) => row(&access, right, n),
    };
    Answer::Sets(numbers.iter().map(set).collect())
}

/// What a printed text says: the number, and the bound, a number a line.
fn decision(printed: &str) -> Answer {
    let numbers = printed.lines().filter_map(|line| line.parse::<u8>().ok());
    Answer::Decided(printed_number(printed), set::of(numbers))
}

fn table_answer((number, table): (u8, Table)) -> Answer {
    Answer::Table(number, table)
}

/// What is there after so many rounds: nothing before the first, and after the last that added an object always the
/// same.
fn there_after(added: &[u64], rounds: usize) -> u64 {
    let taken = &added[..rounds.min(added.len())];
    taken.last().copied().unwrap_or(0)
}

fn clean_answer(start: &ConfinementCase, requests: &[Request]) -> Answer {
    let tested = confinement_test(&start.table, start.members, &start.list);
    let clean = clean_at_start(&start.table, start.members, tested.bound);
    Answer::Clean(clean, clean_part(&start.table, clean, requests))
}
