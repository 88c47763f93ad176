//! Draws the questions of a run from the package's generators, so that every request code and every
//! refusal is asked in turn.

use super::by_groups::{by_groups, BY_GROUPS};
use super::cases::{Answer, Case, Question};
use super::clean::{clean_after_one, clean_run, AFTERS};
use super::landing::{landing, LANDINGS};
use super::makers::{by_makers, STATUSES};
use super::passing::{passing, PASSING_LISTS};
use super::spreading::{spreading, SPREADINGS};
use super::worth::{worth, WORTH_QUESTIONS};
use crate::empty_kinds::EmptyKind;
use crate::generate::{
    allocate_by_made, any_damage, can_meet, confine_input, confinement_case, destroy_of_made,
    empty_copy_case, full_import, image_of, import_case, layered_case, likely_request,
    reclaim_case, reclaim_through, shown_case, sound_table, step_case, write_case, ReclaimKind,
    Shape, StepCase, CONFINEMENT_NUMBERS, CONFINE_NUMBERS, IMAGE_NUMBERS, IMPORT_NUMBERS,
    SHOWN_NUMBERS, STEP_REPLIES, WRITE_NUMBERS,
};
use crate::rng::Rng;
use crate::shared::{
    shared_images, shared_imports, shared_rounds, shared_steps, shared_steps_with_makers,
    shared_steps_with_reclaims, shared_tests, shared_tests_with_reclaims,
};
use crate::shared::{ImageLine, SharedStep, SharedTest};
use yavrinks_model::image::{read, Version, VERSION_AT};
use yavrinks_model::step::{step, step_in_place, Code, Request};
use yavrinks_model::table::{Capability, ALL_RIGHTS, RD, TX, WK, WR};
use yavrinks_model::wire::encode;

/// How much is drawn.
#[derive(Clone, Copy, Debug, PartialEq, Eq)]
pub struct Counts {
    /// Runs of which the clean objects are asked.
    pub runs: usize,
    /// How often everything else is asked: every reply of every code, every number of the test, of a
    /// chain, of reading, of writing and of an import, and some of all else.
    pub rounds: usize,
    /// How many of the shared imports are asked, from the first on.
    pub imports: usize,
    /// How many of the shared tests are asked: those of 2.8, which are those of 2.7 too, then of 2.3, then of 2.6.
    pub tests: usize,
    /// How many of the shared steps are asked: those of 2.8, then of 2.7, then of 2.4.
    pub steps: usize,
    /// How many of the shared images are asked, from the first on.
    pub images: usize,
}

impl Default for Counts {
    fn default() -> Counts {
        Counts {
            runs: 24,
            rounds: 1,
            imports: 0,
            tests: 0,
            steps: 0,
            images: 0,
        }
    }
}

/// All cases of a run: the questions with the model's answers, then the shared tests, the shared steps and the
/// shared images with their own.
pub fn cases(seed: u64, counts: &Counts) -> Vec<Case> {
    let tests = shared_tests_with_reclaims().into_iter();
    let tests = tests.chain(shared_tests()).chain(shared_rounds());
    let tests = tests.take(counts.tests);
    let steps = shared_steps_with_reclaims().into_iter();
    let steps = steps
        .chain(shared_steps_with_makers())
        .chain(shared_steps());
    let steps = steps.take(counts.steps);
    let images = shared_images().into_iter().take(counts.images);
    let questions = questions(seed, counts).into_iter();
    questions
        .map(Case::new)
        .chain(tests.map(stated_test))
        .chain(steps.map(stated_step))
        .chain(images.map(stated_image))
        .collect()
}

/// A shared test, with the answer that stands in its file. Where the file has no rounds, they are the model's.
fn stated_test(shared: SharedTest) -> Case {
    let mut case = Case::new(Question::Test(shared.test));
    if let Answer::Tested(tested) = &mut case.answer {
        (tested.number, tested.bound) = shared.answer;
        tested.rounds = shared.rounds.unwrap_or(tested.rounds);
    }
    case
}

/// A shared step, with the answer that stands in its file.
fn stated_step(shared: SharedStep) -> Case {
    let (number, after) = shared.answer;
    Case {
        question: stated(shared.step),
        answer: Answer::Table(number, after),
    }
}

/// A shared image, read or written, with the answer that stands in its file.
fn stated_image(line: ImageLine) -> Case {
    match line {
        ImageLine::Read { bytes, answer } => Case {
            question: Question::Read { image: bytes },
            answer: Answer::Table(answer.0, answer.1),
        },
        ImageLine::Write {
            version,
            table,
            before,
            answer,
        } => Case {
            question: Question::Write {
                version,
                table,
                buffer: before,
            },
            answer: Answer::Buffer(answer.0, answer.1),
        },
    }
}

/// Draws the question of a turn: the first, the second and so on of its kind.
type Draw = fn(&mut Rng, usize) -> Question;

/// The questions of a run. Each kind has a generator of its own, so that the number of one kind
/// does not change the questions of another.
pub fn questions(seed: u64, counts: &Counts) -> Vec<Question> {
    let in_a_round: [(usize, Draw); 22] = [
        (aims().len(), aimed_step),
        (TELLING, telling_step),
        (4, run),
        (12, test),
        (2, relation),
        (STATUSES.len(), by_makers),
        (IMAGES, image),
        (WRITES, written),
        (DECISIONS, decision),
        (20, request_bytes),
        (6, list_bytes),
        (12, chain),
        (WIDTHS.len(), least_chain),
        (12, import),
        (PASSING_LISTS, passing),
        (EmptyKind::ALL.len(), empty_copy),
        (LANDINGS, landing),
        (WORTH_QUESTIONS, worth),
        (SPREADINGS, spreading),
        (RECLAIMS, reclaim),
        (AFTERS, clean_after_one),
        (BY_GROUPS, by_groups),
    ];
    let rounds = in_a_round.map(|(count, draw)| (counts.rounds * count, draw));
    let mut seeds = Rng::new(seed);
    let mut questions = Vec::new();
    for (count, draw) in [(counts.runs, clean_run as Draw)].into_iter().chain(rounds) {
        let mut rng = Rng::new(seeds.bits());
        questions.extend((0..count).map(|turn| draw(&mut rng, turn)));
    }
    let shared = shared_imports().into_iter().take(counts.imports);
    questions.extend(shared.map(|bytes| Question::Import { bytes }));
    questions
}

/// Codes that are no request.
pub const UNKNOWN_CODES: [u8; 6] = [0, 10, 255, 11, 64, 128];

/// Every code with every reply that it can get. Done comes twice, since only there the table changes.
fn aims() -> Vec<(u8, u8)> {
    let codes = Code::ALL.map(Code::number).into_iter().chain([0]);
    codes
        .flat_map(|code| {
            let twice = [0].into_iter().chain(STEP_REPLIES);
            twice.map(move |aim| (code, aim))
        })
        .filter(|&(code, aim)| can_meet(code, aim))
        .collect()
}

fn aimed_step(rng: &mut Rng, turn: usize) -> Question {
    let aims = aims();
    match aims[turn % aims.len()] {
        (0, aim) => stated(step_case(
            rng,
            UNKNOWN_CODES[turn % UNKNOWN_CODES.len()],
            aim,
        )),
        (code, 0) => loop {
            let case = step_case(rng, code, 0);
            if step(&case.table, &case.request).1 != case.table {
                return stated(case);
            }
        },
        (code, aim) => stated(step_case(rng, code, aim)),
    }
}

fn stated(case: StepCase) -> Question {
    Question::Step {
        table: case.table,
        request: case.request,
    }
}

/// The slots of reclaims that are refused: the number, and the rights.
const REFUSED_RECLAIMS: [(u8, u8); 4] = [(24, WR), (24, RD), (6, WK), (6, RD | TX)];

/// How many reclaims are drawn beside those that are aimed at a reply.
const RECLAIMS: usize = ReclaimKind::ALL.len() + REFUSED_RECLAIMS.len();

/// Every kind of reclaim that is done, then some that are refused.
fn reclaim(rng: &mut Rng, turn: usize) -> Question {
    let place = turn % RECLAIMS;
    stated(match ReclaimKind::ALL.get(place) {
        Some(&kind) => reclaim_case(rng, kind),
        None => {
            let (aim, rights) = REFUSED_RECLAIMS[place - ReclaimKind::ALL.len()];
            reclaim_through(rng, aim, rights)
        }
    })
}

/// How many steps are drawn by hand.
const TELLING: usize = 5;

/// What went wrong in earlier tables, a list that is too long, and makers.
fn telling_step(rng: &mut Rng, turn: usize) -> Question {
    stated(match turn % TELLING {
        0 => weak_fetch(rng),
        1 => send_to_oneself(rng),
        2 => long_list_step(rng),
        3 => allocate_by_made(rng),
        _ => destroy_of_made(rng),
    })
}

/// A fetch without rd, of a capability with any rights.
fn weak_fetch(rng: &mut Rng) -> StepCase {
    let mut case = step_case(rng, Code::Fetch.number(), 0);
    if let Request::Fetch { actor, t, i, .. } = case.request {
        let used = &mut case.table.record_mut(actor).slots[usize::from(t)];
        used.rights = WK | (rng.byte(0, ALL_RIGHTS) & !RD);
        let target = used.target;
        let found = Capability::new(target, rng.byte(1, ALL_RIGHTS));
        case.table.record_mut(target).slots[usize::from(i)] = found;
    }
    case
}

/// A send of an object to itself, where each pair reads the slot that the pair before it wrote.
fn send_to_oneself(rng: &mut Rng) -> StepCase {
    let mut case = step_case(rng, Code::Send.number(), 0);
    let mut order: Vec<u8> = (0..8).collect();
    rng.shuffle(&mut order);
    if let Request::Send { actor, t, list, .. } = &mut case.request {
        *list = order
            .windows(2)
            .take(4)
            .map(|two| (two[0], two[1]))
            .collect();
        let record = case.table.record_mut(*actor);
        for slot in &mut record.slots {
            *slot = Capability::new(*actor, rng.byte(1, ALL_RIGHTS));
        }
        record.slots[usize::from(*t)].rights |= TX;
    }
    case
}

/// A send that is refused for the length of its list alone.
fn long_list_step(rng: &mut Rng) -> StepCase {
    let mut case = step_case(rng, Code::Send.number(), 0);
    if let Request::Send { list, .. } = &mut case.request {
        list.resize_with(5, || (rng.byte(0, 7), rng.byte(0, 7)));
    }
    case
}

/// Every kind of empty copy in turn.
fn empty_copy(rng: &mut Rng, turn: usize) -> Question {
    stated(empty_copy_case(
        rng,
        EmptyKind::ALL[turn % EmptyKind::ALL.len()],
    ))
}

/// A run of some requests, most of which are done; the first is empty.
fn run(rng: &mut Rng, turn: usize) -> Question {
    let shape = Shape::mixed(rng);
    let start = sound_table(rng, &shape);
    let mut table = start.clone();
    let mut requests = Vec::new();
    for _ in 0..2 * (turn % 4) {
        let request = likely_request(rng, &table);
        step_in_place(&mut table, &request);
        requests.push(request);
    }
    Question::Run {
        table: start,
        requests,
    }
}

/// Every number in turn, accepted every second time: only there is a bound.
fn test(rng: &mut Rng, turn: usize) -> Question {
    let aim = match turn % 2 {
        0 => 0,
        _ => CONFINEMENT_NUMBERS[turn / 2 % CONFINEMENT_NUMBERS.len()],
    };
    Question::Test(confinement_case(rng, aim))
}

/// A small table, since the checker computes each row of a relation by itself; then one that is not
/// sound.
fn relation(rng: &mut Rng, turn: usize) -> Question {
    let shape = Shape {
        born: 8,
        dead_percent: 20,
        active_percent: 50,
        stocked_percent: 50,
        filled_percent: 20,
        weak_percent: 60,
        made_percent: 50,
    };
    let mut table = sound_table(rng, &shape);
    if turn % 2 == 1 {
        any_damage(rng, &mut table);
    }
    Question::Access { table }
}

/// How many images are read: every number in both versions, and heads that do not fit.
const IMAGES: usize = 12;

/// Every number in both versions; then two bytes, a head that means nothing, and in each version the version byte
/// of the other.
fn image(rng: &mut Rng, turn: usize) -> Question {
    let version = Version::ALL[turn % 2];
    let image = match turn % IMAGES {
        8 => vec![0x07, 0x83],
        9 => vec![0x07, 0xC3, 3],
        10 | 11 => {
            let mut image = image_of(rng, version, 0);
            image[VERSION_AT] = 3 - version.number();
            image
        }
        1 => image_with_makers(rng),
        place => image_of(rng, version, IMAGE_NUMBERS[place / 2]),
    };
    Question::Read { image }
}

fn image_with_makers(rng: &mut Rng) -> Vec<u8> {
    loop {
        let image = image_of(rng, Version::Two, 0);
        if read(&image).1.has_makers() {
            return image;
        }
    }
}

/// How many tables are written: for every number of either version, and five where the length matters.
const WRITES: usize = WRITE_NUMBERS.len() + 5;

/// Every number of either version, with a buffer of random bytes. Then 23 where the buffer is short and where it is
/// not, the shortest buffer for the older form, which is too short for the other one, and an unsound table with
/// makers.
fn written(rng: &mut Rng, turn: usize) -> Question {
    let place = turn % WRITES;
    let (version, aim, room) = match WRITES - place {
        1 => (Version::One, 23, Some(1922)),
        2 => (Version::One, 23, Some(1923)),
        3 => (Version::One, 0, Some(1923)),
        4 => (Version::Two, 16, Some(1923)),
        5 => (Version::One, 1, Some(1923)),
        _ => {
            let (version, aim) = WRITE_NUMBERS[place];
            (version, aim, None)
        }
    };
    let mut case = write_case(rng, version, aim);
    while place == WRITES - 5 && !case.table.has_makers() {
        case = write_case(rng, version, aim);
    }
    case.room = room.unwrap_or(case.room);
    Question::Write {
        version,
        table: case.table,
        buffer: (0..case.room).map(|_| rng.byte(0, 255)).collect(),
    }
}

/// How many inputs of the program there are: every number, and some more where the version is wrong.
const DECISIONS: usize = CONFINE_NUMBERS.len() + 3;

/// Every number; then the version byte of version 2 with its length in the length field, with another, and an
/// input with a byte too many.
fn decision(rng: &mut Rng, turn: usize) -> Question {
    let place = turn % DECISIONS;
    if let Some(&aim) = CONFINE_NUMBERS.get(place) {
        let input = confine_input(rng, aim);
        return Question::Decision { input };
    }
    let mut input = confine_input(rng, 0);
    match DECISIONS - place {
        1 => input[..3].copy_from_slice(&[0x07, 0xC3, 2]),
        2 => input[..3].copy_from_slice(&[0x83, 0x07, 3]),
        _ => {
            input[VERSION_AT] = 2;
            input.push(0);
        }
    }
    Question::Decision { input }
}

/// The bytes of a request of each code in turn, then the same with a byte less or more, and any bytes
/// at all.
fn request_bytes(rng: &mut Rng, turn: usize) -> Question {
    let (code, aim) = match turn % 10 {
        9 => (10, 2),
        place => (Code::ALL[place].number(), 0),
    };
    let mut bytes = encode(&step_case(rng, code, aim).request);
    match turn % 20 {
        0..=9 => {}
        10 => bytes.truncate(0),
        11 => bytes.truncate(1),
        12 | 14 | 16 => bytes.push(rng.byte(0, 255)),
        19 => bytes = (0..24).map(|_| rng.byte(0, 255)).collect(),
        _ => {
            bytes.pop();
        }
    }
    Question::RequestBytes { bytes }
}

/// Lists of none, one, eight and nine entries, and two with a byte left over.
fn list_bytes(rng: &mut Rng, turn: usize) -> Question {
    let length = [0, 2, 16, 18, 1, 15][turn % 6];
    let bytes = (0..length).map(|_| rng.byte(0, 255)).collect();
    Question::ListBytes { bytes }
}

/// Every number, and after every second of them a chain that is shown once more, one time in two among others of its
/// length.
fn chain(rng: &mut Rng, turn: usize) -> Question {
    let aim = match turn % 6 {
        2 => return Question::Chain(layered_case(rng, WIDTHS[0])),
        5 => 0,
        place => SHOWN_NUMBERS[(turn / 3 * 2 + place % 3) % SHOWN_NUMBERS.len()],
    };
    Question::Chain(shown_case(rng, aim))
}

/// How many objects are one, two and more links from the stand-in: where there are several, chains of one
/// length compete.
const WIDTHS: [&[usize]; 4] = [&[3, 3, 3], &[4, 4], &[4, 3, 4, 3], &[2, 3, 2, 3, 2, 3]];

fn least_chain(rng: &mut Rng, turn: usize) -> Question {
    Question::LeastChain(layered_case(rng, WIDTHS[turn % WIDTHS.len()]))
}

/// A table that is full, then every number in turn.
fn import(rng: &mut Rng, turn: usize) -> Question {
    let bytes = match turn % 12 {
        0 => full_import(rng),
        place => import_case(rng, IMPORT_NUMBERS[place % IMPORT_NUMBERS.len()]),
    };
    Question::Import { bytes }
}
