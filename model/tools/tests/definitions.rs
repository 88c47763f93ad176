//! The parts of the command `definitions` that need no toolchain: which cases are drawn, how they are
//! written, and how the toolchain's words are read.

use std::collections::{BTreeMap, BTreeSet};
use std::fs;
use std::path::{Path, PathBuf};

use yavrinks_model::confinement::{confinement_test, Tested};
use yavrinks_model::image::Version;
use yavrinks_model::step::{step, Request};
use yavrinks_model::table::{Capability, Record, Table, RD, TX, WK, WR};
use yavrinks_tools::definitions::askers::askers;
use yavrinks_tools::definitions::cases::{subjects, Answer, Case, GroupRow, Part, Question};
use yavrinks_tools::definitions::crates::{case_crates, CaseCrate};
use yavrinks_tools::definitions::draw::{cases, questions, Counts};
use yavrinks_tools::definitions::misread_groups::misread_groups;
use yavrinks_tools::definitions::misread_makers;
use yavrinks_tools::definitions::misread_reclaim::{
    misread_after, misread_clean, misread_steps, CLEAN_READINGS,
};
use yavrinks_tools::definitions::scratch::Scratch;
use yavrinks_tools::definitions::specs::{unfoldable, unfoldable_names, with_all_below};
use yavrinks_tools::definitions::statements::declarations;
use yavrinks_tools::definitions::verdicts::{verdicts, Verdict};
use yavrinks_tools::definitions::wrong::wrong_cases;
use yavrinks_tools::definitions::{summary, terms, Options};
use yavrinks_tools::empty_kinds::{empty_kinds, EmptyKind};
use yavrinks_tools::generate::{any_damage, any_sound_table, encode_input};
use yavrinks_tools::generate::{ConfinementCase, ShownCase};
use yavrinks_tools::misread_groups::Misread as MisreadGroups;
use yavrinks_tools::misread_reclaim::Misread;
use yavrinks_tools::misread_rounds::{Misreading, MISREADINGS};
use yavrinks_tools::rng::Rng;
use yavrinks_tools::shared::{
    shared_imports, shared_rounds, shared_steps, shared_steps_with_makers,
    shared_steps_with_reclaims, shared_tests, shared_tests_with_reclaims,
};

/// Nothing at all, for a test that asks for something by itself.
const NOTHING: Counts = Counts {
    runs: 0,
    rounds: 0,
    imports: 0,
    tests: 0,
    steps: 0,
    images: 0,
};

fn cases_of(seed: u64, runs: usize, rounds: usize) -> Vec<Case> {
    let counts = Counts {
        runs,
        rounds,
        ..NOTHING
    };
    cases(seed, &counts)
}

fn default_cases() -> Vec<Case> {
    let Counts { runs, rounds, .. } = Counts::default();
    cases_of(1, runs, rounds)
}

/// A folder of its own for a test that needs files.
fn test_folder(name: &str) -> PathBuf {
    let folder = std::env::temp_dir().join(format!("yavrinks-{name}-{}", std::process::id()));
    let _ = fs::remove_dir_all(&folder);
    fs::create_dir_all(&folder).expect("folder");
    folder
}

// Terms.

#[test]
fn lists_are_broken_into_lines() {
    assert_eq!(terms::numbers([]), "[]");
    assert_eq!(terms::numbers([7, 8]), "7 ∷ 8 ∷ []");
    assert_eq!(
        terms::numbers(0..9),
        "0 ∷ 1 ∷ 2 ∷ 3 ∷ 4 ∷ 5 ∷ 6 ∷ 7\n    ∷ 8 ∷ []"
    );
    assert_eq!(terms::bytes(&[0, 255]), "0 ∷ 255 ∷ []");
}

#[test]
fn capabilities_and_records_have_short_words() {
    assert_eq!(terms::capability(Capability::EMPTY), "free");
    assert_eq!(terms::capability(Capability::new(0, 4)), "slot 0 4");
    assert_eq!(terms::capability(Capability::new(9, 0)), "slot 9 0");
    assert_eq!(terms::record(&Record::UNBORN), "unborn");
    let record = Record {
        status: 3,
        word: u32::MAX,
        stock: u64::MAX,
        ..Record::UNBORN
    };
    assert_eq!(
        terms::record(&record),
        "object 3 0 4294967295 18446744073709551615 64"
    );
    let of_maker = Record {
        maker: 0,
        ..Record::UNBORN
    };
    assert_eq!(terms::record(&of_maker), "object 0 0 0 0 0");
}

#[test]
fn requests_have_their_fields_in_the_order_of_document_01() {
    let send = Request::Send {
        actor: 1,
        t: 2,
        word: 3,
        list: vec![(4, 5), (6, 7)],
        reply: 8,
    };
    assert_eq!(terms::ask(&send), "send 1 2 3 (pair 4 5 ∷ pair 6 7 ∷ []) 8");
    let allocate = Request::Allocate {
        actor: 1,
        n: 2,
        kind: 3,
        part: 4,
        i: 5,
        list: vec![],
    };
    assert_eq!(terms::ask(&allocate), "allocate 1 2 3 4 5 ([])");
    let reclaim = Request::Reclaim { actor: 1, t: 2 };
    assert_eq!(terms::ask(&reclaim), "reclaim 1 2");
    let unknown = Request::Unknown {
        code: 10,
        actor: 200,
    };
    assert_eq!(terms::ask(&unknown), "unknown 10 200");
}

/// Reads a term for a table back, word by word.
fn read_table(term: &str) -> Table {
    let (records, slots) = term.split_once("slots =").expect("slots");
    let items = |text: &str| -> Vec<Vec<u64>> {
        let text = text.replace("record {", "").replace("records =", "");
        let text = text.replace([';', '}'], "");
        text.split('∷')
            .map(|item| match item.trim() {
                "unborn" => vec![0, 0, 0, 0, 64],
                "free" => vec![0; 2],
                item => item
                    .split_whitespace()
                    .skip(1)
                    .map(|word| word.parse().expect("number"))
                    .collect(),
            })
            .collect()
    };
    let (records, slots) = (items(records), items(slots));
    assert_eq!((records.len(), slots.len()), (65, 513));
    let mut table = Table::unborn();
    for (n, record) in table.records.iter_mut().enumerate() {
        let fields = &records[n];
        (record.status, record.kind) = (fields[0] as u8, fields[1] as u8);
        (record.word, record.stock) = (fields[2] as u32, fields[3]);
        record.maker = fields[4] as u8;
        for (j, slot) in record.slots.iter_mut().enumerate() {
            let fields = &slots[8 * n + j];
            *slot = Capability::new(fields[0] as u8, fields[1] as u8);
        }
    }
    table
}

#[test]
fn terms_of_tables_say_every_field() {
    let mut rng = Rng::new(2);
    for _ in 0..300 {
        let mut table = any_sound_table(&mut rng);
        if rng.percent(50) {
            any_damage(&mut rng, &mut table);
        }
        assert_eq!(read_table(&terms::table(&table)), table);
    }
}

// Statements.

#[test]
fn a_refused_step_is_stated_with_the_table_as_it_was() {
    let case = Case::new(Question::Step {
        table: Table::k(),
        request: Request::Read { actor: 0, t: 5 },
    });
    let text = declarations(&case, 7, "A.b C.d");
    let table = terms::table(&Table::k());
    assert_eq!(
        text,
        format!(
            "-- case 7: 1 read, refused 4\n\
             table-0007 : Table\n\
             table-0007 = {table}\n\
             \n\
             case-0007 : ◌≡◌ {{A = ℕ × Table}} (stepped (step_of table-0007 (read 0 5))) \
             (4, table-0007)\n\
             unfolding table-0007 A.b C.d\n\
             case-0007 = refl {{0}} {{A = ℕ × Table}} {{a = (4, table-0007)}}\n\
             \n"
        )
    );
}

#[test]
fn a_step_that_is_done_is_stated_with_the_table_after_it() {
    let request = Request::Write {
        actor: 4,
        t: 0,
        word: 7,
    };
    let case = Case::new(Question::Step {
        table: Table::k(),
        request,
    });
    let mut after = Table::k();
    after.records[3].word = 7;
    assert_eq!(case.answer, Answer::Table(0, after.clone()));
    let text = declarations(&case, 12, "A.b");
    assert!(text.contains(&format!("after-0012 = {}\n", terms::table(&after))));
    assert!(text.contains("(stepped (step_of table-0012 (write 4 0 7))) (0, after-0012)\n"));
    assert!(text.contains("unfolding table-0012 after-0012 A.b\n"));
}

/// Example 1 of document 01.
fn example_1() -> ConfinementCase {
    ConfinementCase {
        table: Table::k(),
        members: 1 << 5,
        list: vec![(1, 2)],
    }
}

/// Its bound is 0, 1 and 2.
fn shown_case(object: u8) -> ShownCase {
    ShownCase {
        test: example_1(),
        object,
    }
}

#[test]
fn a_chain_is_stated_with_zeros_after_its_numbers() {
    let statement = "case-0005 : ◌≡◌ {A = ℕ × ℕ × List ℕ} (shown (chain_of table-0005 32 list-0005";
    let zeros = vec!["0"; 61].join(" ∷ ");
    for (object, answer, numbers) in [
        (2, "0, 2", format!("1 ∷ 2 ∷ {zeros} ∷ []")),
        (5, "18, 0", format!("0 ∷ 0 ∷ {zeros} ∷ []")),
        (6, "19, 0", format!("0 ∷ 0 ∷ {zeros} ∷ []")),
    ] {
        let case = Case::new(Question::Chain(shown_case(object)));
        let text = declarations(&case, 5, "A.b");
        let stated = format!("{statement} {object})) ({answer}, numbers-0005)\n");
        assert!(text.contains(&stated), "{text}");
        let on_one_line = text.replace("\n    ", " ");
        let declared = format!("numbers-0005 = {numbers}\n");
        assert!(on_one_line.contains(&declared), "{text}");
    }
}

/// Example 1 takes two rounds: 1 is listed, and 0 and 2 hold a capability over it. With no list it is refused.
#[test]
fn a_test_is_stated_with_its_bound_and_its_rounds() {
    let refused = ConfinementCase {
        list: vec![],
        ..example_1()
    };
    for (test, answer) in [(example_1(), "0, 7, 2"), (refused, "12, 0, 0")] {
        let text = declarations(&Case::new(Question::Test(test)), 5, "A.b");
        let statement = format!(
            "case-0005 : ◌≡◌ {{A = ℕ × ℕ × ℕ}} (tested (test_of table-0005 32 list-0005)) ({answer})\n"
        );
        assert!(text.contains(&statement), "{text}");
    }
}

#[test]
fn what_is_there_is_stated_for_each_number_of_rounds() {
    let case = Case::new(Question::There {
        test: example_1(),
        after: vec![0, 1, 2, 3],
    });
    let text = declarations(&case, 5, "A.b");
    assert!(text.starts_with("-- case 5: there after rounds, done\n"));
    let statement = "case-0005 : ◌≡◌ {A = List ℕ} \
                     (map (objects_after table-0005 32 list-0005) (0 ∷ 1 ∷ 2 ∷ 3 ∷ [])) \
                     (0 ∷ 2 ∷ 7 ∷ 7 ∷ [])\n";
    assert!(text.contains(statement), "{text}");
}

/// 5 is the stand-in, and leads to 1; 0 reads 1, which is a link either way, and 2 reads 1 and 6 weakly.
/// 4 writes to 3.
#[test]
fn a_least_chain_is_stated_over_words_of_links() {
    let case = Case::new(Question::LeastChain(shown_case(2)));
    let text = declarations(&case, 5, "A.b").replace("\n    ", " ");
    let statement =
        "case-0005 : ◌≡◌ {A = List ℕ} (least_chain (word_edge words-0005) 5 2) (1 ∷ 2 ∷ [])\n";
    assert!(text.contains(statement), "{text}");
    let (from_1, from_4) = (1 | 1 << 2 | 1 << 5, 1 << 3);
    let words = format!("words-0005 = 2 ∷ {from_1} ∷ 0 ∷ 16 ∷ {from_4} ∷ 2 ∷ 4 ∷ 0 ∷ 0 ∷ ");
    assert!(text.contains(&words), "{text}");
    assert!(!text.contains("table-0005"), "{text}");
}

/// rd and wr are listed, in two entries: of the rights values 0 to 15 only those within them pass, and wk
/// alone.
#[test]
fn capabilities_are_stated_with_whether_they_pass() {
    let case = Case::new(Question::Passing {
        list: vec![(3, 1), (3, 2)],
        held: (0..16).map(|rights| Capability::new(3, rights)).collect(),
    });
    let text = declarations(&case, 5, "A.b").replace("\n    ", " ");
    assert!(text.starts_with("-- case 5: rights of a member, refused 12\n"));
    assert!(text.contains("list-0005 = slot 3 1 ∷ slot 3 2 ∷ []\n"));
    assert!(text.contains("held-0005 = slot 3 0 ∷ slot 3 1 ∷ "));
    let (passing, others) = (["true"; 5].join(" ∷ "), ["false"; 11].join(" ∷ "));
    let statement = format!(
        "case-0005 : ◌≡◌ {{A = List Bool}} (map (passes list-0005) held-0005) \
         ({passing} ∷ {others} ∷ [])\n"
    );
    assert!(text.contains(&statement), "{text}");
}

/// An empty copy on a filled slot, and wr on it.
#[test]
fn copies_are_stated_with_what_the_slot_then_holds() {
    let case = Case::new(Question::Landing {
        held: Capability::new(3, 9),
        copies: vec![Capability::EMPTY, Capability::new(0, 2)],
    });
    let text = declarations(&case, 5, "A.b");
    assert!(text.starts_with("-- case 5: where a copy lands, done\n"));
    assert!(text.contains("held-0005 : Capability\nheld-0005 = slot 3 9\n"));
    assert!(text.contains("copies-0005 = free ∷ slot 0 2 ∷ []\n"));
    let statement = "case-0005 : ◌≡◌ {A = List Capability} (map (landed held-0005) copies-0005) \
                     (slot 3 9 ∷ slot 0 2 ∷ [])\n";
    assert!(text.contains(statement), "{text}");
}

/// wr and tx, rd and wk, and a byte with bits above.
#[test]
fn rights_are_stated_with_what_they_are_worth() {
    let case = Case::new(Question::Worth {
        values: vec![10, 5, 242],
    });
    let text = declarations(&case, 5, "A.b");
    assert!(text.starts_with("-- case 5: worth of rights, done\n"));
    assert!(text.contains("values-0005 = 10 ∷ 5 ∷ 242 ∷ []\n"));
    let statement = "case-0005 : ◌≡◌ {A = List Worth} (map worth_of values-0005) \
                     ((0, false, true, true) ∷ (4, true, false, false) ∷ (0, false, true, false) ∷ [])\n";
    assert!(text.contains(statement), "{text}");
}

#[test]
fn needs_are_stated_with_the_rights_that_meet_them() {
    let case = Case::new(Question::Needs {
        values: vec![10, 5, 242],
    });
    let text = declarations(&case, 5, "A.b");
    assert!(text.starts_with("-- case 5: needed rights, done\n"));
    let met = |need: &str| format!("map (need_met {need}) values-0005");
    let statement = format!(
        "case-0005 : ◌≡◌ {{A = List Bool × List Bool × List Bool}} ({}, {}, {}) \
         (false ∷ true ∷ false ∷ [], true ∷ false ∷ true ∷ [], true ∷ false ∷ false ∷ [])\n",
        met("ReadOrWeak"),
        met("Write"),
        met("Send")
    );
    assert!(text.contains(&statement), "{text}");
}

#[test]
fn capabilities_are_stated_with_what_they_are_weakened_to() {
    let case = Case::new(Question::Weakening {
        held: [10, 5, 0].map(|rights| Capability::new(3, rights)).to_vec(),
    });
    let text = declarations(&case, 5, "A.b");
    assert!(text.starts_with("-- case 5: weakened rights, done\n"));
    assert!(text.contains("held-0005 = slot 3 10 ∷ slot 3 5 ∷ slot 3 0 ∷ []\n"));
    let statement = "case-0005 : ◌≡◌ {A = List Capability} (map weaken held-0005) \
                     (free ∷ slot 3 4 ∷ free ∷ [])\n";
    assert!(text.contains(statement), "{text}");
}

/// On table K the maker of 3 can be nobody, 3 itself or the born 4, not the unborn 7.
#[test]
fn soundness_is_stated_for_each_maker() {
    let case = Case::new(Question::Sound {
        table: Table::k(),
        n: 3,
        makers: vec![64, 3, 4, 7],
    });
    let text = declarations(&case, 5, "A.b");
    assert!(text.starts_with("-- case 5: sound by makers, refused 1\n"));
    assert!(text.contains("makers-0005 = 64 ∷ 3 ∷ 4 ∷ 7 ∷ []\n"));
    let statement = "case-0005 : ◌≡◌ {A = List Bool} (map (sound_if table-0005 3) makers-0005) \
                     (true ∷ true ∷ true ∷ false ∷ [])\n";
    assert!(text.contains(statement), "{text}");
}

/// Of table K, 0, 1 and 5 are a group; 2 has wk over these and over 6; 7 is unborn.
#[test]
fn groups_and_rows_are_stated_for_each_number() {
    let group = 1 | 1 << 1 | 1 << 5;
    let weakly = group | 1 << 2 | 1 << 6;
    for (row, definition, sets) in [
        (
            GroupRow::Group,
            "group_of (table_holding table-0005)",
            [group, 4],
        ),
        (
            GroupRow::Over(RD),
            "row_by_groups (table_holding table-0005) rd",
            [group, 4],
        ),
        (
            GroupRow::Over(WR),
            "row_by_groups (table_holding table-0005) wr",
            [group, 4],
        ),
        (
            GroupRow::Over(WK),
            "row_by_groups (table_holding table-0005) wk",
            [group, weakly],
        ),
        (
            GroupRow::Over(TX),
            "row_by_groups (table_holding table-0005) tx",
            [group, 4],
        ),
    ] {
        let case = Case::new(Question::ByGroups {
            table: Table::k(),
            row,
            numbers: vec![5, 2, 7],
        });
        let text = declarations(&case, 5, "A.b");
        assert!(text.contains("of-0005 = 5 ∷ 2 ∷ 7 ∷ []\n"));
        let [first, second] = sets;
        let statement = format!(
            "case-0005 : ◌≡◌ {{A = List ℕ}} (map ({definition}) of-0005) ({first} ∷ {second} ∷ 0 ∷ [])\n"
        );
        assert!(text.contains(&statement), "{text}");
    }
}

/// The row of 2 for wk is the 130th.
#[test]
fn potential_access_by_groups_is_stated_whole() {
    let unsound = {
        let mut table = Table::k();
        table.records[3].status = 0;
        table
    };
    for (table, number, weakly_of_2) in [(Table::k(), 0, 103), (unsound, 1, 0)] {
        let text = declarations(&Case::new(Question::AccessByGroups { table }), 5, "A.b");
        let statement = format!(
            "case-0005 : ◌≡◌ {{A = ℕ × List ℕ}} (related (access_by_groups table-0005)) ({number}, rows-0005)\n"
        );
        assert!(text.contains(&statement), "{text}");
        let (_, rows) = text.split_once("rows-0005 = ").expect("rows");
        let row = rows.split('∷').nth(128 + 2).map(str::trim);
        assert_eq!(row, Some(weakly_of_2.to_string().as_str()));
    }
}

#[test]
fn a_bound_by_groups_is_stated_alone() {
    let text = declarations(&Case::new(Question::BoundByGroups(example_1())), 5, "A.b");
    assert!(text.starts_with("-- case 5: bound by groups, done\n"));
    let statement = "case-0005 : ◌≡◌ {A = ℕ} (bound_by_groups table-0005 32 list-0005) 7\n";
    assert!(text.contains(statement), "{text}");
}

/// Into a buffer that is too short for either form, without makers and with one.
#[test]
fn writing_is_stated_with_its_version() {
    let mut made = Table::k();
    made.records[3].maker = 4;
    for (version, table, name, number) in [
        (Version::One, Table::k(), "One", 16),
        (Version::One, made.clone(), "One", 23),
        (Version::Two, made, "Two", 16),
    ] {
        let case = Case::new(Question::Write {
            version,
            table,
            buffer: vec![165, 165],
        });
        let text = declarations(&case, 5, "A.b");
        let from = format!("{name} table-0005 buffer-0005");
        let statement = format!(
            "case-0005 : ◌≡◌ {{A = ℕ × List ℕ}} (write_number (write_refusal {from}), written_of {from}) \
             ({number}, after-0005)\n"
        );
        assert!(text.contains(&statement), "{text}");
        assert!(text.contains("after-0005 = 165 ∷ 165 ∷ []\n"), "{text}");
    }
}

/// Example 1 of document 01, and the same with another version byte.
#[test]
fn decisions_are_stated_with_their_bound() {
    let mut input = encode_input(&example_1());
    for (version, answer) in [(1, "0, 7"), (2, "15, 0")] {
        input[2] = version;
        let input = input.clone();
        let text = declarations(&Case::new(Question::Decision { input }), 5, "A.b");
        let statement = format!(
            "case-0005 : ◌≡◌ {{A = ℕ × ℕ}} (decided (decision_of input-0005)) ({answer})\n"
        );
        assert!(text.contains(&statement), "{text}");
    }
}

/// Entity 0 has Store and Grant to 1 in slot 1, and nothing that is kept in slot 0.
#[test]
fn an_import_is_stated_with_the_table_that_it_becomes() {
    let case = Case::new(Question::Import {
        bytes: vec![0, 10, 1, 2, 2, 1, 8, 1, 20, 0],
    });
    let mut after = Table::unborn();
    for record in &mut after.records[..2] {
        (record.status, record.kind) = (1, 1);
    }
    after.records[0].slots[1] = Capability::new(1, 11);
    let text = declarations(&case, 5, "A.b");
    let declared = "bytes-0005 = 0 ∷ 10 ∷ 1 ∷ 2 ∷ 2 ∷ 1 ∷ 8 ∷ 1\n    ∷ 20 ∷ 0 ∷ []\n";
    assert!(text.contains(declared), "{text}");
    assert!(text.contains(&format!("after-0005 = {}\n", terms::table(&after))));
    let statement =
        "case-0005 : ◌≡◌ {A = ℕ × Table} (imported (import_of bytes-0005)) (0, after-0005)\n";
    assert!(text.contains(statement), "{text}");
}

#[test]
fn a_refused_import_is_stated_with_the_unborn_table() {
    for (bytes, number) in [
        (vec![], 20),
        (vec![0, 4, 2, 0], 21),
        (vec![0, 4, 1, 65], 22),
    ] {
        let text = declarations(&Case::new(Question::Import { bytes }), 5, "A.b");
        let unborn = terms::table(&Table::unborn());
        assert!(text.contains(&format!("after-0005 = {unborn}\n")));
        let stated = format!("(imported (import_of bytes-0005)) ({number}, after-0005)\n");
        assert!(text.contains(&stated), "{text}");
    }
}

/// 3, 4 and 6 are clean. 4 is refused, 5 is not clean.
fn clean_case(parts: &[Part]) -> Case {
    Case::new(Question::Clean {
        start: example_1(),
        requests: vec![
            Request::Read { actor: 4, t: 0 },
            Request::Read { actor: 5, t: 0 },
        ],
        parts: parts.to_vec(),
    })
}

#[test]
fn clean_objects_are_stated_in_five_parts_or_one() {
    let text = declarations(&clean_case(&Part::ALL), 3, "A.b");
    let at_start = "clean_at_start table-0003 32 list-0003";
    let from = format!("table-0003 ({at_start}) requests-0003");
    let compared = format!("compared_at_start table-0003 ({at_start})");
    let compared = format!("compared_at_end table-0003 ({at_start}) ({compared}) requests-0003");
    let statement = format!(
        "case-0003 : ◌≡◌ {{A = ℕ × ℕ × ℕ × List Ask × List ℕ}} (bits 64 ({at_start}), \
         bits 64 (clean_at_end {from}), bits 64 (in_both (clean_at_end {from}) ({compared})), \
         clean_requests {from}, map number (clean_replies {from})) \
         (88, 88, 88, asked-0003, 6 ∷ [])\n"
    );
    assert!(text.contains(&statement), "{text}");
    assert!(text.contains("asked-0003 = read 4 0 ∷ []\n"));
    let text = declarations(&clean_case(&[Part::Replies]), 3, "A.b");
    let statement =
        format!("case-0003 : ◌≡◌ {{A = List ℕ}} (map number (clean_replies {from})) (6 ∷ [])\n");
    assert!(text.contains(&statement), "{text}");
}

#[test]
fn every_case_names_its_declarations_by_its_number() {
    for (number, case) in cases_of(3, 4, 1).iter().enumerate() {
        let text = declarations(case, number, "A.b");
        let names: Vec<&str> = text
            .lines()
            .filter_map(|line| line.split_once(" : "))
            .map(|(name, _)| name)
            .filter(|name| !name.contains(' '))
            .collect();
        assert!(names.contains(&format!("case-{number:04}").as_str()));
        let part = format!("-{number:04}");
        assert!(names.iter().all(|name| name.contains(&part)), "{names:?}");
    }
}

// Cases.

#[test]
fn the_default_run_asks_everything() {
    let cases = default_cases();
    let asked: BTreeSet<(String, u8)> = cases
        .iter()
        .map(|case| (case.question.subject(), case.answer.number()))
        .collect();
    let expected: [(&str, &[u8]); 34] = [
        ("clean along a run", &[0]),
        ("clean after one", &[0]),
        ("1 read", &[0, 1, 2, 3, 4, 5, 6]),
        ("2 write", &[0, 1, 2, 3, 4, 5, 6]),
        ("3 fetch", &[0, 1, 2, 3, 4, 5, 6]),
        ("4 store", &[0, 1, 2, 3, 4, 5, 6]),
        ("5 revoke", &[0, 1, 2, 3, 4, 5, 6]),
        ("6 send", &[0, 1, 2, 3, 4, 5, 6, 7]),
        ("7 allocate", &[0, 1, 2, 3, 9]),
        ("8 destroy", &[0, 1, 2, 3, 4, 5, 6, 8]),
        ("9 reclaim", &[0, 1, 2, 3, 4, 6, 24]),
        ("unknown code", &[1, 2]),
        ("where a copy lands", &[0]),
        ("worth of rights", &[0]),
        ("needed rights", &[0]),
        ("weakened rights", &[0]),
        ("confinement test", &[0, 1, 10, 11, 12, 13]),
        ("there after rounds", &[0]),
        ("rights of a member", &[0, 12]),
        ("chain to an object", &[0, 1, 10, 11, 12, 13, 18, 19]),
        ("least chain", &[0]),
        ("potential access", &[0, 1]),
        ("group of an object", &[0]),
        ("row by groups", &[0]),
        ("access by groups", &[0, 1]),
        ("bound by groups", &[0]),
        ("sound by makers", &[1]),
        ("image read", &[0, 1, 14, 15]),
        ("image written, older", &[0, 1, 16, 23]),
        ("image written", &[0, 1, 16]),
        ("what confine decides", &[0, 1, 10, 11, 12, 13, 14, 15, 17]),
        ("import", &[0, 20, 21, 22]),
        ("request as bytes", &[0, 2]),
        ("list as bytes", &[0, 11]),
    ];
    for (subject, numbers) in expected {
        for &number in numbers {
            let case = (subject.to_string(), number);
            assert!(asked.contains(&case), "{subject} {number}");
        }
    }
    for subject in subjects() {
        assert!(asked.iter().any(|case| case.0 == subject), "{subject}");
    }
}

/// Everything that the definitions of clean objects have to tell apart comes several times.
#[test]
fn the_runs_have_whatever_could_be_taken_for_clean() {
    let cases: BTreeMap<usize, Case> = (0..).zip(default_cases()).collect();
    let text = askers(&cases).to_string();
    let mut lines = text.lines();
    assert_eq!(lines.next(), Some("along 24 runs, requests"));
    let mut kinds = 0;
    for line in lines {
        let (_, count) = line.rsplit_once(' ').expect("count");
        assert!(count.parse::<u64>().expect("number") >= 10, "{text}");
        kinds += 1;
    }
    assert_eq!(kinds, 16);
}

/// The runs start from tests that are accepted, with something clean; one of them is empty. In some a number that was
/// clean at the start is reclaimed, and in some a maker is left out.
#[test]
fn the_runs_start_with_clean_objects() {
    let (mut empty, mut lost, mut left_out) = (0, 0, 0);
    for case in cases_of(2, 48, 0) {
        let (Question::Clean { requests, .. }, Answer::Clean(start, part)) =
            (&case.question, &case.answer)
        else {
            panic!("{case:?}");
        };
        assert_ne!(*start, 0);
        lost += usize::from(start & part.clean != *start);
        left_out += usize::from(part.compared != part.clean);
        empty += usize::from(requests.is_empty());
    }
    assert_eq!(empty, 1);
    assert!(lost >= 1 && left_out >= 10, "{lost} {left_out}");
}

#[test]
fn a_seed_settles_the_cases_and_each_kind_stands_alone() {
    let (many, few) = (cases_of(4, 24, 1), cases_of(4, 0, 1));
    assert_eq!(many, cases_of(4, 24, 1));
    assert_ne!(many, cases_of(5, 24, 1));
    assert!(many.ends_with(&few));
}

#[test]
fn shared_imports_are_asked_on_demand() {
    let counts = |imports| Counts { imports, ..NOTHING };
    let asked = questions(1, &counts(1000));
    let import = |bytes| Question::Import { bytes };
    let shared: Vec<Question> = shared_imports().into_iter().map(import).collect();
    assert_eq!(asked, shared);
    assert_eq!(questions(1, &counts(7)), shared[..7]);
}

/// What the file says is expected, and the model says the same.
#[test]
fn shared_tests_are_asked_on_demand() {
    let counts = |tests| Counts { tests, ..NOTHING };
    let asked = cases(1, &counts(1000));
    assert_eq!(asked.len(), 80 + 160 + 80);
    let shared = shared_tests_with_reclaims()
        .into_iter()
        .chain(shared_tests());
    let shared = shared.chain(shared_rounds());
    for (case, shared) in asked.iter().zip(shared) {
        let Answer::Tested(tested) = case.answer else {
            panic!("{case:?}");
        };
        assert_eq!((tested.number, tested.bound), shared.answer);
        assert!(shared.rounds.is_none_or(|rounds| rounds == tested.rounds));
        assert_eq!(case, &Case::new(Question::Test(shared.test)));
    }
    assert_eq!(cases(1, &counts(7)), asked[..7]);
}

/// What the file says is expected, and the model says the same.
#[test]
fn shared_steps_are_asked_on_demand() {
    let counts = |steps| Counts { steps, ..NOTHING };
    let asked = cases(1, &counts(1000));
    assert_eq!(asked.len(), 160 + 160 + 160);
    let shared = shared_steps_with_reclaims().into_iter();
    let shared = shared
        .chain(shared_steps_with_makers())
        .chain(shared_steps());
    for (case, shared) in asked.iter().zip(shared) {
        let (reply, after) = shared.answer;
        assert_eq!(case.answer, Answer::Table(reply, after));
        let question = Question::Step {
            table: shared.step.table,
            request: shared.step.request,
        };
        assert_eq!(case, &Case::new(question));
    }
    assert_eq!(cases(1, &counts(7)), asked[..7]);
}

/// What the file says is expected, and the model says the same.
#[test]
fn shared_images_are_asked_on_demand() {
    let counts = |images| Counts { images, ..NOTHING };
    let asked = cases(1, &counts(1000));
    let (mut read, mut written) = (0, 0);
    for case in &asked {
        assert_eq!(case, &Case::new(case.question.clone()));
        match case.question {
            Question::Read { .. } => read += 1,
            Question::Write { .. } => written += 1,
            _ => panic!("{case:?}"),
        }
    }
    assert_eq!((read, written), (16, 32));
    assert_eq!(cases(1, &counts(7)), asked[..7]);
}

/// A round asks for soundness with a record of each status, and with makers of each.
#[test]
fn every_kind_of_maker_is_asked() {
    let mut asked = BTreeSet::new();
    for case in cases_of(1, 0, 1) {
        let (Question::Sound { table, n, makers }, Answer::Sound(truths)) =
            (&case.question, &case.answer)
        else {
            continue;
        };
        for (&maker, &sound) in makers.iter().zip(truths) {
            let kind = match maker {
                64 => "nobody",
                65.. => "no number",
                _ if maker == *n => "itself",
                _ => ["unborn", "alive", "dead"][usize::from(table.record(maker).status)],
            };
            asked.insert((table.record(*n).status, kind, sound));
        }
    }
    for status in 0..3 {
        let born = status != 0;
        for (kind, sound) in [
            ("nobody", true),
            ("no number", false),
            ("itself", born),
            ("unborn", false),
            ("alive", born),
            ("dead", born),
        ] {
            assert!(asked.remove(&(status, kind, sound)), "{status}, {kind}");
        }
    }
    assert!(asked.is_empty(), "{asked:?}");
}

/// A round asks a step of every kind of empty copy, and where copies of every rights value land.
#[test]
fn every_kind_of_empty_copy_is_asked() {
    let (mut kinds, mut landings) = (BTreeSet::new(), BTreeSet::new());
    for case in cases_of(1, 0, 1) {
        match &case.question {
            Question::Step { table, request } if case.answer.number() == 0 => {
                kinds.extend(empty_kinds(table, request));
            }
            Question::Landing { held, copies } => {
                let rights = copies.iter().map(|copy| copy.rights);
                assert!(rights.eq(0..16));
                assert!(copies[0].is_empty());
                landings.insert((held.is_empty(), copies[1].target == 0));
            }
            _ => {}
        }
    }
    assert!(kinds.into_iter().eq(EmptyKind::ALL));
    assert_eq!(landings.len(), 4);
}

/// Every rights value is asked with every list of one entry, with none, and with entries of another target.
#[test]
fn all_rights_are_asked_with_all_lists() {
    let mut lists = BTreeSet::new();
    for case in cases_of(1, 0, 1) {
        let Question::Passing { list, held } = &case.question else {
            continue;
        };
        let target = held[0].target;
        let rights = (0..16).map(|rights| Capability::new(target, rights));
        assert!(held.iter().copied().eq(rights));
        let named = |&(n, listed): &(u8, u8)| (n == target, listed);
        lists.insert(list.iter().map(named).collect::<Vec<_>>());
    }
    assert_eq!(lists.len(), 20);
    assert!(lists.contains(&vec![]));
    assert!((1..16).all(|listed| lists.contains(&vec![(true, listed)])));
    assert!(lists.contains(&vec![(false, 15)]));
}

/// Every byte is asked for with what it is worth, with each need, and over 0 and another target.
#[test]
fn every_byte_is_asked_as_rights() {
    let mut weakened = Vec::new();
    for case in cases_of(1, 0, 1) {
        match &case.question {
            Question::Worth { values } | Question::Needs { values } => {
                assert!(values.iter().copied().eq(0..=255));
            }
            Question::Weakening { held } => {
                assert!(held.iter().map(|one| one.rights).eq(0..=255));
                assert!(held.iter().all(|one| one.target == held[0].target));
                weakened.push(held[0].target == 0);
            }
            _ => {}
        }
    }
    assert_eq!(weakened, [true, false]);
}

#[test]
fn wrong_answers_differ_from_the_right_ones() {
    let cases = cases_of(9, 24, 1);
    let wrong = wrong_cases(&mut Rng::new(9), &cases);
    for case in &wrong {
        assert_ne!(case, &Case::new(case.question.clone()));
    }
    let is_clean = |case: &&Case| matches!(case.question, Question::Clean { .. });
    let of_clean = Part::ALL.len() + CLEAN_READINGS;
    assert_eq!(wrong.iter().filter(is_clean).count(), of_clean);
    let is_import = |case: &&Case| matches!(case.question, Question::Import { .. });
    assert_eq!(wrong.iter().filter(is_import).count(), 3);
    // Of a list where all pass and of one where some do not, every rights value.
    let is_passing = |case: &&Case| matches!(case.question, Question::Passing { .. });
    assert_eq!(wrong.iter().filter(is_passing).count(), 2 * 16);
    // Of the copies on a filled slot, every rights value and the empty one.
    let is_landing = |case: &&Case| matches!(case.question, Question::Landing { .. });
    assert_eq!(wrong.iter().filter(is_landing).count(), 16);
    // Of the values 0 to 15, four things that they are worth, three needs, and what they are weakened to.
    let is_worth = |case: &&Case| match &case.question {
        Question::Worth { values } | Question::Needs { values } => values.len() == 16,
        Question::Weakening { held } => held.len() == 16,
        _ => false,
    };
    let worth = wrong.iter().filter(is_worth).count();
    assert_eq!(worth, (4 + 3 + 1) * 16);
    // Of the clean objects after one request, wrong content, and the wrong readings: of making by another, of a
    // reclaim twice, by two readings, and of a destroy.
    let is_after = |case: &&Case| matches!(case.question, Question::CleanAfter { .. });
    let of_after = 1 + 1 + 2 * 2 + 1;
    assert_eq!(wrong.iter().filter(is_after).count(), of_after);
    // Of steps a wrong number, wrong content, the ten kinds where an empty copy emptied a slot, the six wrong
    // readings of who is recorded, and those of a reclaim.
    let of_reclaims = Misread::ALL.len();
    let is_step = |case: &&Case| matches!(case.question, Question::Step { .. });
    assert_eq!(
        wrong.iter().filter(is_step).count(),
        2 + 10 + 6 + of_reclaims
    );
    // Of what is there in a test of three rounds, a round more at none, one and two.
    let is_there = |case: &&Case| matches!(case.question, Question::There { .. });
    assert_eq!(wrong.iter().filter(is_there).count(), 3);
    // Of tests a wrong number, wrong content, and the wrong readings of how many rounds there are.
    let is_test = |case: &&Case| matches!(case.question, Question::Test(_));
    assert_eq!(wrong.iter().filter(is_test).count(), 2 + MISREADINGS.len());
    // Of soundness, ten makers of a record of each status.
    let is_sound = |case: &&Case| matches!(case.question, Question::Sound { .. });
    assert_eq!(wrong.iter().filter(is_sound).count(), 3 * 10);
    // By groups, the wrong readings.
    let is_by_groups = |case: &&Case| {
        let row = matches!(case.question, Question::ByGroups { .. });
        row || matches!(case.question, Question::BoundByGroups(_))
    };
    let by_groups = wrong.iter().filter(is_by_groups).count();
    assert_eq!(by_groups, MisreadGroups::ALL.len());
    let of_makers = misread_makers::MISREADINGS.len();
    // Of each of eight other kinds a wrong number and wrong content, of least chains wrong content, of potential access
    // by groups a wrong number.
    let others = 2 * 8 + 1 + 1;
    let listed = 3 + 2 * 16 + 16 + worth + 12 + 3 + 2 + MISREADINGS.len() + 3 * 10 + of_makers;
    let of_2_8 = of_clean + of_after + of_reclaims;
    assert_eq!(wrong.len(), of_2_8 + listed + by_groups + others);
}

/// A round asks for a group and for a row of each right, of born and unborn numbers, and for two bounds: of several
/// objects, and without one that is born.
#[test]
fn every_row_is_asked_by_groups() {
    let mut rows = BTreeSet::new();
    let mut bounds = Vec::new();
    for case in cases_of(1, 0, 1) {
        match (&case.question, &case.answer) {
            (
                Question::ByGroups {
                    table,
                    row,
                    numbers,
                },
                Answer::Sets(sets),
            ) => {
                let born = numbers.iter().filter(|&&n| table.is_born(n)).count();
                assert_eq!((numbers.len(), born, sets.len()), (4, 3, 4));
                rows.insert(match row {
                    GroupRow::Group => 0,
                    GroupRow::Over(right) => *right,
                });
            }
            (Question::BoundByGroups(test), Answer::Set(bound)) => {
                let outside = test.table.born() & !test.members;
                bounds.push((bound.count_ones() > 1, bound & outside != outside));
            }
            _ => {}
        }
    }
    assert_eq!(rows, BTreeSet::from([0, RD, WR, WK, TX]));
    assert!(
        bounds[0].0 && bounds[1].1 && bounds.len() == 2,
        "{bounds:?}"
    );
}

/// With any seed each wrong reading of 2.9 has a statement of its own: a group or a row, and a bound where it is right
/// about all of these. Every kind of row is among them.
#[test]
fn wrong_groups_are_among_the_wrong_answers() {
    for seed in 1..6 {
        let wrong = misread_groups(&mut Rng::new(seed));
        let mut rows = BTreeSet::new();
        for (case, misread) in wrong.iter().zip(MisreadGroups::ALL) {
            assert_ne!(case, &Case::new(case.question.clone()));
            let of_bound = match &case.question {
                Question::ByGroups { row, numbers, .. } => {
                    assert_eq!(numbers.len(), 1);
                    rows.insert(match row {
                        GroupRow::Group => 0,
                        GroupRow::Over(right) => *right,
                    });
                    false
                }
                _ => true,
            };
            let of_members = [MisreadGroups::MembersInBound, MisreadGroups::MembersForList];
            assert_eq!(of_bound, of_members.contains(&misread), "{misread:?}");
        }
        assert_eq!(wrong.len(), MisreadGroups::ALL.len());
        assert_eq!(rows.len(), 5, "{rows:?}");
    }
}

/// In the default run each wrong reading of 2.8 has a statement of its own.
#[test]
fn wrong_reclaims_are_among_the_wrong_answers() {
    let cases = default_cases();
    assert_eq!(misread_steps(&cases).len(), Misread::ALL.len());
    assert_eq!(misread_clean(&cases).len(), CLEAN_READINGS);
    // A number that stays clean when another makes it anew is among those.
    let made_anew = misread_after(&cases).into_iter().filter(|case| {
        let request = match &case.question {
            Question::CleanAfter { request, .. } => request,
            _ => return false,
        };
        matches!(request, Request::Allocate { .. })
    });
    assert_eq!(made_anew.count(), 1);
}

#[test]
fn clean_after_one_is_stated_for_any_set() {
    let case = Case::new(Question::CleanAfter {
        table: Table::k(),
        clean: 24,
        request: Request::Reclaim { actor: 4, t: 0 },
    });
    let text = declarations(&case, 2, "A.b");
    let statement = "case-0002 : ◌≡◌ {A = ℕ} \
        (bits 64 (clean_after table-0002 (among 24) (reclaim 4 0))) 24\n";
    assert!(text.contains(statement), "{text}");
}

/// In the default run each wrong reading of 2.7 has a statement of its own.
#[test]
fn wrong_makers_are_among_the_wrong_answers() {
    let cases = default_cases();
    let wrong = wrong_cases(&mut Rng::new(1), &cases);
    for reading in &misread_makers::MISREADINGS {
        let says = |case: &&Case| {
            let right = Case::new(case.question.clone());
            reading.wrong_answer(&right).as_ref() == Some(&case.answer)
        };
        assert!(wrong.iter().any(|case| says(&case)), "{}", reading.name);
    }
}

/// In the default run each wrong reading of 2.6 has a statement, and so has a refused test with the rounds that it
/// would have come to.
#[test]
fn wrong_rounds_are_among_the_wrong_answers() {
    let cases = default_cases();
    let wrong = wrong_cases(&mut Rng::new(1), &cases);
    let stated = |reading: &Misreading| {
        wrong
            .iter()
            .any(|case| match (&case.question, &case.answer) {
                (Question::Test(test), Answer::Tested(tested)) => {
                    let right = confinement_test(&test.table, test.members, &test.list);
                    let rounds = reading.rounds(test);
                    rounds != right.rounds && *tested == Tested { rounds, ..right }
                }
                _ => false,
            })
    };
    for reading in &MISREADINGS {
        assert!(stated(reading), "{}", reading.name);
    }
    let mut refused = wrong.iter().filter_map(|case| match case.answer {
        Answer::Tested(tested) if !tested.is_accepted() => Some(tested.rounds),
        _ => None,
    });
    assert!(refused.any(|rounds| rounds > 1));
}

/// A test in each of some layers is asked whole, the longest of 63 rounds; and what is there after some of its
/// rounds.
#[test]
fn tests_of_many_rounds_are_asked() {
    let (mut rounds, mut there) = (BTreeSet::new(), Vec::new());
    for case in cases_of(1, 0, 1) {
        match (&case.question, &case.answer) {
            (Question::Test(_), Answer::Tested(tested)) => drop(rounds.insert(tested.rounds)),
            (Question::There { after, .. }, Answer::There(sets)) => {
                assert_eq!((after.len(), sets.len()), (5, 5));
                assert_eq!(sets[0], 0);
                let sizes: Vec<u32> = sets.iter().map(|set| set.count_ones()).collect();
                there.push((after[3], sizes));
            }
            _ => {}
        }
    }
    assert!(
        [0, 1, 3, 4, 12, 63].iter().all(|k| rounds.contains(k)),
        "{rounds:?}"
    );
    let expected = [
        (3, vec![0, 4, 8, 12, 12]),
        (4, vec![0, 2, 7, 10, 10]),
        (1, vec![0, 3, 0, 3, 3]),
        (12, vec![0, 1, 11, 12, 12]),
        (63, vec![0, 1, 62, 63, 63]),
    ];
    assert_eq!(there, expected);
}

/// Statements by the rule from before 2.4: each says that some filled slot is emptied.
#[test]
fn emptied_slots_are_among_the_wrong_answers() {
    let cases = cases_of(6, 0, 1);
    let wrong = wrong_cases(&mut Rng::new(6), &cases);
    let mut kinds = BTreeSet::new();
    for case in &wrong {
        let (Question::Step { table, request }, Answer::Table(0, stated)) =
            (&case.question, &case.answer)
        else {
            continue;
        };
        let (reply, after) = step(table, request);
        let slots = |table: &Table| {
            table
                .records
                .iter()
                .flat_map(|r| r.slots)
                .collect::<Vec<_>>()
        };
        let (stated, after) = (slots(stated), slots(&after));
        let mut changed = stated.iter().zip(&after).filter(|(now, kept)| now != kept);
        if reply == 0 && changed.clone().count() > 0 && changed.all(|(now, _)| now.is_empty()) {
            kinds.extend(empty_kinds(table, request));
        }
    }
    for kind in [
        EmptyKind::FetchWithRd,
        EmptyKind::FetchWithoutRd,
        EmptyKind::WeakenedWr,
        EmptyKind::WeakenedTx,
        EmptyKind::WeakenedWrTx,
        EmptyKind::Store,
        EmptyKind::Send,
        EmptyKind::SendEmptyAfterFilled,
        EmptyKind::SendToOneself,
        EmptyKind::AllocateEmptyAfterFilled,
    ] {
        assert!(kinds.contains(&kind), "{kind:?}");
    }
}

/// Chains of one length compete in most of the least chains that are asked, and in some others.
#[test]
fn the_chains_that_are_asked_have_others_of_their_length() {
    let (mut competing, mut least) = (0, 0);
    for case in default_cases() {
        let (Question::Chain(asked) | Question::LeastChain(asked)) = &case.question else {
            continue;
        };
        let Answer::Chain(number, chain) = &case.answer else {
            panic!("{case:?}");
        };
        let others = *number == 0 && shortest_chains(asked, chain.len()) > 1;
        competing += usize::from(others);
        least += usize::from(others && matches!(case.question, Question::LeastChain(_)));
    }
    assert!(competing >= 5 && least >= 3, "{competing}, {least}");
}

/// How many ways of so many links lead from the stand-in to the object. Those of the least number of
/// links are chains.
fn shortest_chains(case: &ShownCase, links: usize) -> u64 {
    let test = &case.test;
    let leads = |from: u8, to: u8| {
        let capabilities = |n: u8| test.table.record(n).capabilities();
        let forth = capabilities(from).any(|held| held.target == to && held.rights != WK);
        forth || capabilities(to).any(|held| held.target == from)
    };
    let is_member = |n: usize| test.members >> n & 1 == 1;
    let mut ways = [0_u64; 64];
    for &(target, _) in test.list.iter().filter(|entry| entry.1 != WK) {
        ways[usize::from(target)] = 1;
    }
    for _ in 1..links {
        let before = ways;
        for (to, way) in ways.iter_mut().enumerate() {
            let from = (0..64).filter(|&from| leads(from as u8, to as u8) && !is_member(to));
            *way = from.fold(0, |sum, from| before[from].saturating_add(sum));
        }
    }
    ways[usize::from(case.object)]
}

#[test]
fn cases_are_shared_out_in_turn() {
    let cases: BTreeMap<usize, Case> = (5..).zip(cases_of(1, 0, 1).into_iter().take(7)).collect();
    let crates = case_crates("cases", 3, &cases, "A.b");
    let shared: Vec<&[usize]> = crates.iter().map(|one| one.cases.as_slice()).collect();
    assert_eq!(shared, [&[5, 8, 11][..], &[6, 9], &[7, 10]]);
    assert_eq!(crates[2].name, "cases_02");
    assert!(crates[2].text.contains("\ncase-0010 : "));
    assert!(case_crates("cases", 3, &BTreeMap::new(), "A.b").is_empty());
}

// What a repository says.

#[test]
fn definitions_that_may_be_looked_into_are_found() {
    let text = "-- unfoldable pub comment : ℕ\n\
                unfoldable pub grow : (ℕ → ℕ → Bool) → ℕ → ℕ\n\
                grow edge s = s\n\
                abbrev pub edgeOf : Right → ℕ\n\
                unfoldable hidden : ℕ\n\
                unfoldable abbrev pub both : ℕ\n\
                module _ (n : ℕ) where\n  unfoldable pub inner {ℓ} : Type ℓ\n\
                unfoldable pub use Basic.*\n\
                unfoldable pub _⊔_ : ℕ → ℕ → ℕ\n";
    assert_eq!(unfoldable_names(text), ["grow", "both", "inner", "_⊔_"]);
}

#[test]
fn crates_bring_all_that_they_stand_on() {
    let list = "# comment\nmask:\ntable: mask # libc\nimage: table io\nreport : image\n";
    let below = |names: &[&str]| with_all_below(list, names).expect("listed");
    assert_eq!(
        below(&["report", "table"]),
        ["report", "table", "image", "mask", "io"]
    );
    assert_eq!(below(&["mask"]), ["mask"]);
    assert!(with_all_below(list, &["io"]).is_err());
}

/// A small repository, of which `mask` is proved.
fn write_repository(root: &Path) {
    for (file, text) in [
        (
            "crates.txt",
            "# lowest first\nmask:\nsteps: mask\napart: mask",
        ),
        ("crates/mask/src/lib.rt", "// code\n"),
        ("crates/mask/specs/Lib.antt", "pub mod Sets\n"),
        ("crates/mask/specs/Sets.antt", "unfoldable pub bits : ℕ\n"),
        (
            "crates/mask/specs/Sets/Low.antt",
            "unfoldable pub low : ℕ\n",
        ),
        ("crates/mask/must-fail/one.edit", "file: specs/Sets.antt\n"),
        ("crates/steps/src/lib.rt", "// code\n"),
        (
            "crates/steps/specs/Steps.antt",
            "unfoldable pub step_of : ℕ\n",
        ),
        ("crates/mask/out/rlib/mask.rlib/format", "library\n"),
        ("crates/apart/src/lib.rt", "// code\n"),
        ("target/staticlib/libcaptable.a", "archive\n"),
    ] {
        let file = root.join(file);
        fs::create_dir_all(file.parent().expect("folder")).expect("folder");
        fs::write(file, text).expect("file");
    }
}

#[test]
fn cases_are_added_to_a_copy_only() {
    let folder = test_folder("copy");
    let root = folder.join("repository");
    write_repository(&root);
    let scratch = Scratch::new(&root, Some(&folder.join("copy"))).expect("copy");
    let list = scratch.crate_list().expect("list");
    let below = with_all_below(&list, &["steps"]).expect("crates");
    let unfolding = unfoldable(&scratch.folder, &below).expect("names");
    assert_eq!(
        unfolding,
        "Rattle.steps.specs.Steps.step_of Rattle.mask.specs.Sets.Low.low \
         Rattle.mask.specs.Sets.bits"
    );
    let cases: BTreeMap<usize, Case> = (0..).zip(cases_of(1, 0, 1)).collect();
    scratch.keep_only(&below).expect("crates");
    for added in case_crates("cases", 2, &cases, &unfolding) {
        scratch.add_crate(&added, &below).expect("crate");
    }

    let read = |file: &str| fs::read_to_string(scratch.folder.join(file)).expect(file);
    let added = "mask:\nsteps: mask\ncases_00: steps mask\ncases_01: steps mask\n";
    assert_eq!(read("crates.txt"), added);
    assert_eq!(read("crates/cases_00/proofs/Lib.antt"), "pub mod Cases\n");
    assert!(read("crates/cases_01/proofs/Cases.antt").contains(&unfolding));
    for absent in [
        "crates/mask/must-fail",
        "crates/mask/out",
        "crates/apart",
        "target",
    ] {
        assert!(!scratch.folder.join(absent).exists(), "{absent}");
    }
    assert!(!root.join("crates/cases_00").exists());
    fs::remove_dir_all(folder).expect("remove");
}

#[test]
fn a_copy_lies_outside_the_repository_and_is_fresh() {
    let folder = test_folder("place");
    let root = folder.join("repository");
    write_repository(&root);
    fs::write(folder.join("file"), "").expect("file");
    for (from, to) in [
        (&root, root.join("copy")),
        (&root, root.join("crates/../copy/deep")),
        (&root, folder.clone()),
        (&folder, folder.join("copy")),
    ] {
        assert!(Scratch::new(from, Some(&to)).is_err(), "{}", to.display());
    }
    assert!(!root.join("copy").exists());
    fs::remove_dir_all(folder).expect("remove");
}

// What the toolchain says.

fn case_crate(name: &str, cases: &[usize]) -> CaseCrate {
    CaseCrate {
        name: name.into(),
        text: String::new(),
        cases: cases.to_vec(),
    }
}

#[test]
fn refusals_are_told_from_missing_verdicts() {
    let said = "== mask\nlogic=proved\n\
        == cases_a\n\
        ./proofs/Cases.antt:9:13: error: `case-0001`: expected type `f 1 ≡ 2`\n  \
        but this has type `2 ≡ 2`\n  \
        what the two types compute to is not shown (computing it took more than 200000 steps)\n\
        ./proofs/Cases.antt:9:1: note: something else\n\
        ./proofs/Cases.antt:9:1: error: `case-0002`: in its elaboration: stopped at the step limit\n  \
        expected type `f 1 ≡ 2`, but this has type `2 ≡ 2`\n\
        ./proofs/Cases.antt:9:1: error: `case-0004`: `table-0004` was not admitted\n\
        == cases_b\n\
        == cases_d\n\
        ./proofs/Cases.antt:1:1: error: a word is missing\n\
        == summary\n\
        mask: ok\n\
        cases_a: failed (1)\n\
        cases_b: ok\n\
        cases_c: not run, since table failed\n\
        cases_d: failed (1)\n";
    let found = verdicts(
        said,
        &[
            case_crate("cases_a", &[1, 2, 3, 4]),
            case_crate("cases_b", &[5]),
            case_crate("cases_c", &[6]),
            case_crate("cases_d", &[7, 8]),
        ],
    );
    let refused: Vec<usize> = found
        .iter()
        .filter(|(_, verdict)| matches!(verdict, Verdict::Refused(_)))
        .map(|(number, _)| *number)
        .collect();
    assert_eq!(refused, [1]);
    assert_eq!(
        found.keys().copied().collect::<Vec<_>>(),
        [1, 2, 4, 6, 7, 8]
    );
    let dependency = "cases_c: not run, since table failed";
    assert_eq!(found[&6], Verdict::Undecided(dependency.into()));
}

/// Unless the checker got through a crate, nothing of it is taken for accepted.
#[test]
fn silence_is_no_acceptance() {
    let crates = [case_crate("cases_a", &[0, 1])];
    let refused = "== cases_a\n./proofs/Cases.antt:9:13: error: `case-0001`: \
                   expected type `f 1 ≡ 2`, but this has type `2 ≡ 2`\n";
    let whole = "== cases_a\n./proofs/Lib.antt:1:1: error: no such file\n";
    let summary = "== summary\ncases_a: failed";
    for said in [
        "",
        "rt: crates.txt: line 3: bad\n",
        "== summary\ncases_ab: ok\n",
        "cases_a: ok\n",
        &format!("{summary} (1)\n"),
        &format!("{whole}{summary} (1)\n"),
        &format!("{refused}{summary} (139)\n"),
        refused,
    ] {
        assert_eq!(verdicts(said, &crates).len(), 2, "{said}");
    }
    let through = format!("{refused}{summary} (1)\n");
    assert_eq!(verdicts(&through, &crates).len(), 1);
    assert!(verdicts("== summary\ncases_a: ok\n", &crates).is_empty());
}

#[test]
fn the_summary_names_what_was_not_accepted() {
    let question = Question::Step {
        table: Table::k(),
        request: Request::Read { actor: 0, t: 5 },
    };
    let cases: BTreeMap<usize, Case> = (0..4).map(|n| (n, Case::new(question.clone()))).collect();
    let counts = summary::counts(&cases);
    let read = counts
        .lines()
        .find(|line| line.starts_with("1 read"))
        .expect("row");
    let cells: Vec<&str> = read.split_whitespace().collect();
    assert_eq!(&cells[..8], ["1", "read", ".", ".", ".", ".", "4", "."]);
    assert_eq!(cells.last(), Some(&"4"));

    let crates = [
        case_crate("cases_00", &[0, 1]),
        case_crate("cases_01", &[2, 3]),
    ];
    let found = BTreeMap::from([
        (2, Verdict::Refused("expected\nmore".into())),
        (3, Verdict::Undecided("too long".into())),
    ]);
    let text = summary::not_accepted(&cases, &crates, &found, Path::new("/x"));
    let expected = "REFUSED case 2: 1 read, answer 4\n  /x/crates/cases_01/proofs/Cases.antt\n  \
                    expected\nNOT CHECKED case 3\n  too long\n  all that was said: /x/said\n\
                    4 cases: 2 accepted, 1 refused, 1 not checked\n";
    assert_eq!(text, expected);
    let text = summary::not_refused(&cases, &crates, &found, Path::new("/x"));
    assert!(text.starts_with("WRONG, ACCEPTED case 0: 1 read, answer 4\n"));
    assert!(text.ends_with("4 wrong on purpose: 1 refused, 2 accepted, 1 not checked\n"));
}

// Options.

#[test]
fn options_are_read() {
    let words = [
        "--seed",
        "9",
        "--runs",
        "5",
        "--imports",
        "160",
        "--tests",
        "80",
        "--steps",
        "160",
        "--keep",
        "/x",
        "--root",
        "/y",
    ];
    let options = Options::parse(&words).expect("options");
    assert_eq!((options.seed, options.counts.runs), (9, 5));
    assert_eq!((options.counts.imports, options.counts.tests), (160, 80));
    assert_eq!(options.counts.steps, 160);
    assert_eq!(options.counts.rounds, Counts::default().rounds);
    assert_eq!(options.keep, Some("/x".into()));
    assert_eq!(options.root, Path::new("/y"));
    assert_eq!(Options::parse(&[]), Ok(Options::default()));
    assert!(Options::default().root.join("model/tools").is_dir());
    for faulty in [
        &["--runs"][..],
        &["--runs", "x"],
        &["--other", "1"],
        &["5", "6"],
    ] {
        assert!(Options::parse(faulty).is_err(), "{faulty:?}");
    }
}
