//! Wrong readings of 2.7, each by what it would answer to a question of the definitions.

use super::cases::{Answer, Case, Question};
use yavrinks_model::image::{encode, Version, HEAD_LENGTH, VERSION_AT};
use yavrinks_model::refusal::Refusal;
use yavrinks_model::step::Request;
use yavrinks_model::table::{Table, NO_MAKER};

/// A wrong reading of 2.7.
pub struct Misreading {
    pub name: &'static str,
    /// What it answers to a case, if it has anything to say of that. It may be what is right.
    answer: fn(&Case) -> Option<Answer>,
}

impl Misreading {
    /// What it answers to a case, where that is wrong.
    pub fn wrong_answer(&self, case: &Case) -> Option<Answer> {
        (self.answer)(case).filter(|answer| *answer != case.answer)
    }
}

/// The wrong readings: of who is recorded, of what stands in an image, and of the order of the checks.
pub const MISREADINGS: [Misreading; 21] = [
    Misreading {
        name: "a new object has 64",
        answer: |case| made_by(case, |_, _, _| NO_MAKER),
    },
    Misreading {
        name: "a new object is its own maker",
        answer: |case| made_by(case, |_, _, n| n),
    },
    Misreading {
        name: "a new object has its maker's maker",
        answer: |case| made_by(case, |before, actor, _| before.record(actor).maker),
    },
    Misreading {
        name: "a dead object has 64",
        answer: |case| {
            destroyed(case, |after, target, _| {
                after.record_mut(target).maker = NO_MAKER
            })
        },
    },
    Misreading {
        name: "a dead object has who destroyed it",
        answer: |case| {
            destroyed(case, |after, target, actor| {
                after.record_mut(target).maker = actor
            })
        },
    },
    Misreading {
        name: "what a dead object made has 64",
        answer: |case| destroyed(case, |after, target, _| forget(after, target)),
    },
    Misreading {
        name: "version 1 moves up with 0",
        answer: |case| read_as(case, Version::One, |table, _| set_makers(table, |_| 0)),
    },
    Misreading {
        name: "version 1 moves up with each its own maker",
        answer: |case| read_as(case, Version::One, |table, _| set_makers(table, |n| n)),
    },
    Misreading {
        name: "the maker is read from the first byte",
        answer: |case| read_as(case, Version::Two, makers_first),
    },
    Misreading {
        name: "version 2 is read without its makers",
        answer: |case| {
            read_as(case, Version::Two, |table, _| {
                set_makers(table, |_| NO_MAKER)
            })
        },
    },
    Misreading {
        name: "the maker is written as the first byte",
        answer: written_first,
    },
    Misreading {
        name: "another version byte is 14",
        answer: |case| refused_read(case, |image| image.len() > VERSION_AT, 15, 14),
    },
    Misreading {
        name: "a slice below three bytes is 15",
        answer: |case| refused_read(case, |image| image.len() <= VERSION_AT, 14, 15),
    },
    Misreading {
        name: "a wrong length is 15",
        answer: |case| refused_read(case, |image| image.len() > VERSION_AT, 14, 15),
    },
    Misreading {
        name: "23 comes after 16",
        answer: |case| written_otherwise(case, 23, |room| room < 1923, 16),
    },
    Misreading {
        name: "23 comes before 1",
        answer: |case| written_otherwise(case, 1, |_| true, 23),
    },
    Misreading {
        name: "the older form leaves makers out",
        answer: without_23,
    },
    Misreading {
        name: "the older form asks for 1,987 bytes",
        answer: |case| written_otherwise(case, 0, |room| room < 1987, 16),
    },
    Misreading {
        name: "confine takes version 2",
        answer: |case| decided(case, 15, |input| input[VERSION_AT] == 2, 0),
    },
    Misreading {
        name: "confine checks 14 before 15",
        answer: |case| decided(case, 15, |input| !input.starts_with(&[0x07, 0x83]), 14),
    },
    Misreading {
        name: "confine checks 15 before 17",
        answer: |case| decided(case, 17, |input| input.get(VERSION_AT) != Some(&1), 15),
    },
];

/// The answer to an allocate that is done, with another maker; it is told by the table before, the actor and n.
fn made_by(case: &Case, maker: fn(&Table, u8, u8) -> u8) -> Option<Answer> {
    let (Question::Step { table, request }, Answer::Table(0, after)) =
        (&case.question, &case.answer)
    else {
        return None;
    };
    let Request::Allocate { actor, n, .. } = request else {
        return None;
    };
    let mut after = after.clone();
    after.record_mut(*n).maker = maker(table, *actor, *n);
    Some(Answer::Table(0, after))
}

/// The answer to a destroy that is done, with the table after it changed; target and actor are told.
fn destroyed(case: &Case, change: fn(&mut Table, u8, u8)) -> Option<Answer> {
    let (Question::Step { table, request }, Answer::Table(0, after)) =
        (&case.question, &case.answer)
    else {
        return None;
    };
    let Request::Destroy { actor, t } = request else {
        return None;
    };
    let target = table.record(*actor).slots[usize::from(*t)].target;
    let mut after = after.clone();
    change(&mut after, target, *actor);
    Some(Answer::Table(0, after))
}

fn forget(table: &mut Table, maker: u8) {
    for record in &mut table.records {
        if record.maker == maker {
            record.maker = NO_MAKER;
        }
    }
}

fn set_makers(table: &mut Table, maker: fn(u8) -> u8) {
    for (n, record) in (0..).zip(&mut table.records) {
        record.maker = maker(n);
    }
}

/// The answer to an image of the version that is read, with the table changed; the image is told.
fn read_as(case: &Case, version: Version, change: fn(&mut Table, &[u8])) -> Option<Answer> {
    let (Question::Read { image }, Answer::Table(0, table)) = (&case.question, &case.answer) else {
        return None;
    };
    let mut table = table.clone();
    change(&mut table, image);
    (image[VERSION_AT] == version.number()).then_some(Answer::Table(0, table))
}

/// Status and maker of every record from the places that they would have then.
fn makers_first(table: &mut Table, image: &[u8]) {
    let parts = image[HEAD_LENGTH..].chunks(Version::Two.record_length());
    for (record, part) in table.records.iter_mut().zip(parts) {
        (record.maker, record.status) = (part[0], part[1]);
    }
}

/// An image of version 2 with the last byte of every record moved to its front.
fn written_first(case: &Case) -> Option<Answer> {
    let (Question::Write { version, .. }, Answer::Buffer(0, after)) =
        (&case.question, &case.answer)
    else {
        return None;
    };
    let mut after = after.clone();
    let end = version.image_length();
    for part in after[HEAD_LENGTH..end].chunks_mut(version.record_length()) {
        part.rotate_right(1);
    }
    (*version == Version::Two).then_some(Answer::Buffer(0, after))
}

/// Another number for an image that is refused by the first, where the image is such.
fn refused_read(case: &Case, such: fn(&[u8]) -> bool, right: u8, wrong: u8) -> Option<Answer> {
    match (&case.question, &case.answer) {
        (Question::Read { image }, Answer::Table(number, table))
            if *number == right && such(image) =>
        {
            Some(Answer::Table(wrong, table.clone()))
        }
        _ => None,
    }
}

/// Another number for the older form, with the buffer as it was, where the right number and the room are such.
fn written_otherwise(case: &Case, right: u8, such: fn(usize) -> bool, wrong: u8) -> Option<Answer> {
    let (
        Question::Write {
            version,
            table,
            buffer,
        },
        Answer::Buffer(number, _),
    ) = (&case.question, &case.answer)
    else {
        return None;
    };
    // Only a table with makers can be refused for them.
    let can_be = wrong != Refusal::MakerRecorded.number() || table.has_makers();
    let older = *version == Version::One && *number == right && such(buffer.len());
    (older && can_be).then(|| Answer::Buffer(wrong, buffer.clone()))
}

/// The older form of a table with makers, where there is room for it.
fn without_23(case: &Case) -> Option<Answer> {
    let (Question::Write { table, buffer, .. }, Answer::Buffer(23, _)) =
        (&case.question, &case.answer)
    else {
        return None;
    };
    let mut after = buffer.clone();
    let image = encode(Version::One, table);
    after.get_mut(..image.len())?.copy_from_slice(&image);
    Some(Answer::Buffer(0, after))
}

/// Another number for an input that is refused by the first, where the input is such.
fn decided(case: &Case, right: u8, such: fn(&[u8]) -> bool, wrong: u8) -> Option<Answer> {
    match (&case.question, &case.answer) {
        (Question::Decision { input }, Answer::Decided(number, 0))
            if *number == right && such(input) =>
        {
            Some(Answer::Decided(wrong, 0))
        }
        _ => None,
    }
}
