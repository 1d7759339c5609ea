//! Comparisons with records that the books did not give.

use super::issues::Issues;
use super::{Course, Made, Way};
use crate::chunk::CHUNK;
use crate::generate::ask::{bad_record, break_chunk, made_up_record, FAR};
use crate::generate::Random;
use crate::NONE;

/// A bad record of one book: nothing is told before it is met, at the first turn.
fn bad(random: &mut Random, sides: &[usize]) -> Option<Made> {
    let issues = Issues::any(random)?;
    let mut given = issues.given();
    for &side in sides {
        given[side].record = bad_record(random, &given[side].record, &given[side].file);
    }
    Some((given, issues.refused(0, sides[0])))
}

/// A broken chunk of the first book, beside a bad record of the second: the first book is named if
/// it is the first chunk of the chain.
fn bad_beside_broken(random: &mut Random, first_chunk: bool) -> Option<Made> {
    let issues = Issues::any(random)?;
    let chain = issues.books[0].chain();
    let at = match first_chunk {
        true => 0,
        false => 1 + random.index(chain.len().checked_sub(1).filter(|&left| left > 0)?),
    };
    let mut given = issues.given();
    given[0].file = break_chunk(random, &issues.books[0], chain[at])?.bytes();
    given[1].record = bad_record(random, &given[1].record, &given[1].file);
    let side = usize::from(!first_chunk);
    Some((given, issues.refused(0, side)))
}

/// A first listing chunk at which no chain can start.
fn no_start(random: &mut Random) -> Option<Made> {
    let issues = Issues::any(random)?;
    let mut given = issues.given();
    let side = random.index(2);
    let record = &mut given[side].record;
    let indexes = issues.books[side].indexes();
    let far = random.pick(&FAR);
    let wide = 1 << 32 | record.first;
    record.first = match indexes.is_empty() || random.once_in(2) {
        true => random.pick(&[record.count, wide, far, u64::from(NONE) - 1]),
        false => random.pick(&indexes).into(),
    };
    Some((given, issues.refused(0, side)))
}

/// None is no first listing chunk, and no end either.
fn start_at_none(random: &mut Random) -> Option<Made> {
    let issues = Issues::any(random)?;
    let mut given = issues.given();
    let side = random.index(2);
    given[side].record.first = NONE.into();
    Some((given, issues.refused(0, side)))
}

/// What is in front of the chunk is not in that book.
fn later_start(random: &mut Random) -> Option<Made> {
    let mut issues = Issues::any(random)?;
    let side = random.index(2);
    let chain = issues.books[side].chain();
    let at = random.index(chain.len());
    let behind = issues.behind_chunks(side, at);
    issues.leave_out(side, 0, behind);
    issues.books[side].first = chain[at];
    (at > 0).then(|| (issues.given(), issues.course()))
}

/// Lowers the count to the number of a chunk on the chain; the first that is no longer below it is
/// refused.
fn lower_count(random: &mut Random) -> Option<Made> {
    let issues = Issues::any(random)?;
    let mut given = issues.given();
    let side = random.index(2);
    let chain = issues.books[side].chain();
    let count = random.pick(&chain);
    given[side].record.count = count.into();
    let at = chain.iter().position(|&chunk| chunk >= count)?;
    let behind = issues.behind_chunks(side, at);
    (count > 0).then(|| (given, issues.refused(behind, side)))
}

/// A higher count lets no more than the chain be read.
fn higher_count(random: &mut Random) -> Option<Made> {
    let issues = Issues::any(random)?;
    let mut given = issues.given();
    for given in &mut given {
        let more = given.record.count + random.below(9);
        given.record.count = random.pick(&[more, 4096]);
    }
    Some((given, issues.course()))
}

fn unread_numbers(random: &mut Random) -> Option<Made> {
    let issues = Issues::any(random)?;
    let mut given = issues.given();
    for given in &mut given {
        given.record.depth = random.between(1..=5);
        given.record.root = random.wide();
        given.record.last = random.wide();
        given.record.version = random.wide();
    }
    Some((given, issues.course()))
}

/// In 64 bits, each chunk would lie where the book has the one before.
fn around(random: &mut Random) -> Option<Made> {
    let issues = Issues::any(random)?;
    let mut given = issues.given();
    let side = random.index(2);
    let record = &mut given[side].record;
    record.count += 1;
    record.first += 1;
    record.start = record.start.wrapping_sub(CHUNK as u64);
    Some((given, issues.refused(0, side)))
}

fn swapped(random: &mut Random) -> Option<Made> {
    let issues = Issues::any(random)?;
    let mut given = issues.given();
    let record = given[0].record;
    given[0].record = given[1].record;
    given[1].record = record;
    Some((given, Course::Free))
}

fn made_up(random: &mut Random) -> Option<Made> {
    let issues = Issues::any(random)?;
    let mut given = issues.given();
    for given in &mut given {
        if random.below(3) > 0 {
            given.record = made_up_record(random, &given.record, &given.file);
        }
    }
    Some((given, Course::Free))
}

pub(super) const WAYS: &[Way] = &[
    Way {
        label: "bad record of the first book",
        make: |random| bad(random, &[0]),
    },
    Way {
        label: "bad record of the second book",
        make: |random| bad(random, &[1]),
    },
    Way {
        label: "bad records of both books",
        make: |random| bad(random, &[0, 1]),
    },
    Way {
        label: "bad record of the second book, broken chunk at the start of the first",
        make: |random| bad_beside_broken(random, true),
    },
    Way {
        label: "bad record of the second book, later broken chunk in the first",
        make: |random| bad_beside_broken(random, false),
    },
    Way {
        label: "first listing chunk of one record is none",
        make: start_at_none,
    },
    Way {
        label: "first listing chunk of one record is no listing chunk",
        make: no_start,
    },
    Way {
        label: "first listing chunk of one record is a later one",
        make: later_start,
    },
    Way {
        label: "lower count of one record",
        make: lower_count,
    },
    Way {
        label: "higher counts of the records",
        make: higher_count,
    },
    Way {
        label: "other depth, root and last chunk of the records",
        make: unread_numbers,
    },
    Way {
        label: "chunks of one book inside only in 64 bits",
        make: around,
    },
    Way {
        label: "records swapped",
        make: swapped,
    },
    Way {
        label: "made-up records",
        make: made_up,
    },
];
