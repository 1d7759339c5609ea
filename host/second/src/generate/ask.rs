//! Lookups, scans, batches, steps and parts: of good books, of broken ones, with made-up records and
//! cursors.

mod batch;
mod lookup;
mod opened;
mod scan;
mod step;

pub use batch::{batch_case, break_names, joined, joined_padded};
pub use lookup::{lookup_case, unaskable};
pub use opened::opened_case;
pub use scan::scan_case;
pub use step::step_case;

use super::book::book;
use super::damage::damage_for;
use super::plan::Book;
use super::{labels_of, Aim, Call, Case, Random};
use crate::chunk::CHUNK;
use crate::{Record, NONE};

const TOP_32: u64 = NONE as u64;
const BIT_32: u64 = 1 << 32;
const BIT_63: u64 = 1 << 63;
const TOP: u64 = u64::MAX;

/// Numbers that are too high for all that has a limit of its own.
pub(super) const FAR: [u64; 4] = [TOP_32, BIT_32, BIT_63, TOP];

const PART: &str = "part";

pub fn labels() -> Vec<&'static str> {
    let groups = [
        labels_of(lookup::LOOKUPS),
        scan::labels(),
        labels_of(opened::KINDS),
        batch::labels(),
        labels_of(step::STEPS),
        vec![PART],
    ];
    groups.concat()
}

/// A record that is refused whatever else is asked (FORMAT K12).
pub fn bad_record(random: &mut Random, good: &Record, file: &[u8]) -> Record {
    let mut bad = *good;
    let length = file.len() as u64;
    let far = random.pick(&FAR);
    match random.below(4) {
        0 => bad.density = random.pick(&[8, 9, 64, BIT_32 | good.density, far]),
        1 => bad.depth = random.pick(&[0, 6, BIT_32 | good.depth, far]),
        2 => bad.count = random.pick(&[0, 4097, BIT_32 | good.count, far]),
        _ => bad.content = random.pick(&[length + 1, length + BIT_32, far]),
    }
    bad
}

/// A record of which anything may be wrong, or of a form that no book has.
pub fn made_up_record(random: &mut Random, good: &Record, file: &[u8]) -> Record {
    let mut record = *good;
    for _ in 0..random.between(1..=3) {
        let wide = random.wide();
        let number = random.between(0..=good.count.min(4097));
        match random.below(12) {
            0 => record.version = wide,
            1 => record.time = wide,
            2 => record.language = wide,
            3 => {
                let near = good.start.wrapping_add(random.below(3)).wrapping_sub(1);
                let before = good.start.wrapping_sub(CHUNK as u64);
                let behind = good.start.wrapping_add(CHUNK as u64);
                record.start = random.pick(&[wide, near, before, behind]);
            }
            4 => record.count = random.pick(&[wide, number, 1, 2, 4096]),
            5 => record.density = random.between(0..=8),
            6 => record.depth = random.between(0..=6),
            7 => record.root = random.pick(&[wide, number, number, NONE.into()]),
            8 => record.first = random.pick(&[wide, number, number, NONE.into()]),
            9 => record.last = random.pick(&[wide, number]),
            10 => record.content = random.pick(&[wide, 0, file.len() as u64]),
            _ => {
                // Entries may end with the content: a byte more or less decides.
                let near = good.content.wrapping_add(random.below(3)).wrapping_sub(1);
                let any = random.between(0..=file.len() as u64 + 1);
                record.content = random.pick(&[near, near, any]);
            }
        }
    }
    record
}

/// Breaks one of the book's chunks by itself and says which.
pub(super) fn break_some_chunk(random: &mut Random, book: &mut Book) -> Option<u32> {
    let number = random.between(8..=12) as u8;
    let damage = damage_for(random, number);
    (damage.apply)(random, book)
}

/// Breaks just this chunk; nothing if that did not come about.
pub(super) fn break_chunk(random: &mut Random, book: &Book, wanted: u32) -> Option<Book> {
    (0..60).find_map(|_| {
        let mut broken = book.clone();
        let place = break_some_chunk(random, &mut broken)?;
        (place == wanted).then_some(broken)
    })
}

/// Cuts the file behind the directory. The content is taken to be the whole file, so that entries
/// of section 0 stay inside it.
fn end_with_directory(book: &Book, file: &mut Vec<u8>, record: &mut Record) {
    record.content = 0;
    file.truncate(book.places().directory_end);
}

/// Cuts off the last byte of a chunk, and all that is behind it.
pub(super) fn end_inside(book: &Book, chunk: u32, file: &mut Vec<u8>, record: &mut Record) {
    record.content = 0;
    file.truncate(book.chunk_place(chunk) + CHUNK - 1);
}

/// A part of the file, inside or not.
pub fn part_case(random: &mut Random) -> Case {
    let file = book(random).bytes();
    Case {
        label: PART,
        call: part_call(random, &file),
        file,
        aim: Aim::Good,
    }
}

/// A range that lies inside, ends with the file, leaves it by one byte or by far.
pub fn part_call(random: &mut Random, file: &[u8]) -> Call {
    let length = file.len() as u64;
    let inside = random.between(0..=length);
    let wide = random.wide();
    let place = random.pick(&[0, inside, inside, length, length + 1, TOP, wide]);
    let rest = length.saturating_sub(place);
    let some = random.between(0..=rest);
    // With the last one the end is 0 in 64 bits.
    let lengths = [0, 1, some, rest, rest + 1, TOP, place.wrapping_neg()];
    Call::Part {
        place,
        length: random.pick(&lengths),
    }
}
