//! The C functions with their answers: done, or 255, or the refusal.

use crate::raw;
pub use crate::raw::{LOOKUP, RECORD};
use crate::refusal::Refusal;

/// How many numbers an entry has: the name's place and length, section, offset, length.
pub const ENTRY: usize = 5;

/// Places of a trail that are always enough.
pub const TRAIL: usize = 5;

/// Numbers that are always enough for the entries of one chunk.
pub const PAGE: usize = 4_070;

/// How many numbers the cursor of a comparison has: two walks of five, four totals.
pub const COMPARISON: usize = 14;

/// How many numbers a comparison tells of an entry: those of `ENTRY`, then place and length of its own bytes.
pub const COMPARED: usize = 7;

/// How many numbers a difference has: its kind, and those of two entries.
pub const DIFFERENCE: usize = 1 + 2 * COMPARED;

/// What a function answered: true for 0, false for 255 (absent, at the end, no entry, too few places), else the refusal.
pub type Told = Result<bool, Refusal>;

fn told(code: u64) -> Told {
    match code {
        0 => Ok(true),
        255 => Ok(false),
        _ => Err(Refusal::from_code(code)),
    }
}

pub fn name_order(a: &[u8], b: &[u8]) -> u64 {
    raw::name_order(a, b)
}

pub fn open(file: &[u8], record: &mut [u64; RECORD]) -> Told {
    told(raw::open(file, record))
}

pub fn lookup(
    file: &[u8],
    record: &[u64; RECORD],
    name: &[u8],
    trail: &mut [u32; TRAIL],
    answer: &mut [u64; LOOKUP],
) -> Told {
    told(raw::lookup(file, record, name, trail, answer))
}

pub fn scan(file: &[u8], record: &[u64; RECORD], name: &[u8], answer: &mut [u64; ENTRY]) -> Told {
    told(raw::scan(file, record, name, answer))
}

pub fn lookup_opened(
    file: &[u8],
    record: &[u64; RECORD],
    name: &[u8],
    answer: &mut [u64; ENTRY],
) -> Told {
    told(raw::lookup_opened(file, record, name, answer))
}

pub fn batch(file: &[u8], names: &[u8], answers: &mut [u8]) -> Told {
    told(raw::batch(file, names, answers))
}

pub fn start(record: &[u64; RECORD], cursor: &mut [u64; 2]) -> Told {
    told(raw::start(record, cursor))
}

pub fn step(
    file: &[u8],
    record: &[u64; RECORD],
    cursor: &mut [u64; 2],
    entry: &mut [u64; ENTRY],
) -> Told {
    told(raw::step(file, record, cursor, entry))
}

pub fn own(file: &[u8], record: &[u64; RECORD], cursor: &[u64; 2], part: &mut [u64; 2]) -> Told {
    told(raw::own(file, record, cursor, part))
}

pub fn chunk(
    file: &[u8],
    record: &[u64; RECORD],
    chunk: u64,
    entries: &mut [u64],
    next: &mut [u64; 2],
) -> Told {
    told(raw::chunk(file, record, chunk, entries, next))
}

pub fn compare_start(
    one: &[u64; RECORD],
    two: &[u64; RECORD],
    cursor: &mut [u64; COMPARISON],
) -> Told {
    told(raw::compare_start(one, two, cursor))
}

pub fn compare_step(
    one: (&[u8], &[u64; RECORD]),
    two: (&[u8], &[u64; RECORD]),
    cursor: &mut [u64; COMPARISON],
    difference: &mut [u64; DIFFERENCE],
    totals: &mut [u64; 4],
) -> Told {
    told(raw::compare_step(one, two, cursor, difference, totals))
}

pub fn part(file: &[u8], place: u64, length: u64) -> u64 {
    raw::part(file, place, length)
}

pub fn write_head(
    entries: &[u8],
    numbers: [u32; 3],
    content_length: u64,
    out: &mut [u8],
    length: &mut [u64; 1],
) -> Told {
    let [density, time, language] = numbers;
    told(raw::write_head(
        entries,
        density,
        time,
        language,
        content_length,
        out,
        length,
    ))
}
