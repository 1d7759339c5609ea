//! A chunk by itself (FORMAT, Chunk and Entries).

use crate::name::rise;
use crate::number::{number_at, Reader};
use std::ops::Range;

pub(crate) const CHUNK: usize = 4096;
pub(crate) const LISTING_HEADER: usize = 20;
pub(crate) const INDEX_HEADER: usize = 8;

/// What a chunk is judged with besides its own bytes.
pub struct Limits {
    /// 0 to 7.
    pub density: u64,
    pub count: u64,
    pub content_length: u64,
}

/// An entry of a chunk; `value` is what follows the name.
pub struct Entry<'a, Value> {
    /// Its own bytes as they stand, from the start of the chunk: no number has to be in its short
    /// form, so they do not follow from the numbers (FORMAT N4, K25).
    pub own: Range<usize>,
    /// Where the name stands, from the start of the chunk.
    pub name_place: usize,
    pub name: &'a [u8],
    pub value: Value,
}

/// What follows the name in a listing entry (FORMAT E1).
#[derive(Clone, Copy)]
pub struct Stored {
    pub section: u64,
    pub offset: u64,
    pub size: u64,
}

/// A chunk that keeps every rule of its own. It has at least one entry.
pub enum Chunk<'a> {
    Listing {
        previous: u32,
        next: u32,
        entries: Vec<Entry<'a, Stored>>,
    },
    Index {
        /// The value is the child's number.
        entries: Vec<Entry<'a, u64>>,
    },
}

impl<'a> Chunk<'a> {
    pub fn first_name(&self) -> &'a [u8] {
        match self {
            Chunk::Listing { entries, .. } => entries[0].name,
            Chunk::Index { entries } => entries[0].name,
        }
    }

    pub fn names(&self) -> Vec<&'a [u8]> {
        match self {
            Chunk::Listing { entries, .. } => entries.iter().map(|entry| entry.name).collect(),
            Chunk::Index { entries } => entries.iter().map(|entry| entry.name).collect(),
        }
    }
}

/// From which entry to which the quick words step (FORMAT C5).
pub(crate) fn quick_step(density: u64) -> u64 {
    1 + (1 << density)
}

/// How many quick words `c` entries have, `c` being at least 1 (FORMAT C6).
pub fn quick_words(c: u64, density: u64) -> u64 {
    (c - 1) / quick_step(density)
}

/// Reads a chunk or says which of 8, 9, 10, 12 and 11, tried in this order, refuses it.
pub fn read_chunk<'a>(bytes: &'a [u8], limits: &Limits) -> Result<Chunk<'a>, u8> {
    if bytes.len() != CHUNK {
        return Err(8); // FORMAT C15
    }
    match &bytes[..4] {
        b"PMGL" => Ok(Chunk::Listing {
            previous: number_at(bytes, 0x0C, 4) as u32,
            next: number_at(bytes, 0x10, 4) as u32,
            entries: read_body(bytes, LISTING_HEADER, limits, read_stored)?,
        }),
        b"PMGI" => Ok(Chunk::Index {
            entries: read_body(bytes, INDEX_HEADER, limits, read_child)?,
        }),
        _ => Err(8),
    }
}

/// Checks 9 to 12 of a chunk whose header is `header` bytes long.
fn read_body<'a, Value>(
    bytes: &'a [u8],
    header: usize,
    limits: &Limits,
    read_value: fn(&mut Reader, &Limits) -> Option<Value>,
) -> Result<Vec<Entry<'a, Value>>, u8> {
    let c = number_at(bytes, CHUNK - 2, 2);
    if c == 0 {
        return Err(9); // FORMAT C4
    }
    let words = quick_words(c, limits.density);
    let tail = number_at(bytes, 4, 4);
    if tail < 2 + 2 * words || tail > (CHUNK - header) as u64 {
        return Err(9); // FORMAT C9, C10
    }
    let body = &bytes[header..CHUNK - tail as usize];

    let mut entries = Vec::new();
    let mut reader = Reader::new(body);
    for _ in 0..c {
        entries.push(read_entry(&mut reader, header, limits, read_value).ok_or(10)?);
    }
    if !reader.at_end() {
        return Err(10); // FORMAT C3
    }
    if !rise(entries.iter().map(|entry| entry.name)) {
        return Err(12); // FORMAT C12
    }
    let word = |k: u64| number_at(bytes, CHUNK - 2 - 2 * k as usize, 2);
    let place = |k: u64| entries[(k * quick_step(limits.density)) as usize].own.start - header;
    if (1..=words).any(|k| word(k) != place(k) as u64) {
        return Err(11); // FORMAT C8
    }
    Ok(entries)
}

/// Reads the entry that comes next. The reader's bytes start at `base` in the chunk.
pub(crate) fn read_entry<'a, Value>(
    reader: &mut Reader<'a>,
    base: usize,
    limits: &Limits,
    read_value: fn(&mut Reader, &Limits) -> Option<Value>,
) -> Option<Entry<'a, Value>> {
    let start = base + reader.at();
    let length = reader.encint()?;
    if !(1..=1024).contains(&length) {
        return None; // FORMAT E4
    }
    let name_place = base + reader.at();
    let name = reader.take(length as usize)?;
    let value = read_value(reader, limits)?;
    Some(Entry {
        own: start..base + reader.at(),
        name_place,
        name,
        value,
    })
}

/// What follows the name in a listing entry (FORMAT E1, E5, E6).
pub(crate) fn read_stored(reader: &mut Reader, limits: &Limits) -> Option<Stored> {
    let section = reader.encint()?;
    let offset = reader.encint()?;
    let size = reader.encint()?;
    let end = u128::from(offset) + u128::from(size);
    let inside = section != 0 || end <= u128::from(limits.content_length);
    (section <= 65_535 && inside).then_some(Stored {
        section,
        offset,
        size,
    })
}

/// What follows the name in an index entry (FORMAT E2, E7).
fn read_child(reader: &mut Reader, limits: &Limits) -> Option<u64> {
    reader.encint().filter(|&child| child < limits.count)
}
