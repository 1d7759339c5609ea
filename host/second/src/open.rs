//! Opening a book: checks 1 to 14 (FORMAT, Refusals).

use crate::chunk::{read_chunk, Chunk, Limits, CHUNK};
use crate::name::rise;
use crate::number::number_at;
use crate::{require, Record, Refusal, NONE};

pub(crate) const FILE_GUID_1: [u8; 16] = [
    0x10, 0xFD, 0x01, 0x7C, 0xAA, 0x7B, 0xD0, 0x11, 0x9E, 0x0C, 0x00, 0xA0, 0xC9, 0x22, 0xE6, 0xEC,
];
pub(crate) const FILE_GUID_2: [u8; 16] = [
    0x11, 0xFD, 0x01, 0x7C, 0xAA, 0x7B, 0xD0, 0x11, 0x9E, 0x0C, 0x00, 0xA0, 0xC9, 0x22, 0xE6, 0xEC,
];
pub(crate) const DIRECTORY_GUID: [u8; 16] = [
    0x6A, 0x92, 0x02, 0x5D, 0x2E, 0x21, 0xD0, 0x11, 0x9D, 0xF9, 0x00, 0xA0, 0xC9, 0x22, 0xE6, 0xEC,
];
pub(crate) const DIRECTORY_HEADER: usize = 84;

/// Checks a whole book; the first check that fails is the answer (FORMAT RO1 to RO4).
pub fn open(file: &[u8]) -> Result<Record, Refusal> {
    let record = read_headers(file)?;
    let chunks = read_chunks(file, &record)?;
    let chain = read_chain(&chunks, &record).ok_or(Refusal::new(13))?;
    require(tree_holds(&chunks, &record, &chain), 14)?;
    Ok(record)
}

/// Checks 1 to 7. Past each of them the bytes that the next one reads are inside the file.
fn read_headers(file: &[u8]) -> Result<Record, Refusal> {
    require(file.len() >= 96, 1)?;

    let tag = file[..4] == *b"ITSF";
    let guids = file[0x18..0x28] == FILE_GUID_1 && file[0x28..0x38] == FILE_GUID_2;
    require(tag && guids, 2)?;

    let version = number_at(file, 0x04, 4);
    let header_length = number_at(file, 0x08, 4);
    require(matches!((version, header_length), (2, 0x58) | (3, 0x60)), 3)?;

    let sections = read_sections(file, version, header_length).ok_or(Refusal::new(4))?;

    let written_length = number_at(file, sections.zero + 8, 8);
    require(written_length == file.len() as u64, 5)?;

    let directory = &file[sections.directory..];
    require(is_directory_header(directory), 6)?;
    require(
        directory_rules_hold(directory, sections.directory_length),
        7,
    )?;

    let field = |offset| number_at(directory, offset, 4);
    Ok(Record {
        version,
        time: number_at(file, 0x10, 4),
        language: number_at(file, 0x14, 4),
        start: sections.directory as u64,
        count: field(0x2C),
        density: field(0x14),
        depth: field(0x18),
        root: field(0x1C),
        first: field(0x20),
        last: field(0x24),
        content: sections.content,
    })
}

/// Where things lie in the file, once check 4 has passed.
struct Sections {
    zero: usize,
    directory: usize,
    directory_length: u64,
    content: u64,
}

/// Check 4 (FORMAT F7 to F14).
fn read_sections(file: &[u8], version: u64, header_length: u64) -> Option<Sections> {
    let field = |offset| u128::from(number_at(file, offset, 8));
    let (zero, zero_length) = (field(0x38), field(0x40));
    let (directory, directory_length) = (field(0x48), field(0x50));
    let zero_end = zero + zero_length;
    let directory_end = directory + directory_length;
    let content = match version {
        2 => directory_end,
        _ => field(0x58),
    };
    let file_length = file.len() as u128;
    let header_end = u128::from(header_length);

    let holds = zero_length == 24
        && directory_length >= DIRECTORY_HEADER as u128
        && zero_end <= file_length
        && directory_end <= file_length
        && zero >= header_end
        && directory >= header_end
        && (zero_end <= directory || directory_end <= zero)
        && content >= zero_end
        && content >= directory_end
        && content <= file_length;
    // All of these are now at most the file's length.
    holds.then_some(Sections {
        zero: zero as usize,
        directory: directory as usize,
        directory_length: directory_length as u64,
        content: content as u64,
    })
}

/// Check 6 (FORMAT D2, D3, D4, D12, D13).
fn is_directory_header(directory: &[u8]) -> bool {
    directory[..4] == *b"ITSP"
        && number_at(directory, 0x04, 4) == 1
        && number_at(directory, 0x08, 4) == DIRECTORY_HEADER as u64
        && directory[0x34..0x44] == DIRECTORY_GUID
        && number_at(directory, 0x44, 4) == DIRECTORY_HEADER as u64
}

/// Check 7 (FORMAT D6, D7, D8, D11, D14 to D18).
fn directory_rules_hold(directory: &[u8], length: u64) -> bool {
    let field = |offset| number_at(directory, offset, 4);
    let chunk_size = field(0x10);
    let density = field(0x14);
    let depth = field(0x18);
    let root = field(0x1C);
    let (first, last) = (field(0x20), field(0x24));
    let count = field(0x2C);
    let root_holds = if depth == 1 {
        root == u64::from(NONE) || root == 0
    } else {
        root < count
    };

    chunk_size == CHUNK as u64
        && density <= 7
        && (1..=5).contains(&depth)
        && (1..=4096).contains(&count)
        && length == DIRECTORY_HEADER as u64 + CHUNK as u64 * count
        && first < count
        && last < count
        && (depth == 1) == (count == 1)
        && root_holds
}

/// Checks 8 to 12 of chunk 0, 1, 2 and on (FORMAT RO2).
fn read_chunks<'a>(file: &'a [u8], record: &Record) -> Result<Vec<Chunk<'a>>, Refusal> {
    let limits = Limits {
        density: record.density,
        count: record.count,
        content_length: file.len() as u64 - record.content,
    };
    let chunks = &file[record.start as usize + DIRECTORY_HEADER..];
    chunks
        .chunks_exact(CHUNK)
        .zip(0..record.count as u32)
        .map(|(bytes, number)| {
            read_chunk(bytes, &limits).map_err(|refused| Refusal::of_chunk(refused, number))
        })
        .collect()
}

/// Check 13: the numbers of the listing chunks along the chain (FORMAT, Chain).
fn read_chain(chunks: &[Chunk], record: &Record) -> Option<Vec<u32>> {
    let mut chain: Vec<u32> = Vec::new();
    let mut on_chain = vec![false; chunks.len()];
    let mut names = Vec::new();
    let mut came_from = NONE;
    let mut at = record.first as u32;
    loop {
        // No chunk has the number NONE, or another that is not below the count (FORMAT L6).
        let (previous, next, entries) = match chunks.get(at as usize)? {
            Chunk::Listing {
                previous,
                next,
                entries,
            } => (*previous, *next, entries),
            Chunk::Index { .. } => return None,
        };
        if previous != came_from || on_chain[at as usize] {
            return None;
        }
        on_chain[at as usize] = true;
        chain.push(at);
        names.push(entries[0].name);
        names.push(entries[entries.len() - 1].name);
        if next == NONE {
            break;
        }
        came_from = at;
        at = next;
    }

    let ends_well = u64::from(at) == record.last;
    let all_on_chain = chunks
        .iter()
        .zip(&on_chain)
        .all(|(chunk, on_chain)| *on_chain || matches!(chunk, Chunk::Index { .. }));
    // Inside a chunk names rise by check 12, so only the borders are left: the last name of a
    // chunk and the first of the next.
    let borders_rise = names[1..names.len() - 1]
        .chunks_exact(2)
        .all(|border| rise(border.iter().copied()));
    (ends_well && all_on_chain && borders_rise).then_some(chain)
}

/// Check 14 (FORMAT, Tree).
fn tree_holds(chunks: &[Chunk], record: &Record, chain: &[u32]) -> bool {
    let mut walk = Walk {
        chunks,
        leaves: chain,
        reached: vec![false; chunks.len()],
    };
    // At depth 1 nothing is walked, so an index chunk would be one that is not reached (T1).
    let walked = record.depth == 1
        || (walk.subtree_holds(record.depth, record.root) && walk.leaves.is_empty());
    walked
        && chunks
            .iter()
            .zip(&walk.reached)
            .all(|(chunk, reached)| *reached || matches!(chunk, Chunk::Listing { .. }))
}

/// A walk over the tree from left to right.
struct Walk<'a> {
    chunks: &'a [Chunk<'a>],
    /// The rest of the chain, which the leaves have to follow. Every subtree has a leaf, so a
    /// tree that leads to a chunk twice fails here before it can take long.
    leaves: &'a [u32],
    reached: Vec<bool>,
}

impl Walk<'_> {
    /// Whether the chunk is of the kind for its level, and all below it is right too.
    fn subtree_holds(&mut self, level: u64, number: u64) -> bool {
        let chunks = self.chunks;
        match &chunks[number as usize] {
            Chunk::Listing { .. } => match self.leaves {
                [next, rest @ ..] if level == 1 && u64::from(*next) == number => {
                    self.leaves = rest;
                    true
                }
                _ => false,
            },
            Chunk::Index { entries } => {
                self.reached[number as usize] = true;
                level > 1
                    && entries.iter().all(|entry| {
                        let child = entry.value;
                        chunks[child as usize].first_name() == entry.name
                            && self.subtree_holds(level - 1, child)
                    })
            }
        }
    }
}
