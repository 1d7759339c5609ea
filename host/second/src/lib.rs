//! A second reading of docs/FORMAT.md, which the proved library is compared with.
//!
//! It shares no code with that library and aims at being plainly right, not at speed: it reads a
//! whole directory into lists and checks those. `FORMAT` and a label in a comment name a row of
//! that page. Sums and products of numbers from a book are made in 128 bits, or after their bounds
//! are known, so nothing wraps (FORMAT N7).

#![forbid(unsafe_code)]

mod ask;
mod batch;
mod chunk;
mod comparison;
mod frames;
pub mod generate;
mod name;
mod number;
mod open;
mod opened;
mod search;
mod write;

pub use ask::{
    chunk_entries, chunk_listed, holding, leading, lookup, met, own, part, scan, start, step,
};
pub use batch::{batch, batch_after, batch_names, ANSWER};
pub use chunk::{quick_words, read_chunk, Chunk, Entry, Limits, Stored};
pub use comparison::{
    compare_start, compare_step, Compared, Difference, Listed, Progress, Side, Totals, Walk,
};
pub use frames::{diff_frames, frames, own_bytes};
pub use name::{compare, order};
pub use number::{encint, read_encint};
pub use open::open;
pub use opened::{lookup_opened, stands_there, Expected};
pub use search::{compared, comparisons, most_comparisons};
pub use write::write_head;

/// Stands for no chunk where a chunk number is expected, and for no place in a refusal.
pub const NONE: u32 = 0xFFFF_FFFF;

/// What opening hands out (FORMAT K1), in 64 bits each so that a made-up record can hold anything.
#[derive(Debug, Clone, Copy, PartialEq, Eq)]
pub struct Record {
    pub version: u64,
    pub time: u64,
    pub language: u64,
    /// Where the directory header starts.
    pub start: u64,
    pub count: u64,
    pub density: u64,
    pub depth: u64,
    pub root: u64,
    pub first: u64,
    pub last: u64,
    /// Where the content starts.
    pub content: u64,
}

/// Why there is no answer (FORMAT RO7).
#[derive(Debug, Clone, Copy, PartialEq, Eq)]
pub struct Refusal {
    pub number: u8,
    /// The chunk's number from 8 to 12, else [`NONE`].
    pub place: u32,
}

impl Refusal {
    /// A refusal that names no chunk.
    pub fn new(number: u8) -> Refusal {
        Refusal {
            number,
            place: NONE,
        }
    }

    /// A refusal of one chunk.
    pub fn of_chunk(number: u8, place: u32) -> Refusal {
        Refusal { number, place }
    }
}

/// Goes on if the rule holds, else refuses.
fn require(holds: bool, number: u8) -> Result<(), Refusal> {
    if holds {
        Ok(())
    } else {
        Err(Refusal::new(number))
    }
}

/// The five numbers of a listing entry (FORMAT K6).
#[derive(Debug, Clone, Copy, PartialEq, Eq)]
pub struct Report {
    /// Where the name stands in the file.
    pub place: u64,
    /// The name's length.
    pub length: u64,
    pub section: u64,
    pub offset: u64,
    /// How many bytes the entry stands for.
    pub size: u64,
}

/// What lookup answers; the trail holds the chunks of the descent in order (FORMAT K4, Q6), and the
/// comparisons are those of all these chunks (FORMAT K26).
#[derive(Debug, Clone, PartialEq, Eq)]
pub enum Answer {
    Found {
        report: Report,
        trail: Vec<u32>,
        comparisons: u64,
    },
    Absent {
        trail: Vec<u32>,
        comparisons: u64,
    },
    Refused(Refusal),
}

impl Answer {
    /// The same without the trail and the comparisons.
    pub fn reply(&self) -> Reply {
        match self {
            Answer::Found { report, .. } => Reply::Found(*report),
            Answer::Absent { .. } => Reply::Absent,
            Answer::Refused(refusal) => Reply::Refused(*refusal),
        }
    }
}

/// What a scan or a lookup in an opened book answers (FORMAT K16 to K19, K22 to K24).
#[derive(Debug, Clone, Copy, PartialEq, Eq)]
pub enum Reply {
    Found(Report),
    Absent,
    Refused(Refusal),
}

/// The entry to be reported next (FORMAT K8).
#[derive(Debug, Clone, Copy, PartialEq, Eq)]
pub struct Cursor {
    pub chunk: u64,
    pub entry: u64,
}

/// What one step of the listing answers, with the cursor it hands back (FORMAT K9, K10).
#[derive(Debug, Clone, Copy, PartialEq, Eq)]
pub enum Step {
    Entry(Report, Cursor),
    End(Cursor),
    Refused(Refusal),
}
