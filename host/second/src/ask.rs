//! Asking a book with a record (FORMAT, Descent and Asking).

use crate::chunk::{read_chunk, Chunk, Entry, Limits, Stored, CHUNK};
use crate::name::compare;
use crate::open::DIRECTORY_HEADER;
use crate::search::comparisons;
use crate::{require, Answer, Cursor, Listed, Record, Refusal, Reply, Report, Step, NONE};
use std::cmp::Ordering;

/// Looks a name up. `places` is the length of the trail that a caller lends; the answer's trail
/// is what is to be written to its front (FORMAT K3 to K6, K26, RO5).
pub fn lookup(file: &[u8], record: &Record, name: &[u8], places: usize) -> Answer {
    looked_up(file, record, name, places, &mut Vec::new())
}

/// The chunks that a lookup looks at, one that it refuses last (FORMAT K27). Of that one alone the
/// number may be not below the count, and its bytes need not be inside the file.
pub fn met(file: &[u8], record: &Record, name: &[u8], places: usize) -> Vec<u64> {
    let mut met = Vec::new();
    looked_up(file, record, name, places, &mut met);
    met
}

fn looked_up(
    file: &[u8],
    record: &Record,
    name: &[u8],
    places: usize,
    met: &mut Vec<u64>,
) -> Answer {
    require_name(name)
        .and_then(|()| require(places >= 5, 16))
        .and_then(|()| descend(file, record, name, met))
        .unwrap_or_else(Answer::Refused)
}

/// Whether a name may be asked for (FORMAT R15).
pub(crate) fn require_name(name: &[u8]) -> Result<(), Refusal> {
    require((1..=1024).contains(&name.len()), 15)
}

/// Whether a record may be asked with (FORMAT K12).
pub(crate) fn require_record(file: &[u8], record: &Record) -> Result<(), Refusal> {
    let good = record.density <= 7
        && (1..=5).contains(&record.depth)
        && (1..=4096).contains(&record.count)
        && record.content <= file.len() as u64;
    require(good, 17)
}

/// The descent for a name (FORMAT Q1 to Q6, Q11). Its chunks are put into `met` one by one.
fn descend(
    file: &[u8],
    record: &Record,
    name: &[u8],
    met: &mut Vec<u64>,
) -> Result<Answer, Refusal> {
    let book = Asked::new(file, record)?;
    let mut level = record.depth;
    let mut at = match level {
        1 => record.first,
        _ => record.root,
    };
    let mut count = 0;
    loop {
        met.push(at);
        let chunk = book.meet(at)?;
        count += comparisons(&chunk.names(), record.density, name);
        match chunk {
            Chunk::Listing { entries, .. } if level == 1 => {
                let report = holding(&entries, name).map(|entry| book.listed(at, entry).report);
                return Ok(answer(report, met, count));
            }
            Chunk::Index { entries } if level > 1 => {
                match leading(&entries, name) {
                    Some(entry) => at = entry.value,
                    None => return Ok(answer(None, met, count)),
                }
                level -= 1;
            }
            _ => return Err(Refusal::new(17)), // the wrong kind for its level
        }
    }
}

/// Found or absent, behind a descent through these chunks.
fn answer(report: Option<Report>, met: &[u64], comparisons: u64) -> Answer {
    let trail = met.iter().map(|&at| at as u32).collect(); // each is below the count
    match report {
        Some(report) => Answer::Found {
            report,
            trail,
            comparisons,
        },
        None => Answer::Absent { trail, comparisons },
    }
}

/// The entry of a listing chunk that holds the name (FORMAT Q5).
pub fn holding<'b, 'a>(
    entries: &'b [Entry<'a, Stored>],
    name: &[u8],
) -> Option<&'b Entry<'a, Stored>> {
    entries
        .iter()
        .find(|entry| compare(entry.name, name) == Ordering::Equal)
}

/// The entry of an index chunk whose child a name leads to (FORMAT Q2).
pub fn leading<'b, 'a>(entries: &'b [Entry<'a, u64>], name: &[u8]) -> Option<&'b Entry<'a, u64>> {
    entries
        .iter()
        .rfind(|entry| compare(entry.name, name) != Ordering::Greater)
}

/// Looks a name up along the chain, without the index (FORMAT K16 to K19, RO5).
pub fn scan(file: &[u8], record: &Record, name: &[u8]) -> Reply {
    require_name(name)
        .and_then(|()| follow(file, record, name))
        .unwrap_or_else(Reply::Refused)
}

/// From the first listing chunk on, next by next.
fn follow(file: &[u8], record: &Record, name: &[u8]) -> Result<Reply, Refusal> {
    let book = Asked::new(file, record)?;
    let mut at = record.first;
    for _ in 0..record.count {
        let (entries, next) = book.meet_listing(at)?;
        if let Some(entry) = holding(&entries, name) {
            return Ok(Reply::Found(book.listed(at, entry).report));
        }
        if next == NONE {
            return Ok(Reply::Absent);
        }
        at = next.into();
    }
    Err(Refusal::new(17)) // a chunk beyond as many as the count (FORMAT K19)
}

/// The cursor that a listing starts with (FORMAT K8).
pub fn start(record: &Record) -> Cursor {
    Cursor {
        chunk: record.first,
        entry: 0,
    }
}

/// Reports the cursor's entry and moves on by one (FORMAT K9 to K11).
pub fn step(file: &[u8], record: &Record, cursor: Cursor) -> Step {
    try_step(file, record, cursor).unwrap_or_else(Step::Refused)
}

fn try_step(file: &[u8], record: &Record, cursor: Cursor) -> Result<Step, Refusal> {
    let book = Asked::new(file, record)?;
    if cursor.chunk == u64::from(NONE) {
        return Ok(Step::End(cursor));
    }
    let (entries, next) = book.meet_listing(cursor.chunk)?;
    let entry = entry_at(&entries, cursor)?;
    let moved = if cursor.entry + 1 < entries.len() as u64 {
        Cursor {
            chunk: cursor.chunk,
            entry: cursor.entry + 1,
        }
    } else {
        Cursor {
            chunk: u64::from(next),
            entry: 0,
        }
    };
    Ok(Step::Entry(book.listed(cursor.chunk, entry).report, moved))
}

/// The cursor's entry, of the entries of its chunk.
fn entry_at<'b, 'a>(
    entries: &'b [Entry<'a, Stored>],
    cursor: Cursor,
) -> Result<&'b Entry<'a, Stored>, Refusal> {
    let index = usize::try_from(cursor.entry).ok();
    let entry = index.and_then(|index| entries.get(index));
    entry.ok_or(Refusal::new(17)) // FORMAT K13
}

/// Where the own bytes of the cursor's entry stand in the file, and how many they are; nothing
/// where a step reports no entry (FORMAT K25).
pub fn own(file: &[u8], record: &Record, cursor: Cursor) -> Option<(u64, u64)> {
    let book = Asked::new(file, record).ok()?;
    // At the end there is no chunk to meet (FORMAT K10): none is not below a count.
    let (entries, _) = book.meet_listing(cursor.chunk).ok()?;
    let listed = book.listed(cursor.chunk, entry_at(&entries, cursor).ok()?);
    Some((listed.place, listed.length))
}

/// All entries of one listing chunk with their own bytes, and the chunk's next, or 17.
pub fn chunk_listed(
    file: &[u8],
    record: &Record,
    chunk: u64,
) -> Result<(Vec<Listed>, u32), Refusal> {
    let book = Asked::new(file, record)?;
    let (entries, next) = book.meet_listing(chunk)?;
    let listed = entries.iter().map(|entry| book.listed(chunk, entry));
    Ok((listed.collect(), next))
}

/// The same without their own bytes.
pub fn chunk_entries(
    file: &[u8],
    record: &Record,
    chunk: u64,
) -> Result<(Vec<Report>, u32), Refusal> {
    let (listed, next) = chunk_listed(file, record, chunk)?;
    Ok((listed.iter().map(|listed| listed.report).collect(), next))
}

/// The bytes from `place` on, `length` of them; none if they are not all inside (FORMAT K15).
pub fn part(file: &[u8], place: u64, length: u64) -> &[u8] {
    let end = u128::from(place) + u128::from(length);
    if end <= file.len() as u128 {
        &file[place as usize..end as usize]
    } else {
        &[]
    }
}

/// Bytes and a record that is not bad (FORMAT K12).
pub(crate) struct Asked<'a> {
    file: &'a [u8],
    start: u64,
    pub limits: Limits,
}

impl<'a> Asked<'a> {
    pub fn new(file: &'a [u8], record: &Record) -> Result<Asked<'a>, Refusal> {
        require_record(file, record)?;
        Ok(Asked {
            file,
            start: record.start,
            limits: Limits {
                density: record.density,
                count: record.count,
                content_length: file.len() as u64 - record.content,
            },
        })
    }

    /// Where a chunk starts, exactly (FORMAT D19).
    pub fn place(&self, number: u64) -> u128 {
        u128::from(self.start) + DIRECTORY_HEADER as u128 + CHUNK as u128 * u128::from(number)
    }

    /// The bytes of a chunk that lies inside the file, whatever its number is.
    pub fn chunk_bytes(&self, number: u64) -> Option<&'a [u8]> {
        let place = self.place(number);
        let end = place + CHUNK as u128;
        (end <= self.file.len() as u128).then(|| &self.file[place as usize..end as usize])
    }

    /// A chunk, checked whole before anything is answered from it (FORMAT K13, K14).
    fn meet(&self, number: u64) -> Result<Chunk<'a>, Refusal> {
        require(number < self.limits.count, 17)?;
        let bytes = self.chunk_bytes(number).ok_or(Refusal::new(17))?;
        read_chunk(bytes, &self.limits).map_err(|_| Refusal::new(17))
    }

    pub fn meet_listing(&self, number: u64) -> Result<(Vec<Entry<'a, Stored>>, u32), Refusal> {
        match self.meet(number)? {
            Chunk::Listing { entries, next, .. } => Ok((entries, next)),
            Chunk::Index { .. } => Err(Refusal::new(17)),
        }
    }

    /// The numbers of an entry of a chunk that lies inside the file (FORMAT K6, K25).
    pub fn listed(&self, chunk: u64, entry: &Entry<Stored>) -> Listed {
        let start = self.place(chunk) as u64;
        Listed {
            report: Report {
                place: start + entry.name_place as u64,
                length: entry.name.len() as u64,
                section: entry.value.section,
                offset: entry.value.offset,
                size: entry.value.size,
            },
            place: start + entry.own.start as u64,
            length: entry.own.len() as u64,
        }
    }
}
