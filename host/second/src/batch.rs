//! Many names in one call (FORMAT, Batch).

use crate::ask::lookup;
use crate::number::Reader;
use crate::open::open;
use crate::{require, Record, Refusal, Reply};

/// How many bytes an answer takes (FORMAT B4).
pub const ANSWER: usize = 32;

/// Opens the book and looks all names up. `room` is how many bytes a caller lends for the answers;
/// what comes back is to be written to their front (FORMAT B1, B5, RO10).
pub fn batch(file: &[u8], names: &[u8], room: usize) -> Result<Vec<u8>, Refusal> {
    batch_after(open(file), file, names, room)
}

/// The same for a caller who knows what opening these bytes gives.
pub fn batch_after(
    opening: Result<Record, Refusal>,
    file: &[u8],
    names: &[u8],
    room: usize,
) -> Result<Vec<u8>, Refusal> {
    let record = opening?;
    let names = batch_names(names).ok_or(Refusal::new(22))?;
    require(names.len() <= room / ANSWER, 22)?;
    let answers = names.iter().flat_map(|name| answer(file, &record, name));
    Ok(answers.collect())
}

/// The names that stand one behind another, or nothing if they break FORMAT B2.
pub fn batch_names(bytes: &[u8]) -> Option<Vec<&[u8]>> {
    let mut names = Vec::new();
    let mut reader = Reader::new(bytes);
    while !reader.at_end() {
        let length = reader.encint()?;
        names.push(reader.take(usize::try_from(length).ok()?)?);
    }
    Some(names)
}

/// The answer for one name of a book that opened with this record (FORMAT B3, B4, B6).
fn answer(file: &[u8], record: &Record, name: &[u8]) -> Vec<u8> {
    let numbers = match lookup(file, record, name, 5).reply() {
        Reply::Found(report) => [0, report.section, report.offset, report.size],
        Reply::Absent => [255, 0, 0, 0],
        // With that record and five places of trail this can only be 15.
        Reply::Refused(refusal) => [u64::from(refusal.number), 0, 0, 0],
    };
    let bytes = numbers.iter().flat_map(|number| number.to_le_bytes());
    bytes.collect()
}
