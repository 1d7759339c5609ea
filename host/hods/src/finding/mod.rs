//! What stands in a book where a rule fails. The library alone judges; it answers a number and a chunk. This reads the refused bytes once more to
//! say which row of docs/FORMAT.md it was, at which place, and what was found there.

mod bytes;
mod chain;
mod chunk;
mod header;
mod tree;
mod writer;

use hodsplinter::Refusal;

use crate::status::Trouble;
use bytes::Bytes;
use header::Directory;

pub use writer::refused_head;

/// The chunk number that stands for none.
const NONE: u64 = 0xFFFF_FFFF;

/// A rule that fails.
#[derive(Debug)]
pub struct Finding {
    /// The row of docs/FORMAT.md, or two of them, the second more exact; empty where the refusal's own row is all.
    row: &'static str,
    /// Where in the file.
    place: u64,
    /// What stands there, and what should.
    found: String,
}

impl Finding {
    fn new(row: &'static str, place: u64, found: String) -> Finding {
        Finding { row, place, found }
    }

    /// A finding where a rule does not hold.
    fn unless(
        holds: bool,
        row: &'static str,
        place: u64,
        found: impl FnOnce() -> String,
    ) -> Option<Finding> {
        (!holds).then(|| Finding::new(row, place, found()))
    }
}

/// The message on a refused book. Without a finding it is the refusal's own sentence.
pub fn refused(subject: &str, file: &[u8], refusal: Refusal) -> Trouble {
    let text = match find(file, refusal) {
        None => refusal.to_string(),
        Some(finding) => told(refusal, &finding),
    };
    Trouble::refused(subject, text).by(refusal)
}

fn told(refusal: Refusal, finding: &Finding) -> String {
    let Finding { row, place, found } = finding;
    let number = refusal.number();
    let comma = if row.is_empty() { "" } else { ", " };
    let chunk = match refusal.chunk() {
        Some(chunk) => format!(" in chunk {chunk}"),
        None => String::new(),
    };
    format!("refusal {number} (FORMAT R{number}{comma}{row}){chunk} at 0x{place:x}: {found}")
}

/// The message on a name that was refused before anything was looked up.
pub fn refused_name(subject: &str, size: usize, refusal: Refusal) -> Trouble {
    let text = match refusal.number() {
        15 => format!("refusal 15 (FORMAT R15): the asked name has {size} bytes, not 1 to 1024"),
        _ => refusal.to_string(),
    };
    Trouble::refused(subject, text)
}

/// The first rule that fails among those of the refusal.
fn find(file: &[u8], refusal: Refusal) -> Option<Finding> {
    let file = Bytes(file);
    match refusal.number() {
        1 => Some(header::short(file)),
        2 => header::tags(file),
        3 => header::version(file),
        4 => header::places(file),
        5 => header::file_length(file),
        6 => header::directory_tags(file),
        7 => header::directory_numbers(file),
        8..=12 => chunk::finding(file, &Directory::read(file)?, refusal),
        13 => chain::finding(file, &Directory::read(file)?),
        14 => tree::finding(file, &Directory::read(file)?),
        _ => None,
    }
}

#[cfg(test)]
mod tests;
