//! A chunk by itself: refusals 8 to 12.

use std::cmp::Ordering;

use hodsplinter::{name_order, Refusal};

use super::bytes::{Bytes, Fault};
use super::header::Directory;
use super::Finding;
use crate::text::{shown, spaced_hex};

const CHUNK: u64 = 4096;

/// A chunk with a tag.
pub struct Chunk<'a> {
    pub place: u64,
    pub listing: bool,
    bytes: Bytes<'a>,
    count: u64,
    tail: u64,
    spacing: u64,
}

/// What is read of an entry. Places are those in the chunk.
pub struct Item<'a> {
    pub name: &'a [u8],
    pub name_at: u64,
    pub child: u64,
    start: u64,
}

/// What was read, or the place in the chunk and the rule that is broken there.
type Read<T> = Result<T, (u64, Fault)>;

pub fn place_of(directory: &Directory, number: u64) -> u64 {
    directory.start + 84 + CHUNK * number
}

impl<'a> Chunk<'a> {
    /// The chunk of a number; none without a tag, and where the file has no such chunk.
    pub fn read(file: Bytes<'a>, directory: &Directory, number: u64) -> Option<Chunk<'a>> {
        let place = place_of(directory, number);
        let bytes = Bytes(file.part(place, CHUNK)?);
        let listing = match bytes.part(0, 4)? {
            b"PMGL" => true,
            b"PMGI" => false,
            _ => return None,
        };
        Some(Chunk {
            place,
            listing,
            bytes,
            count: bytes.number(CHUNK - 2, 2)?,
            tail: bytes.number(4, 4)?,
            spacing: 1 + (1 << directory.density.min(7)),
        })
    }

    /// A link of a listing chunk, at 0C the previous and at 10 hex the next one.
    pub fn link(&self, offset: u64) -> Option<u64> {
        self.bytes.number(offset, 4)
    }

    fn header(&self) -> u64 {
        if self.listing {
            20
        } else {
            8
        }
    }

    /// Where the tail starts.
    fn end(&self) -> u64 {
        CHUNK - self.tail.min(CHUNK)
    }

    fn at(&self, row: &'static str, offset: u64, found: String) -> Finding {
        Finding::new(row, self.place + offset, found)
    }

    /// C4, C9, C10.
    fn frame(&self) -> Option<Finding> {
        let (count, tail, header) = (self.count, self.tail, self.header());
        if count == 0 {
            return Some(self.at("C4", CHUNK - 2, "the number of entries is 0".to_string()));
        }
        let words = (count - 1) / self.spacing;
        let (low, high) = (2 + 2 * words, CHUNK - header);
        if tail < low {
            let found = format!(
                "the tail length is {tail}, but {count} entries have a tail of {low} or more"
            );
            return Some(self.at("C9", 4, found));
        }
        let found = || format!("the tail length is {tail}, above the {high} behind the header");
        (tail > high).then(|| self.at("C10", 4, found()))
    }

    /// The entries, or the first rule that one of them breaks.
    pub fn items(&self, directory: &Directory) -> Result<Vec<Item<'a>>, Finding> {
        let (mut at, mut items) = (self.header(), Vec::new());
        let (count, tail) = (self.count, self.end());
        for i in 0..count {
            let start = self.place + at;
            if at >= tail {
                let found = format!("here the tail starts, behind {i} entries of {count}");
                return Err(self.at("C3", tail, found));
            }
            let item = self.item(directory, at);
            let (item, end) = item.map_err(|(place, (row, found))| {
                self.at(row, place, format!("entry {i}, at 0x{start:x}: {found}"))
            })?;
            items.push(item);
            at = end;
        }
        if at == tail {
            return Ok(items);
        }
        let tail = self.place + tail;
        let found = format!("here end the entries, {count} of them; the tail starts at 0x{tail:x}");
        Err(self.at("C3", at, found))
    }

    /// The entry at a place and the place behind it.
    fn item(&self, directory: &Directory, start: u64) -> Read<(Item<'a>, u64)> {
        let (size, name_at) = self.number("name length", start)?;
        if !(1..=1024).contains(&size) {
            let found = format!("a name of {size} bytes, not 1 to 1024");
            return Err((start, ("E4", found)));
        }
        let name = self.bytes.part(name_at, size).ok_or_else(|| {
            let row = if self.listing { "E1, C3" } else { "E2, C3" };
            let found = format!("the chunk ends in its name of {size} bytes");
            (start, (row, found))
        })?;
        let at = name_at + size;
        let (child, end) = match self.listing {
            true => (0, self.numbers(directory, at)?),
            false => self.child(directory, at)?,
        };
        let item = Item {
            name,
            name_at,
            child,
            start,
        };
        Ok((item, end))
    }

    /// A number that starts in front of the tail must end there. Of one that starts in the tail, C3 tells when the entries are read.
    fn number(&self, what: &str, at: u64) -> Read<(u64, u64)> {
        let end = if at < self.end() { self.end() } else { CHUNK };
        let read = Bytes(&self.bytes.0[..end as usize]).encint(at);
        read.map_err(|(row, found)| (at, (row, format!("{what}: {found}"))))
    }

    /// The child of an index entry and the place behind it.
    fn child(&self, directory: &Directory, at: u64) -> Read<(u64, u64)> {
        let (child, end) = self.number("child", at)?;
        let count = directory.count;
        if child >= count {
            let found = format!("the child is {child}, not below the number of chunks, {count}");
            return Err((at, ("E7", found)));
        }
        Ok((child, end))
    }

    /// The place behind the numbers of a listing entry.
    fn numbers(&self, directory: &Directory, at: u64) -> Read<u64> {
        let (section, offset_at) = self.number("section", at)?;
        let (offset, length_at) = self.number("offset", offset_at)?;
        let (length, end) = self.number("length", length_at)?;
        if section > 65535 {
            return Err((at, ("E5", format!("the section is {section}, above 65535"))));
        }
        let content = directory.content_length;
        if section == 0 && offset + length > content {
            let found = format!(
                "offset {offset} and length {length} are not inside the content, {content} bytes"
            );
            return Err((offset_at, ("E6", found)));
        }
        Ok(end)
    }

    /// C12.
    fn order(&self, items: &[Item]) -> Option<Finding> {
        let i = items
            .windows(2)
            .position(|pair| name_order(pair[0].name, pair[1].name) != Ordering::Less)?;
        let (a, b) = (shown(items[i].name), shown(items[i + 1].name));
        let found = format!("entry {}, {b}, stands behind {a}, but names rise", i + 1);
        Some(self.at("C12", items[i + 1].start, found))
    }

    /// C8.
    fn quick(&self, items: &[Item]) -> Option<Finding> {
        let first = items.first()?.start;
        let marked = items.iter().skip(self.spacing as usize);
        (1..)
            .zip(marked.step_by(self.spacing as usize))
            .find_map(|(k, item)| {
                let (at, want) = (CHUNK - 2 - 2 * k, item.start - first);
                let found = self.bytes.number(at, 2)?;
                (found != want).then(|| {
                    let i = k * self.spacing;
                    let found = format!(
                        "quick word {k} is {found}, but entry {i} stands {want} behind entry 0"
                    );
                    self.at("C8", at, found)
                })
            })
    }
}

pub fn finding(file: Bytes, directory: &Directory, refusal: Refusal) -> Option<Finding> {
    let number = u64::from(refusal.chunk()?);
    let chunk = match Chunk::read(file, directory, number) {
        Some(chunk) => chunk,
        None => return no_tag(file, place_of(directory, number)),
    };
    match (refusal.number(), chunk.items(directory)) {
        (9, _) => chunk.frame(),
        (10, items) => items.err(),
        (11, Ok(items)) => chunk.quick(&items),
        (12, Ok(items)) => chunk.order(&items),
        _ => None,
    }
}

fn no_tag(file: Bytes, place: u64) -> Option<Finding> {
    let tag = file.part(place, 4)?;
    let found = format!(
        "the tag is {}, neither {} (PMGL) nor {} (PMGI)",
        spaced_hex(tag),
        spaced_hex(b"PMGL"),
        spaced_hex(b"PMGI")
    );
    Some(Finding::new("C1, C2", place, found))
}
