//! The chain of listing chunks: refusal 13.

use std::cmp::Ordering;

use hodsplinter::name_order;

use super::bytes::Bytes;
use super::chunk::{place_of, Chunk};
use super::header::Directory;
use super::{Finding, NONE};
use crate::text::shown;

/// Offsets of the links in a listing chunk.
const PREVIOUS: u64 = 0x0C;
const NEXT: u64 = 0x10;

pub fn finding(file: Bytes, directory: &Directory) -> Option<Finding> {
    ends(file, directory)
        .or_else(|| links(file, directory).err())
        .or_else(|| off_chain(file, directory))
        .or_else(|| borders(file, directory))
}

/// The chunks of the chain as far as its links are good.
pub fn chunks(file: Bytes, directory: &Directory) -> Option<Vec<u64>> {
    links(file, directory).ok()
}

fn listing(file: Bytes, directory: &Directory, number: u64) -> bool {
    Chunk::read(file, directory, number).map_or(false, |chunk| chunk.listing)
}

/// L7: first and last are listing chunks.
fn ends(file: Bytes, directory: &Directory) -> Option<Finding> {
    let fields = [
        ("first", 0x20, directory.first),
        ("last", 0x24, directory.last),
    ];
    fields.into_iter().find_map(|(what, offset, number)| {
        let holds = listing(file, directory, number);
        Finding::unless(holds, "L7", directory.start + offset, || {
            format!("the {what} listing chunk is {number}, an index chunk")
        })
    })
}

/// L1, L2, L3, L6: the chunks from first to last, or the link that breaks the chain.
fn links(file: Bytes, directory: &Directory) -> Result<Vec<u64>, Finding> {
    let (mut chain, mut number, mut from) = (Vec::new(), directory.first, NONE);
    loop {
        chain.push(number);
        let chunk = Chunk::read(file, directory, number);
        let link = |offset| chunk.as_ref().and_then(|c| c.link(offset)).unwrap_or(NONE);
        check_previous(directory, number, link(PREVIOUS), from)?;
        let next = link(NEXT);
        check_next(file, directory, number, next)?;
        if next == NONE {
            return Ok(chain);
        }
        (number, from) = (next, number);
    }
}

fn called(number: u64) -> String {
    match number {
        NONE => "none".to_string(),
        _ => number.to_string(),
    }
}

/// L1, L2: the previous chunk is the one from which the chain came.
fn check_previous(d: &Directory, number: u64, previous: u64, from: u64) -> Result<(), Finding> {
    if previous == from {
        return Ok(());
    }
    let row = if from == NONE { "L1" } else { "L2" };
    let (previous, from) = (called(previous), called(from));
    let found =
        format!("chunk {number} of the chain has the previous chunk {previous}, not {from}");
    Err(Finding::new(row, place_of(d, number) + PREVIOUS, found))
}

/// L2, L3, L6: the next chunk is a listing chunk, and none behind the last.
fn check_next(file: Bytes, d: &Directory, number: u64, next: u64) -> Result<(), Finding> {
    let (last, count) = (d.last, d.count);
    let link = |row, found| Err(Finding::new(row, place_of(d, number) + NEXT, found));
    if next == NONE && number != last {
        let found =
            format!("the last listing chunk is {last}, but the chain ends at chunk {number}");
        return Err(Finding::new("L3", d.start + 0x24, found));
    }
    if next != NONE && next >= count {
        let found = format!("chunk {number} of {count} has the next chunk {next}");
        return link("L6", found);
    }
    if next != NONE && number == last {
        let found = format!("the last listing chunk, {number}, has the next chunk {next}");
        return link("L3", found);
    }
    if next != NONE && !listing(file, d, next) {
        return link(
            "L2",
            format!("chunk {number} has the next chunk {next}, an index chunk"),
        );
    }
    Ok(())
}

/// L4: every listing chunk is on the chain.
fn off_chain(file: Bytes, directory: &Directory) -> Option<Finding> {
    let chain = chunks(file, directory)?;
    let mut on = vec![false; directory.count as usize];
    for number in chain {
        on[number as usize] = true;
    }
    let number = (0..directory.count).find(|n| !on[*n as usize] && listing(file, directory, *n))?;
    let found = format!("listing chunk {number} is not on the chain");
    Some(Finding::new("L4", place_of(directory, number), found))
}

/// L5: names rise from chunk to chunk.
fn borders(file: Bytes, directory: &Directory) -> Option<Finding> {
    let mut before: Option<(u64, &[u8])> = None;
    for number in chunks(file, directory)? {
        let chunk = Chunk::read(file, directory, number)?;
        let items = chunk.items(directory).ok()?;
        let (first, last) = (items.first()?, items.last()?);
        if let Some((other, name)) = before {
            if name_order(name, first.name) != Ordering::Less {
                let (a, b) = (shown(name), shown(first.name));
                let found = format!(
                    "chunk {number} starts with {b}, chunk {other} before it ends with {a}, but names rise"
                );
                return Some(Finding::new("L5", chunk.place + first.name_at, found));
            }
        }
        before = Some((number, last.name));
    }
    None
}
