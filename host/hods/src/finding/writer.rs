//! Entries of which no head can be written: refusals 18 and 19.

use std::cmp::Ordering;

use hodsplinter::{name_order, NewEntry, Options, Refusal};

use super::bytes::Fault;
use crate::source::Source;
use crate::status::Trouble;
use crate::text::shown;

/// A fault, and the number of the entry that has it, where it is one entry's.
type Found = (Option<usize>, Fault);

/// The message on entries that the writer refused.
pub fn refused_head(
    source: &Source,
    entries: &[NewEntry],
    options: &Options,
    refusal: Refusal,
) -> Trouble {
    let number = refusal.number();
    let found = match number {
        18 => broken(entries, options),
        19 => Some((None, too_many(entries.len()))),
        _ => None,
    };
    match found {
        Some((entry, (row, found))) => {
            let text = format!("refusal {number} (FORMAT R{number}, {row}): {found}");
            Trouble::refused(&source.place(entry), text)
        }
        None => Trouble::refused(&source.place(None), refusal),
    }
}

fn too_many(count: usize) -> Fault {
    let found = format!("{count} entries need more than 4096 chunks, or a depth above 5");
    ("D8, D11", found)
}

/// The first rule of W2 that the entries or the numbers break.
fn broken(entries: &[NewEntry], options: &Options) -> Option<Found> {
    let length = options.content_length;
    if entries.is_empty() {
        let found = "there is no entry, and a book has one or more".to_string();
        return Some((None, ("W2", found)));
    }
    if length >= 1 << 62 {
        let found = format!("the content has {length} bytes, not fewer than 2^62");
        return Some((None, ("W2", found)));
    }
    let mut alone = entries.iter().enumerate();
    alone
        .find_map(|(i, entry)| Some((Some(i), broken_entry(entry, length)?)))
        .or_else(|| falling(entries))
}

fn broken_entry(entry: &NewEntry, content: u64) -> Option<Fault> {
    let (name, size) = (shown(entry.name), entry.name.len());
    let NewEntry { offset, length, .. } = *entry;
    if !(1..=1024).contains(&size) {
        let found = format!("the name {name} has {size} bytes, not 1 to 1024");
        return Some(("E4", found));
    }
    if offset.max(length) >= 1 << 63 {
        let found = format!("{name}: offset {offset} or length {length} is not below 2^63");
        return Some(("N3", found));
    }
    if entry.section == 0 && offset + length > content {
        let found = format!(
            "{name} with offset {offset} and length {length} is not inside the content, {content} bytes"
        );
        return Some(("E6", found));
    }
    None
}

/// The first entry that is not above the one before it.
fn falling(entries: &[NewEntry]) -> Option<Found> {
    let order = |pair: &[NewEntry]| name_order(pair[0].name, pair[1].name);
    let i = entries
        .windows(2)
        .position(|pair| order(pair) != Ordering::Less)?;
    let (a, b) = (shown(entries[i].name), shown(entries[i + 1].name));
    let fault = match order(&entries[i..]) {
        Ordering::Equal => ("S1", equal(&a, &b)),
        _ => ("W2", format!("{b} stands behind {a}, but names rise")),
    };
    Some((Some(i + 1), fault))
}

fn equal(a: &str, b: &str) -> String {
    match a == b {
        true => format!("the name {a} is there twice"),
        false => {
            format!("the names {a} and {b} are one name in a book, where A to Z count as a to z")
        }
    }
}
