//! Names for books, and names to ask a book for.

use super::Random;
use crate::compare;
use std::cmp::Ordering;

/// Bytes at the borders of folding, with their neighbours, and at the ends of the range.
const BORDER_BYTES: [u8; 14] = [
    0x00, 0x2E, 0x2F, 0x40, 0x41, 0x42, 0x5A, 0x5B, 0x60, 0x61, 0x7A, 0x7B, 0x80, 0xFF,
];

/// Lengths at the borders of the length's ENCINT and of the rule on names.
const BORDER_LENGTHS: [usize; 9] = [1, 2, 3, 126, 127, 128, 129, 1023, 1024];

/// At most `wanted` names that rise strictly, at least one; no more of them than `space` bytes
/// hold.
pub fn rising_names(random: &mut Random, wanted: usize, space: usize) -> Vec<Vec<u8>> {
    let style = random.below(9);
    let prefix = random.bytes(900);
    let mut names = Vec::new();
    let mut used = 0;
    while names.is_empty() || (names.len() < wanted && used < space) {
        let style = match style {
            0..=5 => style,
            6 => 2, // long names make deep trees: more of them
            _ => random.below(6),
        };
        let name = name(random, style, &prefix);
        used += name.len();
        names.push(name);
    }
    names.sort_by(|left, right| compare(left, right));
    names.dedup_by(|left, right| compare(left, right) == Ordering::Equal);
    names
}

fn name(random: &mut Random, style: u64, prefix: &[u8]) -> Vec<u8> {
    match style {
        0 => {
            let length = random.between(1..=5);
            (0..length).map(|_| random.pick(&BORDER_BYTES)).collect()
        }
        1 => path(random),
        2 => {
            // Long, and alike over a long stretch.
            let common = random.pick(&[0, 1, 40, 900]);
            let mut name = prefix[..common].to_vec();
            let length = random.between(950..=1024) as usize;
            name.extend(random.bytes(length - common));
            name
        }
        3 => {
            let length = random.pick(&BORDER_LENGTHS);
            random.bytes(length)
        }
        4 => {
            // So short that a chunk takes hundreds.
            let length = random.between(1..=2) as usize;
            random.bytes(length)
        }
        _ => {
            // Many of these are beginnings of others.
            let mut name = prefix[..random.between(1..=40) as usize].to_vec();
            if random.once_in(2) {
                name.push(random.pick(&BORDER_BYTES));
            }
            name
        }
    }
}

fn path(random: &mut Random) -> Vec<u8> {
    let folders = ["html", "Images", "topics", "::DataSpace", "", "a-b"];
    let endings = [".htm", ".HTML", ".gif", "", "/"];
    let number = random.below(3000);
    let name = format!(
        "/{}/{}{}{}",
        random.pick(&folders),
        random.pick(&["page", "Page", "P", "p_"]),
        number,
        random.pick(&endings)
    );
    name.into_bytes()
}

/// The same name with the case of some letters changed, if it has a letter.
pub fn other_case(random: &mut Random, name: &[u8]) -> Option<Vec<u8>> {
    let letters: Vec<usize> = (0..name.len())
        .filter(|&at| name[at].is_ascii_alphabetic())
        .collect();
    if letters.is_empty() {
        return None;
    }
    let mut changed = name.to_vec();
    changed[random.pick(&letters)] ^= 0x20;
    for &at in &letters {
        if random.once_in(4) {
            changed[at] ^= 0x20;
        }
    }
    (changed != name).then_some(changed)
}

/// A name close to a given one; mostly one that the book lacks. It may be of a forbidden length.
pub fn near_miss(random: &mut Random, name: &[u8]) -> Vec<u8> {
    let mut near = name.to_vec();
    let last = near.len() - 1;
    match random.below(6) {
        0 => near.push(random.pick(&BORDER_BYTES)),
        1 => near.truncate(last),
        2 => near[last] = near[last].wrapping_add(1),
        3 => near[last] = near[last].wrapping_sub(1),
        4 => {
            let at = random.index(near.len());
            near[at] ^= 0x20; // folds only among letters
        }
        _ => {
            let at = random.index(near.len());
            near[at] = random.pick(&BORDER_BYTES);
        }
    }
    near
}

/// Some name of 1 to 1,024 bytes, the shortest and the longest among them.
pub fn any_name(random: &mut Random) -> Vec<u8> {
    match random.below(4) {
        0 => vec![0x00],
        1 => vec![0xFF; 1024],
        2 => path(random),
        _ => {
            let length = random.between(1..=1024) as usize;
            random.bytes(length)
        }
    }
}
