//! The search of a chunk, by the names that it compares with the asked one (FORMAT Q8 to Q12).
//! Which entry or child comes of it follows from the names alone (FORMAT Q2, Q5) and is not taken
//! from here.

use crate::chunk::{quick_step, quick_words};
use crate::name::compare;
use std::cmp::Ordering;

/// How many comparisons the search for a name makes in a chunk with these names, one or more.
pub fn comparisons(names: &[&[u8]], density: u64, asked: &[u8]) -> u64 {
    compared(names, density, asked).len() as u64
}

/// The names that it compares with the asked one, in turn, one of them twice where FORMAT Q10 says so.
pub fn compared<'a>(names: &[&'a [u8]], density: u64, asked: &[u8]) -> Vec<&'a [u8]> {
    let groups: Vec<&[&[u8]]> = names.chunks(quick_step(density) as usize).collect();
    let mut compared = Vec::new();
    let left = halved(&groups, asked, &mut compared);
    go_through(groups[left], asked, &mut compared);
    compared
}

/// The group that is left when the groups have been halved (FORMAT Q9).
fn halved<'a>(groups: &[&[&'a [u8]]], asked: &[u8], compared: &mut Vec<&'a [u8]>) -> usize {
    let (mut low, mut high) = (0, groups.len() - 1);
    while low < high {
        let middle = low + (high - low + 1) / 2;
        let name = groups[middle][0];
        compared.push(name);
        match compare(name, asked) {
            Ordering::Greater => high = middle - 1,
            _ => low = middle,
        }
    }
    low
}

/// Goes through a group from its first name on (FORMAT Q10).
fn go_through<'a>(group: &[&'a [u8]], asked: &[u8], compared: &mut Vec<&'a [u8]>) {
    for name in group {
        compared.push(name);
        if compare(name, asked) != Ordering::Less {
            break;
        }
    }
}

/// The most comparisons that a chunk of `c` entries can cost, `c` being at least 1 (FORMAT Q12).
pub fn most_comparisons(c: u64, density: u64) -> u64 {
    let groups = 1 + quick_words(c, density);
    let mut halvings = 0;
    while 1 << halvings < groups {
        halvings += 1;
    }
    halvings + quick_step(density)
}
