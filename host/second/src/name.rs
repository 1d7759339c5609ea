//! The order of names (FORMAT, Names).

use std::cmp::Ordering;

/// Raises `A` to `Z`, and no other byte, to `a` to `z` (FORMAT S1).
fn fold(byte: &u8) -> u8 {
    match byte {
        0x41..=0x5A => byte + 0x20,
        _ => *byte,
    }
}

/// Compares folded byte by folded byte; a proper beginning comes first (FORMAT S1, S2).
pub fn compare(left: &[u8], right: &[u8]) -> Ordering {
    left.iter().map(fold).cmp(right.iter().map(fold))
}

/// The order of two names as hosts are told it (FORMAT S5).
pub fn order(left: &[u8], right: &[u8]) -> u64 {
    match compare(left, right) {
        Ordering::Less => 0,
        Ordering::Equal => 1,
        Ordering::Greater => 2,
    }
}

/// Whether each name is above the one before it.
pub(crate) fn rise<'a>(names: impl IntoIterator<Item = &'a [u8]>) -> bool {
    let mut names = names.into_iter();
    let mut before = match names.next() {
        Some(name) => name,
        None => return true,
    };
    names.all(|name| {
        let above = compare(before, name) == Ordering::Less;
        before = name;
        above
    })
}
