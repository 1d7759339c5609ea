//! What two names that are put in order are like. But for the way they were made it is read from
//! their bytes.

use crate::coverage::{order_name, Coverage};
use second::compare;
use second::generate::pairs::Pair;

const LENGTH: &str = "length of a name put in order";
const PLACE: &str = "where two names put in order differ";
const BYTES: &str = "bytes that put two names in order";

/// Counts the way a pair was made with its order, the lengths, and what puts the names in order.
pub fn count(coverage: &mut Coverage, pair: &Pair) {
    let Pair { left, right, .. } = pair;
    coverage.count(pair.label, order_name(compare(left, right)));
    count_length(coverage, left);
    count_length(coverage, right);
    let differs = |(one, two): (&u8, &u8)| compare(&[*one], &[*two]).is_ne();
    match left.iter().zip(right).position(differs) {
        Some(at) => {
            coverage.count(PLACE, place(at));
            count_bytes(coverage, left[at], right[at]);
        }
        None if left.len() == right.len() => coverage.count(PLACE, "nowhere"),
        None => coverage.count(PLACE, "at the end of one"),
    }
}

fn count_length(coverage: &mut Coverage, name: &[u8]) {
    let length = match name.len() {
        0 => "0 bytes",
        1 => "1 byte",
        7 => "7 bytes",
        8 => "8 bytes",
        9 => "9 bytes",
        15 => "15 bytes",
        16 => "16 bytes",
        17 => "17 bytes",
        1024 => "1,024 bytes",
        1025.. => "more than 1,024 bytes",
        _ => return,
    };
    coverage.count(LENGTH, length);
}

fn place(at: usize) -> &'static str {
    match at {
        0 => "at byte 0",
        1..=6 => "at bytes 1 to 6",
        7 => "at byte 7",
        8 => "at byte 8",
        9..=14 => "at bytes 9 to 14",
        15 => "at byte 15",
        16 => "at byte 16",
        17..=1023 => "at bytes 17 to 1,023",
        _ => "at byte 1,024 or later",
    }
}

/// Counts two bytes that decide, if they are of those that a wrong folding would take for equal or
/// put the other way round.
fn count_bytes(coverage: &mut Coverage, one: u8, two: u8) {
    let name = match (one.min(two), one.max(two)) {
        (0x40, 0x60) => "40 and 60 hex",
        (0x5B, 0x7B) => "5B and 7B hex",
        (0xC1, 0xE1) => "C1 and E1 hex",
        (0xDA, 0xFA) => "DA and FA hex",
        (0x40, 0x41) => "40 and 41 hex",
        (0x41, 0x60) => "41 and 60 hex",
        (0x5A, 0x5B) => "5A and 5B hex",
        (0x5A, 0x61) => "5A and 61 hex",
        (0x5A, 0x7B) => "5A and 7B hex",
        (0x7F, 0x80) => "7F and 80 hex",
        (0x00, 0xFF) => "00 and FF hex",
        _ => return,
    };
    coverage.count(BYTES, name);
}
