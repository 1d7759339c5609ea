//! The order of names, beside an order of all bytes that is written out: nothing is folded here.

use std::cmp::Ordering;
use std::ops::RangeInclusive;

use hodsplinter::name_order;

/// Bytes at the borders of folding, the same ones with bit 7 set, and the ends.
const BORDERS: [u8; 18] = [
    0x00, 0x40, 0x41, 0x5A, 0x5B, 0x60, 0x61, 0x7A, 0x7B, 0x7F, 0x80, 0xC0, 0xC1, 0xDA, 0xE1, 0xFA,
    0xFB, 0xFF,
];

/// Letters of both cases, and the same in the other case.
const LETTERS: &[u8; 20] = b"aBcDeFgHiJkLmNoPqRsT";
const OTHER_CASE: &[u8; 20] = b"AbCdEfGhIjKlMnOpQrSt";

/// Where each byte stands in the order: 00 to 40 hex, 5B to 60, the letters with both cases at one place, 7B to FF.
fn ranks() -> [u8; 256] {
    let alone = |bytes: RangeInclusive<u8>| bytes.map(|byte| vec![byte]);
    let letters = (b'A'..=b'Z').zip(b'a'..=b'z');
    let rising = alone(0x00..=0x40)
        .chain(alone(0x5B..=0x60))
        .chain(letters.map(|(upper, lower)| vec![upper, lower]))
        .chain(alone(0x7B..=0xFF));
    let mut ranks = [255; 256];
    for (rank, equal) in (0..).zip(rising) {
        for byte in equal {
            ranks[usize::from(byte)] = rank;
        }
    }
    assert_eq!(ranks.iter().max(), Some(&229));
    ranks
}

/// Asks both ways round.
fn check(a: &[u8], b: &[u8], want: Ordering) {
    assert_eq!(name_order(a, b), want, "{a:x?} {b:x?}");
    assert_eq!(name_order(b, a), want.reverse(), "{b:x?} {a:x?}");
}

/// The order that the ranks give.
fn by(ranks: &[u8; 256], a: &[u8], b: &[u8]) -> Ordering {
    let rank = |byte: &u8| ranks[usize::from(*byte)];
    a.iter().map(rank).cmp(b.iter().map(rank))
}

#[test]
fn worked_examples() {
    check(b"/A", b"/a", Ordering::Equal);
    check(b"/a", b"/a.htm", Ordering::Less);
    check(b"/[", b"/Z", Ordering::Less);
    check(b"", b"", Ordering::Equal);
    check(b"", b"\0", Ordering::Less);
}

/// Every two bytes as the last ones, in front of and behind the borders of groups of eight.
#[test]
fn every_two_bytes() {
    let ranks = ranks();
    for length in [1, 8, 9, 16, 17] {
        let (mut a, mut b) = (LETTERS[..length].to_vec(), OTHER_CASE[..length].to_vec());
        for x in 0..=255 {
            for y in 0..=255 {
                a[length - 1] = x;
                b[length - 1] = y;
                check(&a, &b, by(&ranks, &[x], &[y]));
            }
        }
    }
}

/// A difference at each place of short names, with more behind it that would say otherwise.
#[test]
fn differences_at_every_place() {
    let ranks = ranks();
    for length in 1..=LETTERS.len() {
        for place in 0..length {
            for x in BORDERS {
                for y in BORDERS {
                    let (mut a, mut b) = (LETTERS[..length].to_vec(), OTHER_CASE.to_vec());
                    (a[place], b[place]) = (x, y);
                    check(&a, &b[..length], by(&ranks, &a, &b[..length]));
                    let below = by(&ranks, &[x], &[y]) == Ordering::Less;
                    a[place + 1..].fill(if below { 0xFF } else { 0x00 });
                    check(&a, &b, by(&ranks, &a, &b));
                }
            }
        }
    }
}

/// A name is above its beginnings, whatever their case.
#[test]
fn beginnings() {
    for a in 0..=LETTERS.len() {
        for b in 0..=LETTERS.len() {
            check(&LETTERS[..a], &LETTERS[..b], a.cmp(&b));
            check(&LETTERS[..a], &OTHER_CASE[..b], a.cmp(&b));
            check(&vec![0xFF; a], &vec![0xFF; b], a.cmp(&b));
            check(&vec![0x00; a], &vec![0x00; b], a.cmp(&b));
        }
    }
}

/// Names have at most 1,024 bytes in a book; the order goes on behind them.
#[test]
fn long_names() {
    for length in [1_023, 1_024, 1_025, 3_000, 100_000] {
        let (a, mut b) = (vec![b'n'; length], vec![b'N'; length]);
        check(&a, &a, Ordering::Equal);
        check(&a, &b, Ordering::Equal);
        check(&a[1..], &b, Ordering::Less);
        for place in [length - 1, 1_022, 1_000, 0] {
            for (byte, want) in [(b'[', Ordering::Greater), (b'{', Ordering::Less)] {
                b[place] = byte;
                check(&a, &b, want);
                b[place] = b'n';
            }
        }
    }
}
