//! Books, heads and scans at the highest count of chunks (FORMAT D11, R19, K19). They take long to
//! make, so they come by turns and not by chance.

use super::book::large_book;
use super::write::wide_entries;
use super::{Aim, Call, Case, Input, Random};

const BOOK: &str = "book of 4,096 chunks";
const LONGER_BOOK: &str = "book of 4,097 chunks";
const HEAD: &str = "head of 4,096 chunks";
const LONGER_HEAD: &str = "head of 4,097 chunks";
const LONGER_CHAIN: &str = "head of 4,097 listing chunks";
const SCAN: &str = "scan of 4,096 chunks";
const RING: &str = "scan of a ring of 4,096 chunks";

pub fn labels() -> Vec<&'static str> {
    vec![
        BOOK,
        LONGER_BOOK,
        HEAD,
        LONGER_HEAD,
        LONGER_CHAIN,
        SCAN,
        RING,
    ]
}

pub fn case(random: &mut Random, turn: u64) -> Case {
    // Above the listing chunks stand ten index chunks, at density 7 nine, and the root.
    let (density, most) = random.pick(&[(2, 4085), (7, 4086)]);
    match turn % 7 {
        0 => book_case(random, BOOK, 4096, Aim::Good),
        1 => book_case(random, LONGER_BOOK, 4097, Aim::refused(7)),
        2 => head_case(random, HEAD, most, density, Aim::Good),
        3 => head_case(random, LONGER_HEAD, most + 1, density, Aim::refused(19)),
        4 => head_case(random, LONGER_CHAIN, 4097, density, Aim::refused(19)),
        5 => scan_case(random),
        _ => ring_case(random),
    }
}

/// A chain of 4,096 chunks, with the asked name in the last or in none.
fn scan_case(random: &mut Random) -> Case {
    let mut book = large_book(random, 4096);
    book.list_all();
    let last = book.chunks[book.last as usize].items[0].name.clone();
    let name = if random.once_in(2) {
        last
    } else {
        b"none".to_vec()
    };
    let found = book.found(&[book.last], &name);
    Case {
        label: SCAN,
        call: Call::Scan {
            record: book.record(),
            name,
        },
        file: book.bytes(),
        aim: found.map_or(Aim::Absent, Aim::Found),
    }
}

/// A ring of 4,096 chunks without the asked name (FORMAT K19).
fn ring_case(random: &mut Random) -> Case {
    let mut book = large_book(random, 4096);
    book.list_all();
    if let Some(links) = &mut book.chunks[book.last as usize].links {
        links.1 = book.first;
    }
    Case {
        label: RING,
        call: Call::Scan {
            record: book.record(),
            name: b"none".to_vec(),
        },
        file: book.bytes(),
        aim: Aim::refused(17),
    }
}

fn book_case(random: &mut Random, label: &'static str, chunks: usize, aim: Aim) -> Case {
    Case {
        label,
        file: large_book(random, chunks).bytes(),
        call: Call::Open,
        aim,
    }
}

fn head_case(
    random: &mut Random,
    label: &'static str,
    listing: usize,
    density: u32,
    aim: Aim,
) -> Case {
    Case {
        label,
        file: Vec::new(),
        call: Call::Write(Input {
            entries: wide_entries(listing),
            density,
            time: random.number() as u32,
            language: random.number() as u32,
            content_length: random.below(3),
            out_len: 204 + 4096 * 4096,
        }),
        aim,
    }
}
