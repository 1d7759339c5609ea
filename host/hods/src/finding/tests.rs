//! A finding for every refusal: on damage of each kind by hand, and on random damage.

use std::fs;

use hodsplinter::Book;

use super::*;

const DIRECTORY: usize = 0x78;

fn several() -> Vec<u8> {
    fs::read("../../samples/several.chm").unwrap()
}

/// Where a chunk starts in the sample.
fn chunk(number: usize) -> usize {
    DIRECTORY + 84 + 4096 * number
}

/// Bytes to be put at places.
type Damage<'a> = &'a [(usize, &'a [u8])];

fn damaged(places: Damage) -> Vec<u8> {
    let mut file = several();
    for (place, bytes) in places {
        file[*place..place + bytes.len()].copy_from_slice(bytes);
    }
    file
}

/// The number of the refusal and the finding.
fn found(file: &[u8]) -> (u8, Finding) {
    let refusal = Book::open(file).unwrap_err();
    match find(file, refusal) {
        Some(finding) => (refusal.number(), finding),
        None => panic!("nothing found for {refusal}"),
    }
}

/// One field at a time: its place, what is put there, the refusal and the row. The place that is told is that of the field, or, where the field
/// misleads, another one.
#[test]
fn damage_of_headers() {
    let d = DIRECTORY;
    let cases: [(usize, &[u8], u8, &str); 31] = [
        (0x00, b"ITSP", 2, "F1"),
        (0x18, b"\0", 2, "F5"),
        (0x28, b"\x10", 2, "F6"),
        (0x04, b"\x04", 3, "F2"),
        (0x08, b"\x58", 3, "F3"),
        (0x40, b"\x19", 4, "F7"),
        (0x50, b"\x10\0", 4, "F8"),
        (0x38, b"\0\0\0\0\0\0\0\x80", 4, "F11"),
        (0x48, b"\xff\xff\xff\xff\xff\xff\xff\xff", 4, "F11"),
        (0x38, b"\x5f", 4, "F12"),
        (0x48, b"\0", 4, "F12"),
        (0x48, b"\x77", 4, "F13"),
        (0x58, b"\0\0", 4, "F14"),
        (0x58, b"\0\0\0\0\0\0\0\x80", 4, "F14"),
        (0x68, b"\0", 5, "F15"),
        (d, b"ITSF", 6, "D2"),
        (d + 0x04, b"\x02", 6, "D3"),
        (d + 0x08, b"\x55", 6, "D4"),
        (d + 0x34, b"\0", 6, "D12"),
        (d + 0x44, b"\0", 6, "D13"),
        (d + 0x10, b"\x01", 7, "D6"),
        (d + 0x14, b"\x08", 7, "D7"),
        (d + 0x18, b"\x06", 7, "D8"),
        (d + 0x2C, b"\0", 7, "D11"),
        (d + 0x2C, b"\x08", 7, "D14"),
        (d + 0x20, b"\x09", 7, "D15"),
        (d + 0x24, b"\xff\xff\xff\xff", 7, "D15"),
        (d + 0x18, b"\x01", 7, "D16"),
        (d + 0x1C, b"\x09", 7, "D18"),
        (d + 0x20, b"\x01", 13, "L7"),
        (d + 0x1C, b"\x00", 14, "T2"),
    ];
    for (place, bytes, number, row) in cases {
        let (got, finding) = found(&damaged(&[(place, bytes)]));
        assert_eq!((got, finding.row), (number, row), "{finding:?}");
        let field = if row == "D14" { 0x50 } else { place as u64 };
        assert_eq!(finding.place, field, "{finding:?}");
    }
}

#[test]
fn damage_of_chunks() {
    let (a, index) = (chunk(7), chunk(5));
    let tail = 0x04;
    let cases: [(usize, &[u8], u8, &str, usize); 14] = [
        (a, b"PMGX", 8, "C1, C2", a),
        (a + 4094, b"\0\0", 9, "C4", a + 4094),
        (a + tail, b"\x02\0", 9, "C9", a + tail),
        (a + tail, b"\0\x10", 9, "C10", a + tail),
        (a + 20, b"\0", 10, "E4", a + 20),
        (a + 20, &[0x80; 9], 10, "E3, N3", a + 20),
        (a + 3990, b"\x80", 10, "E3, N6", a + 3989),
        (a + 22, b"\x84\x80\0", 10, "E5", a + 22),
        (a + 24, b"\x7f", 10, "E6", a + 23),
        (a + 4094, b"\x01\0", 10, "C3", 0),
        (index + 8 + 2, b"\x09", 10, "E7", index + 8 + 2),
        (a + 4092, b"\x01", 11, "C8", a + 4092),
        (a + 21, b"~", 12, "C12", a + 25),
        (a + 0x10, b"\x07", 13, "L2", a + 0x0C),
    ];
    for (place, bytes, number, row, told) in cases {
        let (got, finding) = found(&damaged(&[(place, bytes)]));
        assert_eq!((got, finding.row), (number, row), "{finding:?}");
        if told != 0 {
            assert_eq!(finding.place, told as u64, "{finding:?}");
        }
    }
}

/// The chain of the sample is 7, 2, 4, 0, 8, 3; index chunks 5 (over 7, 2, 4) and 1 (over 0, 8, 3) stand under the root, 6.
#[test]
fn damage_of_chain_and_tree() {
    let none = &[0xFF; 4][..];
    let d = DIRECTORY;
    let cases: [(Damage, u8, &str, usize); 9] = [
        (
            &[(chunk(7) + 0x0C, b"\x03\0\0\0")],
            13,
            "L1",
            chunk(7) + 0x0C,
        ),
        (&[(chunk(2) + 0x0C, none)], 13, "L2", chunk(2) + 0x0C),
        (&[(chunk(2) + 0x10, b"\x05")], 13, "L2", chunk(2) + 0x10),
        (&[(chunk(2) + 0x10, b"\x09")], 13, "L6", chunk(2) + 0x10),
        (&[(chunk(8) + 0x10, none)], 13, "L3", d + 0x24),
        (
            &[(chunk(8) + 0x10, none), (d + 0x24, b"\x08")],
            13,
            "L4",
            chunk(3),
        ),
        (&[(chunk(6) + 10, b"\x07")], 14, "T3", chunk(6) + 9),
        (&[(chunk(6) + 9, b".")], 14, "T4", chunk(6) + 9),
        (
            &[(d + 0x18, b"\x02"), (d + 0x1C, b"\x05")],
            14,
            "T5",
            chunk(0),
        ),
    ];
    for (places, number, row, told) in cases {
        let (got, finding) = found(&damaged(places));
        assert_eq!((got, finding.row), (number, row), "{finding:?}");
        assert_eq!(finding.place, told as u64, "{finding:?}");
    }
}

#[test]
fn short_files() {
    for size in [0, 1, 95] {
        let (number, finding) = found(&several()[..size]);
        assert_eq!((number, finding.row), (1, ""));
        assert_eq!(finding.place, size as u64);
    }
    assert_eq!(found(&several()[..96]).1.row, "F11");
}

/// Numbers that look random, the same in every run.
struct Random(u64);

impl Random {
    fn below(&mut self, n: usize) -> usize {
        self.0 ^= self.0 << 13;
        self.0 ^= self.0 >> 7;
        self.0 ^= self.0 << 17;
        (self.0 >> 11) as usize % n
    }
}

/// A place where damage does harm: a header, the front or the end of a chunk, or any byte of a chunk.
fn somewhere(r: &mut Random) -> usize {
    let number = r.below(9);
    match r.below(5) {
        0 => r.below(DIRECTORY),
        1 => DIRECTORY + r.below(0x54),
        2 => chunk(number) + 4 * r.below(8),
        3 => chunk(number) + 4095 - r.below(40),
        _ => chunk(number) + r.below(4096),
    }
}

#[test]
fn random_damage() {
    let mut r = Random(20261115);
    let mut counts = [0; 15];
    for _ in 0..30_000 {
        let mut file = several();
        for _ in 0..1 + r.below(2) {
            let place = somewhere(&mut r);
            file[place] = match r.below(3) {
                0 => file[place] ^ 1 << r.below(8),
                1 => r.below(10) as u8,
                _ => r.below(256) as u8,
            };
        }
        if Book::open(&file).is_ok() {
            continue;
        }
        let (number, finding) = found(&file);
        let refusal = Book::open(&file).unwrap_err();
        let row = finding.row.split(", ").next().unwrap();
        assert!(refusal.rows().split(", ").any(|r| r == row), "{finding:?}");
        assert!(finding.place <= file.len() as u64, "{finding:?}");
        counts[usize::from(number)] += 1;
    }
    // A change of one or two bytes does not make a file short.
    let missing: Vec<_> = (2..15).filter(|n| counts[*n] == 0).collect();
    assert!(missing.is_empty(), "no refusal {missing:?}: {counts:?}");
}
