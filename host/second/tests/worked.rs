//! The worked examples of docs/FORMAT.md, and the lines that its rows draw.

mod common;

use common::{directory, listing_chunk};
use second::*;
use std::cmp::Ordering;

/// The entry `/a.htm` of the sample book (FORMAT W16).
const PAGE: Report = Report {
    place: 230,
    length: 6,
    section: 0,
    offset: 0,
    size: 5,
};

/// FORMAT N9.
#[test]
fn encints_that_are_read() {
    let eight = [&[0xFF; 8][..], &[0x7F]].concat();
    let examples: [(&[u8], u64); 7] = [
        (&[0x00], 0),
        (&[0x7F], 127),
        (&[0x81, 0x00], 128),
        (&[0xEA, 0x15], 13_589),
        (&[0xFF, 0x7F], 16_383),
        (&[0x81, 0x80, 0x00], 16_384),
        (&eight, (1 << 63) - 1),
    ];
    for (bytes, value) in examples {
        assert_eq!(read_encint(bytes), Some((value, bytes.len())));
        assert_eq!(encint(value), bytes);
        let followed = [bytes, &[0x80]].concat();
        assert_eq!(read_encint(&followed), Some((value, bytes.len())));
    }
}

/// So many leading 80 bytes in front of these.
fn padded(leading: usize, bytes: &[u8]) -> Vec<u8> {
    [&vec![0x80; leading], bytes].concat()
}

/// FORMAT N9, N4: leading 80 bytes, which are taken too.
#[test]
fn padded_encints_that_are_read() {
    let examples: [(usize, &[u8], u64); 8] = [
        (1, &[0x01], 1),
        (1, &[0x00], 0),
        (1, &[0x81, 0x00], 128),
        (8, &[0x01], 1),
        (8, &[0x00], 0),
        (8, &[0x7F], 127),
        (7, &[0x81, 0x00], 128),
        (
            1,
            &[0xC0, 0x80, 0x80, 0x80, 0x80, 0x80, 0x80, 0x00],
            1 << 55,
        ),
    ];
    for (leading, short, value) in examples {
        let bytes = padded(leading, short);
        assert_eq!(read_encint(&bytes), Some((value, bytes.len())));
        assert_eq!(encint(value), short);
        let followed = [&bytes[..], &[0x80]].concat();
        assert_eq!(read_encint(&followed), Some((value, bytes.len())));
    }
}

/// FORMAT N10, N6.
#[test]
fn encints_that_are_refused() {
    let nine = [&[0xFF; 9][..], &[0x7F]].concat();
    let refused: [&[u8]; 9] = [
        &nine,
        &[],
        &[0x80],
        &[0x81],
        &[0xFF; 9],
        &padded(9, &[0x01]),
        &padded(8, &[0x81, 0x00]),
        &padded(1, &[&[0xFF; 8][..], &[0x7F]].concat()),
        &padded(9, &[]),
    ];
    for bytes in refused {
        assert_eq!(read_encint(bytes), None);
    }
}

/// FORMAT N3, N4: of every length, reading takes the short form and each padded one that there is
/// room for.
#[test]
fn each_value_has_a_short_form() {
    for bits in 0..63 {
        for value in [1u64 << bits, (1 << bits) - 1, (1 << bits) + 1] {
            let short = encint(value);
            assert!(short == [0x00] || short[0] != 0x80);
            for leading in 0..=10 {
                let bytes = padded(leading, &short);
                let read = (bytes.len() <= 9).then_some((value, bytes.len()));
                assert_eq!(read_encint(&bytes), read);
            }
        }
    }
}

/// FORMAT S1 to S3.
#[test]
fn names() {
    assert_eq!(compare(b"/A", b"/a"), Ordering::Equal);
    assert_eq!(compare(b"/a", b"/a.htm"), Ordering::Less);
    assert_eq!(compare(b"/[", b"/Z"), Ordering::Less);
    assert_eq!(compare(b"/Z", b"/["), Ordering::Greater);
    assert_eq!(compare(b"", b"a"), Ordering::Less);
    for byte in 0..=255u8 {
        let lower = if byte.is_ascii_uppercase() {
            byte + 32
        } else {
            byte
        };
        for other in 0..=255u8 {
            let expected = lower.cmp(&if other.is_ascii_uppercase() {
                other + 32
            } else {
                other
            });
            assert_eq!(compare(&[byte], &[other]), expected);
        }
    }
}

/// FORMAT S5, with the names of S3; empty and long ones have an order too.
#[test]
fn orders_as_numbers() {
    let long = [b'n'; 3000];
    let examples: [(&[u8], &[u8], u64); 8] = [
        (b"/A", b"/a", 1),
        (b"/a", b"/a.htm", 0),
        (b"/a.htm", b"/a", 2),
        (b"/[", b"/Z", 0),
        (b"/Z", b"/[", 2),
        (b"", b"", 1),
        (b"", b"\0", 0),
        (&long, &long[1..], 2),
    ];
    for (left, right, number) in examples {
        assert_eq!(order(left, right), number);
    }
}

/// FORMAT C14, C6.
#[test]
fn quick_words_by_density() {
    let examples = [(5, 2, 0), (6, 2, 1), (10, 2, 1), (11, 2, 2), (1, 0, 0)];
    for (c, density, words) in examples {
        assert_eq!(quick_words(c, density), words);
    }
    for density in 0..=7 {
        let step = 1 + (1 << density);
        assert_eq!(quick_words(step, density), 0);
        assert_eq!(quick_words(step + 1, density), 1);
    }
}

const SAMPLE_ENTRIES: [u8; 15] = [
    0x01, 0x2F, 0x00, 0x00, 0x00, // `/`
    0x06, 0x2F, 0x61, 0x2E, 0x68, 0x74, 0x6D, 0x00, 0x00, 0x05, // `/a.htm`
];

/// The head of the sample book, byte by byte (FORMAT W3 to W16): time 12345678, language 0409.
fn sample_head() -> Vec<u8> {
    #[rustfmt::skip]
    let headers = [
        0x49, 0x54, 0x53, 0x46,  0x03, 0x00, 0x00, 0x00,  0x60, 0x00, 0x00, 0x00,  0x01, 0x00, 0x00, 0x00,
        0x78, 0x56, 0x34, 0x12,  0x09, 0x04, 0x00, 0x00,
        0x10, 0xFD, 0x01, 0x7C, 0xAA, 0x7B, 0xD0, 0x11, 0x9E, 0x0C, 0x00, 0xA0, 0xC9, 0x22, 0xE6, 0xEC,
        0x11, 0xFD, 0x01, 0x7C, 0xAA, 0x7B, 0xD0, 0x11, 0x9E, 0x0C, 0x00, 0xA0, 0xC9, 0x22, 0xE6, 0xEC,
        0x60, 0x00, 0x00, 0x00, 0x00, 0x00, 0x00, 0x00,  0x18, 0x00, 0x00, 0x00, 0x00, 0x00, 0x00, 0x00,
        0x78, 0x00, 0x00, 0x00, 0x00, 0x00, 0x00, 0x00,  0x54, 0x10, 0x00, 0x00, 0x00, 0x00, 0x00, 0x00,
        0xCC, 0x10, 0x00, 0x00, 0x00, 0x00, 0x00, 0x00,
        // Section 0; the file has 4,305 bytes.
        0xFE, 0x01, 0x00, 0x00,  0x00, 0x00, 0x00, 0x00,  0xD1, 0x10, 0x00, 0x00, 0x00, 0x00, 0x00, 0x00,
        0x00, 0x00, 0x00, 0x00,  0x00, 0x00, 0x00, 0x00,
        // The directory header.
        0x49, 0x54, 0x53, 0x50,  0x01, 0x00, 0x00, 0x00,  0x54, 0x00, 0x00, 0x00,  0x0A, 0x00, 0x00, 0x00,
        0x00, 0x10, 0x00, 0x00,  0x02, 0x00, 0x00, 0x00,  0x01, 0x00, 0x00, 0x00,  0xFF, 0xFF, 0xFF, 0xFF,
        0x00, 0x00, 0x00, 0x00,  0x00, 0x00, 0x00, 0x00,  0xFF, 0xFF, 0xFF, 0xFF,  0x01, 0x00, 0x00, 0x00,
        0x09, 0x04, 0x00, 0x00,
        0x6A, 0x92, 0x02, 0x5D, 0x2E, 0x21, 0xD0, 0x11, 0x9D, 0xF9, 0x00, 0xA0, 0xC9, 0x22, 0xE6, 0xEC,
        0x54, 0x00, 0x00, 0x00,  0xFF, 0xFF, 0xFF, 0xFF,  0xFF, 0xFF, 0xFF, 0xFF,  0xFF, 0xFF, 0xFF, 0xFF,
    ];
    assert_eq!(headers.len(), 204);
    #[rustfmt::skip]
    let mut chunk = vec![
        0x50, 0x4D, 0x47, 0x4C, 0xDD, 0x0F, 0x00, 0x00, 0x00, 0x00, 0x00, 0x00,
        0xFF, 0xFF, 0xFF, 0xFF, 0xFF, 0xFF, 0xFF, 0xFF,
        0x01, 0x2F, 0x00, 0x00, 0x00,
        0x06, 0x2F, 0x61, 0x2E, 0x68, 0x74, 0x6D, 0x00, 0x00, 0x05,
    ];
    chunk.resize(4094, 0);
    chunk.extend([0x02, 0x00]);
    [&headers[..], &chunk].concat()
}

fn sample_book() -> Vec<u8> {
    [sample_head(), b"12345".to_vec()].concat()
}

#[test]
fn sample_book_is_written() {
    let head = write_head(&SAMPLE_ENTRIES, 2, 0x1234_5678, 0x409, 5, 4300);
    assert_eq!(head, Ok(sample_head()));
    let head = write_head(&SAMPLE_ENTRIES, 2, 0x1234_5678, 0x409, 5, 4299);
    assert_eq!(head, Err(Refusal::new(20)));
}

#[test]
fn sample_book_is_read() {
    let file = sample_book();
    assert_eq!(file.len(), 4305);
    let record = Record {
        version: 3,
        time: 0x1234_5678,
        language: 0x409,
        start: 0x78,
        count: 1,
        density: 2,
        depth: 1,
        root: 0xFFFF_FFFF,
        first: 0,
        last: 0,
        content: 4300,
    };
    assert_eq!(open(&file), Ok(record));

    let slash = Report {
        place: 225,
        length: 1,
        section: 0,
        offset: 0,
        size: 0,
    };
    let second = Cursor { chunk: 0, entry: 1 };
    let end = Cursor {
        chunk: 0xFFFF_FFFF,
        entry: 0,
    };
    assert_eq!(
        step(&file, &record, start(&record)),
        Step::Entry(slash, second)
    );
    assert_eq!(step(&file, &record, second), Step::Entry(PAGE, end));
    assert_eq!(step(&file, &record, end), Step::End(end));
    assert_eq!(
        chunk_entries(&file, &record, 0),
        Ok((vec![slash, PAGE], NONE))
    );

    let trail = vec![0];
    assert_eq!(
        lookup(&file, &record, b"/A.HTM", 5),
        Answer::Found {
            report: PAGE,
            trail: trail.clone(),
            comparisons: 2,
        }
    );
    assert_eq!(
        lookup(&file, &record, b"/a.ht", 5),
        Answer::Absent {
            trail,
            comparisons: 2,
        }
    );
    assert_eq!(part(&file, 230, 6), b"/a.htm");
    assert_eq!(part(&file, 4300, 5), b"12345");
    assert_eq!(part(&file, 4300, 6), b"");
    assert_eq!(part(&file, u64::MAX, 2), b"");
}

/// The entries of the sample book with padded numbers: name length, offset and length of `/`, section
/// and length of `/a.htm`.
const PADDED_ENTRIES: [u8; 28] = [
    0x80, 0x01, 0x2F, 0x00, 0x80, 0x80, 0x00, 0x80, 0x00, // `/`
    0x06, 0x2F, 0x61, 0x2E, 0x68, 0x74, 0x6D, // `/a.htm`
    0x80, 0x00, 0x00, 0x80, 0x80, 0x80, 0x80, 0x80, 0x80, 0x80, 0x80, 0x05,
];

/// The sample book with these entries.
fn padded_book() -> Vec<u8> {
    let mut file = sample_book();
    file[224..224 + 28].copy_from_slice(&PADDED_ENTRIES);
    file[208..212].copy_from_slice(&(4076u32 - 28).to_le_bytes()); // the tail length
    file
}

/// FORMAT N4, K6, K25: the five numbers are the same but for the place of the name, and an entry's
/// own bytes are those that stand there.
#[test]
fn padded_book_is_read() {
    let file = padded_book();
    let record = open(&file).unwrap();
    let reports = [
        Report {
            place: 226,
            length: 1,
            section: 0,
            offset: 0,
            size: 0,
        },
        Report { place: 234, ..PAGE },
    ];
    assert_eq!(
        chunk_entries(&file, &record, 0),
        Ok((reports.to_vec(), NONE))
    );
    let trail = vec![0];
    assert_eq!(
        lookup(&file, &record, b"/A.HTM", 5),
        Answer::Found {
            report: reports[1],
            trail,
            comparisons: 2,
        }
    );
    assert_eq!(scan(&file, &record, b"/"), Reply::Found(reports[0]));
    let asked = lookup_opened(open(&file), &file, &record, b"/");
    assert_eq!(asked, Expected::Exactly(Reply::Found(reports[0])));
    let told = answers(&[[0, 0, 0, 5], [0; 4]]);
    assert_eq!(batch(&file, b"\x06/a.htm\x01/", 64), Ok(told));
    let lines = "80012f008080008000\n062f612e68746d800000808080808080808005\n";
    assert_eq!(frames(&file), lines);
}

/// The own bytes at a cursor: there are some just where a step reports an entry.
fn own_at(file: &[u8], record: &Record, chunk: u64, entry: u64) -> Option<(u64, u64)> {
    let at = Cursor { chunk, entry };
    let told = own(file, record, at);
    let reported = matches!(step(file, record, at), Step::Entry(..));
    assert_eq!(told.is_some(), reported);
    told
}

/// FORMAT K25 on both books.
#[test]
fn own_bytes_at_a_cursor() {
    let (short, file) = (sample_book(), padded_book());
    let record = open(&short).unwrap();
    assert_eq!(own_at(&short, &record, 0, 0), Some((224, 5)));
    assert_eq!(own_at(&short, &record, 0, 1), Some((229, 10)));
    assert_eq!(own_at(&file, &record, 0, 0), Some((224, 9)));
    assert_eq!(own_at(&file, &record, 0, 1), Some((233, 19)));
    for (chunk, entry) in [
        (0, 2),
        (0, 1 << 32),
        (0, u64::MAX),
        (1, 0),
        (0xFFFF_FFFF, 0),
        (0xFFFF_FFFF, u64::MAX),
        (1 << 32, 0),
        (u64::MAX, 0),
    ] {
        assert_eq!(own_at(&file, &record, chunk, entry), None);
    }
}

/// FORMAT K25, K12, K13: a bad record and a chunk that is refused.
#[test]
fn own_bytes_that_are_not_given() {
    let file = padded_book();
    let record = open(&file).unwrap();
    for bad in [
        Record {
            density: 8,
            ..record
        },
        Record { depth: 0, ..record },
        Record { count: 0, ..record },
        Record {
            content: 4306,
            ..record
        },
    ] {
        assert_eq!(own_at(&file, &bad, 0, 0), None);
        assert_eq!(own_at(&file, &bad, 0xFFFF_FFFF, 0), None);
    }
    let mut broken = file.clone();
    broken[204 + 4] ^= 1; // the tail length
    assert_eq!(own_at(&broken, &record, 0, 0), None);
    assert_eq!(own_at(&file[..4299], &record, 0, 0), None);
}

/// FORMAT C8: padding in front of an entry moves its quick word.
#[test]
fn padding_moves_quick_words() {
    // At density 0 the step is 2: of three entries the last has a word.
    let entries: [&[u8]; 3] = [
        b"\x80\x01a\x01\x00\x00",
        b"\x01b\x01\x80\x80\x80\x00\x00",
        b"\x01c\x80\x01\x00\x00",
    ];
    let bytes = entries.concat();
    let mut chunk = b"PMGL".to_vec();
    for word in [4076 - bytes.len() as u32, 0, 7, NONE] {
        chunk.extend(word.to_le_bytes());
    }
    chunk.extend(&bytes);
    chunk.resize(4092, 0);
    let place = (entries[0].len() + entries[1].len()) as u16;
    for word in [place, 10] {
        let chunk = [&chunk[..], &word.to_le_bytes(), &[3, 0]].concat();
        let (file, record) = directory(0, &[chunk]);
        let record = Record {
            density: 0,
            ..record
        };
        let last = own(&file, &record, Cursor { chunk: 0, entry: 2 });
        assert_eq!(last, (word == place).then_some((84 + 20 + 14, 6)));
    }
}

/// FORMAT N4, E2, Q2: an index entry with a padded name length and a padded child leads on.
#[test]
fn padded_children_are_followed() {
    for (leading, answer) in [(0, true), (1, true), (8, true), (9, false)] {
        let entry = [padded(leading, b"\x01"), b"a".to_vec()].concat();
        let entry = [entry, padded(leading, b"\x00")].concat();
        let mut index = b"PMGI".to_vec();
        index.extend((4088 - entry.len() as u32).to_le_bytes());
        index.extend(entry);
        index.resize(4094, 0);
        index.extend([1, 0]);
        let (file, record) = directory(0, &[letters(NONE, b"a"), index]);
        let tree = Record {
            depth: 2,
            root: 1,
            ..record
        };
        let found = lookup(&file, &tree, b"A", 5).reply();
        let there = letter(b'a', 0, 0);
        assert_eq!(found, if answer { there } else { REFUSED });
    }
}

/// FORMAT P1 to P6.
#[test]
fn frames_of_the_program() {
    let mut file = sample_book();
    assert_eq!(frames(&file), "012f000000\n062f612e68746d000005\n");
    // A next where there is no chunk.
    file[204 + 0x10] = 0;
    assert_eq!(frames(&file), "ee0dffffffff\n");
    file[204] = b'Q';
    assert_eq!(frames(&file), "ee0800000000\n");
    assert_eq!(frames(&[]), "ee01ffffffff\n");
    assert_eq!(frames(&[0; 60_000]), "ee02ffffffff\n");
    assert_eq!(frames(&[0; 60_001]), "ee1dffffffff\n");
}

/// FORMAT R1 to R5 on the sample book: the borders of its length.
#[test]
fn short_files() {
    let file = sample_book();
    let refused = |length: usize| open(&file[..length]).unwrap_err();
    assert_eq!(refused(0), Refusal::new(1));
    assert_eq!(refused(95), Refusal::new(1));
    assert_eq!(refused(96), Refusal::new(4));
    assert_eq!(refused(4299), Refusal::new(4));
    assert_eq!(refused(4300), Refusal::new(5));
    assert_eq!(refused(4304), Refusal::new(5));
    let longer = [&file[..], &[0]].concat();
    assert_eq!(open(&longer), Err(Refusal::new(5)));
}

/// FORMAT RO5, K11: what is looked at first.
#[test]
fn order_of_the_checks_when_asking() {
    let file = sample_book();
    let good = open(&file).unwrap();
    let bad = Record { density: 8, ..good };
    let refused = |number| Answer::Refused(Refusal::new(number));
    assert_eq!(lookup(&file, &bad, b"", 4), refused(15));
    assert_eq!(lookup(&file, &bad, &[b'a'; 1025], 4), refused(15));
    assert_eq!(lookup(&file, &bad, &[b'a'; 1024], 4), refused(16));
    assert_eq!(lookup(&file, &bad, &[b'a'; 1024], 5), refused(17));
    let end = Cursor {
        chunk: 0xFFFF_FFFF,
        entry: 7,
    };
    assert_eq!(step(&file, &good, end), Step::End(end));
    assert_eq!(step(&file, &bad, end), Step::Refused(Refusal::new(17)));
    let far = Cursor {
        chunk: 0x1_FFFF_FFFF,
        entry: 0,
    };
    assert_eq!(step(&file, &good, far), Step::Refused(Refusal::new(17)));
}

#[test]
fn sample_book_is_scanned() {
    let file = sample_book();
    let record = open(&file).unwrap();
    assert_eq!(scan(&file, &record, b"/A.HTM"), Reply::Found(PAGE));
    for absent in [&b"/a.ht"[..], b"/a.html", b"!", b"~"] {
        assert_eq!(scan(&file, &record, absent), Reply::Absent);
    }
}

/// A listing chunk with this next and one-letter names, each with a length of its own.
fn letters(next: u32, names: &[u8]) -> Vec<u8> {
    let entries: Vec<[u8; 5]> = names.iter().map(|&name| [1, name, 1, 2, name]).collect();
    listing_chunk(next, &entries)
}

/// The entry of a one-letter name, by its chunk and its place in the chunk.
fn letter(name: u8, chunk: u64, entry: u64) -> Reply {
    Reply::Found(Report {
        place: 84 + 4096 * chunk + 20 + 5 * entry + 1,
        length: 1,
        section: 1,
        offset: 2,
        size: name.into(),
    })
}

const REFUSED: Reply = Reply::Refused(Refusal {
    number: 17,
    place: NONE,
});

/// FORMAT K16 to K18: the next numbers lead, whatever the order of names, the previous numbers,
/// the last chunk, the root and the depth.
#[test]
fn scans_along_the_chain() {
    let chunks = [letters(NONE, b"af"), letters(0, b"Bd"), letters(1, b"ef")];
    let (file, record) = directory(2, &chunks);
    for (name, reply) in [
        (b'e', letter(b'e', 2, 0)),
        (b'b', letter(b'B', 1, 0)),
        (b'D', letter(b'd', 1, 1)),
        (b'a', letter(b'a', 0, 0)),
        // It stands in chunk 0 too; the chain comes to chunk 2 first.
        (b'f', letter(b'f', 2, 1)),
        (b'c', Reply::Absent),
    ] {
        assert_eq!(scan(&file, &record, &[name]), reply);
    }
    let behind = Record { first: 0, ..record };
    assert_eq!(scan(&file, &behind, b"f"), letter(b'f', 0, 1));
    assert_eq!(scan(&file, &behind, b"e"), Reply::Absent);
}

/// FORMAT K19: as many chunks as the count, and the first chunk too many.
#[test]
fn scans_round_a_ring() {
    let (file, record) = directory(1, &[letters(1, b"b"), letters(0, b"a")]);
    assert_eq!(scan(&file, &record, b"a"), letter(b'a', 1, 0));
    assert_eq!(scan(&file, &record, b"b"), letter(b'b', 0, 0));
    assert_eq!(scan(&file, &record, b"c"), REFUSED);
    // With a count of 1 chunk 0 is met and no other.
    let (file, record) = directory(0, &[letters(0, b"a")]);
    assert_eq!(scan(&file, &record, b"A"), letter(b'a', 0, 0));
    assert_eq!(scan(&file, &record, b"b"), REFUSED);
    let (file, record) = directory(0, &[letters(NONE, b"a")]);
    assert_eq!(scan(&file, &record, b"b"), Reply::Absent);
}

/// FORMAT K13, K14, K17: what is refused when met, and not before.
#[test]
fn scans_that_meet_a_bad_chunk() {
    const SECOND: usize = 84 + 4096;
    let breaks: [fn(&mut Vec<u8>, &mut Record); 5] = [
        |file, _| file[SECOND + 3] = b'X',
        |file, _| file[SECOND + 26] = b'B', // the name behind `b`
        |file, _| file[84 + 0x10] = 2,      // the first chunk's next: the count
        |file, _| file.truncate(SECOND + 4095),
        |_, record| record.count = 1,
    ];
    for change in breaks {
        let chunks = [letters(1, b"a"), letters(NONE, b"bc")];
        let (mut file, mut record) = directory(0, &chunks);
        assert_eq!(scan(&file, &record, b"b"), letter(b'b', 1, 0));
        assert_eq!(scan(&file, &record, b"c"), letter(b'c', 1, 1));
        assert_eq!(scan(&file, &record, b"d"), Reply::Absent);
        change(&mut file, &mut record);
        assert_eq!(scan(&file, &record, b"a"), letter(b'a', 0, 0));
        for name in [b"b", b"c", b"d"] {
            assert_eq!(scan(&file, &record, name), REFUSED);
        }
    }
}

/// FORMAT K13, K19: an index chunk, and a first chunk that is none or not there.
#[test]
fn scans_that_meet_no_listing_chunk() {
    // One entry, `c` with the child 0.
    let mut index = b"PMGI\xF5\x0F\x00\x00\x01c\x00".to_vec();
    index.resize(4094, 0);
    index.extend([1, 0]);
    let (file, record) = directory(0, &[letters(1, b"a"), index]);
    let tree = Record {
        depth: 2,
        root: 1,
        ..record
    };
    let absent = Answer::Absent {
        trail: vec![1, 0],
        comparisons: 2,
    };
    assert_eq!(lookup(&file, &tree, b"c", 5), absent);
    assert_eq!(scan(&file, &tree, b"a"), letter(b'a', 0, 0));
    assert_eq!(scan(&file, &tree, b"c"), REFUSED);
    for first in [1, 2, 0xFFFF_FFFF, 1 << 32, u64::MAX] {
        let record = Record { first, ..record };
        assert_eq!(scan(&file, &record, b"a"), REFUSED);
    }
}

/// FORMAT RO5, K12.
#[test]
fn order_of_the_checks_of_a_scan() {
    let file = sample_book();
    let good = open(&file).unwrap();
    let refused = |number| Reply::Refused(Refusal::new(number));
    for bad in [
        Record { density: 8, ..good },
        Record { depth: 0, ..good },
        Record { depth: 6, ..good },
        Record { count: 0, ..good },
        Record {
            count: 4097,
            ..good
        },
        Record {
            content: 4306,
            ..good
        },
    ] {
        assert_eq!(scan(&file, &bad, b""), refused(15));
        assert_eq!(scan(&file, &bad, &[b'a'; 1025]), refused(15));
        assert_eq!(scan(&file, &bad, &[b'a'; 1024]), refused(17));
        assert_eq!(scan(&file, &bad, b"/a.htm"), refused(17));
    }
    assert_eq!(scan(&file, &good, &[b'a'; 1024]), Reply::Absent);
    assert_eq!(scan(&file, &good, &[b'a'; 1025]), refused(15));
}

/// FORMAT RO5, K12 and K23: what a lookup in an opened book refuses, and what it answers with the
/// record that opening gave.
#[test]
fn opened_sample_book() {
    let file = sample_book();
    let good = open(&file).unwrap();
    let asked = |record, name: &[u8]| lookup_opened(open(&file), &file, &record, name);
    let exactly = |reply| Expected::Exactly(reply);
    let refused = |number| Expected::Exactly(Reply::Refused(Refusal::new(number)));
    assert_eq!(asked(good, b"/A.HTM"), exactly(Reply::Found(PAGE)));
    for absent in [&b"/a.ht"[..], b"/b", b"!", &[b'a'; 1024]] {
        assert_eq!(asked(good, absent), exactly(Reply::Absent));
    }
    assert_eq!(asked(good, b""), refused(15));
    assert_eq!(asked(good, &[b'a'; 1025]), refused(15));
    let bad = Record { depth: 6, ..good };
    assert_eq!(asked(bad, b""), refused(15));
    assert_eq!(asked(bad, &[b'a'; 1025]), refused(15));
    assert_eq!(asked(bad, &[b'a'; 1024]), refused(17));
    let content = Record {
        content: 4306,
        ..good
    };
    assert_eq!(asked(content, b"/a.htm"), refused(17));
    // The time is a number of the record too.
    let other = Record { time: 0, ..good };
    assert_eq!(asked(other, b"/a.htm"), Expected::FoundThereOrAbsent);
}

/// FORMAT K24: in a book that no longer opens nothing but R15 and K12 is settled.
#[test]
fn sample_book_changed_since() {
    let file = sample_book();
    let record = open(&file).unwrap();
    let mut changed = file.clone();
    changed[204] = b'Q';
    let asked = |file: &[u8], name: &[u8]| lookup_opened(open(file), file, &record, name);
    let refused = |number| Expected::Exactly(Reply::Refused(Refusal::new(number)));
    for name in [&b"/"[..], b"/a.htm", b"/b"] {
        assert_eq!(asked(&changed, name), Expected::FoundThereOrAbsent);
    }
    assert_eq!(asked(&changed, b""), refused(15));
    // The content would start behind the end.
    assert_eq!(asked(&file[..4299], b"/"), refused(17));
    assert_eq!(asked(&file[..4299], b""), refused(15));
    assert_eq!(asked(&file[..4300], b"/"), Expected::FoundThereOrAbsent);
}

/// FORMAT K24: what may be reported as found.
#[test]
fn names_that_stand_there() {
    let file = b"xx/a.htm/A.HTM";
    let there = |place, length, name: &[u8]| {
        let report = Report {
            place,
            length,
            section: 1 << 63,
            offset: 7,
            size: 7,
        };
        stands_there(file, &report, name)
    };
    assert!(there(2, 6, b"/a.htm") && there(2, 6, b"/A.Htm"));
    assert!(there(8, 6, b"/a.htm") && there(8, 6, b"/A.HTM"));
    for (place, length) in [(2, 5), (2, 7), (1, 6), (3, 6), (8, 7), (9, 6), (14, 0)] {
        assert!(!there(place, length, b"/a.htm"));
    }
    assert!(!there(u64::MAX, 6, b"/a.htm") && !there(u64::MAX - 3, 6, b"/a.htm"));
    assert!(!there(2, u64::MAX, b"/a.htm") && !there(2, u64::MAX - 1, b"/a.htm"));
}

/// Answers as they stand in the room (FORMAT B4).
fn answers(groups: &[[u64; 4]]) -> Vec<u8> {
    let numbers = groups.iter().flatten();
    numbers.flat_map(|number| number.to_le_bytes()).collect()
}

/// `/`, `/A.HTM`, `/b`, the empty name and one of 1,025 bytes.
fn five_names() -> Vec<u8> {
    let mut names = b"\x01/\x06/A.HTM\x02/b\x00\x88\x01".to_vec();
    names.extend([b'a'; 1025]);
    names
}

const SHORT: Result<Vec<u8>, Refusal> = Err(Refusal {
    number: 22,
    place: NONE,
});

/// FORMAT B1 to B7, R22.
#[test]
fn sample_book_is_asked_for_many_names() {
    let file = sample_book();
    let names = five_names();
    let told = answers(&[
        [0, 0, 0, 0],
        [0, 0, 0, 5],
        [255, 0, 0, 0],
        [15, 0, 0, 0],
        [15, 0, 0, 0],
    ]);
    assert_eq!(told.len(), 160);
    assert_eq!(told[32..40], [0; 8]);
    assert_eq!(
        told[56..72],
        [5, 0, 0, 0, 0, 0, 0, 0, 255, 0, 0, 0, 0, 0, 0, 0]
    );
    // With more room, by 8 bytes say, there is no more to write.
    for room in [160, 161, 168, 191, 192, usize::MAX] {
        assert_eq!(batch(&file, &names, room), Ok(told.clone()));
    }
    for room in [159, 129, 128, 32, 31, 1, 0] {
        assert_eq!(batch(&file, &names, room), SHORT);
    }
    assert_eq!(batch(&file, &names[..names.len() - 1], 160), SHORT);
    for room in [0, 31, 160] {
        assert_eq!(batch(&file, &[], room), Ok(Vec::new()));
    }
}

/// FORMAT B2: just where a name ends the names may end.
#[test]
fn names_cut_at_every_byte() {
    let file = sample_book();
    let names = five_names();
    let ends = [0, 2, 9, 12, 13, 1040];
    assert_eq!(ends[5], names.len());
    for length in 0..=names.len() {
        let told = batch(&file, &names[..length], 160);
        match ends.iter().position(|&end| end == length) {
            Some(count) => assert_eq!(told.map(|told| told.len()), Ok(32 * count)),
            None => assert_eq!(told, SHORT),
        }
    }
}

/// FORMAT N4 and B2: padded lengths are good, and change no answer.
#[test]
fn padded_lengths() {
    let file = sample_book();
    let slash = answers(&[[0; 4]]);
    for leading in 0..=8 {
        let names = [padded(leading, b"\x01"), b"/".to_vec()].concat();
        assert_eq!(batch(&file, &names, 32), Ok(slash.clone()));
        assert_eq!(batch(&file, &names[..names.len() - 1], 32), SHORT);
        let empty = batch(&file, &padded(leading, b"\x00"), 32);
        assert_eq!(empty, Ok(answers(&[[15, 0, 0, 0]])));
    }
    let names = b"\x80\x80\x01/\x80\x06/A.HTM\x02/b";
    let told = answers(&[[0; 4], [0, 0, 0, 5], [255, 0, 0, 0]]);
    assert_eq!(batch(&file, names, 96), Ok(told));
    assert_eq!(batch(&file, names, 95), SHORT);
}

/// FORMAT N3, N4, N6 and B2: lengths that are none, or reach too far.
#[test]
fn lengths_that_are_refused() {
    let file = sample_book();
    let nine = [&[0xFF; 9][..], &[0x7F]].concat();
    let most = [&[0xFF; 8][..], &[0x7F]].concat();
    let lengths: [&[u8]; 10] = [
        &padded(9, &[0x01]),
        &padded(20, &[0x01]),
        &padded(8, &[0x81, 0x00]),
        &[0x80, 0x02],
        &nine,
        &most,
        &[0x02],
        &[0x81],
        &[0xFF; 9],
        &[0x90, 0x80, 0x80, 0x80, 0x01], // 1 in 32 bits
    ];
    assert_eq!(read_encint(&most), Some(((1 << 63) - 1, 9)));
    assert_eq!(batch(&file, b"\x01/", 64), Ok(answers(&[[0; 4]])));
    for length in lengths {
        let alone = [length, b"/"].concat();
        assert_eq!(batch(&file, &alone, 64), SHORT, "{length:X?}");
        let last = [b"\x01/", length, b"/"].concat();
        assert_eq!(batch(&file, &last, 64), SHORT, "{length:X?}");
    }
}

/// FORMAT RO10: the book comes first, and both ways to break R22 are one refusal.
#[test]
fn order_of_the_checks_of_a_batch() {
    let mut file = sample_book();
    for names in [&b"\x01/"[..], b"\x01", b"\x80\x01", b"\xFF"] {
        let refused = batch(&file[..95], names, 0);
        assert_eq!(refused, Err(Refusal::new(1)));
    }
    for names in [&b"\x01/"[..], b"\x01", b"\x80\x01", b"\xFF"] {
        assert_eq!(batch(&file, names, 0), SHORT);
    }
    file[204] = b'Q';
    for names in [&b""[..], b"\x01/", b"\x01", b"\x80\x01"] {
        for room in [0, 31, 32] {
            let refused = batch(&file, names, room);
            assert_eq!(refused, Err(Refusal::of_chunk(8, 0)));
        }
    }
}

/// FORMAT W2, RO6.
#[test]
fn order_of_the_checks_when_writing() {
    let write = |entries: &[u8], density, content_length| {
        write_head(entries, density, 0, 0, content_length, 0).unwrap_err()
    };
    assert_eq!(write(&SAMPLE_ENTRIES, 2, 5), Refusal::new(20));
    assert_eq!(write(&SAMPLE_ENTRIES, 7, (1 << 62) - 1), Refusal::new(20));
    assert_eq!(write(&SAMPLE_ENTRIES, 8, 5), Refusal::new(18));
    assert_eq!(write(&SAMPLE_ENTRIES, 7, 1 << 62), Refusal::new(18));
    assert_eq!(write(&SAMPLE_ENTRIES, 2, 4), Refusal::new(18));
    assert_eq!(write(&[], 2, 5), Refusal::new(18));
    for length in (1..SAMPLE_ENTRIES.len()).filter(|&length| length != 5) {
        assert_eq!(write(&SAMPLE_ENTRIES[..length], 2, 5), Refusal::new(18));
    }
    let twice = [SAMPLE_ENTRIES, SAMPLE_ENTRIES].concat();
    assert_eq!(write(&twice, 2, 5), Refusal::new(18));
}

/// FORMAT W2: a padded number, whichever of the four and in whichever entry it is; with it in its
/// short form the same entries are taken.
#[test]
fn padded_entries_are_not_written() {
    let write = |entries: &[u8]| write_head(entries, 2, 0, 0, 5, 0).unwrap_err();
    let numbers: [&[u8]; 4] = [&[1], &[0], &[0], &[0]];
    let entry = |name: u8, padded_number: usize, leading: usize| {
        let number = |at: usize| match at == padded_number {
            true => padded(leading, numbers[at]),
            false => numbers[at].to_vec(),
        };
        [number(0), vec![name], number(1), number(2), number(3)].concat()
    };
    for number in 0..4 {
        for leading in 0..=9 {
            for at in 0..5 {
                let leading = |entry: usize| if entry == at { leading } else { 0 };
                let entries = (0..5).map(|index| entry(b'a' + index as u8, number, leading(index)));
                let refused = write(&entries.collect::<Vec<_>>().concat());
                let expected = if leading(at) == 0 { 20 } else { 18 };
                assert_eq!(refused, Refusal::new(expected));
            }
        }
    }
    assert_eq!(write(&PADDED_ENTRIES), Refusal::new(18));
    assert_eq!(write(&PADDED_ENTRIES[9..]), Refusal::new(18));
}

/// FORMAT W10: a chunk that is full to the last byte, and one byte more.
#[test]
fn chunks_are_filled() {
    let entry = |name: u8, length: usize| {
        let mut bytes = encint(length as u64);
        bytes.extend(vec![name; length]);
        bytes.extend([1, 0, 0]);
        bytes
    };
    // 20 + 3 x 1,029 + 987 + 2 = 4,096.
    let full = [entry(1, 1024), entry(2, 1024), entry(3, 1024)].concat();
    let count = |last: usize, density| {
        let entries = [full.clone(), entry(4, last)].concat();
        (write_head(&entries, density, 0, 0, 0, usize::MAX)
            .unwrap()
            .len()
            - 204)
            / 4096
    };
    assert_eq!(count(982, 2), 1);
    assert_eq!(count(983, 2), 3);
    // At density 0 four entries have a quick word, of two bytes.
    assert_eq!(count(980, 0), 1);
    assert_eq!(count(981, 0), 3);
    assert_eq!(count(982, 1), 3);
    assert_eq!(count(980, 1), 1);
}
