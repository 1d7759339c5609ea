//! The wrapper over the library, on the sample books and on damaged copies of them.

use std::cmp::Ordering;
use std::fs;

use hodsplinter::{name_order, Book, Cursor, Entry, Lookup, Record, Refusal};

fn sample(name: &str) -> Vec<u8> {
    fs::read(format!("../../samples/{name}")).unwrap()
}

/// Where a chunk of either sample starts.
fn chunk(number: usize) -> usize {
    0x78 + 84 + 4096 * number
}

fn refused(file: &[u8]) -> Refusal {
    Book::open(file).unwrap_err()
}

#[test]
fn records() {
    let file = sample("sample.chm");
    let want = Record {
        version: 3,
        time: 0,
        language: 0x409,
        directory_start: 0x78,
        count: 1,
        density: 2,
        depth: 1,
        root: u32::MAX,
        first: 0,
        last: 0,
        content_start: 4300,
    };
    assert_eq!(*Book::open(&file).unwrap().record(), want);
    let file = sample("several.chm");
    let want = Record {
        time: 0x5C1E_2A90,
        language: 0x407,
        count: 9,
        depth: 3,
        root: 6,
        first: 7,
        last: 3,
        content_start: 0x78 + 84 + 9 * 4096,
        ..want
    };
    let book = Book::open(&file).unwrap();
    assert_eq!(*book.record(), want);
    assert_eq!(book.file().as_ptr(), file.as_ptr());
    assert!(format!("{book:?}").len() < 400);
}

#[test]
fn pages_and_steps_agree() {
    let file = sample("several.chm");
    let book = Book::open(&file).unwrap();
    let entries: Vec<Entry> = book.entries().collect();
    let steps: Result<Vec<Entry>, Refusal> = book.steps().collect();
    assert_eq!(entries.len(), 233);
    assert_eq!(Ok(&entries), steps.as_ref());
    for pair in entries.windows(2) {
        let order = name_order(pair[0].name(), pair[1].name());
        assert_eq!(order, Ordering::Less);
    }
    let mut all = book.entries();
    assert_eq!(all.by_ref().count(), 233);
    assert_eq!(all.next(), None);
}

#[test]
fn cursors() {
    let file = sample("several.chm");
    let book = Book::open(&file).unwrap();
    let mut steps = book.steps();
    assert_eq!(steps.cursor(), Cursor { chunk: 7, entry: 0 });
    for entry in book.entries() {
        let here = steps.cursor();
        assert_eq!(book.steps_from(here).next(), Some(Ok(entry)));
        assert_eq!(steps.next(), Some(Ok(entry)));
    }
    let end = steps.cursor();
    assert_eq!(end.chunk, 0xFFFF_FFFF);
    assert_eq!(steps.next(), None);
    assert_eq!(steps.cursor(), end);
    for (chunk, entry) in [(9, 0), (6, 0), (7, 5000), (u64::MAX, 0)] {
        let mut lost = book.steps_from(Cursor { chunk, entry });
        assert_eq!(lost.next().unwrap().unwrap_err().number(), 17);
        assert_eq!(lost.next(), None);
    }
}

#[test]
fn every_name_is_found() {
    let file = sample("several.chm");
    let book = Book::open(&file).unwrap();
    for entry in book.entries() {
        let name = entry.name();
        for asked in [
            name.to_vec(),
            name.to_ascii_uppercase(),
            name.to_ascii_lowercase(),
        ] {
            let answer = book.lookup(asked).unwrap();
            assert_eq!(answer.entry(), Some(entry));
            assert_eq!(answer.trail().len(), 3);
            assert_eq!(answer.trail()[0], 6);
        }
        let beside = [name, b"\0"].concat();
        let answer = book.lookup(&beside).unwrap();
        assert_eq!((answer.entry(), answer.trail().len()), (None, 3));
    }
    match book.lookup("!").unwrap() {
        Lookup::Absent { trail, .. } => assert_eq!(*trail, [6]),
        found => panic!("{found:?}"),
    }
    for size in [0, 1025, 100_000] {
        let refusal = book.lookup("x".repeat(size)).unwrap_err();
        assert_eq!((refusal.number(), refusal.chunk()), (15, None));
    }
    assert!(book.lookup("x".repeat(1024)).is_ok());
}

/// The lookup that checks nothing again and the way along the chain find the same entries, and lack the same names.
#[test]
fn all_three_ways_agree() {
    for sample_name in ["sample.chm", "several.chm"] {
        let file = sample(sample_name);
        let book = Book::open(&file).unwrap();
        for entry in book.entries() {
            let name = entry.name();
            for asked in [name.to_vec(), name.to_ascii_uppercase()] {
                assert_eq!(book.find(&asked), Ok(Some(entry)));
                assert_eq!(book.scan(&asked), Ok(Some(entry)));
            }
            let beside = [name, b"\0"].concat();
            assert_eq!(
                (book.find(&beside), book.scan(&beside)),
                (Ok(None), Ok(None))
            );
            let looked_up = book.lookup(&beside).unwrap();
            assert_eq!(looked_up.entry(), None);
        }
        for absent in ["!", "~", "/no-such-page", &"x".repeat(1024)] {
            assert_eq!((book.find(absent), book.scan(absent)), (Ok(None), Ok(None)));
        }
        for size in [0, 1025, 100_000] {
            let name = "x".repeat(size);
            let refusal = book.scan(&name).unwrap_err();
            assert_eq!((refusal.number(), refusal.chunk()), (15, None));
            assert_eq!(book.find(&name), Err(refusal));
        }
    }
}

#[test]
fn stored_bytes() {
    let file = sample("several.chm");
    let book = Book::open(&file).unwrap();
    let mut stored = 0;
    for entry in book.entries() {
        match book.stored(&entry) {
            Some(bytes) => {
                assert_eq!(entry.section(), 0);
                assert!(bytes.is_empty() || bytes == entry.name());
                stored += 1;
            }
            None => assert_eq!(entry.section(), 1),
        }
    }
    assert_eq!(stored, 9);
}

/// An entry of one book means nothing in another, but does no harm.
#[test]
fn entries_of_another_book() {
    let (file, other) = (sample("sample.chm"), sample("several.chm"));
    let (book, other) = (Book::open(&file).unwrap(), Book::open(&other).unwrap());
    let fits = |entry: &Entry| entry.section() == 0 && entry.offset() + entry.length() <= 5;
    for entry in other.entries() {
        assert_eq!(book.stored(&entry).is_some(), fits(&entry), "{entry:?}");
    }
}

#[test]
fn parts() {
    let file = sample("sample.chm");
    let book = Book::open(&file).unwrap();
    let size = file.len() as u64;
    assert_eq!(book.part(0, size), &file[..]);
    assert_eq!(book.part(0, 4).as_ptr(), file.as_ptr());
    for (place, length) in [
        (0, size + 1),
        (size, 0),
        (size, 1),
        (size + 1, 0),
        (u64::MAX, 1),
        (1, u64::MAX),
        (u64::MAX, u64::MAX),
    ] {
        assert_eq!(book.part(place, length), b"");
    }
}

#[test]
fn refusals_of_opening() {
    let cases: [(usize, &[u8], u8, Option<u32>); 13] = [
        (0, b"ITSP", 2, None),
        (4, b"\x09", 3, None),
        (0x40, b"\0", 4, None),
        (0x68, b"\0", 5, None),
        (0x78, b"?", 6, None),
        (0x78 + 0x14, b"\x08", 7, None),
        (chunk(5), b"?", 8, Some(5)),
        (chunk(4) + 4094, b"\0\0", 9, Some(4)),
        (chunk(7) + 20, b"\0", 10, Some(7)),
        (chunk(7) + 4092, b"\x01", 11, Some(7)),
        (chunk(7) + 21, b"~", 12, Some(7)),
        (chunk(7) + 0x10, b"\x07", 13, None),
        (chunk(6) + 9, b".", 14, None),
    ];
    for (place, bytes, number, chunk) in cases {
        let mut file = sample("several.chm");
        file[place..place + bytes.len()].copy_from_slice(bytes);
        let refusal = refused(&file);
        assert_eq!((refusal.number(), refusal.chunk()), (number, chunk));
        assert_eq!(refusal.place(), chunk.unwrap_or(u32::MAX));
    }
    for size in [0, 95] {
        assert_eq!(refused(&sample("several.chm")[..size]).number(), 1);
    }
}

#[test]
fn refusals_explain_themselves() {
    let mut file = sample("several.chm");
    file[chunk(7) + 21] = b'~';
    let refusal = refused(&file);
    assert_eq!(
        refusal.to_string(),
        "refusal 12 (FORMAT R12) in chunk 7: names do not rise strictly from entry to entry"
    );
    assert_eq!(refusal.rows(), "C12");
    let error: Box<dyn std::error::Error> = refusal.into();
    assert!(error.to_string().ends_with(refusal.rule()));
}

#[test]
fn books_go_to_other_threads() {
    let file = sample("several.chm");
    let book = Book::open(&file).unwrap();
    let counts: Vec<usize> = std::thread::scope(|scope| {
        let threads: Vec<_> = (0..3)
            .map(|_| scope.spawn(|| book.entries().count()))
            .collect();
        threads.into_iter().map(|t| t.join().unwrap()).collect()
    });
    assert_eq!(counts, [233; 3]);
}
