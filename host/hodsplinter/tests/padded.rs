//! Books whose numbers are padded: bytes 80 in front of an ENCINT (docs/FORMAT.md, N4).

use std::collections::HashSet;
use std::fs;

use hodsplinter::{compare, write_head, Book, Chain, Change, Entry, NewEntry, Options, Totals};

/// `/`, `/a` with offset 2 and length 3, `/b` in section 16,391 with offset 7 and length 9; the first and the last are padded.
const PADDED: [&[u8]; 3] = [
    b"\x80\x80\x01/\x00\x80\x00\x00",
    b"\x02/a\x00\x02\x03",
    b"\x02/b\x80\x80\x80\x81\x80\x07\x07\x80\x80\x80\x80\x80\x80\x80\x80\x09",
];

/// The same in their short forms.
const SHORT: [&[u8]; 3] = [
    b"\x01/\x00\x00\x00",
    b"\x02/a\x00\x02\x03",
    b"\x02/b\x81\x80\x07\x07\x09",
];

fn sample(name: &str) -> Vec<u8> {
    fs::read(format!("../../samples/{name}")).unwrap()
}

/// The sample book with these bytes as its entries, too few of them for a quick word.
fn book_of(entries: &[&[u8]]) -> Vec<u8> {
    let (mut file, body) = (sample("sample.chm"), entries.concat());
    let chunk = &mut file[204..4300];
    let tail = 4096 - 20 - body.len() as u32;
    chunk[4..8].copy_from_slice(&tail.to_le_bytes());
    chunk[20..4094].fill(0);
    chunk[20..20 + body.len()].copy_from_slice(&body);
    chunk[4094..].copy_from_slice(&(entries.len() as u16).to_le_bytes());
    file
}

fn numbers(entry: &Entry) -> (Vec<u8>, u16, u64, u64) {
    let name = entry.name().to_vec();
    (name, entry.section(), entry.offset(), entry.length())
}

/// An entry as each way to it gives it.
fn every_way<'a>(book: &Book<'a>, entry: Entry<'a>) -> [Entry<'a>; 5] {
    let name = entry.name();
    let step = book.steps().find(|step| *step == Ok(entry));
    [
        entry,
        step.unwrap().unwrap(),
        book.find(name).unwrap().unwrap(),
        book.lookup(name).unwrap().entry().unwrap(),
        book.scan(name).unwrap().unwrap(),
    ]
}

#[test]
fn entries_are_read_and_stand_as_they_are() {
    let (padded, short) = (book_of(&PADDED), book_of(&SHORT));
    let (padded, short) = (Book::open(&padded).unwrap(), Book::open(&short).unwrap());
    let read: Vec<_> = padded.entries().map(|entry| numbers(&entry)).collect();
    assert!(short.entries().map(|entry| numbers(&entry)).eq(read));
    for (book, stored) in [(padded, PADDED), (short, SHORT)] {
        for (entry, own) in book.entries().zip(stored) {
            for same in every_way(&book, entry) {
                assert_eq!(same, entry);
                assert_eq!(same.stored_bytes(), own);
            }
        }
    }
}

/// In several chunks, on several levels: the name stands in its entry's own bytes, and these lie one behind another in a chunk.
#[test]
fn own_bytes_of_a_large_book() {
    let file = sample("several.chm");
    let book = Book::open(&file).unwrap();
    let mut before: Option<Entry> = None;
    for entry in book.entries() {
        let own = entry.stored_bytes();
        for same in every_way(&book, entry) {
            assert_eq!(same.stored_bytes().as_ptr(), own.as_ptr());
            assert_eq!(same.stored_bytes().len(), own.len());
        }
        let ahead = entry.name().as_ptr() as usize - own.as_ptr() as usize;
        assert_eq!((ahead, usize::from(own[0])), (1, entry.name().len()));
        let behind = before.map(|entry| entry.stored_bytes().as_ptr_range().end);
        let first = (own.as_ptr() as usize - file.as_ptr() as usize - 204) % 4096 == 20;
        assert!(first || behind == Some(own.as_ptr()));
        before = Some(entry);
    }
}

#[test]
fn own_bytes_where_the_index_is_broken() {
    let mut file = sample("several.chm");
    file[0x78 + 84 + 6 * 4096 + 9] = b'.';
    let chain = Chain::open(&file).unwrap();
    assert!(chain.broken_index().is_some());
    let entry = chain.scan("/zones.htm").unwrap().unwrap();
    assert_eq!(entry.stored_bytes(), b"\x0a/Zones.htm\x00\x1a\x0a");
}

/// Nine bytes are the most, with the padding.
#[test]
fn as_long_as_can_be() {
    let pad = |many: usize| [&[0x80; 10][..many], &[0x01]].concat();
    let good = [&pad(8)[..], b"/", &pad(8), &pad(8), &pad(8)].concat();
    let file = book_of(&[&good]);
    let entry = Book::open(&file).unwrap().entries().next().unwrap();
    assert_eq!(numbers(&entry), (b"/".to_vec(), 1, 1, 1));
    assert_eq!(entry.stored_bytes(), good);
    for long in 0..4 {
        let mut fields = [pad(0), pad(0), pad(0), pad(0)];
        fields[long] = pad(9);
        let [size, section, offset, length] = fields;
        let bad = [&size[..], b"/", &section, &offset, &length].concat();
        let refusal = Book::open(&book_of(&[&bad])).unwrap_err();
        assert_eq!((refusal.number(), refusal.chunk()), (10, Some(0)));
    }
    let cut = Book::open(&book_of(&[b"\x01/\x00\x00\x80"])).unwrap_err();
    assert_eq!((cut.number(), cut.chunk()), (10, Some(0)));
}

#[test]
fn padding_is_no_difference() {
    let (padded, short) = (book_of(&PADDED), book_of(&SHORT));
    let moved = book_of(&[PADDED[0], b"\x80\x02/A\x00\x80\x01\x03", SHORT[2]]);
    let [padded, short, moved] = [&padded, &short, &moved].map(|file| Book::open(file).unwrap());
    let mut changes = compare(&padded, &short);
    assert_eq!(changes.next(), None);
    let same = Totals {
        only_first: 0,
        only_second: 0,
        same: 3,
        changed: 0,
    };
    assert_eq!(changes.totals(), Some(same));
    let told: Vec<Change> = compare(&short, &moved).collect();
    match told[..] {
        [Change::Changed(was, is)] => {
            assert_eq!(was.stored_bytes(), b"\x02/a\x00\x02\x03");
            assert_eq!(is.stored_bytes(), b"\x80\x02/A\x00\x80\x01\x03");
        }
        _ => panic!("{told:?}"),
    }
}

/// What is written anew has the short forms (docs/FORMAT.md, W3).
#[test]
fn written_short() {
    let padded = book_of(&PADDED);
    let entries = Book::open(&padded).unwrap().entries().map(NewEntry::from);
    let mut file = write_head(entries, &Options::new(5)).unwrap();
    file.extend_from_slice(&padded[4300..]);
    assert_eq!(file, book_of(&SHORT));
}

/// Equal entries count as one, however they were come by.
#[test]
fn equal_entries() {
    let file = book_of(&PADDED);
    let book = Book::open(&file).unwrap();
    let ways = book.entries().flat_map(|entry| every_way(&book, entry));
    assert_eq!(ways.collect::<HashSet<Entry>>().len(), 3);
}
