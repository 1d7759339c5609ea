//! Heads of new books.

use std::fs;

use hodsplinter::{write_head, Book, NewEntry, Options, Refusal};

fn entry(name: &[u8], section: u16, offset: u64, length: u64) -> NewEntry<'_> {
    NewEntry {
        name,
        section,
        offset,
        length,
    }
}

fn head(entries: &[NewEntry], content_length: u64) -> Result<Vec<u8>, Refusal> {
    write_head(entries.iter().copied(), &Options::new(content_length))
}

/// The number of the refusal. A head that was written has its length alone in the message, not its bytes.
fn number(entries: &[NewEntry], content_length: u64) -> u8 {
    let length = head(entries, content_length).map(|head| head.len());
    length.unwrap_err().number()
}

/// Writes the head and opens it: with no content the head is the book.
fn written_back(names: &[Vec<u8>], density: u32) -> (usize, u32, u32) {
    let options = Options {
        density,
        ..Options::new(0)
    };
    let entries = names.iter().map(|name| entry(name, 1, 1 << 40, 70));
    let file = write_head(entries.clone(), &options).unwrap();
    let book = Book::open(&file).unwrap();
    assert!(book.entries().map(NewEntry::from).eq(entries));
    let record = book.record();
    assert_eq!(record.density, density);
    (file.len(), record.count, record.depth)
}

#[test]
fn the_entries_of_a_book() {
    let old = fs::read("../../samples/several.chm").unwrap();
    let book = Book::open(&old).unwrap();
    let entries: Vec<NewEntry> = book.entries().map(NewEntry::from).collect();
    let content = &old[book.record().content_start as usize..];
    let options = Options {
        density: 2,
        time: 7,
        language: 9,
        content_length: content.len() as u64,
    };
    let mut new = write_head(entries.iter().copied(), &options).unwrap();
    new.extend_from_slice(content);
    let again = Book::open(&new).unwrap();
    assert_eq!((again.record().time, again.record().language), (7, 9));
    assert!(again.entries().map(NewEntry::from).eq(entries));
    for (a, b) in book.entries().zip(again.entries()) {
        assert_eq!(book.stored(&a), again.stored(&b));
        assert_eq!(a.stored_bytes(), b.stored_bytes());
        assert_eq!(again.lookup(a.name()).unwrap().entry(), Some(b));
    }
}

#[test]
fn sizes() {
    let short: Vec<_> = (0..120_000)
        .map(|i| format!("/{i:06}").into_bytes())
        .collect();
    let long: Vec<_> = (0..243)
        .map(|i| format!("{i:0>1024}").into_bytes())
        .collect();
    for density in 0..=7 {
        let (size, count, depth) = written_back(&short, density);
        assert_eq!((size, depth), (204 + 4096 * count as usize, 3));
    }
    assert_eq!(written_back(&short[..1], 2), (4300, 1, 1));
    assert_eq!(written_back(&long, 2), (204 + 4096 * 121, 121, 5));
}

#[test]
fn refusals() {
    let good = entry(b"/a", 0, 0, 5);
    assert_eq!(number(&[], 0), 18);
    assert!(head(&[good], 5).is_ok());
    assert_eq!(number(&[good], 4), 18);
    assert_eq!(number(&[good, good], 5), 18);
    assert_eq!(number(&[good, entry(b"/A", 1, 0, 0)], 5), 18);
    assert_eq!(number(&[entry(b"/b", 1, 0, 0), good], 5), 18);
    assert_eq!(number(&[entry(b"", 1, 0, 0)], 5), 18);
    assert_eq!(number(&[entry(&[b'x'; 1025], 1, 0, 0)], 5), 18);
    assert!(head(
        &[entry(&[b'x'; 1024], 65535, (1 << 63) - 1, (1 << 63) - 1)],
        0
    )
    .is_ok());
    assert_eq!(number(&[entry(b"/", 1, 1 << 63, 0)], 0), 18);
    assert_eq!(number(&[entry(b"/", 1, 0, u64::MAX)], 0), 18);
    assert_eq!(number(&[entry(b"/", 0, u64::MAX, 1)], 0), 18);
    assert!(head(&[good], (1 << 62) - 1).is_ok());
    assert_eq!(number(&[good], 1 << 62), 18);
    let dense = Options {
        density: 8,
        ..Options::new(5)
    };
    let refusal = write_head([good], &dense).map(|head| head.len());
    assert_eq!(refusal.map_err(Refusal::number), Err(18));
}

/// Three names of 1,024 bytes fill a chunk, so that 244 of them need a sixth level.
#[test]
fn too_deep() {
    let names: Vec<_> = (0..244)
        .map(|i| format!("{i:0>1024}").into_bytes())
        .collect();
    let entries: Vec<_> = names.iter().map(|name| entry(name, 1, 0, 0)).collect();
    assert!(head(&entries[1..], 0).is_ok());
    assert_eq!(number(&entries, 0), 19);
}

/// A book of 4,096 chunks is the longest; one entry more is too many.
#[test]
fn too_many() {
    let name = |i| format!("/{i:0>110}").into_bytes();
    let names: Vec<_> = (0..150_000).map(name).collect();
    let entries: Vec<_> = names.iter().map(|name| entry(name, 1, 0, 0)).collect();
    assert_eq!(number(&entries, 0), 19);
    let (mut low, mut high) = (0, entries.len());
    while low + 1 < high {
        let middle = (low + high) / 2;
        match head(&entries[..middle], 0) {
            Ok(_) => low = middle,
            Err(_) => high = middle,
        }
    }
    let file = head(&entries[..low], 0).unwrap();
    assert_eq!(file.len(), 204 + 4096 * 4096);
    let book = Book::open(&file).unwrap();
    assert_eq!((book.record().count, book.entries().count()), (4096, low));
}
