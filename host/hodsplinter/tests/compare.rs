//! Two books side by side, beside maps of their entries by folded name.

use std::collections::BTreeMap;
use std::fs;

use hodsplinter::{compare, write_head, Book, Change, Entry, NewEntry, Options, Totals};

fn sample(name: &str) -> Vec<u8> {
    fs::read(format!("../../samples/{name}")).unwrap()
}

/// An entry in front of its book.
type Given<'a> = (&'a [u8], u16, u64, u64);

/// A book with these entries and nine bytes of content.
fn book(entries: &[Given]) -> Vec<u8> {
    let entries = entries.iter().map(|given| NewEntry {
        name: given.0,
        section: given.1,
        offset: given.2,
        length: given.3,
    });
    let mut file = write_head(entries, &Options::new(9)).unwrap();
    file.extend_from_slice(b"nine byte");
    file
}

fn numbers(entry: &Entry) -> (u16, u64, u64) {
    (entry.section(), entry.offset(), entry.length())
}

/// The entries of a book by folded name. Bytes order as in a book once A to Z are raised.
fn by_name<'a>(book: &Book<'a>) -> BTreeMap<Vec<u8>, Entry<'a>> {
    let folded = |entry: Entry<'a>| (entry.name().to_ascii_lowercase(), entry);
    book.entries().map(folded).collect()
}

/// The changes and totals that two maps give.
fn by_maps<'a, 'b>(one: &Book<'a>, two: &Book<'b>) -> (Vec<Change<'a, 'b>>, Totals) {
    let (old, new) = (by_name(one), by_name(two));
    let mut names: Vec<&Vec<u8>> = old.keys().chain(new.keys()).collect();
    names.sort();
    names.dedup();
    let (mut changes, mut same) = (Vec::new(), 0);
    for name in names {
        changes.push(match (old.get(name), new.get(name)) {
            (Some(was), Some(is)) if numbers(was) == numbers(is) => {
                same += 1;
                continue;
            }
            (Some(was), Some(is)) => Change::Changed(*was, *is),
            (Some(was), None) => Change::OnlyFirst(*was),
            (None, is) => Change::OnlySecond(*is.unwrap()),
        });
    }
    let count = |kind: fn(&Change) -> bool| changes.iter().filter(|c| kind(c)).count() as u64;
    let totals = Totals {
        only_first: count(|change| matches!(change, Change::OnlyFirst(_))),
        only_second: count(|change| matches!(change, Change::OnlySecond(_))),
        same,
        changed: count(|change| matches!(change, Change::Changed(..))),
    };
    (changes, totals)
}

/// Compares two books both ways round with what the maps say; gives back the totals.
fn check(one: &[u8], two: &[u8]) -> Totals {
    let books = [one, two].map(|file| Book::open(file).unwrap());
    for (one, two) in [(&books[0], &books[1]), (&books[1], &books[0])] {
        let mut changes = compare(one, two);
        let told: Vec<Change> = changes.by_ref().collect();
        let (want, totals) = by_maps(one, two);
        assert_eq!(told, want);
        assert_eq!(changes.totals(), Some(totals));
        let sums =
            [totals.only_first, totals.only_second].map(|n| n + totals.same + totals.changed);
        assert_eq!(sums, [one, two].map(|book| book.entries().count() as u64));
    }
    by_maps(&books[0], &books[1]).1
}

fn totals(numbers: [u64; 4]) -> Totals {
    let [only_first, only_second, same, changed] = numbers;
    Totals {
        only_first,
        only_second,
        same,
        changed,
    }
}

#[test]
fn a_book_beside_itself() {
    for (name, entries) in [("sample.chm", 2), ("several.chm", 233)] {
        let file = sample(name);
        assert_eq!(check(&file, &file), totals([0, 0, entries, 0]));
    }
}

#[test]
fn each_kind() {
    let one = book(&[(b"/", 0, 0, 0), (b"/a", 0, 1, 2), (b"/b", 3, 4, 5)]);
    let cases: [(&[Given], [u64; 4]); 8] = [
        (
            &[(b"/", 0, 0, 0), (b"/A", 0, 1, 2), (b"/B", 3, 4, 5)],
            [0, 0, 3, 0],
        ),
        (
            &[(b"/", 0, 0, 0), (b"/A", 0, 1, 3), (b"/B", 3, 4, 5)],
            [0, 0, 2, 1],
        ),
        (
            &[(b"/", 0, 0, 0), (b"/a", 0, 2, 2), (b"/b", 3, 4, 5)],
            [0, 0, 2, 1],
        ),
        (
            &[(b"/", 0, 0, 0), (b"/a", 1, 1, 2), (b"/b", 3, 4, 5)],
            [0, 0, 2, 1],
        ),
        (&[(b"/", 0, 0, 0), (b"/b", 3, 4, 5)], [1, 0, 2, 0]),
        (
            &[
                (b"!", 0, 0, 0),
                (b"/", 0, 0, 0),
                (b"/a", 0, 1, 2),
                (b"/b", 3, 4, 5),
                (b"/c", 0, 0, 0),
            ],
            [0, 2, 3, 0],
        ),
        (&[(b"/a!", 0, 0, 0)], [3, 1, 0, 0]),
        (&[(b"/\xC1", 0, 0, 0), (b"/\xE1", 0, 0, 0)], [3, 2, 0, 0]),
    ];
    for (entries, want) in cases {
        assert_eq!(check(&one, &book(entries)), totals(want));
    }
}

/// Parts of the larger sample, each chosen by the bits of a number that a seed makes, with some numbers changed and some names in the other case.
#[test]
fn parts_of_a_book() {
    let file = sample("several.chm");
    let whole = Book::open(&file).unwrap();
    let mut state = 1_u64;
    let mut draw = |below: u64| {
        state = state
            .wrapping_mul(6_364_136_223_846_793_005)
            .wrapping_add(1);
        (state >> 33) % below
    };
    let mut part = |kept: u64| {
        let mut names = Vec::new();
        for entry in whole.entries() {
            let (is_kept, upper) = (draw(8) < kept, draw(2) == 0);
            let name = match upper {
                true => entry.name().to_ascii_uppercase(),
                false => entry.name().to_vec(),
            };
            let given = (name, 1, draw(2), draw(2));
            names.extend(Some(given).filter(|_| is_kept));
        }
        let given = names.iter().map(|(name, s, o, l)| (&name[..], *s, *o, *l));
        book(&given.chain([(&b"~"[..], 0, 0, 0)]).collect::<Vec<_>>())
    };
    let parts = [1, 4, 7, 7, 8, 8].map(&mut part);
    for pair in parts.windows(2) {
        let totals = check(&pair[0], &pair[1]);
        assert!(totals.changed > 0 && totals.same > 1, "{totals:?}");
        check(&pair[0], &file);
    }
}

/// Behind the end nothing comes, and the totals stay; a copy goes on from where it was made.
#[test]
fn the_end() {
    let (one, two) = (sample("sample.chm"), sample("several.chm"));
    let (one, two) = (Book::open(&one).unwrap(), Book::open(&two).unwrap());
    let mut changes = compare(&one, &two);
    assert_eq!(changes.totals(), None);
    let first = changes.next().unwrap();
    let rest = changes.clone();
    let all: Vec<Change> = compare(&one, &two).collect();
    assert_eq!(
        (first, rest.collect::<Vec<_>>()),
        (all[0], all[1..].to_vec())
    );
    assert_eq!(changes.totals(), None);
    assert_eq!(changes.by_ref().count(), all.len() - 1);
    let end = changes.totals();
    assert_eq!(end, Some(totals([1, 232, 1, 0])));
    assert_eq!((changes.next(), changes.next()), (None, None));
    assert_eq!(changes.totals(), end);
}

/// An entry is lent from its own book, whatever becomes of the other one, and of the `Book`s.
#[test]
fn entries_outlive_the_other_book() {
    let old = sample("sample.chm");
    let gone = {
        let new = book(&[(b"/A.htm", 0, 0, 4)]);
        let (one, two) = (Book::open(&old).unwrap(), Book::open(&new).unwrap());
        let changes: Vec<Change> = compare(&one, &two).collect();
        let second = changes[1].second().unwrap();
        assert_eq!(second.stored_bytes(), b"\x06/A.htm\x00\x00\x04");
        assert_eq!(two.stored(&second), Some(&b"nine"[..]));
        assert_eq!((changes[0].second(), changes.len()), (None, 2));
        [changes[0].first(), changes[1].first()]
    };
    let names = gone.map(|entry| entry.unwrap().name());
    assert_eq!(names, [&b"/"[..], b"/a.htm"]);
}
