//! How many comparisons a lookup takes (docs/FORMAT.md, Q8 to Q12, K26), counted by hand.

use std::fs;

use hodsplinter::{write_head, Book, Lookup, NewEntry, Options};

fn sample(name: &str) -> Vec<u8> {
    fs::read(format!("../../samples/{name}")).unwrap()
}

/// A book of one chunk with the eleven entries /b to /l.
fn eleven(density: u32) -> Vec<u8> {
    let names: Vec<[u8; 2]> = (b'b'..=b'l').map(|letter| [b'/', letter]).collect();
    let entries = names.iter().map(|name| NewEntry {
        name,
        section: 1,
        offset: 0,
        length: 0,
    });
    let options = Options {
        density,
        ..Options::new(0)
    };
    write_head(entries, &options).unwrap()
}

fn comparisons(file: &[u8], name: &str) -> u64 {
    let book = Book::open(file).unwrap();
    book.lookup(name).unwrap().comparisons()
}

/// Each name is asked for; behind it are the letters of those that it is compared with.
fn hold(density: u32, asked: &[(&str, &str)]) {
    let book = eleven(density);
    for (name, with) in asked {
        assert_eq!(comparisons(&book, name), with.len() as u64, "{name}");
    }
}

/// b to f, g to k, l.
#[test]
fn in_three_groups() {
    hold(2, &[("/a", "gb"), ("/b", "gb"), ("/B", "gb")]);
    hold(2, &[("/c!", "gbcd"), ("/f", "gbcdef"), ("/f!", "gbcdef")]);
    hold(2, &[("/g", "glg"), ("/k", "glghijk"), ("/k!", "glghijk")]);
    hold(2, &[("/l", "gll"), ("/z", "gll")]);
}

/// bc, de, fg, hi, jk, l; then all in one.
#[test]
fn at_other_densities() {
    hold(0, &[("/a", "hdb"), ("/g", "hdffg"), ("/i!", "hjhi")]);
    hold(0, &[("/l", "hjll"), ("/m", "hjll")]);
    hold(7, &[("/a", "b"), ("/d!", "bcde"), ("/m", "bcdefghijkl")]);
}

/// The root, 6, has the first names of 5 and 1; 5 those of 7, 2, 4, and 1 those of 0, 8, 3: one group each. Chunk 7 has ten groups, / in the first, chunk 3 two, and
/// /index.hhc begins the second.
#[test]
fn along_a_descent() {
    let file = sample("several.chm");
    let book = Book::open(&file).unwrap();
    for (name, trail, taken) in [
        ("!", &[6][..], &[1][..]),
        ("/", &[6, 5, 7], &[1, 1, 3 + 1]),
        ("/#TOPICS", &[6, 5, 7], &[2, 2, 3 + 3]),
        ("/index.hhc", &[6, 1, 3], &[2, 3, 1 + 1]),
        ("/Zones.htm", &[6, 1, 3], &[2, 3, 1 + 2]),
        ("/nope", &[6, 1, 3], &[2, 3, 1 + 2]),
        ("~", &[6, 1, 3], &[2, 3, 1 + 5]),
    ] {
        let answer = book.lookup(name).unwrap();
        assert_eq!(*answer.trail(), *trail, "{name}");
        assert_eq!(answer.comparisons(), taken.iter().sum::<u64>(), "{name}");
        match answer {
            Lookup::Found { comparisons, .. } | Lookup::Absent { comparisons, .. } => {
                assert_eq!(comparisons, answer.comparisons());
            }
        }
    }
}

/// The most that a chunk with so many entries takes, h + n.
fn most(entries: u64, density: u32) -> u64 {
    let n = 1 + (1 << density);
    let groups: u64 = 1 + (entries - 1) / n;
    u64::from(groups.next_power_of_two().trailing_zeros()) + n
}

/// Every name of a book, and a gap behind each, takes no more than that in the chunks of its descent; some name takes as many in a chunk.
#[test]
fn at_most_so_many() {
    let file = sample("several.chm");
    let book = Book::open(&file).unwrap();
    let entries_of = |chunk: &u32| {
        let end = book.record().directory_start as usize + 84 + 4096 * (*chunk as usize + 1);
        u64::from(u16::from_le_bytes([file[end - 2], file[end - 1]]))
    };
    for entry in book.entries() {
        for name in [entry.name().to_vec(), [entry.name(), b"\0"].concat()] {
            let answer = book.lookup(name).unwrap();
            let bound: u64 = answer.trail().iter().map(|c| most(entries_of(c), 2)).sum();
            assert!(answer.comparisons() <= bound, "{answer:?}");
        }
    }
    assert_eq!((most(11, 2), comparisons(&eleven(2), "/k")), (7, 7));
}
