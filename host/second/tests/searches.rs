//! How many names a lookup compares, written down by hand from FORMAT Q8 to Q12 and K26.

use second::*;

/// The comparisons for each letter that is asked for, in a chunk with these one-letter names.
fn row(names: &str, density: u64, asked: &str) -> Vec<u64> {
    let bytes: Vec<[u8; 1]> = names.bytes().map(|name| [name]).collect();
    let names: Vec<&[u8]> = bytes.iter().map(|name| &name[..]).collect();
    let letters = asked.bytes();
    letters
        .map(|letter| comparisons(&names, density, &[letter]))
        .collect()
}

/// One name: it is below, equal or above, and compared once at any density.
#[test]
fn one_entry() {
    for density in 0..=7 {
        assert_eq!(row("b", density, "abc"), [1, 1, 1]);
        assert_eq!(most_comparisons(1, density), 1 + (1 << density));
    }
}

/// Density 0, groups `bd fh jl n`: `j` is compared first, then `f` or `n`, then the names of the
/// group that is left. For `e`, `i` and `m` that group ends before a name that is above.
#[test]
fn four_groups() {
    let counts = [3, 3, 4, 4, 4, 3, 4, 4, 4, 3, 4, 4, 4, 3, 3];
    assert_eq!(row("bdfhjln", 0, "abcdefghijklmno"), counts);
    assert_eq!(row("bdfhjln", 0, "ABCDEFGHIJKLMNO"), counts);
    assert_eq!(most_comparisons(7, 0), 4);
}

/// Density 1, groups `bdf hjl n`: `h` first, then `n` for what is not below `h`.
#[test]
fn three_groups() {
    let counts = [2, 2, 3, 3, 4, 4, 4, 3, 4, 4, 5, 5, 5, 3, 3];
    assert_eq!(row("bdfhjln", 1, "abcdefghijklmno"), counts);
    assert_eq!(most_comparisons(7, 1), 5);
}

/// Density 2, groups `bdfhj ln`: just `l` is compared first.
#[test]
fn two_groups() {
    let counts = [2, 2, 3, 3, 4, 4, 5, 5, 6, 6, 6, 2, 3, 3, 3];
    assert_eq!(row("bdfhjln", 2, "abcdefghijklmno"), counts);
    assert_eq!(most_comparisons(7, 2), 6);
}

/// Density 3: one group that is not full, and no name is compared twice.
#[test]
fn one_group() {
    let counts = [1, 1, 2, 2, 3, 3, 4, 4, 5, 5, 6, 6, 7, 7, 7];
    assert_eq!(row("bdfhjln", 3, "abcdefghijklmno"), counts);
    assert_eq!(most_comparisons(7, 3), 9);
}

/// Density 0, groups `bd fh jl np r`, five of them: `j`, then `f` or `n`, then `r` for what is not
/// below `n`. With a name less the last group is gone, with one more it is full.
#[test]
fn around_five_groups() {
    let asked = "abdefhijlmnopqrst";
    let five = [3, 3, 4, 4, 3, 4, 4, 3, 4, 4, 4, 5, 5, 5, 4, 4, 4];
    assert_eq!(row("bdfhjlnpr", 0, asked), five);
    let four = [3, 3, 4, 4, 3, 4, 4, 3, 4, 4, 3, 4, 4, 4, 4, 4, 4];
    assert_eq!(row("bdfhjlnp", 0, asked), four);
    let full = [3, 3, 4, 4, 3, 4, 4, 3, 4, 4, 4, 5, 5, 5, 4, 5, 5];
    assert_eq!(row("bdfhjlnprt", 0, asked), full);
    let bounds = [8, 9, 10].map(|entries| most_comparisons(entries, 0));
    assert_eq!(bounds, [4, 5, 5]);
}

/// FORMAT Q8 to Q10: the very names that are compared, in turn.
#[test]
fn names_in_turn() {
    let bytes: Vec<[u8; 1]> = (b'b'..=b'l').map(|name| [name]).collect();
    let names: Vec<&[u8]> = bytes.iter().map(|name| &name[..]).collect();
    let turns = |density, asked: &str| compared(&names, density, asked.as_bytes()).concat();
    // Groups `bcdef ghijk l`.
    let rows = [("a", "gb"), ("b", "gb"), ("B", "gb"), ("d", "gbcd")];
    let more = [
        ("c!", "gbcd"),
        ("f", "gbcdef"),
        ("f!", "gbcdef"),
        ("g", "glg"),
    ];
    let last = [
        ("k", "glghijk"),
        ("k!", "glghijk"),
        ("l", "gll"),
        ("z", "gll"),
    ];
    for (asked, wanted) in rows.into_iter().chain(more).chain(last) {
        assert_eq!(turns(2, asked), wanted.as_bytes(), "{asked}");
    }
    // One group; and groups `bc de fg hi jk l`.
    for (density, asked, wanted) in [(7, "d!", "bcde"), (0, "g", "hdffg"), (0, "m", "hjll")] {
        assert_eq!(turns(density, asked), wanted.as_bytes(), "{asked}");
    }
}

/// FORMAT Q12: h rises by one where a power of two is passed, and at density 0 a group has two.
#[test]
fn bounds() {
    let rows = [(1, 0), (2, 1), (3, 2), (4, 2), (5, 3), (8, 3), (9, 4)];
    for (groups, h) in rows.into_iter().chain([(256, 8), (257, 9), (512, 9)]) {
        assert_eq!(most_comparisons(2 * groups, 0), h + 2);
        assert_eq!(most_comparisons(2 * groups - 1, 0), h + 2);
    }
    assert_eq!(most_comparisons(129, 7), 129);
    assert_eq!(most_comparisons(130, 7), 130);
    assert_eq!(most_comparisons(516, 7), 131);
    let rows = [
        (5, 5),
        (6, 6),
        (10, 6),
        (11, 7),
        (20, 7),
        (21, 8),
        (40, 8),
        (41, 9),
    ];
    for (entries, most) in rows {
        assert_eq!(most_comparisons(entries, 2), most);
    }
}

/// Names of several bytes: folded, and with one that begins another (FORMAT S1, S2).
#[test]
fn names_of_several_bytes() {
    let names: [&[u8]; 5] = [b"/", b"/A", b"/a.htm", b"/[", b"/Zone"];
    // By FORMAT S1 `[` is below `a`: this is their order.
    let names = [names[0], names[3], names[1], names[2], names[4]];
    let rows: [(&[u8], u64); 8] = [
        (b"!", 2),
        (b"/", 2),
        (b"/Z", 4),
        (b"/a", 3),
        (b"/A.HTM", 4),
        (b"/ZONE", 3),
        (b"/zones", 3),
        (b"/\x5C", 3),
    ];
    for (asked, count) in rows {
        assert_eq!(comparisons(&names, 0, asked), count, "{asked:?}");
    }
}

/// A chunk with one-letter names, and one quick word if there are three or four of them: at density
/// 0 that of entry 2.
fn chunk(header: &[u8], names: &[u8], behind: fn(usize) -> Vec<u8>) -> Vec<u8> {
    let entry = |(at, &name): (usize, &u8)| [vec![1, name], behind(at)].concat();
    let entries: Vec<Vec<u8>> = names.iter().enumerate().map(entry).collect();
    let bytes = entries.concat();
    let tail = (4096 - header.len() - bytes.len()) as u32;
    let mut chunk = [header, &bytes].concat();
    chunk[4..8].copy_from_slice(&tail.to_le_bytes());
    chunk.resize(4092, 0);
    chunk.extend((2 * entries[0].len() as u16).to_le_bytes());
    chunk.extend((names.len() as u16).to_le_bytes());
    chunk
}

/// An index chunk `bh n` over the chunks `bd f`, `hj l` and `np`, at density 0.
fn tree() -> (Vec<u8>, Record) {
    let listing = |names| chunk(&[&b"PMGL"[..], &[0; 16]].concat(), names, |_| vec![1, 0, 0]);
    let index = chunk(b"PMGI\0\0\0\0", b"bhn", |at| vec![at as u8]);
    let chunks = [listing(b"bdf"), listing(b"hjl"), listing(b"np"), index];
    let record = Record {
        version: 0,
        time: 0,
        language: 0,
        start: 0,
        count: 4,
        density: 0,
        depth: 2,
        root: 3,
        first: 0,
        last: 0,
        content: 0,
    };
    ([vec![0; 84], chunks.concat()].concat(), record)
}

/// FORMAT K26: both chunks count, and the walk through the root's first group never comes to `n`,
/// though that was compared before.
#[test]
fn comparisons_of_a_descent() {
    let (file, record) = tree();
    let rows: [(u8, bool, &[u32], u64); 11] = [
        (b'a', false, &[3], 2),
        (b'b', true, &[3, 0], 2 + 2),
        (b'd', true, &[3, 0], 3 + 3),
        (b'e', false, &[3, 0], 3 + 3),
        (b'f', true, &[3, 0], 3 + 2),
        (b'g', false, &[3, 0], 3 + 2),
        (b'h', true, &[3, 1], 3 + 2),
        (b'k', false, &[3, 1], 3 + 3),
        (b'm', false, &[3, 1], 3 + 2),
        (b'n', true, &[3, 2], 2 + 1),
        (b'z', false, &[3, 2], 2 + 2),
    ];
    for (letter, found, chunks, count) in rows {
        match lookup(&file, &record, &[letter], 5) {
            Answer::Found {
                trail, comparisons, ..
            } => assert_eq!((true, chunks, count), (found, &trail[..], comparisons)),
            Answer::Absent { trail, comparisons } => {
                assert_eq!((false, chunks, count), (found, &trail[..], comparisons));
            }
            Answer::Refused(refusal) => panic!("{refusal:?}"),
        }
    }
}

/// At depth 1 one chunk counts, and with another density its groups are others: one of three.
#[test]
fn comparisons_in_one_chunk() {
    let (file, record) = tree();
    let record = Record {
        depth: 1,
        first: 1,
        ..record
    };
    for (density, counts) in [(0, [2, 2, 3, 3, 3, 2]), (1, [1, 1, 2, 2, 3, 3])] {
        let record = Record { density, ..record };
        for (&letter, count) in b"ghijkl".iter().zip(counts) {
            match lookup(&file, &record, &[letter], 5) {
                Answer::Found { comparisons, .. } | Answer::Absent { comparisons, .. } => {
                    assert_eq!(comparisons, count, "{density}, {letter}");
                }
                Answer::Refused(refusal) => panic!("{refusal:?}"),
            }
        }
    }
}

/// FORMAT K27: which chunks a lookup meets, one that is refused with them.
#[test]
fn chunks_that_a_lookup_meets() {
    let (file, record) = tree();
    let chunks = |record: &Record, name: &[u8], places| met(&file, record, name, places);
    assert_eq!(chunks(&record, b"k", 5), [3, 1]);
    assert_eq!(chunks(&record, b"a", 5), [3]);
    assert!(chunks(&record, b"", 5).is_empty());
    assert!(chunks(&record, b"k", 4).is_empty());
    let bad = Record {
        density: 8,
        ..record
    };
    assert!(chunks(&bad, b"k", 5).is_empty());
    let outside = Record { root: 4, ..record };
    assert_eq!(chunks(&outside, b"k", 5), [4]);
    let deep = Record { depth: 3, ..record };
    assert_eq!(chunks(&deep, b"k", 5), [3, 1]);
    assert_eq!(
        lookup(&file, &deep, b"k", 5),
        Answer::Refused(Refusal::new(17))
    );
}
