//! The worked example of FORMAT's section Comparison, and the lines that its rows draw.

mod common;

use common::{directory, listing_chunk};
use second::*;

/// The sample book (FORMAT W16).
fn sample_book() -> Vec<u8> {
    book(b"\x01/\0\0\0\x06/a.htm\0\0\x05")
}

/// The one beside it (FORMAT P10).
fn other_book() -> Vec<u8> {
    book(b"\x01/\0\0\0\x06/A.htm\0\0\x04\x02/b\x01\x07\x09")
}

fn book(entries: &[u8]) -> Vec<u8> {
    let head = write_head(entries, 2, 0, 0, 5, usize::MAX).unwrap();
    [head, b"12345".to_vec()].concat()
}

fn side<'a>(file: &'a [u8], record: &'a Record) -> Side<'a> {
    Side { file, record }
}

fn totals(numbers: [u64; 4]) -> Totals {
    let [only_first, only_second, same, changed] = numbers;
    Totals {
        only_first,
        only_second,
        same,
        changed,
    }
}

fn walk(numbers: [u64; 5]) -> Walk {
    let [chunk, place, left, next, more] = numbers;
    Walk {
        chunk,
        place,
        left,
        next,
        more,
    }
}

fn listed(numbers: [u64; 7]) -> Listed {
    let [name, name_length, section, offset, size, place, length] = numbers;
    Listed {
        report: Report {
            place: name,
            length: name_length,
            section,
            offset,
            size,
        },
        place,
        length,
    }
}

fn refused(book: u64) -> Compared {
    Compared::Refused {
        book,
        refusal: Refusal::new(17),
    }
}

const END: u64 = NONE as u64;

/// The sample book with padded numbers: all of `/`, and the name length and the length of `/a.htm`.
fn padded_book() -> Vec<u8> {
    let entries = b"\x80\x01/\x80\0\x80\0\x80\0\x80\x80\x06/a.htm\0\0\x80\x05";
    let mut file = sample_book();
    file[224..224 + entries.len()].copy_from_slice(entries);
    let tail = 4076 - entries.len() as u32;
    file[208..212].copy_from_slice(&tail.to_le_bytes());
    file
}

/// FORMAT N4, X7, X9, P8: padding is no difference, and comes with an entry's own bytes.
#[test]
fn padded_books_side_by_side() {
    let (short, padded, other) = (sample_book(), padded_book(), other_book());
    let records = [&short, &padded, &other].map(|file| open(file).unwrap());
    let (one, two) = (side(&short, &records[0]), side(&padded, &records[1]));
    for (one, two) in [(one, two), (two, one), (two, two)] {
        let start = compare_start(one.record, two.record);
        let end = Compared::End(totals([0, 0, 2, 0]));
        assert_eq!(compare_step(one, two, &start), end);
    }
    let three = side(&other, &records[2]);
    let start = compare_start(two.record, three.record);
    match compare_step(two, three, &start) {
        Compared::Difference(Difference::Changed(first, second), behind) => {
            assert_eq!(first, listed([236, 6, 0, 0, 5, 233, 13]));
            assert_eq!(second, listed([230, 6, 0, 0, 4, 229, 10]));
            assert_eq!(behind.one.place, 20 + 22);
        }
        other => panic!("{other:?}"),
    }
    let lines = "038080062f612e68746d00008005062f412e68746d000004\n02022f62010709\n";
    assert_eq!(diff_frames(&padded, &other), lines);
}

/// FORMAT P10, X3, X9, X10.
#[test]
fn sample_books_side_by_side() {
    let (one, two) = (sample_book(), other_book());
    let records = (open(&one).unwrap(), open(&two).unwrap());
    let (one, two) = (side(&one, &records.0), side(&two, &records.1));
    let start = compare_start(&records.0, &records.1);
    let at_start = walk([END, 0, 0, 0, 1]);
    assert_eq!((start.one, start.two), (at_start, at_start));
    assert_eq!(start.totals, totals([0; 4]));

    let behind_page = Progress {
        one: walk([0, 35, 0, END, 0]),
        two: walk([0, 35, 1, END, 0]),
        totals: totals([0, 0, 1, 1]),
    };
    let page = listed([230, 6, 0, 0, 5, 229, 10]);
    let changed = listed([230, 6, 0, 0, 4, 229, 10]);
    assert_eq!(
        compare_step(one, two, &start),
        Compared::Difference(Difference::Changed(page, changed), behind_page)
    );
    let behind = Progress {
        two: walk([0, 41, 0, END, 0]),
        totals: totals([0, 1, 1, 1]),
        ..behind_page
    };
    let added = listed([240, 2, 1, 7, 9, 239, 6]);
    assert_eq!(
        compare_step(one, two, &behind_page),
        Compared::Difference(Difference::OnlySecond(added), behind)
    );
    assert_eq!(
        compare_step(one, two, &behind),
        Compared::End(totals([0, 1, 1, 1]))
    );
}

/// FORMAT P7 to P10.
#[test]
fn frames_of_diff() {
    let (one, two) = (sample_book(), other_book());
    assert_eq!(
        diff_frames(&one, &two),
        "03062f612e68746d000005062f412e68746d000004\n02022f62010709\n"
    );
    assert_eq!(
        diff_frames(&two, &one),
        "03062f412e68746d000004062f612e68746d000005\n01022f62010709\n"
    );
    assert_eq!(diff_frames(&one, &one), "");

    let mut broken = two.clone();
    broken[204 + 0x10] = 0;
    let long = [0; 30_001];
    assert_eq!(diff_frames(&[], &broken), "ee01ffffffff\n");
    assert_eq!(diff_frames(&one, &broken), "ee0dffffffff\n");
    assert_eq!(diff_frames(&broken, &[]), "ee0dffffffff\n");
    assert_eq!(diff_frames(&broken, &long), "ee0dffffffff\n");
    assert_eq!(diff_frames(&long, &broken), "ee1dffffffff\n");
    assert_eq!(diff_frames(&one, &long), "ee1dffffffff\n");
    assert_eq!(diff_frames(&one, &long[..30_000]), "ee02ffffffff\n");
}

/// A listing chunk with this next and one-letter names, whose numbers are all the same.
fn chunk(next: u32, names: &[u8]) -> Vec<u8> {
    let entries: Vec<[u8; 5]> = names.iter().map(|&name| [1, name, 1, 2, 3]).collect();
    listing_chunk(next, &entries)
}

/// The names of the differences from the start on, each with its kind, and what ends them.
fn run(one: Side, two: Side) -> (String, Compared) {
    let mut told = String::new();
    let mut progress = compare_start(one.record, two.record);
    loop {
        let (difference, behind) = match compare_step(one, two, &progress) {
            Compared::Difference(difference, behind) => (difference, behind),
            end => return (told, end),
        };
        let (kind, side, listed) = match difference {
            Difference::OnlyFirst(first) => ('1', one, first),
            Difference::OnlySecond(second) => ('2', two, second),
            Difference::Changed(first, _) => ('3', one, first),
        };
        let name = part(side.file, listed.report.place, listed.report.length);
        told += &format!("{kind}{} ", String::from_utf8_lossy(name));
        progress = behind;
    }
}

/// FORMAT X7, X10: names in their order, wherever chunks begin.
#[test]
fn names_come_in_their_order() {
    let (one, first) = directory(0, &[chunk(1, b"ACE"), chunk(NONE, b"gh")]);
    let (two, second) = directory(0, &[chunk(NONE, b"fgz"), chunk(0, b"bce")]);
    let second = Record { first: 1, ..second };
    let (told, end) = run(side(&one, &first), side(&two, &second));
    assert_eq!(told, "1A 2b 2f 1h 2z ");
    assert_eq!(end, Compared::End(totals([2, 3, 3, 0])));
}

/// FORMAT X8: a walk stays in the chunk that it entered, and does not enter it again.
#[test]
fn what_is_not_taken_stays() {
    let (one, first) = directory(0, &[chunk(NONE, b"b")]);
    let (two, second) = directory(0, &[chunk(NONE, b"ac")]);
    let (one, two) = (side(&one, &first), side(&two, &second));
    let start = compare_start(&first, &second);
    let entered = Progress {
        one: walk([0, 20, 1, END, 0]),
        two: walk([0, 25, 1, END, 0]),
        totals: totals([0, 1, 0, 0]),
    };
    let a = listed([84 + 21, 1, 1, 2, 3, 84 + 20, 5]);
    let told = Compared::Difference(Difference::OnlySecond(a), entered);
    assert_eq!(compare_step(one, two, &start), told);
    assert_eq!(run(one, two).0, "2a 1b 2c ");
}

/// FORMAT X4, K19: as many chunks as the count are entered, none more.
#[test]
fn rings_end() {
    let (ring, count_2) = directory(0, &[chunk(1, b"b"), chunk(0, b"d")]);
    let (one, count_1) = directory(0, &[chunk(NONE, b"c")]);
    let told = |told: &str, book| (told.to_owned(), refused(book));
    let (ring, one) = (side(&ring, &count_2), side(&one, &count_1));
    assert_eq!(run(ring, one), told("1b 2c 1d ", 1));
    assert_eq!(run(one, ring), told("2b 1c 2d ", 2));
    assert_eq!(run(ring, ring), told("", 1));
    let count_3 = Record {
        count: 3,
        ..count_2
    };
    let longer = side(ring.file, &count_3);
    assert_eq!(run(longer, one), told("1b 2c 1d 1b ", 1));
    assert_eq!(run(longer, ring), told("", 2));
}

/// FORMAT X4: none in front of the first chunk is no end.
#[test]
fn none_ends_behind_a_chunk_alone() {
    let (one, good) = directory(0, &[chunk(NONE, b"a")]);
    let none = Record { first: END, ..good };
    let (good, none) = (side(&one, &good), side(&one, &none));
    assert_eq!(run(none, good), (String::new(), refused(1)));
    assert_eq!(run(good, none), (String::new(), refused(2)));
    let start = compare_start(good.record, good.record);
    let mut at_end = Progress {
        one: walk([9, 9, 0, END, 0]),
        two: walk([9, 9, 0, END, 0]),
        totals: totals([u64::MAX; 4]),
    };
    let end = Compared::End(at_end.totals);
    assert_eq!(compare_step(good, good, &at_end), end);
    at_end.two.more = 1;
    assert_eq!(compare_step(good, good, &at_end), refused(2));
    at_end.two = start.two;
    at_end.one.more = u64::MAX;
    assert_eq!(compare_step(good, good, &at_end), refused(1));
}

/// FORMAT X6, X11: the first book is asked first, at each turn.
#[test]
fn the_first_book_is_named_if_both_are_refused() {
    let (one, good) = directory(0, &[chunk(1, b"ab"), chunk(9, b"c")]);
    let bad = Record { density: 8, ..good };
    let (good, bad) = (side(&one, &good), side(&one, &bad));
    assert_eq!(run(bad, bad).1, refused(1));
    assert_eq!(run(good, bad).1, refused(2));
    assert_eq!(run(good, good).1, refused(1));
    let (short, shorter) = directory(0, &[chunk(9, b"ab")]);
    let short = side(&short, &shorter);
    assert_eq!(run(short, good).1, refused(1));
    assert_eq!(run(good, short).1, refused(2));
    let lead = Record {
        first: 9,
        ..*good.record
    };
    assert_eq!(run(side(&one, &lead), bad).1, refused(1));
}

/// FORMAT X5: made-up walks with entries left read in the chunk of their number.
#[test]
fn entries_are_read_where_the_cursor_says() {
    let (file, record) = directory(0, &[chunk(1, b"ab"), b"\x01e\x01\0\0".repeat(820)]);
    let file = &file[..84 + 2 * 4096];
    let count_1 = Record { count: 1, ..record };
    let one = side(file, &count_1);
    let at_end = walk([END, 0, 0, END, 0]);
    let step = |one_walk| {
        let progress = Progress {
            one: walk(one_walk),
            two: at_end,
            totals: totals([u64::MAX, 7, 8, 9]),
        };
        compare_step(one, one, &progress)
    };
    // The second chunk is none at all, and its number is not below the count.
    let e = listed([84 + 4096 + 4086, 1, 1, 0, 0, 84 + 4096 + 4085, 5]);
    let behind = Progress {
        one: walk([1, 4090, 2, 3, 4]),
        two: at_end,
        totals: totals([0, 7, 8, 9]),
    };
    let told = Compared::Difference(Difference::OnlyFirst(e), behind);
    assert_eq!(step([1, 4085, 3, 3, 4]), told);
    for place in [4090, 4091, 4095, 4096, 4097, 1 << 32, u64::MAX] {
        // At 4,090 stands an entry that ends at 4,095, at 4,091 no name's length that fits.
        let good = place == 4090;
        assert_eq!(step([1, place, 1, 3, 4]) != refused(1), good, "{place}");
    }
    for chunk in [2, 1 << 52, 1 << 63, END, u64::MAX] {
        assert_eq!(step([chunk, 20, 1, 3, 4]), refused(1));
    }
}

/// FORMAT X4: where no entries are left, the chunk and the place of a walk do not matter.
#[test]
fn the_next_chunk_is_held_to_the_count() {
    let (file, record) = directory(0, &[chunk(NONE, b"a"), chunk(NONE, b"b")]);
    let one = side(&file, &record);
    let step = |next, more| {
        let progress = Progress {
            one: walk([u64::MAX, u64::MAX, 0, next, more]),
            two: walk([0, 0, 0, END, 0]),
            totals: totals([0; 4]),
        };
        compare_step(one, one, &progress)
    };
    let b = listed([84 + 4096 + 21, 1, 1, 2, 3, 84 + 4096 + 20, 5]);
    for more in [1, 2, 3, u64::MAX] {
        let behind = Progress {
            one: walk([1, 25, 0, END, more - 1]),
            two: walk([0, 0, 0, END, 0]),
            totals: totals([1, 0, 0, 0]),
        };
        let told = Compared::Difference(Difference::OnlyFirst(b), behind);
        assert_eq!(step(1, more), told);
    }
    assert_eq!(step(1, 0), refused(1));
    for next in [2, 1 << 32, END - 1, END + 1, (1 << 32) + END, u64::MAX] {
        assert_eq!(step(next, 1), refused(1));
    }
}
