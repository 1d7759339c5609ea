//! `hods check`.

use crate::run::{book_of, command, fed, hods, sample, Folder};

const SAMPLE: &str =
    "sample.chm: good: version 3, 2 entries, 1 chunk, depth 1, 5 bytes of content\n";
const SEVERAL: &str =
    "several.chm: good: version 3, 233 entries, 9 chunks, depth 3, 106 bytes of content\n";

#[test]
fn good_books() {
    let run = hods(&["check", "sample.chm", "several.chm"]);
    assert_eq!(run.good(), format!("{SAMPLE}{SEVERAL}"));
    assert_eq!(hods(&["check", "-q", "sample.chm"]).good(), "");
    let run = fed(command(&["check", "-"]), &sample("sample.chm"));
    assert_eq!(run.good(), SAMPLE.replace("sample.chm", "standard input"));
}

#[test]
fn the_worst_status_counts() {
    let run = hods(&["check", "chunk.bin", "sample.chm"]);
    assert_eq!((run.status, run.out()), (1, SAMPLE));
    run.says(&["hods: chunk.bin: refusal 2 (FORMAT R2, F1) at 0x0: the tag is 50 4D 47 4C, not 49 54 53 46 (ITSF)"]);
    let run = hods(&["check", "no-such-file", "chunk.bin", "sample.chm"]);
    assert_eq!((run.status, run.out()), (2, SAMPLE));
    run.says(&["hods: no-such-file: No such file or directory\n", "R2"]);
    hods(&["check", "."]).bad(2, &["hods: .: Is a directory\n"]);
    hods(&["check"]).bad(2, &["no book is named"]);
}

#[test]
fn no_books() {
    let folder = Folder::new("no-books");
    folder.put("empty", b"");
    folder.put("text", &b"This is no book.\n".repeat(100));
    folder.put("\x1b[2Jbook", b"?");
    folder.hods(&["check", "empty"]).bad(
        1,
        &["hods: empty: refusal 1 (FORMAT R1) at 0x0: the file has 0 bytes, a book has 96 or more\n"],
    );
    folder
        .hods(&["check", "text"])
        .bad(1, &["R2, F1", "54 68 69 73"]);
    folder
        .hods(&["check", "\x1b[2Jbook"])
        .bad(1, &["hods: \\x1b[2Jbook: refusal 1"]);
    // Endless input is refused by its first bytes.
    hods(&["check", "/dev/zero"]).bad(1, &["R2, F1", "00 00 00 00"]);
}

/// Bytes 80 in front of a number count among its nine; a number that goes on into the tail is none.
#[test]
fn numbers_that_are_none() {
    let folder = Folder::new("check-numbers");
    let told = |entry: &[&[u8]], row: &str, place: u64, found: &str| {
        folder.put("book", &book_of(entry));
        let at = format!("in chunk 0 at 0x{place:x}: entry 0, at 0xe0");
        let message = format!("hods: book: refusal 10 (FORMAT R10, E3, {row}) {at}: {found}\n");
        folder.hods(&["check", "book"]).bad(1, &[&message]);
    };
    let good: [&[u8]; 5] = [b"\x01", b"/", b"\0", b"\0", b"\0"];
    for (k, what) in [
        (0, "name length"),
        (2, "section"),
        (3, "offset"),
        (4, "length"),
    ] {
        let mut fields = good;
        fields[k] = b"\x80\x80\x80\x80\x80\x80\x80\x80\x80\x01";
        let nine = "80 80 80 80 80 80 80 80 80 01 is no ENCINT: it has more than nine bytes";
        let found = format!("{what}: {nine}");
        told(&[&fields.concat()], "N3", 0xE0 + k as u64, &found);
    }
    let found = "length: 80 is no ENCINT: its last byte is missing";
    told(&[b"\x01/\0\0\x80"], "N6", 0xE4, found);
}

/// Where a chunk of `several.chm` starts.
fn chunk(number: usize) -> usize {
    0x78 + 84 + 4096 * number
}

/// Damage at one place of `several.chm`, and the message on it.
#[test]
fn damaged_copies() {
    let none = &[0xFF; 4][..];
    let cases: [(usize, &[u8], &str); 15] = [
        (0x18, b"\0", "2 (FORMAT R2, F5) at 0x18: the first GUID is 00 FD 01"),
        (0x04, b"\x09", "3 (FORMAT R3, F2) at 0x4: the version is 9, not 2 or 3"),
        (0x40, b"\x19", "4 (FORMAT R4, F7) at 0x40: section 0 has 25 bytes, not 24"),
        (0x68, b"\x37\x12", "5 (FORMAT R5, F15) at 0x68: the file's length is written as 4663, but it has 37174 bytes"),
        (0x78, b"itsp", "6 (FORMAT R6, D2) at 0x78: the tag is 69 74 73 70, not 49 54 53 50 (ITSP)"),
        (0x8C, b"\x08", "7 (FORMAT R7, D7) at 0x8c: the density is 8, not 0 to 7"),
        (0xA4, b"\x0a", "7 (FORMAT R7, D14) at 0x50: the directory has 36948 bytes, not 84 and 4096 for each of 10 chunks"),
        (chunk(3), b"X", "8 (FORMAT R8, C1, C2) in chunk 3 at 0x30cc: the tag is 58 4D 47 4C"),
        (chunk(4) + 4094, b"\0\0", "9 (FORMAT R9, C4) in chunk 4 at 0x50ca: the number of entries is 0"),
        (chunk(7) + 20, b"\0", "10 (FORMAT R10, E4) in chunk 7 at 0x70e0: entry 0, at 0x70e0: a name of 0 bytes, not 1 to 1024"),
        (chunk(7) + 4092, b"\x01", "11 (FORMAT R11, C8) in chunk 7 at 0x80c8: quick word 1 is 1, but entry 5 stands "),
        (chunk(7) + 21, b"~", "12 (FORMAT R12, C12) in chunk 7 at 0x70e5: entry 1, /#SYSTEM, stands behind ~"),
        (chunk(7) + 0x10, b"\x07", "13 (FORMAT R13, L2) at 0x70d8: chunk 7 of the chain has the previous chunk none, not 7"),
        (chunk(8) + 0x10, none, "13 (FORMAT R13, L3) at 0x9c: the last listing chunk is 3, but the chain ends at chunk 8"),
        (chunk(6) + 9, b".", "14 (FORMAT R14, T4) at 0x60d5: the entry has the name ., but its child 5 starts with /"),
    ];
    let folder = Folder::new("damaged-copies");
    for (place, bytes, message) in cases {
        let mut book = sample("several.chm");
        book[place..place + bytes.len()].copy_from_slice(bytes);
        folder.put("book", &book);
        let run = folder.hods(&["check", "book"]);
        run.bad(1, &[&format!("hods: book: refusal {message}")]);
    }
    folder.put("book", &sample("several.chm")[..50]);
    folder.hods(&["check", "book"]).bad(1, &["R1", "0x32"]);
}
