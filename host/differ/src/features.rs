//! What a book that opens is like, read from its bytes: the generators are not asked.

use crate::coverage::Coverage;
use crate::padding::{self, Entries, Entry};
use second::{chunk_entries, encint, part, quick_words, Record, Report, NONE};

const BOOK: &str = "book that opens";
const CHUNK: &str = "chunk of such a book";
const ENTRY: &str = "entry of such a book";

/// Counts the features of a good book.
pub fn count(coverage: &mut Coverage, file: &[u8], record: &Record) {
    numbers(coverage, record);
    places(coverage, file, record);
    let mut chain = Vec::new();
    let mut at = record.first;
    while at != u64::from(NONE) {
        let (reports, next) = chunk_entries(file, record, at).expect("the book opened");
        for report in &reports {
            entry(coverage, report, file.len() as u64 - record.content);
        }
        chain.push(at);
        at = next.into();
    }
    let along = chain.windows(2).all(|pair| pair[0] < pair[1]);
    coverage.count(
        BOOK,
        match along {
            true => "listing chunks numbered along the chain",
            false => "listing chunks not numbered along the chain",
        },
    );
    for number in 0..record.count {
        let bytes = part(file, record.start + 84 + 4096 * number, 4096);
        chunk(coverage, bytes, record.density);
    }
}

/// The kinds of densities, by density.
pub const DENSITIES: [&str; 8] = [
    "density 0",
    "density 1",
    "density 2",
    "density 3",
    "density 4",
    "density 5",
    "density 6",
    "density 7",
];

fn numbers(coverage: &mut Coverage, record: &Record) {
    const DEPTHS: [&str; 5] = ["depth 1", "depth 2", "depth 3", "depth 4", "depth 5"];
    let version = if record.version == 2 {
        "version 2"
    } else {
        "version 3"
    };
    coverage.count(BOOK, version);
    coverage.count(BOOK, DENSITIES[record.density as usize]);
    coverage.count(BOOK, DEPTHS[record.depth as usize - 1]);
    let chunks = match record.count {
        1 => "1 chunk",
        2..=9 => "2 to 9 chunks",
        10..=127 => "10 to 127 chunks",
        128..=4095 => "128 to 4,095 chunks",
        _ => "4,096 chunks",
    };
    coverage.count(BOOK, chunks);
    match (record.depth, record.root) {
        (1, 0) => coverage.count(BOOK, "root 0 at depth 1"),
        (1, _) => coverage.count(BOOK, "root none at depth 1"),
        _ => {}
    }
}

fn places(coverage: &mut Coverage, file: &[u8], record: &Record) {
    let header = if record.version == 2 { 0x58 } else { 0x60 };
    let section = little(file, 0x38, 8);
    let ends = (section + 24, record.start + 84 + 4096 * record.count);
    let (low, between, high) = if section < record.start {
        coverage.count(BOOK, "section 0 in front of the directory");
        (section, record.start - ends.0, ends.1)
    } else {
        coverage.count(BOOK, "section 0 behind the directory");
        (record.start, section - ends.1, ends.0)
    };
    let gaps = [
        (low - header, "gap behind the header"),
        (between, "gap between section 0 and the directory"),
        (record.content - high, "gap in front of the content"),
    ];
    for (_, name) in gaps.iter().filter(|(length, _)| *length > 0) {
        coverage.count(BOOK, name);
    }
    if gaps.iter().all(|(length, _)| *length == 0) {
        coverage.count(BOOK, "no gap");
    }
    let content = file.len() as u64 > record.content;
    coverage.count(
        BOOK,
        if content {
            "some content"
        } else {
            "no content"
        },
    );
}

fn chunk(coverage: &mut Coverage, bytes: &[u8], density: u64) {
    let entries = little(bytes, 4094, 2);
    let words = quick_words(entries, density);
    let tail = little(bytes, 4, 4) as usize;
    let slack = &bytes[4096 - tail..4094 - 2 * words as usize];
    let state = if slack.is_empty() {
        0
    } else if slack.iter().all(|&byte| byte == 0) {
        1
    } else {
        2
    };
    let names = match bytes[3] {
        b'L' => [
            "listing chunk, full",
            "listing chunk, slack of zeros",
            "listing chunk, slack with junk",
        ],
        _ => [
            "index chunk, full",
            "index chunk, slack of zeros",
            "index chunk, slack with junk",
        ],
    };
    coverage.count(CHUNK, names[state]);
    quick(coverage, entries, words, density);
    padded(coverage, bytes, density);
}

fn quick(coverage: &mut Coverage, entries: u64, words: u64, density: u64) {
    let words = match words {
        0 => "no quick word",
        1 => "1 quick word",
        _ => "2 quick words or more",
    };
    coverage.count(CHUNK, words);
    let step = 1 + (1 << density);
    if entries == step {
        coverage.count(CHUNK, "as many entries as the quick words' step");
    }
    if entries == step + 1 {
        coverage.count(CHUNK, "one entry more than the quick words' step");
    }
    if entries >= 300 {
        coverage.count(CHUNK, "300 entries or more");
    }
}

/// Counts the padded numbers of a chunk; each in front of a quick word's entry moves that word.
fn padded(coverage: &mut Coverage, bytes: &[u8], density: u64) {
    let end = 4096 - little(bytes, 4, 4) as usize;
    let (entries, groups): (Entries, &[&str]) = match bytes[3] {
        b'L' => (Entries::listing(&bytes[20..end]), &padding::LISTING),
        _ => (Entries::index(&bytes[8..end]), &padding::INDEX),
    };
    let entries: Vec<Entry> = entries.collect();
    for entry in &entries {
        entry.count(coverage, groups);
    }
    let step = 1 + (1 << density);
    if entries.len() > step && entries[..step].iter().any(Entry::is_padded) {
        coverage.count(CHUNK, "quick word moved by padding");
    }
}

fn entry(coverage: &mut Coverage, report: &Report, content_length: u64) {
    match report.length {
        1 => coverage.count(ENTRY, "name of 1 byte"),
        127 => coverage.count(ENTRY, "name of 127 bytes"),
        128 => coverage.count(ENTRY, "name of 128 bytes"),
        1024 => coverage.count(ENTRY, "name of 1,024 bytes"),
        _ => {}
    }
    match report.section {
        0 if report.offset + report.size < content_length => {}
        0 if report.size > 0 => coverage.count(ENTRY, "section 0, ends with the content"),
        0 => coverage.count(ENTRY, "section 0, of no bytes behind the content"),
        65_535 => coverage.count(ENTRY, "section 65,535"),
        _ => {}
    }
    if encint(report.offset).len() == 9 || encint(report.size).len() == 9 {
        coverage.count(ENTRY, "number of nine bytes");
    }
}

/// The number of so many bytes at a place, lowest byte first.
fn little(bytes: &[u8], place: usize, width: usize) -> u64 {
    let bytes = bytes[place..place + width].iter().rev();
    bytes.fold(0, |value, &byte| value << 8 | u64::from(byte))
}
