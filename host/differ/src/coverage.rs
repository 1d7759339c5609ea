//! What came up in a run, counted, and what has to come up in a complete one.

use crate::{batches, counted, inputs, library, padding};
use second::generate::{self, comparison, pairs};
use std::cmp::Ordering;
use std::collections::BTreeMap;

/// The names of refusals, and of an answer that is none.
const NUMBERS: [&str; 30] = [
    "0", "1", "2", "3", "4", "5", "6", "7", "8", "9", "10", "11", "12", "13", "14", "15", "16",
    "17", "18", "19", "20", "21", "22", "23", "24", "25", "26", "27", "28", "29",
];

/// The name of a refusal's number; 0 stands for none.
pub fn number(number: u8) -> &'static str {
    NUMBERS[usize::from(number)]
}

/// The names of the orders of two names, by their numbers (FORMAT S5).
pub const ORDERS: [&str; 3] = ["below", "equal", "above"];

/// What the first of two names is to the second.
pub fn order_name(order: Ordering) -> &'static str {
    match order {
        Ordering::Less => ORDERS[0],
        Ordering::Equal => ORDERS[1],
        Ordering::Greater => ORDERS[2],
    }
}

const OPENING: &[&str] = &[
    "0", "1", "2", "3", "4", "5", "6", "7", "8", "9", "10", "11", "12", "13", "14",
];

const DAMAGE: &[&str] = &[
    "1", "2", "3", "4", "5", "6", "7", "8", "9", "10", "11", "12", "13", "14",
];

const PROGRAM: &[&str] = &[
    "0", "1", "2", "3", "4", "5", "6", "7", "8", "9", "10", "11", "12", "13", "14", "29",
];

const REFUSED: &[&str] = &[
    "1", "2", "3", "4", "5", "6", "7", "8", "9", "10", "11", "12", "13", "14", "29",
];

const BATCH: &[&str] = &[
    "0", "1", "2", "3", "4", "5", "6", "7", "8", "9", "10", "11", "12", "13", "14", "22",
];

const ASKING: &[&str] = &["answered", "17"];

/// The chunks of a descent, by their number.
const CHUNKS: &[&str] = &["1", "2", "3", "4", "5"];

/// Where an asked name stands in a chunk of a descent.
const STANDING: &[&str] = &[
    "below all names",
    "the first name of the first group",
    "the first name of a later group",
    "the last name of a full group",
    "another name of a group",
    "between two names of a group",
    "between two groups",
    "above all names, the last group full",
    "above all names, the last group not full",
];

const NAME: &[&str] = &[
    "0 bytes",
    "1 byte",
    "1,024 bytes",
    "1,025 bytes",
    "longer",
    "found in another case",
    "found in a padded entry",
];

/// The numbers of a record that no book gave, as they are lent.
pub const RECORD: [&str; library::RECORD] = [
    "version of a made-up record",
    "time of a made-up record",
    "language of a made-up record",
    "directory start of a made-up record",
    "count of a made-up record",
    "density of a made-up record",
    "depth of a made-up record",
    "root of a made-up record",
    "first of a made-up record",
    "last of a made-up record",
    "content start of a made-up record",
];

/// The numbers of a cursor.
pub const CURSOR: [&str; 2] = ["chunk of a cursor", "entry of a cursor"];

/// The numbers of a made-up cursor of a comparison, as they are lent.
pub const SIDES_CURSOR: [&str; 14] = [
    "chunk of the first walk",
    "place of the first walk",
    "entries left of the first walk",
    "next of the first walk",
    "chunks to enter of the first walk",
    "chunk of the second walk",
    "place of the second walk",
    "entries left of the second walk",
    "next of the second walk",
    "chunks to enter of the second walk",
    "total only first of a cursor",
    "total only second of a cursor",
    "total same of a cursor",
    "total changed of a cursor",
];

const WALK: &[&str] = &[
    "entries left, in a listing chunk",
    "entries left, in an index chunk",
    "entries left, in no chunk",
    "entries left, chunk not below the count",
    "entries left, chunk outside the file",
    "entries left, place 4,096",
    "entries left, place behind 4,096",
    "none follows, fewer chunks to enter than the count",
    "none follows, as many chunks to enter as the count",
    "none follows, more chunks to enter than the count",
    "no chunk to enter",
    "no chunk follows",
    "a chunk follows",
];

/// Values that each number of a record and of a cursor has to have had.
const EXTREMES: [(u64, &str); 5] = [
    (0, "0"),
    (0xFFFF_FFFF, "2^32 - 1"),
    (1 << 32, "2^32"),
    (1 << 63, "2^63"),
    (u64::MAX, "2^64 - 1"),
];

const GROUPS: &[(&str, &[&str])] = &[
    ("order", &ORDERS),
    ("open", OPENING),
    ("lookup", &["found", "absent", "15", "16", "17"]),
    ("scan", &["found", "absent", "15", "17"]),
    ("lookup in an opened book", &["found", "absent", "15", "17"]),
    ("batch", BATCH),
    ("start", &["0"]),
    (
        "own bytes",
        &[
            "0, all numbers in their short form",
            "0, with a padded number",
            "255, the end",
            "255, a bad record",
            "255, a chunk that is refused",
            "255, an entry not below the count",
        ],
    ),
    ("step", &["entry", "end", "17"]),
    ("page", &["entries", "too few places", "17"]),
    ("part", &["inside", "of no bytes", "outside"]),
    ("write_head", &["0", "18", "19", "20"]),
    (
        "padded entry for the writer",
        &[
            "the only one",
            "the first of several",
            "between others",
            "the last of several",
        ],
    ),
    ("list", PROGRAM),
    (
        "frame of list",
        &["all numbers in their short form", "with a padded number"],
    ),
    ("start of a comparison", &["0"]),
    (
        "step of a comparison",
        &[
            "only first",
            "only second",
            "changed",
            "end",
            "17, the first book",
            "17, the second book",
        ],
    ),
    (
        "diff",
        &[
            "frames",
            "no frame",
            "both books refused",
            "both books refused alike",
        ],
    ),
    ("diff, the first book refused", REFUSED),
    ("diff, the second book refused", REFUSED),
    (
        "arguments of diff",
        &[
            "both files",
            "a third one",
            "the first file twice",
            "the first not there",
            "the second not there",
            "a folder for the first",
            "a folder for the second",
            "the first of no bytes",
            "the first file alone",
            "none",
        ],
    ),
    (
        "frame of diff",
        &[
            "01",
            "02",
            "03",
            "all numbers in their short form",
            "with a padded number",
        ],
    ),
    (
        "file of diff",
        &[
            "of no bytes",
            "of 29,999 bytes",
            "of 30,000 bytes",
            "of 30,001 bytes",
            "longer",
        ],
    ),
    (
        "names that a step goes over",
        &["none", "1 name", "2 to 99 names", "100 names or more"],
    ),
    (
        "walk behind a step",
        &[
            "taken, in a chunk that was entered",
            "taken, in the same chunk",
            "not taken, in a chunk that was entered",
            "not taken, in the same chunk",
            "at the end",
        ],
    ),
    (
        "total that wraps",
        &["only first", "only second", "same", "changed"],
    ),
    ("first walk of a made-up cursor", WALK),
    ("second walk of a made-up cursor", WALK),
    ("comparison with a record of no book", ASKING),
    (
        "two books that open",
        &[
            "the same bytes",
            "chains numbered alike",
            "chains numbered apart",
            "one entry in the first",
            "one entry in the second",
            "a name in another case, the same",
            "a name padded in another way, the same",
            "no difference",
            "no common name",
            "all names changed",
            "the same names, some changed",
            "names only in the first",
            "names only in the second",
            "names only in the first and only in the second",
        ],
    ),
    (
        "name that is changed",
        &[
            "another section alone",
            "another offset alone",
            "another length alone",
            "several numbers",
            "in another case",
        ],
    ),
    (
        "entry of a difference",
        &[
            "of the first book, in its short form",
            "of the first book, with a padded number",
            "of the second book, in its short form",
            "of the second book, with a padded number",
        ],
    ),
    ("the earlier of two damages", DAMAGE),
    (
        "trail",
        &["0", "1", "2", "3", "4", "5", "6", "7", "more places"],
    ),
    ("asked name", NAME),
    ("name scanned for", NAME),
    ("name looked up in an opened book", NAME),
    (
        "scan beside lookup",
        &[
            "both found",
            "found in different chunks",
            "both absent",
            "both 17",
            "lookup found, scan absent",
            "lookup found, scan 17",
            "lookup absent, scan found",
            "lookup absent, scan 17",
            "lookup 17, scan found",
            "lookup 17, scan absent",
        ],
    ),
    (
        "lookup in other bytes than were opened",
        &["found", "absent"],
    ),
    (
        "book of a batch",
        &[
            "depth 1",
            "depth 2",
            "depth 3",
            "depth 4",
            "depth 5",
            "4,096 chunks",
            "refused, with whole names",
            "refused, with too little room",
            "refused, with a broken name",
            "refused, with a broken name and too little room",
        ],
    ),
    (
        "names of a batch",
        &[
            "none",
            "1 name",
            "2 to 8 names",
            "9 to 99 names",
            "100 names or more",
            "one of 0 bytes",
            "one of 1 byte",
            "one of 1,024 bytes",
            "one of 1,025 bytes",
            "a longer one",
            "one that stands there before",
        ],
    ),
    (
        "broken name of a batch",
        &[
            "length padded to more than nine bytes",
            "length of more than nine bytes",
            "end behind nine bytes of the length",
            "end inside the length",
            "end inside the leading bytes of the length",
            "length 1 too high",
            "length too high by more",
            "length of 2^32 or more",
            "length 2^63 - 1",
            "the first",
            "a later one",
            "too little room besides",
        ],
    ),
    (
        "room of a batch",
        &[
            "none",
            "none, and none needed",
            "32 bytes short",
            "31 bytes short",
            "1 byte short",
            "shorter",
            "just enough",
            "1 to 31 bytes more",
            "32 bytes more or longer",
        ],
    ),
    ("answer of a batch", &["found", "absent", "15"]),
    (
        "length of a name put in order",
        &[
            "0 bytes",
            "1 byte",
            "7 bytes",
            "8 bytes",
            "9 bytes",
            "15 bytes",
            "16 bytes",
            "17 bytes",
            "1,024 bytes",
            "more than 1,024 bytes",
        ],
    ),
    (
        "where two names put in order differ",
        &[
            "nowhere",
            "at byte 0",
            "at bytes 1 to 6",
            "at byte 7",
            "at byte 8",
            "at bytes 9 to 14",
            "at byte 15",
            "at byte 16",
            "at bytes 17 to 1,023",
            "at byte 1,024 or later",
            "at the end of one",
        ],
    ),
    (
        "bytes that put two names in order",
        &[
            "40 and 60 hex",
            "5B and 7B hex",
            "C1 and E1 hex",
            "DA and FA hex",
            "40 and 41 hex",
            "41 and 60 hex",
            "5A and 5B hex",
            "5A and 61 hex",
            "5A and 7B hex",
            "7F and 80 hex",
            "00 and FF hex",
        ],
    ),
    (
        "descent",
        &[
            "1 chunk",
            "2 chunks",
            "3 chunks",
            "4 chunks",
            "5 chunks",
            "ends in an index chunk",
        ],
    ),
    (
        "groups of a chunk of a descent",
        &[
            "1",
            "2",
            "3",
            "4 or a higher power of 2",
            "5 or more, no power of 2",
        ],
    ),
    ("asked name in an index chunk", STANDING),
    ("asked name in a listing chunk", STANDING),
    ("halvings in a chunk of a descent", &["h", "h - 1"]),
    (
        "chunk of a descent that reaches the bound",
        &[
            "density 0",
            "density 1",
            "density 2",
            "density 3",
            "density 4",
            "density 5",
            "density 6",
            "density 7",
            "h = 0",
            "h = 1",
            "h = 2",
            "h = 3",
            "h = 4",
            "h = 5",
            "h = 6",
            "h = 7",
            "h = 8",
            "h = 9",
            "with a padded number",
        ],
    ),
    ("every chunk reaches the bound, found", CHUNKS),
    ("every chunk reaches the bound, absent", CHUNKS),
    (
        "bytes that agree in the chunks of a lookup alone",
        &[
            "beside a book that opens",
            "beside other bytes",
            "absent in an index chunk",
            "15",
            "16",
        ],
    ),
    ("found in bytes that agree in so many chunks alone", CHUNKS),
    ("absent in bytes that agree in so many chunks alone", CHUNKS),
    (
        "17 in bytes that agree in so many chunks alone",
        &["0", "1", "2", "3", "4", "5"],
    ),
    ("step onto", &["the same chunk", "another chunk", "the end"]),
    (
        "places for a page",
        &["none", "one short", "enough", "one more", "4,070"],
    ),
    ("lookup with a record of no book", ASKING),
    ("scan with a record of no book", ASKING),
    ("lookup in an opened book with a record of no book", ASKING),
    ("step with a record of no book", ASKING),
    ("page with a record of no book", ASKING),
    (
        "output",
        &["none", "one byte short", "as long as the head", "longer"],
    ),
    (
        "head read back",
        &["1 chunk", "several chunks", "128 chunks or more"],
    ),
    (
        "book that opens",
        &[
            "version 2",
            "version 3",
            "density 0",
            "density 1",
            "density 2",
            "density 3",
            "density 4",
            "density 5",
            "density 6",
            "density 7",
            "depth 1",
            "depth 2",
            "depth 3",
            "depth 4",
            "depth 5",
            "1 chunk",
            "2 to 9 chunks",
            "10 to 127 chunks",
            "128 to 4,095 chunks",
            "4,096 chunks",
            "root none at depth 1",
            "root 0 at depth 1",
            "section 0 in front of the directory",
            "section 0 behind the directory",
            "no gap",
            "gap behind the header",
            "gap between section 0 and the directory",
            "gap in front of the content",
            "no content",
            "some content",
            "listing chunks numbered along the chain",
            "listing chunks not numbered along the chain",
        ],
    ),
    (
        "chunk of such a book",
        &[
            "listing chunk, full",
            "listing chunk, slack of zeros",
            "listing chunk, slack with junk",
            "index chunk, full",
            "index chunk, slack of zeros",
            "index chunk, slack with junk",
            "no quick word",
            "1 quick word",
            "2 quick words or more",
            "as many entries as the quick words' step",
            "one entry more than the quick words' step",
            "quick word moved by padding",
            "300 entries or more",
        ],
    ),
    (
        "entry of such a book",
        &[
            "name of 1 byte",
            "name of 127 bytes",
            "name of 128 bytes",
            "name of 1,024 bytes",
            "section 65,535",
            "section 0, ends with the content",
            "section 0, of no bytes behind the content",
            "number of nine bytes",
        ],
    ),
];

/// The groups of numbers that are padded, each in all ways.
fn padded_groups() -> impl Iterator<Item = &'static str> {
    let entries = padding::LISTING.iter().chain(&padding::INDEX);
    let groups = entries.chain(&inputs::WRITER).chain(&[batches::PADDED]);
    groups.copied()
}

pub struct Coverage {
    /// All groups and names, in the order of printing.
    order: Vec<(&'static str, &'static str)>,
    counts: BTreeMap<(&'static str, &'static str), u64>,
}

impl Coverage {
    pub fn new() -> Coverage {
        let answers = GROUPS
            .iter()
            .flat_map(|(group, names)| names.iter().map(move |name| (*group, *name)));
        let padded = padded_groups()
            .flat_map(|group| padding::PADDED.iter().map(move |name| (group, *name)));
        let numbers = RECORD.iter().chain(&CURSOR).chain(&SIDES_CURSOR);
        let extremes = numbers.flat_map(|group| EXTREMES.map(|(_, name)| (*group, name)));
        let ways = pairs::WAYS.iter().flat_map(|way| {
            let orders = way.orders.iter();
            orders.map(move |&order| (way.label, order_name(order)))
        });
        let cases = generate::labels().into_iter().map(|label| ("case", label));
        let groups = [
            ("compared books", comparison::labels()),
            ("made-up cursor", comparison::cursor_labels()),
            ("files of diff", comparison::file_labels()),
        ];
        let sides = groups
            .into_iter()
            .flat_map(|(group, labels)| labels.into_iter().map(move |label| (group, label)));
        let counted = generate::counted::labels().into_iter();
        let counted = counted.map(|(extent, label)| (counted::group(extent), label));
        let order = answers.chain(padded).chain(extremes);
        let order = order.chain(ways).chain(cases);
        let order: Vec<_> = order.chain(sides).chain(counted).collect();
        Coverage {
            counts: order.iter().map(|&key| (key, 0)).collect(),
            order,
        }
    }

    pub fn count(&mut self, group: &'static str, name: &'static str) {
        match self.counts.get_mut(&(group, name)) {
            Some(count) => *count += 1,
            None => panic!("{group}, {name}: not among what has to come up"),
        }
    }

    /// Counts the extremes among these numbers, each in its own group.
    pub fn count_extremes(&mut self, groups: &[&'static str], numbers: &[u64]) {
        for (group, number) in groups.iter().zip(numbers) {
            if let Some((_, name)) = EXTREMES.iter().find(|(value, _)| value == number) {
                self.count(group, name);
            }
        }
    }

    /// What never came up.
    pub fn missing(&self) -> Vec<String> {
        let never = |key: &&(&str, &str)| self.counts[*key] == 0;
        let missing = self.order.iter().filter(never);
        missing
            .map(|(group, name)| format!("{group}: {name}"))
            .collect()
    }

    pub fn len(&self) -> usize {
        self.order.len()
    }

    /// A paragraph for each group, in lines of moderate length.
    pub fn print(&self) {
        let mut group = "";
        let mut line = String::new();
        for key in &self.order {
            let item = format!("{} ({})", key.1, self.counts[key]);
            if key.0 != group {
                if !line.is_empty() {
                    println!("{line}");
                }
                group = key.0;
                line = format!("{group}: {item}");
            } else if line.len() + item.len() > 110 {
                println!("{line},");
                line = format!("  {item}");
            } else {
                line += &format!(", {item}");
            }
        }
        println!("{line}");
    }
}

#[cfg(test)]
mod tests {
    use super::*;

    #[test]
    fn no_name_stands_twice() {
        let coverage = Coverage::new();
        assert_eq!(coverage.counts.len(), coverage.len());
        assert_eq!(coverage.missing().len(), coverage.len());
    }
}
