//! What comparisons of two books are like, read from the numbers and the bytes: the generators are
//! not asked.

use crate::compare::Asked;
use crate::coverage::Coverage;
use crate::padding;
use second::{chunk_listed, own_bytes, part};
use second::{Compared, Difference, Listed, Progress, Record, Totals, Walk, NONE};
use std::collections::BTreeMap;

const STEP: &str = "step of a comparison";
const OVER: &str = "names that a step goes over";
const TAKEN: &str = "walk behind a step";
const WRAPS: &str = "total that wraps";
const CHANGED: &str = "name that is changed";
const BOOKS: &str = "two books that open";
const WALKS: [&str; 2] = [
    "first walk of a made-up cursor",
    "second walk of a made-up cursor",
];

/// Counts what a step answers.
pub fn count_step(coverage: &mut Coverage, from: &Progress, told: &Compared) {
    let (name, totals) = match told {
        Compared::Difference(difference, behind) => {
            count_walks(coverage, from, difference, behind);
            count_entries(coverage, difference);
            (kind(difference), behind.totals)
        }
        Compared::End(totals) => ("end", *totals),
        Compared::Refused { book: 1, .. } => return coverage.count(STEP, "17, the first book"),
        Compared::Refused { .. } => return coverage.count(STEP, "17, the second book"),
    };
    coverage.count(STEP, name);
    let over = match totals.same.wrapping_sub(from.totals.same) {
        0 => "none",
        1 => "1 name",
        2..=99 => "2 to 99 names",
        _ => "100 names or more",
    };
    coverage.count(OVER, over);
    count_wraps(coverage, &from.totals, &totals);
}

fn kind(difference: &Difference) -> &'static str {
    match difference {
        Difference::OnlyFirst(_) => "only first",
        Difference::OnlySecond(_) => "only second",
        Difference::Changed(..) => "changed",
    }
}

fn count_entries(coverage: &mut Coverage, difference: &Difference) {
    const FIRST: [&str; 2] = [
        "of the first book, in its short form",
        "of the first book, with a padded number",
    ];
    const SECOND: [&str; 2] = [
        "of the second book, in its short form",
        "of the second book, with a padded number",
    ];
    let mut count = |listed: &Listed, names: [&'static str; 2]| {
        let padded = padding::is_padded(listed);
        coverage.count("entry of a difference", names[usize::from(padded)]);
    };
    match difference {
        Difference::OnlyFirst(one) => count(one, FIRST),
        Difference::OnlySecond(two) => count(two, SECOND),
        Difference::Changed(one, two) => {
            count(one, FIRST);
            count(two, SECOND);
        }
    }
}

fn count_walks(
    coverage: &mut Coverage,
    from: &Progress,
    difference: &Difference,
    behind: &Progress,
) {
    let (first, second) = match difference {
        Difference::OnlyFirst(_) => (true, false),
        Difference::OnlySecond(_) => (false, true),
        Difference::Changed(..) => (true, true),
    };
    coverage.count(TAKEN, moved(&from.one, &behind.one, first));
    coverage.count(TAKEN, moved(&from.two, &behind.two, second));
}

fn moved(from: &Walk, behind: &Walk, taken: bool) -> &'static str {
    match (taken, from.more != behind.more) {
        (true, true) => "taken, in a chunk that was entered",
        (true, false) => "taken, in the same chunk",
        (false, true) => "not taken, in a chunk that was entered",
        (false, false) if behind.left == 0 => "at the end",
        (false, false) => "not taken, in the same chunk",
    }
}

fn count_wraps(coverage: &mut Coverage, from: &Totals, to: &Totals) {
    const NAMES: [&str; 4] = ["only first", "only second", "same", "changed"];
    let totals = from.numbers().into_iter().zip(to.numbers());
    for (name, _) in NAMES.iter().zip(totals).filter(|(_, (from, to))| to < from) {
        coverage.count(WRAPS, name);
    }
}

/// Counts the walks of a cursor that no comparison gave.
pub fn count_cursor(coverage: &mut Coverage, cursor: &Progress, asked: [(&[u8], &Record); 2]) {
    let walks = [cursor.one, cursor.two].into_iter();
    for ((group, walk), (file, record)) in WALKS.iter().zip(walks).zip(asked) {
        let name = match walk.left {
            0 => following(&walk, record),
            _ => standing(&walk, file, record),
        };
        coverage.count(group, name);
    }
}

fn following(walk: &Walk, record: &Record) -> &'static str {
    let count = record.count;
    match walk.next == u64::from(NONE) {
        true if walk.more < count => "none follows, fewer chunks to enter than the count",
        true if walk.more == count => "none follows, as many chunks to enter as the count",
        true => "none follows, more chunks to enter than the count",
        false if walk.more == 0 => "no chunk to enter",
        false if walk.next >= count => "no chunk follows",
        false => "a chunk follows",
    }
}

fn standing(walk: &Walk, file: &[u8], record: &Record) -> &'static str {
    let start = u128::from(record.start) + 84 + 4096 * u128::from(walk.chunk);
    if start + 4096 > file.len() as u128 {
        return "entries left, chunk outside the file";
    }
    match walk.place {
        4096 => return "entries left, place 4,096",
        4097.. => return "entries left, place behind 4,096",
        _ if walk.chunk >= record.count => return "entries left, chunk not below the count",
        _ => {}
    }
    match part(file, start as u64, 4) {
        b"PMGL" => "entries left, in a listing chunk",
        b"PMGI" => "entries left, in an index chunk",
        _ => "entries left, in no chunk",
    }
}

/// An entry of a book that opens.
struct Held<'a> {
    name: &'a [u8],
    /// Section, offset and length.
    numbers: [u64; 3],
    own: &'a [u8],
}

/// The entries by their names in lower case.
type Names<'a> = BTreeMap<Vec<u8>, Held<'a>>;

/// The names, and the numbers of the chunks along the chain.
fn names<'a>(file: &'a [u8], record: &Record) -> (Names<'a>, Vec<u64>) {
    let mut names = Names::new();
    let mut chain = Vec::new();
    let mut at = record.first;
    while at != u64::from(NONE) {
        let (entries, next) = chunk_listed(file, record, at).expect("the book opened");
        names.extend(entries.iter().map(|listed| {
            let report = &listed.report;
            let held = Held {
                name: part(file, report.place, report.length),
                numbers: [report.section, report.offset, report.size],
                own: own_bytes(file, listed),
            };
            (held.name.to_ascii_lowercase(), held)
        }));
        chain.push(at);
        at = next.into();
    }
    (names, chain)
}

/// Counts two books that open, and says what their totals have to be: this reads both whole and
/// merges nothing, since both may be wrong alike (FORMAT X12).
pub fn count_books(coverage: &mut Coverage, asked: [(&Asked, &Record); 2]) -> Totals {
    let [(one, _), (two, _)] = asked;
    let [(first, first_chain), (second, second_chain)] =
        asked.map(|(asked, record)| names(asked.file, record));
    let totals = count_names(coverage, &first, &second);
    count_totals(coverage, &totals);
    let chains = match first_chain == second_chain {
        _ if one.file == two.file => "the same bytes",
        true => "chains numbered alike",
        false => "chains numbered apart",
    };
    coverage.count(BOOKS, chains);
    if first.len() == 1 {
        coverage.count(BOOKS, "one entry in the first");
    }
    if second.len() == 1 {
        coverage.count(BOOKS, "one entry in the second");
    }
    totals
}

/// The totals of these names; those that are in both books are counted by what differs.
fn count_names(coverage: &mut Coverage, first: &Names, second: &Names) -> Totals {
    let mut totals = Totals::default();
    for (folded, one) in first {
        match second.get(folded) {
            None => totals.only_first += 1,
            Some(two) if one.numbers == two.numbers => {
                totals.same += 1;
                if one.name != two.name {
                    coverage.count(BOOKS, "a name in another case, the same");
                } else if one.own != two.own {
                    coverage.count(BOOKS, "a name padded in another way, the same");
                }
            }
            Some(two) => {
                totals.changed += 1;
                coverage.count(CHANGED, changed(&one.numbers, &two.numbers));
                if one.name != two.name {
                    coverage.count(CHANGED, "in another case");
                }
            }
        }
    }
    totals.only_second = second.len() as u64 - totals.same - totals.changed;
    totals
}

fn count_totals(coverage: &mut Coverage, totals: &Totals) {
    let name = match totals.numbers() {
        [0, 0, _, 0] => "no difference",
        [_, _, 0, 0] => "no common name",
        [0, 0, 0, _] => "all names changed",
        [0, 0, _, _] => "the same names, some changed",
        [_, 0, _, _] => "names only in the first",
        [0, _, _, _] => "names only in the second",
        _ => "names only in the first and only in the second",
    };
    coverage.count(BOOKS, name);
}

fn changed(one: &[u64; 3], two: &[u64; 3]) -> &'static str {
    match [0, 1, 2].map(|at: usize| one[at] != two[at]) {
        [true, false, false] => "another section alone",
        [false, true, false] => "another offset alone",
        [false, false, true] => "another length alone",
        _ => "several numbers",
    }
}
