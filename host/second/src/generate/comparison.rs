//! Two books to be compared: issues of one book, broken ones, others, with their records or made-up
//! ones; and cursors that no comparison gave.
//!
//! Most of them say beforehand which differences come and what ends them. That follows from a list of
//! all names, made first, with the entry that each book has of it: no names are compared for it.

mod broken;
mod cursors;
mod files;
mod issues;
mod records;

pub use cursors::{cursor_labels, made_up, MadeUp};
pub use files::{file_labels, files, Files};

use super::book::large_book;
use super::damage::set_next;
use super::plan::Book;
use super::Random;
use crate::{Difference, Record, Side, Totals};
use issues::Issues;

/// A file, and the record that it is compared with.
#[derive(Debug, Clone)]
pub struct Given {
    pub file: Vec<u8>,
    pub record: Record,
}

impl Given {
    pub fn side(&self) -> Side<'_> {
        Side {
            file: &self.file,
            record: &self.record,
        }
    }
}

/// Two books to be compared from the start on.
#[derive(Debug, Clone)]
pub struct Comparison {
    pub label: &'static str,
    pub given: [Given; 2],
    pub course: Course,
}

/// What has to come of the steps from the start on.
#[derive(Debug, Clone, PartialEq, Eq)]
pub enum Course {
    /// These differences, then the end.
    End(Vec<Difference>, Totals),
    /// These differences, then a refusal of this book, 1 or 2.
    Refused(Vec<Difference>, u64),
    /// Anything.
    Free,
}

/// A way to make two books; nothing if it did not come about.
struct Way {
    label: &'static str,
    make: fn(&mut Random) -> Option<Made>,
}

/// Both books and what has to come of them.
type Made = ([Given; 2], Course);

/// Every so many comparisons there is one of books with as many chunks as a book may have.
const LARGE: u64 = 3000;

const LARGE_BOOKS: &str = "books of 4,096 chunks";
const LARGE_CHAIN: &str = "chain of 4,096 chunks beside itself";
const LARGE_RING: &str = "ring of 4,096 chunks beside itself";

fn ways() -> impl Iterator<Item = &'static Way> {
    let good = issues::WAYS.iter();
    good.chain(broken::WAYS).chain(records::WAYS)
}

/// The labels of all pairs of books that there are.
pub fn labels() -> Vec<&'static str> {
    let large = [LARGE_BOOKS, LARGE_CHAIN, LARGE_RING];
    ways().map(|way| way.label).chain(large).collect()
}

/// Two books of some kind; large ones come by turns.
pub fn comparison(random: &mut Random, index: u64) -> Comparison {
    if index % LARGE == LARGE - 1 {
        return large(random, index / LARGE);
    }
    let ways = match random.below(4) {
        0 | 1 => issues::WAYS,
        2 => broken::WAYS,
        _ => records::WAYS,
    };
    let way = &ways[random.index(ways.len())];
    loop {
        if let Some((given, course)) = (way.make)(random) {
            return Comparison {
                label: way.label,
                given,
                course,
            };
        }
    }
}

/// Books with as many chunks as the count allows: in one entry apart, or chains that go over all
/// chunks, with and without an end (FORMAT X4).
fn large(random: &mut Random, turn: u64) -> Comparison {
    let mut one = large_book(random, 4096);
    let (label, issues) = match turn % 3 {
        0 => (LARGE_BOOKS, large_issues(random, one)),
        1 => {
            one.list_all();
            (LARGE_CHAIN, Issues::of_book(one))
        }
        _ => {
            one.list_all();
            let (last, first) = (one.last, one.first);
            set_next(&mut one, last, first);
            (LARGE_RING, Issues::of_book(one))
        }
    };
    let course = match label {
        LARGE_RING => Course::Refused(Vec::new(), 1),
        _ => issues.course(),
    };
    Comparison {
        label,
        given: issues.given(),
        course,
    }
}

/// The book, and the same with one entry changed.
fn large_issues(random: &mut Random, book: Book) -> Issues {
    let mut issues = Issues::of_book(book);
    let at = random.index(issues.names.len());
    if let Some(item) = &mut issues.names[at][1] {
        // With a length of 0 any offset up to the content's length, 1,000, is good.
        item.fields = vec![0, random.below(900), 0];
        let item = item.clone();
        issues.replace(1, item);
    }
    issues
}
