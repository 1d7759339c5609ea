//! What the search of a descent's chunks is like, read from their bytes: the generators are not
//! asked. The comparisons are counted once more, by numbers.

use crate::coverage::{number, Coverage};
use crate::features::DENSITIES;
use crate::padding::Entries;
use second::generate::standing::{groups, step, Standing};
use second::{compare, most_comparisons, part, Answer, Record};
use std::cmp::Ordering;

const BOUND: &str = "chunk of a descent that reaches the bound";
const GROUPS: &str = "groups of a chunk of a descent";
const HALVINGS: &str = "halvings in a chunk of a descent";
/// The places of an asked name, in an index chunk and in a listing chunk.
const PLACES: [&str; 2] = [
    "asked name in an index chunk",
    "asked name in a listing chunk",
];

/// Counts what an answered lookup met, and says where the comparisons are not those that its chunks
/// cost by numbers: both may be wrong alike.
pub fn count(
    coverage: &mut Coverage,
    file: &[u8],
    record: &Record,
    name: &[u8],
    told: &Answer,
) -> Option<String> {
    let (trail, comparisons, found) = match told {
        Answer::Found {
            trail, comparisons, ..
        } => (trail, *comparisons, true),
        Answer::Absent { trail, comparisons } => (trail, *comparisons, false),
        Answer::Refused(_) => return None,
    };
    let searches = trail.iter().map(|&chunk| {
        let place = record.start + 84 + 4096 * u64::from(chunk);
        Search::of(part(file, place, 4096), record.density, name)
    });
    let searches: Vec<Search> = searches.collect();
    for search in &searches {
        search.count(coverage);
    }
    if searches.iter().all(Search::reaches_bound) {
        count_bounds(coverage, found, searches.len());
    }
    let sum: u64 = searches.iter().map(Search::comparisons).sum();
    (sum != comparisons)
        .then(|| format!("both, FORMAT K26: {comparisons} comparisons, by numbers {sum}"))
}

/// Counts a descent of which each chunk reaches its bound.
fn count_bounds(coverage: &mut Coverage, found: bool, chunks: usize) {
    let group = match found {
        true => "every chunk reaches the bound, found",
        false => "every chunk reaches the bound, absent",
    };
    coverage.count(group, number(chunks as u8));
}

/// The search for a name in a good chunk.
struct Search<'a> {
    bytes: &'a [u8],
    density: u64,
    standing: Standing,
}

impl<'a> Search<'a> {
    fn of(bytes: &'a [u8], density: u64, name: &[u8]) -> Search<'a> {
        let mut search = Search {
            bytes,
            density,
            standing: Standing {
                entries: 0,
                below: 0,
                equal: false,
            },
        };
        let standing = &mut search.standing;
        for entry in entries(bytes) {
            standing.entries += 1;
            match compare(entry.name, name) {
                Ordering::Less => standing.below += 1,
                Ordering::Equal => standing.equal = true,
                Ordering::Greater => {}
            }
        }
        search
    }

    fn comparisons(&self) -> u64 {
        self.standing.comparisons(self.density)
    }

    fn bound(&self) -> u64 {
        most_comparisons(self.standing.entries as u64, self.density)
    }

    fn reaches_bound(&self) -> bool {
        self.comparisons() == self.bound()
    }

    /// The highest number of halvings, h of FORMAT Q12.
    fn most_halvings(&self) -> u64 {
        self.bound() - step(self.density) as u64
    }

    fn count(&self, coverage: &mut Coverage) {
        let groups = match groups(self.standing.entries, self.density) {
            few @ 1..=3 => number(few as u8),
            many if many.is_power_of_two() => "4 or a higher power of 2",
            _ => "5 or more, no power of 2",
        };
        coverage.count(GROUPS, groups);
        coverage.count(PLACES[usize::from(is_listing(self.bytes))], self.place());
        let halvings = self.standing.halvings(self.density);
        let often = match halvings == self.most_halvings() {
            true => "h",
            false => "h - 1",
        };
        coverage.count(HALVINGS, often);
        if self.reaches_bound() {
            self.count_bound(coverage);
        }
    }

    fn place(&self) -> &'static str {
        let Standing {
            entries,
            below,
            equal,
        } = self.standing;
        let step = step(self.density);
        match (below % step, equal) {
            (_, false) if below == 0 => "below all names",
            (0, false) if below == entries => "above all names, the last group full",
            (_, false) if below == entries => "above all names, the last group not full",
            (0, false) => "between two groups",
            (_, false) => "between two names of a group",
            (0, true) if below == 0 => "the first name of the first group",
            (0, true) => "the first name of a later group",
            (last, true) if last + 1 == step => "the last name of a full group",
            (_, true) => "another name of a group",
        }
    }

    fn count_bound(&self, coverage: &mut Coverage) {
        const HALVED: [&str; 10] = [
            "h = 0", "h = 1", "h = 2", "h = 3", "h = 4", "h = 5", "h = 6", "h = 7", "h = 8",
            "h = 9",
        ];
        coverage.count(BOUND, DENSITIES[self.density as usize]);
        coverage.count(BOUND, HALVED[self.most_halvings() as usize]);
        if entries(self.bytes).any(|entry| entry.is_padded()) {
            coverage.count(BOUND, "with a padded number");
        }
    }
}

fn is_listing(chunk: &[u8]) -> bool {
    chunk[3] == b'L'
}

/// The entries of a good chunk.
fn entries(chunk: &[u8]) -> Entries<'_> {
    let tail = u32::from_le_bytes([chunk[4], chunk[5], chunk[6], chunk[7]]) as usize;
    let end = chunk.len() - tail;
    match is_listing(chunk) {
        true => Entries::listing(&chunk[20..end]),
        false => Entries::index(&chunk[8..end]),
    }
}
