//! What is padded in an input of the writer, read from its bytes: the generators are not asked.

use crate::coverage::Coverage;
use crate::padding::{Entries, Entry};
use second::generate::Input;

/// The numbers of an entry for which an input is refused, each a group of its own.
pub const WRITER: [&str; 4] = [
    "padded name length for the writer",
    "padded section for the writer",
    "padded offset for the writer",
    "padded length for the writer",
];

/// Counts the padded numbers of an input that is refused for nothing else (FORMAT W2).
pub fn count_padded(coverage: &mut Coverage, input: &Input) {
    let mut reader = Entries::listing(&input.entries);
    let entries: Vec<Entry> = reader.by_ref().collect();
    let whole = reader.rest().is_empty();
    if !whole || !entries.iter().any(Entry::is_padded) || breaks_more(input, &entries) {
        return;
    }
    for (at, entry) in entries.iter().enumerate() {
        if entry.is_padded() {
            entry.count(coverage, &WRITER);
            let place = place(at, entries.len());
            coverage.count("padded entry for the writer", place);
        }
    }
}

/// Whether the same entries without their padding are refused by 18 too.
fn breaks_more(input: &Input, entries: &[Entry]) -> bool {
    let short = Input {
        entries: entries.iter().flat_map(Entry::short).collect(),
        ..input.clone()
    };
    let head = short.head_within(usize::MAX);
    head.map_or_else(|refusal| refusal.number == 18, |_| false)
}

fn place(at: usize, entries: usize) -> &'static str {
    match (at, entries) {
        (0, 1) => "the only one",
        (0, _) => "the first of several",
        _ if at + 1 == entries => "the last of several",
        _ => "between others",
    }
}
