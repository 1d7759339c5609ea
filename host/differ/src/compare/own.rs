//! The own bytes of the entry at a cursor.

use super::{lent, Asked, Both, Differ, DONE, NOTHING};
use crate::lent::Lent;
use crate::library;
use crate::padding::Entries;
use second::{chunk_entries, own, part, step, Cursor, Record, Step, NONE};

/// Why there are no own bytes (FORMAT K11, K13, K25).
fn reason(file: &[u8], record: &Record, at: Cursor) -> &'static str {
    let end = Cursor {
        chunk: NONE.into(),
        entry: 0,
    };
    // A step at the end is refused for the record alone.
    if matches!(step(file, record, end), Step::Refused(_)) {
        "255, a bad record"
    } else if at.chunk == end.chunk {
        "255, the end"
    } else if chunk_entries(file, record, at.chunk).is_err() {
        "255, a chunk that is refused"
    } else {
        "255, an entry not below the count"
    }
}

impl Differ {
    /// Asks for them where a step is asked for; neither record nor cursor moves.
    pub(super) fn own(&mut self, asked: &Asked, record: &Record, at: Cursor) -> Both {
        self.comparisons += 1;
        let mut part = Lent::new("part", 2);
        let told = own(asked.file, record, at);
        let expected = match told {
            Some((place, length)) => {
                part.expect(&[place, length]);
                DONE
            }
            None => NOTHING,
        };
        self.count_own(asked.file, record, at, told);

        let mut lent_record = lent(record);
        let mut cursor = Lent::with("cursor", &[at.chunk, at.entry]);
        let got = library::own(
            asked.file,
            lent_record.lend_array(),
            cursor.lend_array(),
            part.lend_array(),
        );
        Both::new(expected, got)
            .lent(part.difference())
            .lent(cursor.difference())
            .lent(lent_record.difference())
    }

    fn count_own(&mut self, file: &[u8], record: &Record, at: Cursor, told: Option<(u64, u64)>) {
        let (place, length) = match told {
            Some(told) => told,
            None => return self.coverage.count("own bytes", reason(file, record, at)),
        };
        let mut entries = Entries::listing(part(file, place, length));
        let name = match entries.any(|entry| entry.is_padded()) {
            true => "0, with a padded number",
            false => "0, all numbers in their short form",
        };
        self.coverage.count("own bytes", name);
    }
}
