//! Steps of a listing, of every kind.

use super::{bad_record, break_chunk, end_inside, end_with_directory, made_up_record};
use super::{BIT_32, BIT_63, FAR, TOP, TOP_32};
use crate::generate::book::book;
use crate::generate::plan::Book;
use crate::generate::{choose, Aim, Call, Case, Kind, Random};
use crate::{Cursor, Record, NONE};

/// A step in a good book, or what has been made of it.
pub(super) struct Stepping {
    book: Book,
    file: Vec<u8>,
    record: Record,
    /// The chunk that the cursor is in at first.
    chunk: u32,
    /// How many entries it has.
    entries: u64,
    cursor: Cursor,
}

impl Stepping {
    fn good(random: &mut Random) -> Stepping {
        let book = book(random);
        let chunk = random.pick(&book.chain());
        let entries = book.chunks[chunk as usize].items.len() as u64;
        let entry = random.below(entries);
        Stepping {
            file: book.bytes(),
            record: book.record(),
            chunk,
            entries,
            cursor: Cursor {
                chunk: chunk.into(),
                entry: random.pick(&[entry, entry, 0, entries - 1]),
            },
            book,
        }
    }

    /// The entry that the cursor is at is reported as it was planned.
    fn told(&self) -> Option<Aim> {
        let listed = self.book.listed_of(self.chunk);
        Some(Aim::Listed(listed[self.cursor.entry as usize]))
    }
}

/// A step of a listing, of some kind.
pub fn step_case(random: &mut Random) -> Case {
    let (label, stepping, aim) = choose(random, STEPS, Stepping::good);
    Case {
        label,
        file: stepping.file,
        call: Call::Step {
            record: stepping.record,
            cursor: stepping.cursor,
        },
        aim,
    }
}

pub(super) const STEPS: &[Kind<Stepping>] = &[
    Kind {
        label: "step",
        change: |_, stepping| stepping.told(),
    },
    Kind {
        label: "step at the end",
        change: |random, stepping| {
            stepping.cursor.chunk = NONE.into();
            stepping.cursor.entry = random.wide();
            Some(Aim::Good)
        },
    },
    Kind {
        label: "step at an entry that the chunk lacks",
        change: |random, stepping| {
            let (entries, entry) = (stepping.entries, stepping.cursor.entry);
            let wide = random.pick(&[65_536 + entry, BIT_32 + entry]);
            let far = random.pick(&FAR);
            stepping.cursor.entry = random.pick(&[entries, entries, entries + 1, wide, far]);
            Some(Aim::refused(17))
        },
    },
    Kind {
        label: "step at no chunk",
        change: |random, stepping| {
            let wide = BIT_32 + stepping.cursor.chunk;
            let far = random.pick(&[BIT_32, BIT_63, TOP]);
            let wrong = [
                stepping.record.count,
                TOP_32 - 1,
                wide,
                BIT_32 + TOP_32,
                far,
            ];
            stepping.cursor.chunk = random.pick(&wrong);
            Some(Aim::refused(17))
        },
    },
    Kind {
        label: "step at an index chunk",
        change: |random, stepping| {
            let indexes = stepping.book.indexes();
            if indexes.is_empty() {
                return None;
            }
            stepping.cursor.chunk = random.pick(&indexes).into();
            stepping.cursor.entry = 0;
            Some(Aim::refused(17))
        },
    },
    Kind {
        label: "step with a bad record",
        change: |random, stepping| {
            stepping.record = bad_record(random, &stepping.record, &stepping.file);
            Some(Aim::refused(17))
        },
    },
    Kind {
        label: "step at the end with a bad record",
        change: |random, stepping| {
            stepping.record = bad_record(random, &stepping.record, &stepping.file);
            stepping.cursor.chunk = NONE.into();
            Some(Aim::refused(17))
        },
    },
    Kind {
        label: "step in a broken chunk",
        change: |random, stepping| {
            let broken = break_chunk(random, &stepping.book, stepping.chunk)?;
            stepping.file = broken.bytes();
            Some(Aim::refused(17))
        },
    },
    Kind {
        label: "step in a file that ends with the directory",
        change: |_, stepping| {
            end_with_directory(&stepping.book, &mut stepping.file, &mut stepping.record);
            stepping.told()
        },
    },
    Kind {
        label: "step in a file that ends inside the chunk",
        change: |_, stepping| {
            let Stepping { book, chunk, .. } = stepping;
            end_inside(book, *chunk, &mut stepping.file, &mut stepping.record);
            Some(Aim::refused(17))
        },
    },
    Kind {
        label: "step in the last chunk below the count",
        change: |_, stepping| {
            stepping.record.count = u64::from(stepping.chunk) + 1;
            stepping.told()
        },
    },
    Kind {
        label: "step in the first chunk not below the count",
        change: |_, stepping| {
            stepping.record.count = stepping.chunk.into();
            Some(Aim::refused(17))
        },
    },
    Kind {
        label: "step with a made-up record",
        change: |random, stepping| {
            stepping.record = made_up_record(random, &stepping.record, &stepping.file);
            let (chunk, wide) = (stepping.cursor.chunk, random.wide());
            stepping.cursor.chunk = random.pick(&[chunk, chunk, stepping.record.first, wide]);
            Some(Aim::Free)
        },
    },
];
