//! Lookups of every kind.

use super::{bad_record, break_chunk, break_some_chunk, end_inside, end_with_directory};
use super::{made_up_record, BIT_32, BIT_63, FAR, TOP};
use crate::chunk::CHUNK;
use crate::generate::book::book;
use crate::generate::names::{any_name, near_miss, other_case};
use crate::generate::plan::Book;
use crate::generate::{choose, Aim, Call, Case, Kind, Random};
use crate::Record;

/// A name of the book, as it stands there.
pub(super) fn present(random: &mut Random, book: &Book) -> Vec<u8> {
    let items = book.items();
    random.pick(&items).name.clone()
}

/// A name that may be asked for: present, folded, a near miss or any.
pub(super) fn askable(random: &mut Random, book: &Book) -> Vec<u8> {
    let name = present(random, book);
    match random.below(4) {
        0 => name,
        1 => other_case(random, &name).unwrap_or(name),
        2 => {
            let near = near_miss(random, &name);
            match near.len() {
                1..=1024 => near,
                _ => name,
            }
        }
        _ => any_name(random),
    }
}

/// A name of a length that is refused.
pub fn unaskable(random: &mut Random) -> Vec<u8> {
    let length = random.pick(&[0, 0, 1025, 1025, 1026, 2048, 65_537]);
    random.bytes(length)
}

/// Where a descent starts.
pub(super) fn top(book: &Book) -> u32 {
    match book.depth {
        1 => book.first,
        _ => book.root,
    }
}

/// A lookup in a good book, or what has been made of it.
pub(super) struct Lookup {
    book: Book,
    file: Vec<u8>,
    record: Record,
    name: Vec<u8>,
    places: usize,
}

impl Lookup {
    fn good(random: &mut Random) -> Lookup {
        let book = book(random);
        Lookup {
            file: book.bytes(),
            record: book.record(),
            name: askable(random, &book),
            places: random.pick(&[5, 5, 6, 7]),
            book,
        }
    }

    /// A refusal that comes earlier does not mind a bad record.
    fn perhaps_bad_record(&mut self, random: &mut Random) {
        if random.once_in(2) {
            self.record = bad_record(random, &self.record, &self.file);
        }
    }
}

/// A lookup of some kind.
pub fn lookup_case(random: &mut Random) -> Case {
    let (label, lookup, aim) = choose(random, LOOKUPS, Lookup::good);
    Case {
        label,
        file: lookup.file,
        call: Call::Lookup {
            record: lookup.record,
            name: lookup.name,
            places: lookup.places,
        },
        aim,
    }
}

pub(super) const LOOKUPS: &[Kind<Lookup>] = &[
    Kind {
        label: "lookup",
        change: |_, _| Some(Aim::Good),
    },
    Kind {
        label: "lookup of a name that is too short or too long",
        change: |random, lookup| {
            lookup.name = unaskable(random);
            lookup.places = random.index(8);
            lookup.perhaps_bad_record(random);
            Some(Aim::refused(15))
        },
    },
    Kind {
        label: "lookup of a shortest or longest name",
        change: |random, lookup| {
            lookup.name = random.pick(&[&[0x00][..], &[0xFF; 1024]]).to_vec();
            Some(Aim::Good)
        },
    },
    Kind {
        label: "lookup with a short trail",
        change: |random, lookup| {
            lookup.places = random.index(5);
            lookup.perhaps_bad_record(random);
            Some(Aim::refused(16))
        },
    },
    Kind {
        label: "lookup with a bad record",
        change: |random, lookup| {
            lookup.record = bad_record(random, &lookup.record, &lookup.file);
            Some(Aim::refused(17))
        },
    },
    Kind {
        label: "lookup that starts at no chunk",
        change: |random, lookup| {
            let record = &mut lookup.record;
            let far = random.pick(&FAR);
            let wrong = random.pick(&[record.count, far, far, TOP - 1]);
            match record.depth {
                1 => record.first = wrong,
                _ => record.root = wrong,
            }
            Some(Aim::refused(17))
        },
    },
    Kind {
        label: "lookup with chunks outside the file",
        change: |random, lookup| {
            let behind = lookup.file.len() as u64 - 84 - CHUNK as u64 + 1;
            let length = lookup.file.len() as u64;
            let starts = [behind, length, BIT_32, BIT_63, TOP - 84, TOP - 83, TOP];
            lookup.record.start = random.pick(&starts);
            Some(Aim::refused(17))
        },
    },
    Kind {
        label: "lookup with a chunk that lies inside only in 64 bits",
        change: |_, lookup| {
            if lookup.book.depth != 1 {
                return None;
            }
            // In 64 bits, chunk 1 of this record would lie where the book's chunk 0 is.
            let record = &mut lookup.record;
            record.count = 2;
            record.first = 1;
            record.start = record.start.wrapping_sub(CHUNK as u64);
            Some(Aim::refused(17))
        },
    },
    Kind {
        label: "lookup with the wrong depth",
        change: |random, lookup| {
            let depth = random.between(2..=5);
            if lookup.book.depth == 1 || depth == lookup.record.depth {
                return None;
            }
            // A name of the book is above the first name of every chunk on its way.
            lookup.name = present(random, &lookup.book);
            lookup.record.depth = depth;
            Some(Aim::refused(17))
        },
    },
    Kind {
        label: "lookup from a listing chunk as root",
        change: |random, lookup| {
            lookup.record.depth = random.between(2..=5);
            lookup.record.root = random.pick(&lookup.book.chain()).into();
            Some(Aim::refused(17))
        },
    },
    Kind {
        label: "lookup from an index chunk at depth 1",
        change: |random, lookup| {
            let indexes = lookup.book.indexes();
            if indexes.is_empty() {
                return None;
            }
            lookup.record.depth = 1;
            lookup.record.first = random.pick(&indexes).into();
            Some(Aim::refused(17))
        },
    },
    Kind {
        label: "lookup in a broken first chunk",
        change: |random, lookup| {
            let broken = break_chunk(random, &lookup.book, top(&lookup.book))?;
            lookup.file = broken.bytes();
            Some(Aim::refused(17))
        },
    },
    Kind {
        label: "lookup in a broken book",
        change: |random, lookup| {
            // Off the descent the break does no harm.
            let mut broken = lookup.book.clone();
            break_some_chunk(random, &mut broken)?;
            lookup.file = broken.bytes();
            Some(Aim::Free)
        },
    },
    Kind {
        label: "lookup in a file that ends with the directory",
        change: |_, lookup| {
            end_with_directory(&lookup.book, &mut lookup.file, &mut lookup.record);
            Some(Aim::Good)
        },
    },
    Kind {
        label: "lookup in a file that ends inside the first chunk",
        change: |_, lookup| {
            let chunk = top(&lookup.book);
            end_inside(&lookup.book, chunk, &mut lookup.file, &mut lookup.record);
            Some(Aim::refused(17))
        },
    },
    Kind {
        label: "lookup in the last chunk below the count",
        change: |random, lookup| {
            let chunk = random.pick(&lookup.book.chain());
            lookup.record.depth = 1;
            lookup.record.first = chunk.into();
            lookup.record.count = u64::from(chunk) + 1;
            Some(Aim::Good)
        },
    },
    Kind {
        label: "lookup in the first chunk not below the count",
        change: |random, lookup| {
            let chunk = random.pick(&lookup.book.chain());
            lookup.record.depth = 1;
            lookup.record.first = chunk.into();
            lookup.record.count = chunk.into();
            Some(Aim::refused(17))
        },
    },
    Kind {
        label: "lookup with a made-up record",
        change: |random, lookup| {
            lookup.record = made_up_record(random, &lookup.record, &lookup.file);
            Some(Aim::Free)
        },
    },
];
