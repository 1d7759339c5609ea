//! Lookups in an opened book, of every kind.

use super::lookup::{askable, present, top, unaskable};
use super::{bad_record, break_chunk, break_some_chunk, end_with_directory, made_up_record};
use super::{BIT_32, BIT_63, FAR, TOP};
use crate::chunk::CHUNK;
use crate::generate::book::book;
use crate::generate::damage::damage_for;
use crate::generate::plan::Book;
use crate::generate::{choose, Aim, Call, Case, Kind, Random};
use crate::{compare, Record};
use std::cmp::Ordering;

/// A lookup in a good book with its record, or what has been made of it.
pub(super) struct Opened {
    book: Book,
    file: Vec<u8>,
    record: Record,
    name: Vec<u8>,
}

impl Opened {
    fn good(random: &mut Random) -> Opened {
        let book = book(random);
        Opened {
            file: book.bytes(),
            record: book.record(),
            name: askable(random, &book),
            book,
        }
    }

    /// The answer in the book as it was planned, with its record.
    fn told(&self) -> Aim {
        let found = self.book.found(&self.book.chain(), &self.name);
        found.map_or(Aim::Absent, Aim::Found)
    }

    /// The answer where these bytes do not give this record, of which only the content start may be
    /// bad.
    fn untold(&self) -> Aim {
        match self.record.content > self.file.len() as u64 {
            true => Aim::refused(17),
            false => Aim::FoundThereOrAbsent,
        }
    }

    /// The chunks of the descent as it was planned.
    fn descent(&self) -> Vec<u32> {
        let mut at = top(&self.book);
        let mut chunks = vec![at];
        while !self.book.chunks[at as usize].is_listing() {
            let items = &self.book.chunks[at as usize].items;
            let taken = items
                .iter()
                .rfind(|item| compare(&item.name, &self.name) != Ordering::Greater);
            match taken {
                Some(item) => at = item.fields[0] as u32,
                None => break,
            }
            chunks.push(at);
        }
        chunks
    }

    /// Some chunk of the descent, which goes to the name of an entry from now on.
    fn some_chunk(&mut self, random: &mut Random) -> u32 {
        self.name = present(random, &self.book);
        random.pick(&self.descent())
    }

    /// A refusal that comes earlier does not mind a broken book and a bad record.
    fn perhaps_bad(&mut self, random: &mut Random) {
        let mut broken = self.book.clone();
        if random.once_in(2) && break_some_chunk(random, &mut broken).is_some() {
            self.file = broken.bytes();
        }
        if random.once_in(2) {
            self.record = bad_record(random, &self.record, &self.file);
        }
    }
}

/// A lookup in an opened book, of some kind.
pub fn opened_case(random: &mut Random) -> Case {
    let (label, opened, aim) = choose(random, KINDS, Opened::good);
    Case {
        label,
        file: opened.file,
        call: Call::Opened {
            record: opened.record,
            name: opened.name,
        },
        aim,
    }
}

pub(super) const KINDS: &[Kind<Opened>] = &[
    Kind {
        label: "opened lookup",
        change: |_, opened| Some(opened.told()),
    },
    Kind {
        label: "opened lookup of a name that is too short or too long",
        change: |random, opened| {
            opened.name = unaskable(random);
            opened.perhaps_bad(random);
            Some(Aim::refused(15))
        },
    },
    Kind {
        label: "opened lookup of a shortest or longest name",
        change: |random, opened| {
            opened.name = random.pick(&[&[0x00][..], &[0xFF; 1024]]).to_vec();
            Some(opened.told())
        },
    },
    Kind {
        label: "opened lookup with a bad record",
        change: |random, opened| {
            let longest = vec![0xFF; 1024];
            opened.perhaps_bad(random);
            opened.record = bad_record(random, &opened.book.record(), &opened.file);
            opened.name = random.pick(&[&opened.name, &longest]).clone();
            Some(Aim::refused(17))
        },
    },
    Kind {
        label: "opened lookup in a book damaged since",
        change: |random, opened| {
            let number = random.between(1..=14) as u8;
            let damage = damage_for(random, number);
            let mut broken = opened.book.clone();
            (damage.apply)(random, &mut broken)?;
            opened.file = broken.bytes();
            Some(opened.untold())
        },
    },
    Kind {
        label: "opened lookup through a broken chunk",
        change: |random, opened| {
            let chunk = opened.some_chunk(random);
            opened.file = break_chunk(random, &opened.book, chunk)?.bytes();
            Some(opened.untold())
        },
    },
    Kind {
        label: "opened lookup through a chunk of any bytes",
        change: |random, opened| {
            let chunk = opened.some_chunk(random);
            let place = opened.book.chunk_place(chunk);
            // The tag, the tail length or the whole header may stay.
            let kept = random.pick(&[0, 4, 8, 20]);
            let bytes = random.bytes(CHUNK - kept);
            opened.file[place + kept..place + CHUNK].copy_from_slice(&bytes);
            Some(opened.untold())
        },
    },
    Kind {
        label: "opened lookup through a chunk with bits changed",
        change: |random, opened| {
            let chunk = opened.some_chunk(random);
            let place = opened.book.chunk_place(chunk);
            let planned = &opened.book.chunks[chunk as usize];
            let entries = planned.header() + planned.entry_bytes();
            for _ in 0..random.pick(&[1, 1, 2, 5]) {
                let (front, tail) = (random.index(entries), CHUNK - 1 - random.index(40));
                opened.file[place + random.pick(&[front, front, tail])] ^= 1 << random.below(8);
            }
            Some(Aim::Free)
        },
    },
    Kind {
        label: "opened lookup through an index chunk that leads to itself",
        change: |random, opened| {
            let chunk = opened.some_chunk(random);
            let mut round = opened.book.clone();
            let planned = &mut round.chunks[chunk as usize];
            if planned.is_listing() {
                return None;
            }
            for item in &mut planned.items {
                item.fields[0] = chunk.into();
            }
            if !planned.fits(round.density) {
                return None;
            }
            opened.file = round.bytes();
            Some(opened.untold())
        },
    },
    Kind {
        label: "opened lookup in a file that ends with the directory",
        change: |_, opened| {
            end_with_directory(&opened.book, &mut opened.file, &mut opened.record);
            Some(opened.untold())
        },
    },
    Kind {
        label: "opened lookup in a file that ends inside a chunk",
        change: |random, opened| {
            let chunk = opened.some_chunk(random);
            let any = random.index(CHUNK);
            let length = opened.book.chunk_place(chunk) + random.pick(&[any, any, CHUNK - 1]);
            opened.file.truncate(length);
            opened.record.content = random.pick(&[0, length as u64]);
            Some(opened.untold())
        },
    },
    Kind {
        label: "opened lookup that starts at no chunk",
        change: |random, opened| {
            let record = &mut opened.record;
            let far = random.pick(&FAR);
            let wrong = random.pick(&[record.count, far, far, TOP - 1]);
            match record.depth {
                1 => record.first = wrong,
                _ => record.root = wrong,
            }
            Some(opened.untold())
        },
    },
    Kind {
        label: "opened lookup with chunks outside the file",
        change: |random, opened| {
            let length = opened.file.len() as u64;
            let behind = length - 84 - CHUNK as u64 + 1;
            let starts = [behind, length, BIT_32, BIT_63, TOP - 84, TOP - 83, TOP];
            opened.record.start = random.pick(&starts);
            Some(opened.untold())
        },
    },
    Kind {
        label: "opened lookup with a chunk that lies inside only in 64 bits",
        change: |_, opened| {
            // In 64 bits, each chunk would lie where the book has the one before.
            let record = &mut opened.record;
            record.count += 1;
            record.first += 1;
            record.root = record.root.wrapping_add(1);
            record.start = record.start.wrapping_sub(CHUNK as u64);
            Some(opened.untold())
        },
    },
    Kind {
        label: "opened lookup with the wrong depth",
        change: |random, opened| {
            let depth = random.between(1..=5);
            opened.name = present(random, &opened.book);
            let same = depth == opened.record.depth;
            opened.record.depth = depth;
            (!same).then(|| opened.untold())
        },
    },
    Kind {
        label: "opened lookup from a listing chunk as root",
        change: |random, opened| {
            opened.record.depth = random.between(2..=5);
            opened.record.root = random.pick(&opened.book.chain()).into();
            Some(opened.untold())
        },
    },
    Kind {
        label: "opened lookup from an index chunk at depth 1",
        change: |random, opened| {
            let indexes = opened.book.indexes();
            if indexes.is_empty() {
                return None;
            }
            opened.record.depth = 1;
            opened.record.first = random.pick(&indexes).into();
            Some(opened.untold())
        },
    },
    Kind {
        label: "opened lookup with the record of another book",
        change: |random, opened| {
            let other = book(random).record();
            let same = other == opened.record;
            opened.record = other;
            (!same).then(|| opened.untold())
        },
    },
    Kind {
        label: "opened lookup with a made-up record",
        change: |random, opened| {
            opened.record = made_up_record(random, &opened.record, &opened.file);
            Some(Aim::Free)
        },
    },
];
