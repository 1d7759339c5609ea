//! Scans of books with a broken index, a broken chain or a broken chunk.

use super::super::{break_chunk, break_some_chunk};
use super::Scanning;
use crate::generate::damage::{any_number, damage_for, index_entry, rename};
use crate::generate::damage::{set_next, set_previous};
use crate::generate::plan::Book;
use crate::generate::{Aim, Kind, Random};
use crate::NONE;

/// Some listing chunk below a chunk of a good book, or the chunk itself.
fn leaf(random: &mut Random, book: &Book, mut chunk: u32) -> u32 {
    while !book.chunks[chunk as usize].is_listing() {
        let items = &book.chunks[chunk as usize].items;
        chunk = items[random.index(items.len())].fields[0] as u32;
    }
    chunk
}

/// A number that no chunk of the book has, nor none.
fn no_chunk(random: &mut Random, book: &Book) -> u32 {
    let count = book.count();
    random.pick(&[count, count, count + 1, 0x8000_0000, NONE - 1])
}

fn some_index(random: &mut Random, book: &Book) -> Option<u32> {
    index_entry(random, book, 1).map(|(index, _)| index)
}

impl Scanning {
    /// Gives some chunk of the chain this next, and says which chunks are met up to it.
    fn lead(&mut self, random: &mut Random, next: u32) -> Option<Vec<u32>> {
        let at = self.place(random, 0)?;
        set_next(&mut self.book, self.chain[at], next)?;
        self.rewrite();
        Some(self.chain[..=at].to_vec())
    }

    /// Leads some chunk of the chain back, and says which chunks are met.
    fn ring(&mut self, random: &mut Random) -> Option<Vec<u32>> {
        let at = self.place(random, 0)?;
        let back = self.chain[random.index(at + 1)];
        set_next(&mut self.book, self.chain[at], back)?;
        self.rewrite();
        Some(self.chain[..=at].to_vec())
    }

    /// Breaks one chunk in the file alone; the plan keeps its names.
    fn break_in_file(&mut self, random: &mut Random, chunk: u32) -> Option<()> {
        self.file = break_chunk(random, &self.book, chunk)?.bytes();
        Some(())
    }

    /// Writes the name of an entry of one chunk over that of an entry of another, if it fits, and
    /// asks for it.
    fn copy_name(&mut self, from: (u32, usize), to: (u32, usize)) -> Option<()> {
        let name = self.book.chunks[from.0 as usize].items[from.1].name.clone();
        let mut changed = self.book.chunks[to.0 as usize].clone();
        changed.items[to.1].name = name.clone();
        if !changed.fits(self.book.density) {
            return None;
        }
        self.book.chunks[to.0 as usize] = changed;
        self.name = name;
        self.rewrite();
        Some(())
    }

    fn entries(&self, chunk: u32) -> usize {
        self.book.chunks[chunk as usize].items.len()
    }
}

pub const KINDS: &[Kind<Scanning>] = &[
    Kind {
        label: "scan beside a broken index chunk",
        change: |random, scanning| {
            let index = some_index(random, &scanning.book)?;
            scanning.break_in_file(random, index)?;
            Some(scanning.told(&scanning.chain))
        },
    },
    Kind {
        label: "scan beside a broken tree",
        change: |random, scanning| {
            let damage = damage_for(random, 14);
            (damage.apply)(random, &mut scanning.book)?;
            scanning.rewrite();
            Some(scanning.told(&scanning.chain))
        },
    },
    Kind {
        label: "scan for a name below its index entry",
        change: |random, scanning| {
            let (index, at) = index_entry(random, &scanning.book, 1)?;
            let name = scanning.book.chunks[index as usize].items[at].name.clone();
            if name.len() == 1024 {
                return None;
            }
            rename(&mut scanning.book, index, at, [&name[..], &[0]].concat())?;
            scanning.name = name;
            scanning.rewrite();
            Some(scanning.told(&scanning.chain))
        },
    },
    Kind {
        label: "scan for a name whose index entry is left out",
        change: |random, scanning| {
            let (index, at) = index_entry(random, &scanning.book, 2)?;
            let left_out = scanning.book.chunks[index as usize].items.remove(at);
            let chunk = leaf(random, &scanning.book, left_out.fields[0] as u32);
            scanning.rewrite();
            Some(scanning.ask_in(random, &[chunk]))
        },
    },
    Kind {
        label: "scan for a name in front of a broken chunk",
        change: |random, scanning| {
            let (early, late) = scanning.places(random)?;
            scanning.break_in_file(random, scanning.chain[late])?;
            let met = scanning.chain[..=early].to_vec();
            Some(scanning.ask_in(random, &met))
        },
    },
    Kind {
        label: "scan for a name in a broken chunk",
        change: |random, scanning| {
            let chunk = random.pick(&scanning.chain);
            scanning.break_in_file(random, chunk)?;
            scanning.ask_in(random, &[chunk]);
            Some(Aim::refused(17))
        },
    },
    Kind {
        label: "scan for a name behind a broken chunk",
        change: |random, scanning| {
            let at = scanning.place(random, 0)?;
            scanning.break_in_file(random, scanning.chain[at])?;
            let met = scanning.chain[..=at].to_vec();
            scanning.ask_outside(random, &met);
            Some(Aim::refused(17))
        },
    },
    Kind {
        label: "scan for a name in a ring",
        change: |random, scanning| {
            let met = scanning.ring(random)?;
            Some(scanning.ask_in(random, &met))
        },
    },
    Kind {
        label: "scan for a name outside a ring",
        change: |random, scanning| {
            let met = scanning.ring(random)?;
            scanning.ask_outside(random, &met);
            Some(Aim::refused(17))
        },
    },
    Kind {
        label: "scan up to a next that is no chunk",
        change: |random, scanning| {
            let next = no_chunk(random, &scanning.book);
            let met = scanning.lead(random, next)?;
            Some(scanning.ask_in(random, &met))
        },
    },
    Kind {
        label: "scan past a next that is no chunk",
        change: |random, scanning| {
            let next = no_chunk(random, &scanning.book);
            let met = scanning.lead(random, next)?;
            scanning.ask_outside(random, &met);
            Some(Aim::refused(17))
        },
    },
    Kind {
        label: "scan up to a next that is an index chunk",
        change: |random, scanning| {
            let next = some_index(random, &scanning.book)?;
            let met = scanning.lead(random, next)?;
            Some(scanning.ask_in(random, &met))
        },
    },
    Kind {
        label: "scan past a next that is an index chunk",
        change: |random, scanning| {
            let next = some_index(random, &scanning.book)?;
            let met = scanning.lead(random, next)?;
            scanning.ask_outside(random, &met);
            Some(Aim::refused(17))
        },
    },
    Kind {
        label: "scan for a name behind a chain cut short",
        change: |random, scanning| {
            let met = scanning.lead(random, NONE)?;
            let behind = scanning.chain[met.len()..].to_vec();
            scanning.ask_in(random, &behind);
            Some(Aim::Absent)
        },
    },
    Kind {
        label: "scan of as many chunks as the count",
        change: |random, scanning| {
            scanning.book.list_all();
            scanning.rewrite();
            scanning.chain = scanning.book.chain();
            if random.once_in(2) {
                scanning.ask_in(random, &[scanning.book.last]);
            } else {
                scanning.ask_in_none(random);
            }
            Some(scanning.told(&scanning.chain))
        },
    },
    Kind {
        label: "scan of one chunk more than the count",
        change: |random, scanning| {
            scanning.book.list_all();
            scanning.chain = scanning.book.chain();
            let (last, back) = (scanning.book.last, random.pick(&scanning.chain));
            set_next(&mut scanning.book, last, back)?;
            scanning.rewrite();
            scanning.ask_in_none(random);
            Some(Aim::refused(17))
        },
    },
    Kind {
        label: "scan for a name that a later chunk has too",
        change: |random, scanning| {
            let (early, late) = scanning.places(random)?;
            let (early, late) = (scanning.chain[early], scanning.chain[late]);
            let entry = random.index(scanning.entries(early));
            scanning.copy_name((early, entry), (late, 0))?;
            Some(scanning.told(&[early]))
        },
    },
    Kind {
        label: "scan for a name that the index leads to in a later chunk",
        change: |random, scanning| {
            let (early, late) = scanning.places(random)?;
            let (early, late) = (scanning.chain[early], scanning.chain[late]);
            let entry = random.index(scanning.entries(late));
            let last = scanning.entries(early) - 1;
            scanning.copy_name((late, entry), (early, last))?;
            Some(scanning.told(&[early]))
        },
    },
    Kind {
        label: "scan of chunks in the wrong order",
        change: |random, scanning| {
            let (early, late) = scanning.places(random)?;
            let (early, late) = (scanning.chain[early], scanning.chain[late]);
            let chunks = &mut scanning.book.chunks;
            let items = std::mem::take(&mut chunks[early as usize].items);
            chunks[early as usize].items =
                std::mem::replace(&mut chunks[late as usize].items, items);
            scanning.rewrite();
            Some(scanning.ask_in(random, &[early, late]))
        },
    },
    Kind {
        label: "scan with wrong previous numbers",
        change: |random, scanning| {
            for _ in 0..random.between(1..=3) {
                let chunk = random.pick(&scanning.chain);
                let previous = any_number(random, &scanning.book);
                set_previous(&mut scanning.book, chunk, previous)?;
            }
            scanning.rewrite();
            Some(scanning.told(&scanning.chain))
        },
    },
    Kind {
        label: "scan in a broken chain",
        change: |random, scanning| {
            let damage = damage_for(random, 13);
            (damage.apply)(random, &mut scanning.book)?;
            scanning.rewrite();
            Some(Aim::Free)
        },
    },
    Kind {
        label: "scan in a broken book",
        change: |random, scanning| {
            // Behind the name or off the chain the break does no harm.
            let mut broken = scanning.book.clone();
            break_some_chunk(random, &mut broken)?;
            scanning.file = broken.bytes();
            Some(Aim::Free)
        },
    },
];
