//! Scans of every kind.

mod chain;
mod record;

use super::lookup::{askable, unaskable};
use crate::generate::book::book;
use crate::generate::names::other_case;
use crate::generate::plan::Book;
use crate::generate::{choose, labels_of, Aim, Call, Case, Kind, Random};
use crate::Record;

/// A scan of a good book, or what has been made of it.
pub(super) struct Scanning {
    book: Book,
    file: Vec<u8>,
    record: Record,
    /// The chunks along the chain.
    chain: Vec<u32>,
    name: Vec<u8>,
}

impl Scanning {
    fn good(random: &mut Random) -> Scanning {
        let book = book(random);
        Scanning {
            file: book.bytes(),
            record: book.record(),
            chain: book.chain(),
            name: askable(random, &book),
            book,
        }
    }

    /// The changed plan becomes the file that is asked.
    fn rewrite(&mut self) {
        self.file = self.book.bytes();
        self.record = self.book.record();
    }

    /// The answer where just these chunks are met and the last of them has no next.
    fn told(&self, met: &[u32]) -> Aim {
        let found = self.book.found(met, &self.name);
        found.map_or(Aim::Absent, Aim::Found)
    }

    /// Asks for a name of one of these chunks, and says where it is found if they are met first.
    fn ask_in(&mut self, random: &mut Random, chunks: &[u32]) -> Aim {
        let chunk = random.pick(chunks);
        let items = &self.book.chunks[chunk as usize].items;
        let name = items[random.index(items.len())].name.clone();
        self.name = other_case(random, &name)
            .filter(|_| random.once_in(3))
            .unwrap_or(name);
        self.told(chunks)
    }

    /// Asks for a name that is in none of these chunks: in half of the cases, if there are others
    /// on the chain, for one of theirs.
    fn ask_outside(&mut self, random: &mut Random, chunks: &[u32]) {
        let mut others = self.chain.clone();
        others.retain(|chunk| !chunks.contains(chunk));
        if others.is_empty() || random.once_in(2) {
            self.ask_in_none(random);
        } else {
            self.ask_in(random, &others);
        }
    }

    /// Asks for a name that no chunk of the chain holds.
    fn ask_in_none(&mut self, random: &mut Random) {
        while self.book.found(&self.chain, &self.name).is_some() {
            self.name = askable(random, &self.book);
        }
    }

    /// A place in the chain with at least so many chunks behind it.
    fn place(&self, random: &mut Random, behind: usize) -> Option<usize> {
        let places = self.chain.len().checked_sub(behind)?;
        (places > 0).then(|| random.index(places))
    }

    /// Two places in the chain, the lower one first.
    fn places(&self, random: &mut Random) -> Option<(usize, usize)> {
        let early = self.place(random, 1)?;
        let late = early + 1 + random.index(self.chain.len() - early - 1);
        Some((early, late))
    }
}

pub(super) fn labels() -> Vec<&'static str> {
    [labels_of(record::KINDS), labels_of(chain::KINDS)].concat()
}

/// A scan of some kind.
pub fn scan_case(random: &mut Random) -> Case {
    let kinds: &[Kind<Scanning>] = random.pick(&[record::KINDS, chain::KINDS]);
    let (label, scanning, aim) = choose(random, kinds, Scanning::good);
    Case {
        label,
        file: scanning.file,
        call: Call::Scan {
            record: scanning.record,
            name: scanning.name,
        },
        aim,
    }
}
