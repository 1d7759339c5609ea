//! Batches of every kind.

mod broken;
mod whole;

pub use broken::break_names;

use super::lookup::askable;
use crate::generate::book::book;
use crate::generate::padding::{leading, padded};
use crate::generate::plan::Book;
use crate::generate::{choose, labels_of, Aim, Call, Case, Kind, Random};
use crate::ANSWER;

/// A name behind its length, which has so many leading 80 bytes as far as there is room.
fn with_length(name: &[u8], leading: usize) -> Vec<u8> {
    [&padded(name.len() as u64, leading), name].concat()
}

/// The names one behind another, each with its length, padded by as many bytes as are said for it.
fn joined_by(names: &[Vec<u8>], mut leading: impl FnMut() -> usize) -> Vec<u8> {
    let names = names.iter().map(|name| with_length(name, leading()));
    names.collect::<Vec<_>>().concat()
}

/// The names one behind another, each with its length (FORMAT B2).
pub fn joined(names: &[Vec<u8>]) -> Vec<u8> {
    joined_by(names, || 0)
}

/// The same with some of the lengths padded, which changes no answer (FORMAT N4).
pub fn joined_padded(random: &mut Random, names: &[Vec<u8>]) -> Vec<u8> {
    joined_by(names, || match random.once_in(2) {
        true => leading(random),
        false => 0,
    })
}

/// A batch of a few names in a good book, or what has been made of it.
pub(super) struct Batch {
    book: Book,
    file: Vec<u8>,
    names: Vec<Vec<u8>>,
    /// What is lent for the names.
    bytes: Vec<u8>,
    room: usize,
}

impl Batch {
    fn good(random: &mut Random) -> Batch {
        let book = book(random);
        let count = random.between(1..=6);
        let names = (0..count).map(|_| askable(random, &book)).collect();
        let mut batch = Batch {
            file: book.bytes(),
            book,
            names: Vec::new(),
            bytes: Vec::new(),
            room: 0,
        };
        batch.ask(names);
        batch
    }

    /// Asks for these names, with just the room that their answers take.
    fn ask(&mut self, names: Vec<Vec<u8>>) -> Aim {
        self.bytes = joined(&names);
        self.room = ANSWER * names.len();
        self.names = names;
        self.told()
    }

    /// The answers for the names in the book as it was planned.
    fn told(&self) -> Aim {
        let answers = self.names.iter().flat_map(|name| self.answer(name));
        let bytes = answers.flat_map(|number| number.to_le_bytes());
        Aim::Answers(bytes.collect())
    }

    /// The four numbers for a name (FORMAT B3, B4).
    fn answer(&self, name: &[u8]) -> [u64; 4] {
        if name.is_empty() || name.len() > 1024 {
            return [15, 0, 0, 0];
        }
        match self.book.found(&self.book.chain(), name) {
            Some(report) => [0, report.section, report.offset, report.size],
            None => [255, 0, 0, 0],
        }
    }
}

pub(super) fn labels() -> Vec<&'static str> {
    [labels_of(whole::KINDS), labels_of(broken::KINDS)].concat()
}

/// A batch of some kind.
pub fn batch_case(random: &mut Random) -> Case {
    let kinds: &[Kind<Batch>] = random.pick(&[whole::KINDS, broken::KINDS]);
    let (label, batch, aim) = choose(random, kinds, Batch::good);
    Case {
        label,
        file: batch.file,
        call: Call::Batch {
            names: batch.bytes,
            room: batch.room,
        },
        aim,
    }
}
