//! Scans for any name, with any record, in files that end early.

use super::super::{bad_record, end_inside, end_with_directory, made_up_record};
use super::super::{BIT_32, BIT_63, FAR, TOP};
use super::{unaskable, Scanning};
use crate::chunk::CHUNK;
use crate::generate::{Aim, Kind, Random};
use crate::NONE;

pub const KINDS: &[Kind<Scanning>] = &[
    Kind {
        label: "scan",
        change: |_, scanning| Some(scanning.told(&scanning.chain)),
    },
    Kind {
        label: "scan for a name that is too short or too long",
        change: |random, scanning| {
            scanning.name = unaskable(random);
            // What would be refused later does not matter.
            match random.below(3) {
                0 => scanning.record = bad_record(random, &scanning.record, &scanning.file),
                1 => scanning.record.first = NONE.into(),
                _ => {}
            }
            Some(Aim::refused(15))
        },
    },
    Kind {
        label: "scan for a shortest or longest name",
        change: |random, scanning| {
            scanning.name = random.pick(&[&[0x00][..], &[0xFF; 1024]]).to_vec();
            Some(scanning.told(&scanning.chain))
        },
    },
    Kind {
        label: "scan with a bad record",
        change: |random, scanning| {
            scanning.record = bad_record(random, &scanning.record, &scanning.file);
            Some(Aim::refused(17))
        },
    },
    Kind {
        label: "scan with a depth that no book has",
        change: |random, scanning| {
            // It is judged although no level is gone down.
            let chain = scanning.chain.clone();
            scanning.ask_in(random, &chain);
            let (wide, far) = (BIT_32 | scanning.record.depth, random.pick(&FAR));
            scanning.record.depth = random.pick(&[0, 0, 6, 6, wide, far]);
            Some(Aim::refused(17))
        },
    },
    Kind {
        label: "scan with another depth, root and last chunk",
        change: |random, scanning| {
            scanning.record.depth = random.between(1..=5);
            scanning.record.root = random.wide();
            scanning.record.last = random.wide();
            Some(scanning.told(&scanning.chain))
        },
    },
    Kind {
        label: "scan from none",
        change: |_, scanning| {
            scanning.record.first = NONE.into();
            Some(Aim::refused(17))
        },
    },
    Kind {
        label: "scan from no chunk",
        change: |random, scanning| {
            let record = &mut scanning.record;
            let (wide, far) = (BIT_32 | record.first, random.pick(&FAR));
            record.first = random.pick(&[record.count, record.count, wide, far, TOP - 1]);
            Some(Aim::refused(17))
        },
    },
    Kind {
        label: "scan from an index chunk",
        change: |random, scanning| {
            let indexes = scanning.book.indexes();
            if indexes.is_empty() {
                return None;
            }
            scanning.record.first = random.pick(&indexes).into();
            Some(Aim::refused(17))
        },
    },
    Kind {
        label: "scan from a later chunk",
        change: |random, scanning| {
            let (_, from) = scanning.places(random)?;
            let chain = scanning.chain.clone();
            scanning.ask_in(random, &chain);
            scanning.record.first = chain[from].into();
            Some(scanning.told(&chain[from..]))
        },
    },
    Kind {
        label: "scan with chunks outside the file",
        change: |random, scanning| {
            let length = scanning.file.len() as u64;
            let behind = length - 84 - CHUNK as u64 + 1;
            let starts = [behind, length, BIT_32, BIT_63, TOP - 84, TOP - 83, TOP];
            scanning.record.start = random.pick(&starts);
            Some(Aim::refused(17))
        },
    },
    Kind {
        label: "scan with a chunk that lies inside only in 64 bits",
        change: |_, scanning| {
            // In 64 bits, each chunk would lie where the book has the one before.
            let record = &mut scanning.record;
            record.count += 1;
            record.first += 1;
            record.start = record.start.wrapping_sub(CHUNK as u64);
            Some(Aim::refused(17))
        },
    },
    Kind {
        label: "scan in a file that ends with the directory",
        change: |_, scanning| {
            let Scanning { book, chain, .. } = scanning;
            end_with_directory(book, &mut scanning.file, &mut scanning.record);
            let met = chain.clone();
            Some(scanning.told(&met))
        },
    },
    Kind {
        label: "scan in a file that ends inside the chunk",
        change: |random, scanning| {
            let chunk = random.pick(&scanning.chain);
            scanning.ask_in(random, &[chunk]);
            let Scanning { book, .. } = scanning;
            end_inside(book, chunk, &mut scanning.file, &mut scanning.record);
            Some(Aim::refused(17))
        },
    },
    Kind {
        label: "scan in a file that ends inside a later chunk",
        change: |random, scanning| {
            let (early, late) = scanning.places(random)?;
            let chunk = scanning.chain[late];
            let met = scanning.chain[..=early].to_vec();
            if met.iter().any(|&before| before > chunk) {
                return None; // it would be cut off too
            }
            let aim = scanning.ask_in(random, &met);
            let Scanning { book, .. } = scanning;
            end_inside(book, chunk, &mut scanning.file, &mut scanning.record);
            Some(aim)
        },
    },
    Kind {
        label: "scan up to a chunk not below the count",
        change: |random, scanning| {
            let below = scanning.lower_count(random)?;
            let met = scanning.chain[..below].to_vec();
            (below > 0).then(|| scanning.ask_in(random, &met))
        },
    },
    Kind {
        label: "scan past a chunk not below the count",
        change: |random, scanning| {
            let below = scanning.lower_count(random)?;
            let met = scanning.chain[..below].to_vec();
            scanning.ask_outside(random, &met);
            Some(Aim::refused(17))
        },
    },
    Kind {
        label: "scan with a made-up record",
        change: |random, scanning| {
            scanning.record = made_up_record(random, &scanning.record, &scanning.file);
            Some(Aim::Free)
        },
    },
];

impl Scanning {
    /// Lowers the record's count to the number of a chunk on the chain, and says how many chunks
    /// come before the first that is no longer below it.
    fn lower_count(&mut self, random: &mut Random) -> Option<usize> {
        let count = random.pick(&self.chain);
        self.record.count = count.into();
        let below = self.chain.iter().position(|&chunk| chunk >= count)?;
        (count > 0).then_some(below)
    }
}
