//! Batches that are refused: broken names, too little room, refused books.

use super::{joined, with_length, Batch};
use crate::generate::damage::damage_for;
use crate::generate::padding::{overpadded, padded};
use crate::generate::{Aim, Kind, Random};
use crate::{encint, Refusal, ANSWER};

/// A way to break a name of a batch (FORMAT B2): given the name and the bytes behind it, makes
/// bytes that stand in the place of its length, the name and these.
type Break = fn(&mut Random, name: &[u8], behind: &[u8]) -> Vec<u8>;

const BREAKS: &[Break] = &[too_padded, endless, ended, cut, one_more, far];

/// How many leading 80 bytes the length of a broken name has, often none.
fn some_leading(random: &mut Random) -> usize {
    random.pick(&[0, 0, 1, 8])
}

/// With a length padded to ten bytes or more (FORMAT N3, N4).
fn too_padded(random: &mut Random, name: &[u8], behind: &[u8]) -> Vec<u8> {
    let length = overpadded(name.len() as u64, random.pick(&[0, 0, 1, 9]));
    [&length, name, behind].concat()
}

/// With a length that goes on behind its ninth byte (FORMAT N3).
fn endless(random: &mut Random, name: &[u8], behind: &[u8]) -> Vec<u8> {
    let nine = going_on(random, 9);
    let tenth = random.pick(&[0x00, 0x01, 0x7F]);
    [&nine[..], &[tenth], name, behind].concat()
}

/// So many bytes of a length that does not end with them.
fn going_on(random: &mut Random, length: usize) -> Vec<u8> {
    let first = random.pick(&[0x80, 0x81, 0xFF]);
    let other = random.pick(&[0x80, 0x81, 0xFF]);
    let mut bytes = vec![other; length];
    bytes[0] = first;
    bytes
}

/// Ends inside the length (FORMAT N6).
fn ended(random: &mut Random, _: &[u8], _: &[u8]) -> Vec<u8> {
    let length = random.between(1..=9) as usize;
    going_on(random, length)
}

/// Ends inside the length or the name as it is, or, for the empty name, behind a length of 1.
fn cut(random: &mut Random, name: &[u8], _: &[u8]) -> Vec<u8> {
    let mut whole = with_length(name, some_leading(random));
    if whole.len() == 1 {
        return vec![0x01];
    }
    let some = 1 + random.index(whole.len() - 1);
    let kept = random.pick(&[some, whole.len() - 1]);
    whole.truncate(kept);
    whole
}

/// With one byte too few behind the length.
fn one_more(random: &mut Random, name: &[u8], behind: &[u8]) -> Vec<u8> {
    let left = name.len() + behind.len();
    let length = padded(left as u64 + 1, some_leading(random));
    [&length, name, behind].concat()
}

/// With a length far above the bytes that are left. In 16 or 32 bits some of these would do.
fn far(random: &mut Random, name: &[u8], behind: &[u8]) -> Vec<u8> {
    let left = (name.len() + behind.len()) as u64;
    let length = name.len() as u64;
    let high = random.pick(&[1 << 16, 1 << 31, 1 << 32, 1 << 56, 1 << 62]);
    let most = (1 << 63) - 1;
    let wrong = [
        most,
        most - left,
        high + left,
        high * (left / high + 1) + length,
    ];
    [&encint(random.pick(&wrong)), name, behind].concat()
}

/// Names of which some one, which may be the last, is broken in some way; at least one is given.
pub fn break_names(random: &mut Random, names: &[Vec<u8>]) -> Vec<u8> {
    let at = random.index(names.len());
    let way = random.pick(BREAKS);
    broken_at(random, names, at, way)
}

fn broken_at(random: &mut Random, names: &[Vec<u8>], at: usize, way: Break) -> Vec<u8> {
    let behind = joined(&names[at + 1..]);
    let broken = way(random, &names[at], &behind);
    [joined(&names[..at]), broken].concat()
}

impl Batch {
    /// Breaks some name in this way; the room would do for all of them.
    fn break_by(&mut self, random: &mut Random, way: Break) -> Option<Aim> {
        let at = random.index(self.names.len());
        self.bytes = broken_at(random, &self.names, at, way);
        self.room += random.pick(&[0, 0, 64]);
        Some(Aim::refused(22))
    }

    fn break_some(&mut self, random: &mut Random) -> Option<Aim> {
        let way = random.pick(BREAKS);
        self.break_by(random, way)
    }

    /// Lends too little room. There is a name at least.
    fn shorten(&mut self, random: &mut Random) -> Option<Aim> {
        let needed = ANSWER * self.names.len();
        let some = random.index(needed);
        self.room = random.pick(&[needed - 1, needed - 31, needed - 32, 0, some]);
        Some(Aim::refused(22))
    }

    /// Breaks the book in some way and says its refusal.
    fn damage(&mut self, random: &mut Random) -> Option<Aim> {
        let number = random.between(1..=14) as u8;
        let damage = damage_for(random, number);
        let mut broken = self.book.clone();
        let place = (damage.apply)(random, &mut broken)?;
        self.file = broken.bytes();
        Some(Aim::Refused(Refusal { number, place }))
    }
}

pub const KINDS: &[Kind<Batch>] = &[
    Kind {
        label: "batch with a length padded to ten bytes or more",
        change: |random, batch| batch.break_by(random, too_padded),
    },
    Kind {
        label: "batch with a length of more than nine bytes",
        change: |random, batch| batch.break_by(random, endless),
    },
    Kind {
        label: "batch that ends inside a length",
        change: |random, batch| batch.break_by(random, ended),
    },
    Kind {
        label: "batch cut inside a name or its length",
        change: |random, batch| batch.break_by(random, cut),
    },
    Kind {
        label: "batch with a length of one more than the bytes that are left",
        change: |random, batch| batch.break_by(random, one_more),
    },
    Kind {
        label: "batch with a far too high length",
        change: |random, batch| batch.break_by(random, far),
    },
    Kind {
        label: "batch of which only the last name is broken",
        change: |random, batch| {
            let last = batch.names.len() - 1;
            let way = random.pick(BREAKS);
            batch.bytes = broken_at(random, &batch.names, last, way);
            (last > 0).then(|| Aim::refused(22))
        },
    },
    Kind {
        label: "batch with too little room",
        change: |random, batch| batch.shorten(random),
    },
    Kind {
        label: "batch with broken names and too little room",
        change: |random, batch| {
            batch.break_some(random)?;
            batch.shorten(random)
        },
    },
    Kind {
        label: "batch in a refused book",
        change: |random, batch| batch.damage(random),
    },
    Kind {
        label: "batch in a refused book with broken names",
        change: |random, batch| {
            batch.break_some(random)?;
            batch.damage(random)
        },
    },
    Kind {
        label: "batch in a refused book with too little room",
        change: |random, batch| {
            batch.shorten(random)?;
            batch.damage(random)
        },
    },
];
