//! Damage aimed at one refusal each, on the bad side of a line of docs/FORMAT.md.
//!
//! Each row breaks one thing of a good book and leaves alone what is checked before it, so that
//! exactly the aimed number is the answer.

mod chunk;
mod header;
mod order;

pub use chunk::{Bounds, ENTRY_BREAKS};
pub(super) use order::{any_number, index_entry, rename, set_next, set_previous};

use super::book::book;
use super::plan::{Book, Spot};
use super::Random;
use crate::{Refusal, NONE};

/// One way to break a good book.
pub struct Damage {
    /// The refusal that has to follow.
    pub number: u8,
    pub label: &'static str,
    /// Changes the book and says the place of the refusal; nothing if this book cannot be broken
    /// in this way, and then the book is of no further use. The book may be a broken one, as long
    /// as its bytes can still be made: then the place is only likely.
    pub apply: fn(&mut Random, &mut Book) -> Option<u32>,
}

/// For damage that is refused without a place.
const NOWHERE: Option<u32> = Some(NONE);

/// All rows, by the number they aim at.
pub fn damages() -> impl Iterator<Item = &'static Damage> {
    header::DAMAGES
        .iter()
        .chain(chunk::DAMAGES)
        .chain(order::DAMAGES)
}

/// Some row that aims at this number, 1 to 14.
pub fn damage_for(random: &mut Random, number: u8) -> &'static Damage {
    let rows: Vec<&Damage> = damages().filter(|row| row.number == number).collect();
    random.pick(&rows)
}

/// A book broken in this way, and the refusal that has to follow.
pub fn damaged(random: &mut Random, damage: &Damage) -> (Book, Refusal) {
    let number = damage.number;
    loop {
        let good = book(random);
        // A row may choose a part of the book that it cannot break.
        for _ in 0..5 {
            let mut broken = good.clone();
            if let Some(place) = (damage.apply)(random, &mut broken) {
                return (broken, Refusal { number, place });
            }
        }
    }
}

/// A book broken in two ways, and the earlier of the two refusals. One break may hide another, so
/// the answer is only likely.
pub fn damaged_twice(random: &mut Random) -> (Book, Refusal) {
    loop {
        let mut broken = book(random);
        let mut refusals = Vec::new();
        for _ in 0..2 {
            let number = random.between(1..=14) as u8;
            let damage = damage_for(random, number);
            let place = (damage.apply)(random, &mut broken);
            refusals.extend(place.map(|place| Refusal { number, place }));
        }
        if let [one, two] = refusals[..] {
            let earlier = if rank(one) <= rank(two) { one } else { two };
            return (broken, earlier);
        }
    }
}

/// The order in which opening checks (FORMAT RO1 to RO3).
fn rank(refusal: Refusal) -> (u8, u32, u8) {
    match refusal.number {
        number @ 1..=7 => (number, 0, 0),
        12 => (8, refusal.place, 11),
        11 => (8, refusal.place, 12),
        number @ 8..=10 => (8, refusal.place, number),
        number => (number, 0, 0),
    }
}

/// A good book in which bytes without a rule have been changed; it still opens.
pub fn varied(random: &mut Random) -> Book {
    let mut varied = book(random);
    for _ in 0..random.between(1..=8) {
        let value = random.number();
        let number = random.index(varied.chunks.len()) as u32;
        let chunk = &varied.chunks[number as usize];
        let free = chunk.tail() - 2 - 2 * chunk.words(varied.density);
        let spot = match random.below(6) {
            0 => Spot::File(random.pick(&[0x0C, 0x10, 0x14])),
            1 => Spot::Section(random.pick(&[0, 4, 16, 20])),
            2 | 3 => Spot::Directory(random.pick(&[0x0C, 0x28, 0x30, 0x48, 0x4C, 0x50])),
            4 if chunk.is_listing() => Spot::Chunk(number, 0x08),
            _ if free >= 4 => {
                // Also where one more quick word would stand.
                let any = random.index(free - 3);
                let at = random.pick(&[0, free - 4, any]);
                Spot::Chunk(number, chunk.header() + chunk.entry_bytes() + at)
            }
            _ => continue,
        };
        varied.poke(spot, 4, value);
    }
    varied
}
