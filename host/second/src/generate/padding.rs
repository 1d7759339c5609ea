//! Leading 80 bytes of ENCINTs (FORMAT N4).

use super::plan::Item;
use super::Random;
use crate::number::encint;

/// The most bytes that an ENCINT has (FORMAT N3).
const MOST: usize = 9;

/// How many leading bytes there is room for in front of a value's short form.
pub fn most_leading(value: u64) -> usize {
    MOST - encint(value).len()
}

/// A value behind so many leading 80 bytes, or behind as many as there is room for.
pub fn padded(value: u64, leading: usize) -> Vec<u8> {
    [vec![0x80; leading.min(most_leading(value))], encint(value)].concat()
}

/// A value behind more leading 80 bytes than there is room for: ten bytes in all, and so many more.
pub fn overpadded(value: u64, more: usize) -> Vec<u8> {
    [vec![0x80; most_leading(value) + 1 + more], encint(value)].concat()
}

/// How many leading 80 bytes a padded number is to get; with 8 it has nine bytes, whatever its value.
pub fn leading(random: &mut Random) -> usize {
    let any = random.between(1..=8) as usize;
    random.pick(&[1, 8, any, any])
}

/// How the numbers of a book are padded.
#[derive(Debug, Clone, Copy)]
pub struct Padding {
    /// One number in so many; none if nothing.
    one_in: Option<u64>,
}

impl Padding {
    pub const NONE: Padding = Padding { one_in: None };

    /// One book in four is padded, now here and there, now in every number.
    pub fn of_some_book(random: &mut Random) -> Padding {
        let one_in = match random.once_in(4) {
            true => Some(random.pick(&[1, 3, 10, 40])),
            false => None,
        };
        Padding { one_in }
    }

    pub fn is_some(self) -> bool {
        self.one_in.is_some()
    }

    /// The entry with some of its numbers padded.
    pub fn pad(self, random: &mut Random, mut item: Item) -> Item {
        if let Some(one_in) = self.one_in {
            for number in 0..=item.fields.len() {
                if random.once_in(one_in) {
                    item.padding[number] = leading(random);
                }
            }
        }
        item
    }
}
