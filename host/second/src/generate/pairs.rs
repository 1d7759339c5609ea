//! Pairs of names to be put in order. Most of them say beforehand which order comes of them: it
//! follows from how they are made, and no names are compared for it.

use super::names::{near_miss, other_case};
use super::Random;
use std::cmp::Ordering::{self, Equal, Greater, Less};

/// How many pairs go with a case.
const PAIRS: usize = 8;

/// Two names.
#[derive(Debug, Clone)]
pub struct Pair {
    /// That of the way it was made.
    pub label: &'static str,
    pub left: Vec<u8>,
    pub right: Vec<u8>,
    /// What the left name is to the right one, where that is known.
    pub aim: Option<Ordering>,
}

/// A way to make a pair.
pub struct Way {
    pub label: &'static str,
    /// All that the left name can be to the right one.
    pub orders: &'static [Ordering],
    /// Makes it, with names that stand in a file. They change sides later: here the left one is not
    /// above the right one, or nothing is said of them.
    make: fn(&mut Random, &[Vec<u8>]) -> Made,
}

/// Both names, and what the left one is to the right one.
type Made = (Vec<u8>, Vec<u8>, Option<Ordering>);

const SAME: &[Ordering] = &[Equal];
const APART: &[Ordering] = &[Less, Greater];
const ANY: &[Ordering] = &[Less, Equal, Greater];

/// All ways. The last one needs names of a file.
pub const WAYS: &[Way] = &[
    Way {
        label: "two names, the same",
        orders: SAME,
        make: same,
    },
    Way {
        label: "two names, a letter in another case",
        orders: SAME,
        make: a_letter,
    },
    Way {
        label: "two names, letters in another case",
        orders: SAME,
        make: some_letters,
    },
    Way {
        label: "two names, all letters in another case",
        orders: SAME,
        make: all_letters,
    },
    Way {
        label: "two names, a border byte differs",
        orders: APART,
        make: border,
    },
    Way {
        label: "two names, any byte differs",
        orders: APART,
        make: any,
    },
    Way {
        label: "two names, another case and a border byte",
        orders: APART,
        make: cased_border,
    },
    Way {
        label: "two names, another case and any byte",
        orders: APART,
        make: cased_any,
    },
    Way {
        label: "two names, one begins the other",
        orders: APART,
        make: beginning,
    },
    Way {
        label: "two names, one begins the other in another case",
        orders: APART,
        make: cased_beginning,
    },
    Way {
        label: "two names, one of no bytes",
        orders: ANY,
        make: empty,
    },
    Way {
        label: "two short names",
        orders: ANY,
        make: short,
    },
    Way {
        label: "two names of a file",
        orders: ANY,
        make: of_file,
    },
];

/// Pairs to go with a case. The names stand in its file, if there are any.
pub fn pairs(random: &mut Random, names: &[Vec<u8>]) -> Vec<Pair> {
    (0..PAIRS).map(|_| pair(random, names)).collect()
}

fn pair(random: &mut Random, names: &[Vec<u8>]) -> Pair {
    let ways = WAYS.len() - usize::from(names.is_empty());
    let way = &WAYS[random.index(ways)];
    let (left, right, aim) = (way.make)(random, names);
    let (left, right, aim) = match random.once_in(2) {
        true => (right, left, aim.map(Ordering::reverse)),
        false => (left, right, aim),
    };
    Pair {
        label: way.label,
        left,
        right,
        aim,
    }
}

/// Bytes at the borders of folding and beside them, the same with bit 7 set, and the ends, in rising
/// order; those that are equal stand together (FORMAT S1).
const BORDERS: [[u8; 2]; 21] = [
    [0x00, 0x00],
    [0x2F, 0x2F],
    [0x40, 0x40],
    [0x5B, 0x5B],
    [0x60, 0x60],
    [0x41, 0x61],
    [0x42, 0x62],
    [0x59, 0x79],
    [0x5A, 0x7A],
    [0x7B, 0x7B],
    [0x7F, 0x7F],
    [0x80, 0x80],
    [0xC0, 0xC0],
    [0xC1, 0xC1],
    [0xDA, 0xDA],
    [0xDB, 0xDB],
    [0xE0, 0xE0],
    [0xE1, 0xE1],
    [0xFA, 0xFA],
    [0xFB, 0xFB],
    [0xFF, 0xFF],
];

/// How many places the order of bytes has: both cases of a letter stand at one.
pub(super) const PLACES: usize = 230;

/// The places of the letters.
const FIRST_LETTER: usize = 0x47;
const LAST_LETTER: usize = 0x60;

/// The bytes at a place of the order: 00 to 40 hex, 5B to 60, A and a to Z and z, 7B to FF (FORMAT
/// S1).
pub(super) fn at_place(place: usize) -> [u8; 2] {
    let place = place as u8;
    match place {
        0x00..=0x40 => [place, place],
        0x47..=0x60 => [place - 0x06, place + 0x1A],
        _ => [place + 0x1A, place + 0x1A],
    }
}

/// Two different places below a bound, the lower one first.
fn rising_places(random: &mut Random, bound: usize) -> [usize; 2] {
    let low = random.index(bound - 1);
    [low, low + 1 + random.index(bound - 1 - low)]
}

fn some_byte(random: &mut Random, style: u64) -> u8 {
    let both = match style {
        0 => at_place(FIRST_LETTER + random.index(LAST_LETTER + 1 - FIRST_LETTER)),
        1 => random.pick(&BORDERS),
        2 => at_place(random.index(PLACES)),
        _ => {
            let style = random.below(3);
            return some_byte(random, style);
        }
    };
    random.pick(&both)
}

/// Letters, bytes at borders, any bytes, or all of these.
fn stretch(random: &mut Random, length: usize) -> Vec<u8> {
    let style = random.below(4);
    (0..length).map(|_| some_byte(random, style)).collect()
}

/// A name, or what two names begin with: up to 20 bytes long for the most part, at times longer
/// than the names of a book.
fn name(random: &mut Random) -> Vec<u8> {
    let length = match random.below(60) {
        0 => random.between(0..=3000),
        1 => random.between(1023..=1025),
        2 | 3 => random.between(0..=1000),
        _ => random.between(0..=20),
    };
    stretch(random, length as usize)
}

/// Where the letters of a name are.
fn letters(name: &[u8]) -> Vec<usize> {
    let is_letter = |at: &usize| name[*at].is_ascii_alphabetic();
    (0..name.len()).filter(is_letter).collect()
}

/// A name with so many letters or more, and where these are.
fn lettered(random: &mut Random, least: usize) -> (Vec<u8>, Vec<usize>) {
    loop {
        let name = name(random);
        let places = letters(&name);
        if places.len() >= least {
            return (name, places);
        }
    }
}

/// The name with the letters at these places in their other case.
fn recased(name: &[u8], places: &[usize]) -> Vec<u8> {
    let mut changed = name.to_vec();
    for &at in places {
        changed[at] ^= 0x20;
    }
    changed
}

/// A name, and the same with so many letters or more in another case.
fn cased(random: &mut Random, least: usize) -> [Vec<u8>; 2] {
    let (name, mut places) = lettered(random, least);
    random.shuffle(&mut places);
    let count = least + random.index(places.len() + 1 - least);
    let changed = recased(&name, &places[..count]);
    [name, changed]
}

fn same(random: &mut Random, _: &[Vec<u8>]) -> Made {
    let name = name(random);
    (name.clone(), name, Some(Equal))
}

fn a_letter(random: &mut Random, _: &[Vec<u8>]) -> Made {
    let (name, places) = lettered(random, 1);
    let changed = recased(&name, &[random.pick(&places)]);
    (name, changed, Some(Equal))
}

fn some_letters(random: &mut Random, _: &[Vec<u8>]) -> Made {
    let [name, changed] = cased(random, 2);
    (name, changed, Some(Equal))
}

fn all_letters(random: &mut Random, _: &[Vec<u8>]) -> Made {
    let (name, places) = lettered(random, 1);
    let changed = recased(&name, &places);
    (name, changed, Some(Equal))
}

/// Goes on with a byte of each of these and then with anything: the first byte decides.
fn part_with(random: &mut Random, names: [Vec<u8>; 2], bytes: [[u8; 2]; 2]) -> Made {
    let [mut left, mut right] = names;
    left.push(random.pick(&bytes[0]));
    right.push(random.pick(&bytes[1]));
    let behind = tail(random);
    let other = match random.below(3) {
        0 => behind.clone(),
        1 => other_case(random, &behind).unwrap_or_default(),
        _ => tail(random),
    };
    left.extend(behind);
    right.extend(other);
    (left, right, Some(Less))
}

fn tail(random: &mut Random) -> Vec<u8> {
    let length = random.index(21);
    stretch(random, length)
}

fn borders(random: &mut Random) -> [[u8; 2]; 2] {
    rising_places(random, BORDERS.len()).map(|place| BORDERS[place])
}

fn any_bytes(random: &mut Random) -> [[u8; 2]; 2] {
    rising_places(random, PLACES).map(at_place)
}

fn border(random: &mut Random, _: &[Vec<u8>]) -> Made {
    let (common, bytes) = (name(random), borders(random));
    part_with(random, [common.clone(), common], bytes)
}

fn any(random: &mut Random, _: &[Vec<u8>]) -> Made {
    let (common, bytes) = (name(random), any_bytes(random));
    part_with(random, [common.clone(), common], bytes)
}

fn cased_border(random: &mut Random, _: &[Vec<u8>]) -> Made {
    let (common, bytes) = (cased(random, 1), borders(random));
    part_with(random, common, bytes)
}

fn cased_any(random: &mut Random, _: &[Vec<u8>]) -> Made {
    let (common, bytes) = (cased(random, 1), any_bytes(random));
    part_with(random, common, bytes)
}

/// Lets the right name go on alone.
fn lengthen(random: &mut Random, names: [Vec<u8>; 2]) -> Made {
    let [left, mut right] = names;
    right.push(some_byte(random, 3));
    right.extend(tail(random));
    (left, right, Some(Less))
}

fn beginning(random: &mut Random, _: &[Vec<u8>]) -> Made {
    let common = name(random);
    lengthen(random, [common.clone(), common])
}

fn cased_beginning(random: &mut Random, _: &[Vec<u8>]) -> Made {
    let common = cased(random, 1);
    lengthen(random, common)
}

fn empty(random: &mut Random, _: &[Vec<u8>]) -> Made {
    let other = match random.once_in(4) {
        true => Vec::new(),
        false => name(random),
    };
    let aim = if other.is_empty() { Equal } else { Less };
    (Vec::new(), other, Some(aim))
}

/// Of few bytes, so that they are equal at times.
fn short(random: &mut Random, _: &[Vec<u8>]) -> Made {
    let mut name = || -> Vec<u8> {
        let length = random.index(4);
        (0..length).map(|_| random.pick(b"@AaZz[`{")).collect()
    };
    (name(), name(), None)
}

/// A name of the file, and the same in another case, one near it or another one.
fn of_file(random: &mut Random, names: &[Vec<u8>]) -> Made {
    let name = names[random.index(names.len())].clone();
    let other = match random.below(4) {
        0 => other_case(random, &name).unwrap_or_else(|| name.clone()),
        1 => near_miss(random, &name),
        _ => names[random.index(names.len())].clone(),
    };
    (name, other, None)
}

#[cfg(test)]
mod tests {
    use super::*;

    /// Every byte has its place, and the bytes at borders rise by these places.
    #[test]
    fn places_of_bytes() {
        let mut bytes: Vec<u8> = (0..PLACES).flat_map(at_place).collect();
        bytes.dedup();
        assert_eq!(bytes.len(), 256);
        bytes.sort_unstable();
        assert!(bytes.into_iter().eq(0..=255));
        let place = |both: &[u8; 2]| (0..PLACES).find(|&place| at_place(place) == *both);
        let places: Vec<usize> = BORDERS.iter().filter_map(place).collect();
        assert_eq!(places.len(), BORDERS.len());
        assert!(places.windows(2).all(|pair| pair[0] < pair[1]));
    }

    /// The letters, and the rows of FORMAT S3.
    #[test]
    fn places_of_letters() {
        assert_eq!(at_place(FIRST_LETTER), *b"Aa");
        assert_eq!(at_place(LAST_LETTER), *b"Zz");
        assert!((0..FIRST_LETTER).any(|place| at_place(place) == *b"[["));
    }
}
