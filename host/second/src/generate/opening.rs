//! Books to be opened: good, broken on purpose, and broken anyhow.

use super::book::book;
use super::damage::{damage_for, damaged, damaged_twice, damages, varied};
use super::{Aim, Call, Case, Random};

const GOOD: &str = "good book";
const VARIED: &str = "bytes without a rule changed";
const TWICE: &str = "two damages";
const FLIPPED: &str = "bits changed";
const CUT: &str = "file cut";
const ANY: &str = "any bytes";
const LIMIT: &str = "about as long as the program takes";

pub fn labels() -> Vec<&'static str> {
    let mut labels = vec![GOOD, VARIED, TWICE, FLIPPED, CUT, ANY, LIMIT];
    labels.extend(damages().map(|damage| damage.label));
    labels
}

/// A book to be opened, of some kind.
pub fn case(random: &mut Random) -> Case {
    let (label, file, aim) = match random.below(55) {
        0..=7 => (GOOD, book(random).bytes(), Aim::Good),
        8..=11 => (VARIED, varied(random).bytes(), Aim::Good),
        12..=38 => {
            let number = random.between(1..=14) as u8;
            let damage = damage_for(random, number);
            let (broken, refusal) = damaged(random, damage);
            (damage.label, broken.bytes(), Aim::Refused(refusal))
        }
        39..=44 => {
            let (broken, refusal) = damaged_twice(random);
            (TWICE, broken.bytes(), Aim::Likely(refusal))
        }
        45..=49 => (FLIPPED, flipped(random), Aim::Free),
        50..=52 => (CUT, cut(random), Aim::Free),
        53 => (ANY, any(random), Aim::Free),
        _ => near_limit(random),
    };
    Case {
        label,
        file,
        call: Call::Open,
        aim,
    }
}

/// A good book with some bits changed, anywhere or in one short stretch of a header or chunk.
fn flipped(random: &mut Random) -> Vec<u8> {
    let book = book(random);
    let mut file = book.bytes();
    let places = book.places();
    let number = random.index(book.chunks.len()) as u32;
    let chunk = &book.chunks[number as usize];
    let chunk_place = book.chunk_place(number);
    let words = 2 + 2 * chunk.words(book.density);
    let (from, length) = match random.below(6) {
        0 => (0, file.len()),
        1 => (0, places.header),
        2 => (places.section, 24),
        3 => (places.directory, 84),
        4 => (chunk_place, chunk.header() + chunk.entry_bytes()),
        _ => (chunk_place + 4096 - words, words),
    };
    for _ in 0..random.pick(&[1, 1, 1, 2, 5]) {
        let at = from + random.index(length);
        file[at] ^= 1 << random.below(8);
    }
    file
}

/// A good book cut anywhere or near something that starts or ends there.
fn cut(random: &mut Random) -> Vec<u8> {
    let book = book(random);
    let mut file = book.bytes();
    let places = book.places();
    let any = random.index(file.len());
    let near = random.pick(&[
        96,
        places.section + 24,
        places.directory + 84,
        places.directory_end,
        places.content,
        file.len(),
        any,
    ]);
    let length = (near + random.index(3)).saturating_sub(1);
    file.truncate(length);
    file
}

/// No book at all: none, few or many bytes, half of them with the tag of one.
fn any(random: &mut Random) -> Vec<u8> {
    let length = random.pick(&[0, 1, 95, 96, 97, 180, 4300, 9000]);
    let mut file = random.bytes(length);
    if random.once_in(2) {
        for (byte, tag) in file.iter_mut().zip(b"ITSF") {
            *byte = *tag;
        }
    }
    file
}

/// A book of 60,000 bytes, which the program takes, or of a few more or less (FORMAT P1).
fn near_limit(random: &mut Random) -> (&'static str, Vec<u8>, Aim) {
    let length = random.pick(&[59_999, 60_000, 60_000, 60_001, 60_001, 60_002]);
    loop {
        let mut book = book(random);
        let places = book.places();
        if places.content > length {
            continue;
        }
        // An entry may end with the content, so this becomes no shorter.
        let content = length - places.content;
        if content >= book.content.len() {
            book.content.resize(content, 0x5A);
            return (LIMIT, book.bytes(), Aim::Good);
        }
    }
}
