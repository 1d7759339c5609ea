//! Damage to a chunk by itself: refusals 8 to 12.

use super::Damage;
use crate::chunk::{quick_step, quick_words, CHUNK};
use crate::generate::names::other_case;
use crate::generate::padding::{overpadded, padded};
use crate::generate::plan::{entry_bytes, Book, Item, Planned, Spot};
use crate::generate::plan::{LENGTH, NAME_LENGTH, OFFSET, SECTION};
use crate::generate::Random;
use crate::number::encint;

const TOP_63: u64 = u64::MAX >> 1;

/// What the numbers of an entry are held against.
pub struct Bounds {
    pub content_length: u64,
    pub count: u64,
}

/// Bytes of an entry that break a rule, made from a good one; nothing if this one cannot be.
pub type EntryBreak = fn(&mut Random, &Item, &Bounds) -> Option<Vec<u8>>;

/// The ways to break an entry of a listing chunk wherever it stands.
pub const ENTRY_BREAKS: [EntryBreak; 7] = [
    no_name,
    long_name,
    far_name_length,
    some_ten_bytes,
    long_number,
    high_section,
    beyond_content,
];

/// The child of an index entry stands where a listing entry has its section.
const CHILD: usize = SECTION;

/// The entry with another name, and with these bytes for one of its numbers.
fn with_name(item: &Item, name: &[u8], at: usize, number: Vec<u8>) -> Option<Vec<u8>> {
    let mut numbers = item.numbers();
    numbers[at] = number;
    Some(entry_bytes(name, &numbers))
}

fn with_number(item: &Item, at: usize, number: Vec<u8>) -> Option<Vec<u8>> {
    with_name(item, &item.name, at, number)
}

fn with_fields(item: &Item, fields: &[u64]) -> Option<Vec<u8>> {
    Some(item.with_fields(fields).bytes())
}

fn no_name(_: &mut Random, item: &Item, _: &Bounds) -> Option<Vec<u8>> {
    let length = padded(0, item.padding[NAME_LENGTH]);
    with_name(item, &[], NAME_LENGTH, length)
}

fn long_name(random: &mut Random, item: &Item, _: &Bounds) -> Option<Vec<u8>> {
    let mut name = item.name.clone();
    name.resize(random.pick(&[1025, 1025, 1026, 2048]), b'x');
    let length = padded(name.len() as u64, item.padding[NAME_LENGTH]);
    with_name(item, &name, NAME_LENGTH, length)
}

/// A length that is right in 16 or 32 bits only.
fn far_name_length(random: &mut Random, item: &Item, _: &Bounds) -> Option<Vec<u8>> {
    let length = item.name.len() as u64;
    let wrong = random.pick(&[length + (1 << 16), length + (1 << 32), TOP_63]);
    with_number(item, NAME_LENGTH, encint(wrong))
}

/// Pads a number to ten bytes, one more than there is room for (FORMAT N3, N4).
fn ten_bytes(item: &Item, at: usize) -> Option<Vec<u8>> {
    with_number(item, at, overpadded(item.value(at), 0))
}

/// The same in an entry with so many fields; nothing in others.
fn ten_bytes_of(fields: usize, item: &Item, at: usize) -> Option<Vec<u8>> {
    match item.fields.len() == fields {
        true => ten_bytes(item, at),
        false => None,
    }
}

fn some_ten_bytes(random: &mut Random, item: &Item, _: &Bounds) -> Option<Vec<u8>> {
    ten_bytes(item, random.index(item.fields.len() + 1))
}

/// Ten bytes or more before one has bit 7 clear.
fn long_number(random: &mut Random, item: &Item, _: &Bounds) -> Option<Vec<u8>> {
    let at = random.index(item.fields.len() + 1);
    let (lead, first) = random.pick(&[(9, 0xFF), (9, 0x81), (9, 0x80), (10, 0xFF), (20, 0x82)]);
    let mut number = vec![random.pick(&[0xFF, 0xFF, 0x80]); lead];
    number[0] = first;
    number.push(random.pick(&[0x7F, 0x01, 0x00]));
    with_number(item, at, number)
}

fn high_section(random: &mut Random, item: &Item, _: &Bounds) -> Option<Vec<u8>> {
    let section = random.pick(&[65_536, 65_536, 65_537, 1 << 17, 1 << 32, TOP_63]);
    match item.fields[..] {
        [_, offset, size] => with_fields(item, &[section, offset, size]),
        _ => None,
    }
}

fn beyond_content(random: &mut Random, item: &Item, bounds: &Bounds) -> Option<Vec<u8>> {
    let length = bounds.content_length;
    let (offset, size) = random.pick(&[
        (length + 1, 0),
        (length, 1),
        (0, length + 1),
        (1, length),
        (TOP_63, 0),
        (0, TOP_63),
        (1, TOP_63),
        (TOP_63, TOP_63),
    ]);
    match item.fields[..] {
        [_, _, _] => with_fields(item, &[0, offset, size]),
        _ => None,
    }
}

fn far_child(random: &mut Random, item: &Item, bounds: &Bounds) -> Option<Vec<u8>> {
    let count = bounds.count;
    let far = [count, count, count + 1, 0xFFFF_FFFF, 1 << 32, TOP_63];
    match item.fields[..] {
        [_] => with_fields(item, &[random.pick(&far)]),
        _ => None,
    }
}

/// A name that reaches to the end of the entry or one byte beyond.
fn name_past_end(random: &mut Random, item: &Item, _: &Bounds) -> Option<Vec<u8>> {
    let behind = item.numbers()[1..].concat().len() as u64;
    let length = item.name.len() as u64 + behind + random.below(2);
    with_number(item, NAME_LENGTH, encint(length))
}

/// A last ENCINT that never ends.
fn endless_number(_: &mut Random, item: &Item, _: &Bounds) -> Option<Vec<u8>> {
    let mut bytes = item.bytes();
    *bytes.last_mut()? |= 0x80;
    Some(bytes)
}

fn any_chunk(random: &mut Random, book: &Book) -> u32 {
    random.index(book.chunks.len()) as u32
}

/// Puts a changed chunk in, if its entries still fit.
fn replaced(book: &mut Book, number: u32, chunk: Planned) -> Option<u32> {
    if !chunk.fits(book.density) {
        return None;
    }
    book.chunks[number as usize] = chunk;
    Some(number)
}

/// Breaks some entry of some chunk; other entries make room if they have to.
fn broken_entry(random: &mut Random, book: &mut Book, breaks: EntryBreak) -> Option<u32> {
    let number = any_chunk(random, book);
    let length = book.chunks[number as usize].items.len();
    let at = random.index(length);
    break_at(random, book, breaks, number, at)
}

/// Breaks the last entry of some chunk, for breaks that only the end of the entries brings out.
fn broken_last(random: &mut Random, book: &mut Book, breaks: EntryBreak) -> Option<u32> {
    let number = any_chunk(random, book);
    let length = book.chunks[number as usize].items.len();
    break_at(random, book, breaks, number, length - 1)
}

fn break_at(
    random: &mut Random,
    book: &mut Book,
    breaks: EntryBreak,
    number: u32,
    mut at: usize,
) -> Option<u32> {
    let bounds = Bounds {
        content_length: book.content.len() as u64,
        count: book.count().into(),
    };
    let mut chunk = book.chunks[number as usize].clone();
    chunk.items[at].raw = Some(breaks(random, &chunk.items[at], &bounds)?);
    while !chunk.fits(book.density) {
        let other = if at > 0 { 0 } else { 1 };
        chunk.items.remove(other);
        at = at.saturating_sub(1);
    }
    replaced(book, number, chunk)
}

/// The least count for which the tail has too few places for quick words.
fn overfull_count(chunk: &Planned, density: u32) -> Option<u64> {
    let words = (chunk.tail() as u64 - 2) / 2 + 1;
    let count = words * quick_step(density.into()) + 1;
    (count <= 65_535).then_some(count)
}

/// A chunk with quick words, and the number of one of them.
fn some_word(random: &mut Random, book: &Book, least: usize) -> Option<(u32, usize)> {
    let number = any_chunk(random, book);
    let words = book.chunks[number as usize].words(book.density);
    (words >= least).then(|| (number, random.index(words) + 1))
}

fn word_place(k: usize) -> usize {
    CHUNK - 2 - 2 * k
}

/// The quick words of a chunk from the first to the last (FORMAT C8).
fn words_of(chunk: &Planned, density: u32) -> Vec<usize> {
    let step = quick_step(density.into()) as usize;
    let starts = chunk.starts();
    (1..=chunk.words(density))
        .map(|k| starts[k * step])
        .collect()
}

/// Writes other quick words over those of a chunk.
fn set_words(book: &mut Book, number: u32, words: &[usize]) -> u32 {
    for (k, &word) in (1..).zip(words) {
        book.poke(Spot::Chunk(number, word_place(k)), 2, word as u64);
    }
    number
}

/// Sets quick word `k` to something else than its right value.
fn wrong_word(random: &mut Random, book: &mut Book, number: u32, k: usize) -> Option<u32> {
    let chunk = &book.chunks[number as usize];
    let starts = chunk.starts();
    let entry = k * quick_step(book.density.into()) as usize;
    let right = starts[entry];
    let neighbour = random.pick(&[entry - 1, (entry + 1).min(starts.len() - 1)]);
    let wrong = random.pick(&[
        right - 1,
        right + 1,
        0,
        right + chunk.header(),
        right ^ 0x100,
        0xFFFF,
        starts[neighbour],
    ]);
    if wrong == right {
        return None;
    }
    book.poke(Spot::Chunk(number, word_place(k)), 2, wrong as u64);
    Some(number)
}

/// A place in the chunk with an entry behind it.
fn some_pair(random: &mut Random, book: &Book) -> Option<(u32, usize)> {
    let number = any_chunk(random, book);
    let entries = book.chunks[number as usize].items.len();
    (entries >= 2).then(|| (number, random.index(entries - 1)))
}

/// Puts an entry with this name, else like its neighbour, behind some entry.
fn inserted(
    random: &mut Random,
    book: &mut Book,
    name: fn(&mut Random, &[u8]) -> Option<Vec<u8>>,
) -> Option<u32> {
    let number = any_chunk(random, book);
    let mut chunk = book.chunks[number as usize].clone();
    let at = random.index(chunk.items.len());
    let mut item = chunk.items[at].clone();
    item.name = name(random, &item.name)?;
    chunk.items.insert(at + 1, item);
    replaced(book, number, chunk)
}

pub const DAMAGES: &[Damage] = &[
    Damage {
        number: 8,
        label: "chunk tag with a bit changed",
        apply: |random, book| {
            let number = any_chunk(random, book);
            let tag = if book.chunks[number as usize].is_listing() {
                b"PMGL"
            } else {
                b"PMGI"
            };
            let at = random.index(4);
            let byte = tag[at] ^ (1 << random.below(8));
            book.poke(Spot::Chunk(number, at), 1, byte.into());
            Some(number)
        },
    },
    Damage {
        number: 8,
        label: "another chunk tag",
        apply: |random, book| {
            let number = any_chunk(random, book);
            let tag = random.pick(&[*b"PMGJ", *b"pmgl", *b"LGMP", *b"ITSP", *b"PMGl", [0; 4]]);
            let value = u32::from_le_bytes(tag);
            book.poke(Spot::Chunk(number, 0), 4, value.into());
            Some(number)
        },
    },
    Damage {
        number: 9,
        label: "no entries",
        apply: |random, book| {
            let number = any_chunk(random, book);
            book.poke(Spot::Chunk(number, CHUNK - 2), 2, 0);
            Some(number)
        },
    },
    Damage {
        number: 9,
        label: "tail too short",
        apply: |random, book| {
            let number = any_chunk(random, book);
            let least = 2 + 2 * book.chunks[number as usize].words(book.density) as u64;
            let tail = random.pick(&[least - 1, least - 1, least - 2, 0, 1]);
            book.poke(Spot::Chunk(number, 4), 4, tail);
            Some(number)
        },
    },
    Damage {
        number: 9,
        label: "tail too long",
        apply: |random, book| {
            let number = any_chunk(random, book);
            let chunk = &book.chunks[number as usize];
            let most = (CHUNK - chunk.header()) as u64;
            let tail = chunk.tail() as u64;
            let long = [
                most + 1,
                most + 1,
                4096,
                4097,
                tail + 65_536,
                tail | 1 << 31,
            ];
            book.poke(Spot::Chunk(number, 4), 4, random.pick(&long));
            Some(number)
        },
    },
    Damage {
        number: 9,
        label: "more entries counted than the tail has words for",
        apply: |random, book| {
            let number = any_chunk(random, book);
            let least = overfull_count(&book.chunks[number as usize], book.density)?;
            let count = random.pick(&[least, least, 65_535]);
            book.poke(Spot::Chunk(number, CHUNK - 2), 2, count);
            Some(number)
        },
    },
    Damage {
        number: 10,
        label: "most entries counted that the tail has words for",
        apply: |random, book| {
            let number = any_chunk(random, book);
            let chunk = &book.chunks[number as usize];
            let count = overfull_count(chunk, book.density).map_or(65_535, |least| least - 1);
            if count == chunk.items.len() as u64 {
                return None;
            }
            book.poke(Spot::Chunk(number, CHUNK - 2), 2, count);
            Some(number)
        },
    },
    Damage {
        number: 10,
        label: "one entry more or less counted",
        apply: |random, book| {
            let number = any_chunk(random, book);
            let chunk = &book.chunks[number as usize];
            let right = chunk.items.len() as u64;
            let count = random.pick(&[right - 1, right + 1]);
            let tail = chunk.tail() as u64;
            if count == 0 || 2 + 2 * quick_words(count, book.density.into()) > tail {
                return None;
            }
            book.poke(Spot::Chunk(number, CHUNK - 2), 2, count);
            Some(number)
        },
    },
    Damage {
        number: 10,
        label: "tail does not start where the entries end",
        apply: |random, book| {
            let number = any_chunk(random, book);
            let chunk = &book.chunks[number as usize];
            let least = 2 + 2 * chunk.words(book.density);
            let most = CHUNK - chunk.header();
            let tail = chunk.tail();
            let wrong = random.pick(&[tail - 1, tail + 1, least, most, most - 1]);
            if wrong < least || wrong == tail {
                return None;
            }
            book.poke(Spot::Chunk(number, 4), 4, wrong as u64);
            Some(number)
        },
    },
    Damage {
        number: 10,
        label: "entry without a name",
        apply: |random, book| broken_entry(random, book, no_name),
    },
    Damage {
        number: 10,
        label: "name of more than 1,024 bytes",
        apply: |random, book| broken_entry(random, book, long_name),
    },
    Damage {
        number: 10,
        label: "name length right in 16 or 32 bits only",
        apply: |random, book| broken_entry(random, book, far_name_length),
    },
    Damage {
        number: 10,
        label: "name length padded to ten bytes",
        apply: |random, book| broken_entry(random, book, |_, item, _| ten_bytes(item, NAME_LENGTH)),
    },
    Damage {
        number: 10,
        label: "section padded to ten bytes",
        apply: |random, book| {
            broken_entry(random, book, |_, item, _| ten_bytes_of(3, item, SECTION))
        },
    },
    Damage {
        number: 10,
        label: "offset padded to ten bytes",
        apply: |random, book| {
            broken_entry(random, book, |_, item, _| ten_bytes_of(3, item, OFFSET))
        },
    },
    Damage {
        number: 10,
        label: "length padded to ten bytes",
        apply: |random, book| {
            broken_entry(random, book, |_, item, _| ten_bytes_of(3, item, LENGTH))
        },
    },
    Damage {
        number: 10,
        label: "child padded to ten bytes",
        apply: |random, book| broken_entry(random, book, |_, item, _| ten_bytes_of(1, item, CHILD)),
    },
    Damage {
        number: 10,
        label: "ENCINT of more than nine bytes",
        apply: |random, book| broken_entry(random, book, long_number),
    },
    Damage {
        number: 10,
        label: "section above 65,535",
        apply: |random, book| broken_entry(random, book, high_section),
    },
    Damage {
        number: 10,
        label: "entry beyond the content",
        apply: |random, book| broken_entry(random, book, beyond_content),
    },
    Damage {
        number: 10,
        label: "child not below the count",
        apply: |random, book| broken_entry(random, book, far_child),
    },
    Damage {
        number: 10,
        label: "last name runs into the tail",
        apply: |random, book| broken_last(random, book, name_past_end),
    },
    Damage {
        number: 10,
        label: "last ENCINT runs into the tail",
        apply: |random, book| broken_last(random, book, endless_number),
    },
    Damage {
        number: 12,
        label: "two entries exchanged",
        apply: |random, book| {
            let (number, at) = some_pair(random, book)?;
            book.chunks[number as usize].items.swap(at, at + 1);
            Some(number)
        },
    },
    Damage {
        number: 12,
        label: "two entries exchanged, and a wrong quick word",
        apply: |random, book| {
            let (number, k) = some_word(random, book, 1)?;
            let entries = book.chunks[number as usize].items.len();
            let at = random.index(entries - 1);
            book.chunks[number as usize].items.swap(at, at + 1);
            wrong_word(random, book, number, k)
        },
    },
    Damage {
        number: 12,
        label: "a name twice",
        apply: |random, book| inserted(random, book, |_, name| Some(name.to_vec())),
    },
    Damage {
        number: 12,
        label: "a name twice but for case",
        apply: |random, book| inserted(random, book, other_case),
    },
    Damage {
        number: 12,
        label: "a name behind a longer one that starts with it",
        apply: |random, book| {
            inserted(random, book, |random, name| {
                let shorter = random.index(name.len());
                (shorter > 0).then(|| name[..shorter].to_vec())
            })
        },
    },
    Damage {
        number: 12,
        label: "names that rise only as raw bytes",
        apply: |random, book| {
            let number = any_chunk(random, book);
            let mut chunk = book.chunks[number as usize].clone();
            let fields = chunk.items[0].fields.clone();
            let (low, high) = random.pick(&[("/Z", "/["), ("/Z", "/_"), ("/A", "/`"), ("B", "a")]);
            chunk.items = vec![
                Item::new(low.as_bytes(), &fields),
                Item::new(high.as_bytes(), &fields),
            ];
            replaced(book, number, chunk)
        },
    },
    Damage {
        number: 11,
        label: "a quick word",
        apply: |random, book| {
            let (number, k) = some_word(random, book, 1)?;
            wrong_word(random, book, number, k)
        },
    },
    Damage {
        number: 11,
        label: "the last quick word",
        apply: |random, book| {
            let (number, _) = some_word(random, book, 1)?;
            let k = book.chunks[number as usize].words(book.density);
            wrong_word(random, book, number, k)
        },
    },
    Damage {
        number: 11,
        label: "quick words in the other direction",
        apply: |random, book| {
            let (number, _) = some_word(random, book, 2)?;
            let mut words = words_of(&book.chunks[number as usize], book.density);
            words.reverse();
            Some(set_words(book, number, &words))
        },
    },
    Damage {
        number: 11,
        label: "quick words four bytes apart",
        apply: |random, book| {
            let (number, _) = some_word(random, book, 2)?;
            let chunk = &book.chunks[number as usize];
            let words = words_of(chunk, book.density);
            if chunk.tail() < 4 * words.len() {
                return None;
            }
            set_words(book, number, &vec![0; words.len()]);
            for (k, &word) in (1..).zip(&words) {
                book.poke(Spot::Chunk(number, CHUNK - 4 * k), 2, word as u64);
            }
            Some(number)
        },
    },
    Damage {
        number: 11,
        label: "quick words that start with entry 0",
        apply: |random, book| {
            let (number, _) = some_word(random, book, 1)?;
            let mut words = words_of(&book.chunks[number as usize], book.density);
            words.rotate_right(1);
            words[0] = 0;
            Some(set_words(book, number, &words))
        },
    },
    Damage {
        number: 11,
        label: "quick words that leave padding out",
        apply: |random, book| {
            let (number, _) = some_word(random, book, 1)?;
            let chunk = &book.chunks[number as usize];
            let short = words_of(&chunk.short(), book.density);
            if short == words_of(chunk, book.density) {
                return None;
            }
            Some(set_words(book, number, &short))
        },
    },
];
