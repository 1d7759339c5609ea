//! Writing the head of a new book (FORMAT, Writer).

use crate::chunk::{
    quick_step, quick_words, read_entry, read_stored, Entry, Limits, Stored, CHUNK, INDEX_HEADER,
    LISTING_HEADER,
};
use crate::name::rise;
use crate::number::{encint, Reader};
use crate::open::{DIRECTORY_GUID, DIRECTORY_HEADER, FILE_GUID_1, FILE_GUID_2};
use crate::{require, Refusal, NONE};

const SECTION_ZERO: u64 = 0x60;
const DIRECTORY: u64 = 0x78;

/// The head for listing entries that stand one behind another. `out_len` is the length of the
/// output that a caller lends; the head is what is to be written to its front.
pub fn write_head(
    entries: &[u8],
    density: u32,
    time: u32,
    language: u32,
    content_length: u64,
    out_len: usize,
) -> Result<Vec<u8>, Refusal> {
    require(density <= 7 && content_length < 1 << 62, 18)?;
    let items = read_items(entries, content_length).ok_or(Refusal::new(18))?;

    let levels = plan(items, density);
    let count: usize = levels.iter().map(Vec::len).sum();
    require(count <= 4096 && levels.len() <= 5, 19)?;

    let content_start = DIRECTORY as usize + DIRECTORY_HEADER + CHUNK * count;
    require(content_start <= out_len, 20)?;

    let mut head = Head(Vec::with_capacity(content_start));
    head.file_header(time, language, count, content_length);
    head.directory_header(density, language, &levels);
    head.listing_chunks(&levels[0], density);
    for level in &levels[1..] {
        head.index_chunks(level, density);
    }
    assert_eq!(head.0.len(), content_start);
    Ok(head.0)
}

/// An entry to be put into a chunk: its name, and all its bytes, each number in its short form.
struct Item<'a> {
    name: &'a [u8],
    bytes: Vec<u8>,
}

/// The items of each chunk of a level, from left to right.
type Level<'a> = Vec<Vec<Item<'a>>>;

/// The entries given, if all of them keep the rules (FORMAT W2).
fn read_items(entries: &[u8], content_length: u64) -> Option<Vec<Item<'_>>> {
    let limits = Limits {
        density: 0, // this and the count do not matter to a listing entry
        count: 0,
        content_length,
    };
    let mut items = Vec::new();
    let mut reader = Reader::new(entries);
    while !reader.at_end() {
        let entry = read_entry(&mut reader, 0, &limits, read_stored)?;
        let item = listing_item(&entry);
        if entries[entry.own] != item.bytes {
            return None; // a number is padded
        }
        items.push(item);
    }
    let good = !items.is_empty() && rise(items.iter().map(|item| item.name));
    good.then_some(items)
}

/// A listing entry, written from its numbers (FORMAT W3).
fn listing_item<'a>(entry: &Entry<'a, Stored>) -> Item<'a> {
    let Stored {
        section,
        offset,
        size,
    } = entry.value;
    item(entry.name, &[section, offset, size])
}

/// The name with its length in front and these numbers behind it.
fn item<'a>(name: &'a [u8], numbers: &[u64]) -> Item<'a> {
    let mut bytes = encint(name.len() as u64);
    bytes.extend(name);
    bytes.extend(numbers.iter().flat_map(|&number| encint(number)));
    Item { name, bytes }
}

/// The levels of the tree, listing chunks first (FORMAT W9 to W11).
fn plan(items: Vec<Item>, density: u32) -> Vec<Level> {
    let mut levels = vec![fill(items, LISTING_HEADER, density)];
    let mut number = 0;
    loop {
        let below = &levels[levels.len() - 1];
        if below.len() == 1 {
            return levels;
        }
        let mut items = Vec::new();
        for chunk in below {
            items.push(item(chunk[0].name, &[number]));
            number += 1;
        }
        // At least three of the longest index entries fit into a chunk, so levels get shorter.
        levels.push(fill(items, INDEX_HEADER, density));
    }
}

/// Gives each chunk as many of the items left as fit (FORMAT W10).
fn fill(items: Vec<Item>, header: usize, density: u32) -> Level {
    let mut level: Level = Vec::new();
    let mut used = 0;
    for item in items {
        if let Some(chunk) = level.last_mut() {
            let c = chunk.len() as u64 + 1;
            let tail = 2 + 2 * quick_words(c, density.into()) as usize;
            if used + item.bytes.len() + tail <= CHUNK {
                used += item.bytes.len();
                chunk.push(item);
                continue;
            }
        }
        used = header + item.bytes.len();
        level.push(vec![item]);
    }
    level
}

/// The head as far as it is written.
struct Head(Vec<u8>);

impl Head {
    fn word(&mut self, value: u32) {
        self.0.extend(value.to_le_bytes());
    }

    fn long(&mut self, value: u64) {
        self.0.extend(value.to_le_bytes());
    }

    /// The file header and section 0 (FORMAT W3 to W8).
    fn file_header(&mut self, time: u32, language: u32, count: usize, content_length: u64) {
        let directory_length = (DIRECTORY_HEADER + CHUNK * count) as u64;
        let content_start = DIRECTORY + directory_length;
        self.0.extend(b"ITSF");
        self.word(3);
        self.word(0x60);
        self.word(1);
        self.word(time);
        self.word(language);
        self.0.extend(FILE_GUID_1);
        self.0.extend(FILE_GUID_2);
        self.long(SECTION_ZERO);
        self.long(24);
        self.long(DIRECTORY);
        self.long(directory_length);
        self.long(content_start);

        self.word(0x1FE);
        self.word(0);
        self.long(content_start + content_length);
        self.word(0);
        self.word(0);
    }

    fn directory_header(&mut self, density: u32, language: u32, levels: &[Level]) {
        let count: usize = levels.iter().map(Vec::len).sum();
        let root = match levels.len() {
            1 => NONE, // FORMAT W12
            _ => count as u32 - 1,
        };
        self.0.extend(b"ITSP");
        self.word(1);
        self.word(0x54);
        self.word(0x0A);
        self.word(CHUNK as u32);
        self.word(density);
        self.word(levels.len() as u32);
        self.word(root);
        self.word(0);
        self.word(levels[0].len() as u32 - 1);
        self.word(NONE);
        self.word(count as u32);
        self.word(language);
        self.0.extend(DIRECTORY_GUID);
        self.word(0x54);
        self.word(NONE);
        self.word(NONE);
        self.word(NONE);
    }

    fn listing_chunks(&mut self, level: &Level, density: u32) {
        let last = level.len() - 1;
        for (number, items) in level.iter().enumerate() {
            self.0.extend(b"PMGL");
            self.word(tail_length(items, LISTING_HEADER));
            self.word(0);
            self.word(if number > 0 { number as u32 - 1 } else { NONE });
            self.word(if number < last {
                number as u32 + 1
            } else {
                NONE
            });
            self.items_and_tail(items, LISTING_HEADER, density);
        }
    }

    fn index_chunks(&mut self, level: &Level, density: u32) {
        for items in level {
            self.0.extend(b"PMGI");
            self.word(tail_length(items, INDEX_HEADER));
            self.items_and_tail(items, INDEX_HEADER, density);
        }
    }

    /// The rest of a chunk, behind its header (FORMAT C3 to C8, W13).
    fn items_and_tail(&mut self, items: &[Item], header: usize, density: u32) {
        let mut starts = Vec::new();
        let mut at = 0;
        for item in items {
            starts.push(at);
            at += item.bytes.len();
            self.0.extend(&item.bytes);
        }
        let step = quick_step(density.into()) as usize;
        let words = quick_words(items.len() as u64, density.into()) as usize;
        let free = CHUNK - header - at - 2 - 2 * words;
        self.0.resize(self.0.len() + free, 0);
        for k in (1..=words).rev() {
            self.0.extend((starts[k * step] as u16).to_le_bytes());
        }
        self.0.extend((items.len() as u16).to_le_bytes());
    }
}

/// All that the header and the items leave of a chunk.
fn tail_length(items: &[Item], header: usize) -> u32 {
    let used: usize = items.iter().map(|item| item.bytes.len()).sum();
    (CHUNK - header - used) as u32
}
