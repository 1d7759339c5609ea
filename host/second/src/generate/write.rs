//! Input for the writer, good and bad.

use super::book::{stored_fields, Room};
use super::damage::{Bounds, ENTRY_BREAKS};
use super::names::{other_case, rising_names};
use super::padding::leading;
use super::plan::{Item, LENGTH, NAME_LENGTH, OFFSET, SECTION};
use super::{choose, labels_of, Aim, Call, Case, Input, Kind, Random};
use crate::chunk::{INDEX_HEADER, LISTING_HEADER};
use crate::number::encint;

pub fn labels() -> Vec<&'static str> {
    labels_of(WRITES)
}

/// Entries that the writer takes, for this length of content.
pub fn good_items(random: &mut Random, content_length: u64) -> Vec<Item> {
    let wanted = random.pick(&[1, 2, 6, 40, 150, 400]);
    rising_names(random, wanted, 100_000)
        .iter()
        .map(|name| Item::new(name, &stored_fields(random, content_length)))
        .collect()
}

/// Entries with the longest names, of which three fit into a chunk of either kind. So 3 to the
/// fifth are the most that the greatest depth can hold.
pub fn deep_items(random: &mut Random, entries: usize) -> Vec<Item> {
    let name = |number: usize| {
        let mut name = format!("/{number:05}").into_bytes();
        name.extend(random.bytes(1024 - 6));
        name
    };
    (0..entries)
        .map(name)
        .map(|name| Item::new(&name, &[1, 0, 0]))
        .collect()
}

/// Entries for this many listing chunks that are full to the last byte at density 2 and above.
/// Each starts with a short name, so that the index stays small.
pub fn wide_entries(chunks: usize) -> Vec<u8> {
    let mut entries = Vec::new();
    for chunk in 0..chunks {
        for (letter, length) in (b'a'..).zip([6, 1024, 1024, 1024, 972]) {
            let mut name = format!("{chunk:06}").into_bytes();
            name.resize(length, letter);
            entries.extend(Item::new(&name, &[0, 0, 0]).bytes());
        }
    }
    entries
}

/// An entry of 12 to 1,029 bytes; `number` and `letter` set its place in the order.
fn sized_item(number: usize, letter: u8, size: usize) -> Item {
    let mut name = format!("{number:05}").into_bytes();
    // No name makes 132 bytes with three short numbers: from 128 on its length takes two bytes.
    let (length, section) = match size {
        ..=131 => (size - 4, 1),
        132 => (127, 128),
        _ => (size - 5, 1),
    };
    name.resize(length, letter);
    Item::new(&name, &[section, 0, 0])
}

/// A size of 12 to `most` bytes that just fits, just does not, or is any other.
fn size_around(random: &mut Random, room: &Room, most: usize) -> usize {
    let longest = room.longest();
    match random.below(3) {
        0 => random.between(12..=60) as usize,
        1 if longest <= most => (longest + random.index(3))
            .saturating_sub(1)
            .clamp(12, most),
        _ => random.between(12..=most as u64) as usize,
    }
}

/// Puts an entry into the room, or into that of a new chunk.
fn put(room: &mut Room, size: usize, header: usize, density: u32) {
    if !room.take(size) {
        *room = Room::new(header, density);
        room.take(size);
    }
}

/// Entries of which many just fit into their listing chunk, or just do not.
fn tight_listing(random: &mut Random, density: u32) -> Vec<Item> {
    let mut room = Room::new(LISTING_HEADER, density);
    let mut items = Vec::new();
    for number in 0..random.index(150) + 2 {
        let size = size_around(random, &room, 1029);
        put(&mut room, size, LISTING_HEADER, density);
        items.push(sized_item(number, b'a', size));
    }
    items
}

/// Entries for full listing chunks, of whose index entries many just fit, or just do not.
fn tight_index(random: &mut Random, density: u32) -> Vec<Item> {
    let mut index = Room::new(INDEX_HEADER, density);
    let mut items = Vec::new();
    for number in 0..random.pick(&[8, 30, 60, 150]) {
        // The index entry has a child in place of three numbers of one byte each.
        let child = encint(number as u64).len();
        let first = size_around(random, &index, 880) + 3 - child;
        let first = sized_item(number, b'a', first);
        let size = Item::new(&first.name, &[number as u64]).bytes().len();
        put(&mut index, size, INDEX_HEADER, density);

        let mut room = Room::new(LISTING_HEADER, density);
        room.take(first.bytes().len());
        items.push(first);
        for letter in b'b'.. {
            // Less than 12 bytes are left at the end: the next first entry does not fit.
            let size = match room.longest() {
                1080.. => 1029,
                left @ 1030.. => left / 2,
                left @ 12.. => left,
                _ => break,
            };
            room.take(size);
            items.push(sized_item(number, letter, size));
        }
    }
    items
}

fn joined(items: &[Item]) -> Vec<u8> {
    let entries: Vec<Vec<u8>> = items.iter().map(Item::bytes).collect();
    entries.concat()
}

/// Good entries, and the input that has them, but for the length of the output.
struct Writing {
    items: Vec<Item>,
    input: Input,
}

impl Writing {
    fn good(random: &mut Random) -> Writing {
        let content_length = match random.below(3) {
            0 => random.pick(&[0, 1, 5, 127, 128]),
            1 => random.below(20_000),
            _ => random.wide() >> 2,
        };
        let items = good_items(random, content_length);
        let input = Input {
            entries: joined(&items),
            density: random.below(8) as u32,
            time: random.number() as u32,
            language: random.number() as u32,
            content_length,
            out_len: random.pick(&[0, 203, 4299, 100_000]),
        };
        Writing { items, input }
    }

    fn replace(&mut self, items: Vec<Item>) {
        self.items = items;
        self.join();
    }

    fn join(&mut self) {
        self.input.entries = joined(&self.items);
    }

    /// How long the head is if there is one.
    fn head_length(&self) -> Option<usize> {
        let head = self.input.head_within(usize::MAX);
        head.ok().map(|head| head.len())
    }

    /// Lends as much output as the head needs, or more. The input has to be good.
    fn lend_enough(&mut self, random: &mut Random) -> Option<Aim> {
        self.input.out_len = self.head_length()? + random.pick(&[0, 0, 1, 1000]);
        Some(Aim::Good)
    }

    /// Breaks an entry.
    fn break_entry(&mut self, random: &mut Random, at: usize) -> Option<Aim> {
        let bounds = Bounds {
            content_length: self.input.content_length,
            count: 0,
        };
        let breaks = random.pick(&ENTRY_BREAKS);
        self.items[at].raw = Some(breaks(random, &self.items[at], &bounds)?);
        self.join();
        Some(Aim::refused(18))
    }

    /// Pads a number of the first entry, of the last or of one between them; nothing if there is no
    /// room for a leading byte (FORMAT W2).
    fn pad_number(&mut self, random: &mut Random, number: usize) -> Option<Aim> {
        let last = self.items.len() - 1;
        let at = random.pick(&[0, last / 2, last]);
        self.pad_at(random, at, number)
    }

    fn pad_at(&mut self, random: &mut Random, at: usize, number: usize) -> Option<Aim> {
        let padded = self.items[at].pad(number, leading(random));
        self.join();
        (padded > 0).then(|| Aim::refused(18))
    }
}

/// A call of the writer, of some kind.
pub fn case(random: &mut Random) -> Case {
    let (label, writing, aim) = choose(random, WRITES, Writing::good);
    Case {
        label,
        file: Vec::new(),
        call: Call::Write(writing.input),
        aim,
    }
}

const WRITES: &[Kind<Writing>] = &[
    Kind {
        label: "head",
        change: |random, writing| writing.lend_enough(random),
    },
    Kind {
        label: "head with listing chunks about full",
        change: |random, writing| {
            writing.replace(tight_listing(random, writing.input.density));
            writing.lend_enough(random)
        },
    },
    Kind {
        label: "head with index chunks about full",
        change: |random, writing| {
            writing.replace(tight_index(random, writing.input.density));
            writing.lend_enough(random) // nothing if the tree is too deep
        },
    },
    Kind {
        label: "head on both sides of each depth",
        change: |random, writing| {
            let entries = random.pick(&[1, 3, 4, 9, 10, 27, 28, 81, 82, 242, 243]);
            writing.replace(deep_items(random, entries));
            writing.lend_enough(random)
        },
    },
    Kind {
        label: "writer without entries",
        change: |_, writing| {
            writing.input.entries.clear();
            Some(Aim::refused(18))
        },
    },
    Kind {
        label: "writer with a cut entry",
        change: |random, writing| {
            let length = writing.input.entries.len();
            let last = writing.items.last()?.bytes().len();
            let any = random.between(1..=last as u64 - 1) as usize;
            let kept = random.pick(&[length - 1, length - last + 1, length - any]);
            writing.input.entries.truncate(kept);
            Some(Aim::refused(18))
        },
    },
    Kind {
        label: "writer with a broken entry",
        change: |random, writing| {
            let at = random.index(writing.items.len());
            writing.break_entry(random, at)
        },
    },
    Kind {
        label: "writer with a padded name length",
        change: |random, writing| writing.pad_number(random, NAME_LENGTH),
    },
    Kind {
        label: "writer with a padded section",
        change: |random, writing| writing.pad_number(random, SECTION),
    },
    Kind {
        label: "writer with a padded offset",
        change: |random, writing| writing.pad_number(random, OFFSET),
    },
    Kind {
        label: "writer with a padded length",
        change: |random, writing| writing.pad_number(random, LENGTH),
    },
    Kind {
        label: "writer with too deep a tree and a padded last entry",
        change: |random, writing| {
            writing.replace(deep_items(random, 250));
            let number = random.pick(&[NAME_LENGTH, SECTION, OFFSET, LENGTH]);
            writing.pad_at(random, 249, number)
        },
    },
    Kind {
        label: "writer with a name twice",
        change: |random, writing| {
            let at = random.index(writing.items.len());
            let again = writing.items[at].clone();
            writing.items.insert(at + 1, again);
            writing.join();
            Some(Aim::refused(18))
        },
    },
    Kind {
        label: "writer with a name twice but for case",
        change: |random, writing| {
            let at = random.index(writing.items.len());
            let mut again = writing.items[at].clone();
            again.name = other_case(random, &again.name)?;
            writing.items.insert(at + 1, again);
            writing.join();
            Some(Aim::refused(18))
        },
    },
    Kind {
        label: "writer with names that fall",
        change: |random, writing| {
            if writing.items.len() < 2 {
                return None;
            }
            let at = random.index(writing.items.len() - 1);
            writing.items.swap(at, at + 1);
            writing.join();
            Some(Aim::refused(18))
        },
    },
    Kind {
        label: "writer with a high density",
        change: |random, writing| {
            writing.input.density = random.pick(&[8, 9, 32, 64, 256, 1 << 31, u32::MAX]);
            Some(Aim::refused(18))
        },
    },
    Kind {
        label: "writer with a high content length",
        change: |random, writing| {
            let high = [1 << 62, (1 << 62) + 1, 1 << 63, u64::MAX];
            writing.input.content_length = random.pick(&high);
            Some(Aim::refused(18))
        },
    },
    Kind {
        label: "writer with the highest content length",
        change: |random, writing| {
            writing.input.content_length = (1 << 62) - 1;
            writing.lend_enough(random)
        },
    },
    Kind {
        label: "writer with too deep a tree",
        change: |random, writing| {
            // 243 entries fill 81 listing chunks, below a tree of depth 5.
            let entries = random.pick(&[244, 244, 250, 300]);
            writing.replace(deep_items(random, entries));
            Some(Aim::refused(19))
        },
    },
    Kind {
        label: "writer with too deep a tree and a broken last entry",
        change: |random, writing| {
            writing.replace(deep_items(random, 250));
            writing.break_entry(random, 249)
        },
    },
    Kind {
        label: "writer with short output",
        change: |random, writing| {
            let length = writing.head_length()?;
            writing.input.out_len =
                random.pick(&[0, 203, 4299, length - 1, length - 1, length - 4096]);
            Some(Aim::refused(20))
        },
    },
];
