//! Good books.

use super::names::rising_names;
use super::padding::Padding;
use super::plan::{Book, Item, Planned, LENGTH, NAME_LENGTH, OFFSET, SECTION};
use super::Random;
use crate::chunk::{quick_step, quick_words, CHUNK, INDEX_HEADER, LISTING_HEADER};
use crate::NONE;
use std::iter::Peekable;

/// A good book of any depth.
pub fn book(random: &mut Random) -> Book {
    let depth = random.pick(&[1, 1, 1, 2, 2, 2, 2, 3, 3, 4, 5]);
    book_of_depth(random, depth)
}

/// What all chunks of a book have in common.
struct Common {
    density: u32,
    content_length: u64,
    padding: Padding,
}

impl Common {
    fn some(random: &mut Random) -> Common {
        let content_length = match random.below(4) {
            0 => random.pick(&[0, 0, 1, 2]),
            1 => random.pick(&[5, 127, 128]),
            _ => random.between(1..=3000),
        };
        Common::of_content(random, content_length)
    }

    fn of_content(random: &mut Random, content_length: u64) -> Common {
        Common {
            density: random.below(8) as u32,
            content_length,
            padding: Padding::of_some_book(random),
        }
    }

    /// A listing entry of this name.
    fn listing_item(&self, random: &mut Random, name: &[u8]) -> Item {
        let fields = stored_fields(random, self.content_length);
        self.padding.pad(random, Item::new(name, &fields))
    }
}

/// A good book of this depth, 1 to 5.
pub fn book_of_depth(random: &mut Random, depth: u32) -> Book {
    let common = Common::some(random);
    let levels = if depth == 2 && random.once_in(6) {
        full_root_levels(random, &common)
    } else {
        random_levels(random, &common, depth)
    };
    numbered(random, levels, &common)
}

/// A book of so many chunks, a thousand or more; with more than 4,096 only its count is wrong.
pub fn large_book(random: &mut Random, count: usize) -> Book {
    const CHILDREN: usize = 400; // with these names they fit at any density
    let indexes = (1..)
        .find(|indexes| (count - 2 - indexes + CHILDREN) / CHILDREN == *indexes)
        .expect("levels of this width");
    let common = Common::of_content(random, 1000);
    let listing: Level = (0..count - 1 - indexes)
        .map(|chunk| {
            let name = format!("{chunk:06}");
            vec![common.listing_item(random, name.as_bytes())]
        })
        .collect();
    // Padded, so many children would not fit.
    let short = Common {
        padding: Padding::NONE,
        ..common
    };
    let index = index_level(random, &listing, &short, CHILDREN);
    let root = index_level(random, &index, &short, CHILDREN);
    numbered(random, vec![listing, index, root], &short)
}

/// A good book with just these entries, one or more, whose names rise. They are spread over the
/// chunks at random and padded at random; so are the numbers of the chunks and all that is free.
pub fn book_of_items(random: &mut Random, items: &[Item], content_length: u64) -> Book {
    let common = Common::of_content(random, content_length);
    let listing = spread(random, items, &common);
    let mut levels = vec![listing];
    let mut most = random.pick(&[2, 3, 5, usize::MAX, usize::MAX]);
    while levels[levels.len() - 1].len() > 1 {
        let above = index_level(random, &levels[levels.len() - 1], &common, most);
        levels.push(above);
        most = usize::MAX; // three of the longest names or more, so levels get shorter
    }
    numbered(random, levels, &common)
}

/// A book with the entries of these chunks, listing chunks first and the root last. The field of an
/// index entry is the number of its child among the chunks of the level below. All else is random.
pub(super) fn book_of_levels(
    random: &mut Random,
    levels: Vec<Level>,
    density: u32,
    content_length: u64,
) -> Book {
    let common = Common {
        density,
        content_length,
        padding: Padding::NONE,
    };
    numbered(random, levels, &common)
}

/// Listing chunks for these entries. Behind the first of them each takes all that fits: few dozens
/// are needed, for which five levels do.
fn spread(random: &mut Random, items: &[Item], common: &Common) -> Level {
    const FEW: usize = 20;
    let mut level = Level::new();
    let mut room = Room::new(LISTING_HEADER, common.density);
    let mut most = 0;
    for item in items {
        let item = common.padding.pad(random, item.clone());
        let length = item.bytes().len();
        let last = level
            .last_mut()
            .filter(|chunk: &&mut Vec<Item>| chunk.len() < most);
        match last {
            Some(chunk) if room.take(length) => chunk.push(item),
            _ => {
                most = match level.len() {
                    0..=FEW => entry_limit(random, common.density),
                    _ => usize::MAX,
                };
                room = Room::new(LISTING_HEADER, common.density);
                room.take(length);
                level.push(vec![item]);
            }
        }
    }
    level
}

/// The entries of each chunk of a level, from left to right.
pub(super) type Level = Vec<Vec<Item>>;

/// A tree whose chunks take now few, now many entries.
fn random_levels(random: &mut Random, common: &Common, depth: u32) -> Vec<Level> {
    let many = depth > 1 && random.once_in(40); // so that a child takes two bytes
    let chunks = match random.below(4) {
        _ if depth == 1 => 1,
        _ if many => 140,
        0 => random.between(1..=3),
        _ => random.between(1..=9),
    };
    let wanted = match many {
        true => 600,
        false => random.pick(&[1, 4, 12, 40, 40, 150, 300, 900]) + chunks as usize,
    };
    let mut names = rising_names(random, wanted, CHUNK * chunks as usize)
        .into_iter()
        .peekable();
    let mut listing = Level::new();
    while names.peek().is_some() && (listing.len() as u64) < chunks {
        let most = match many {
            true => random.between(1..=4) as usize,
            false => entry_limit(random, common.density),
        };
        listing.push(listing_chunk(random, &mut names, common, most));
    }

    let mut levels = vec![listing];
    for level in 2..=depth {
        let most = if level == depth {
            usize::MAX
        } else {
            random.between(1..=5) as usize
        };
        let above = index_level(random, &levels[levels.len() - 1], common, most);
        levels.push(above);
    }
    keep_first_tree(&mut levels);
    levels
}

/// How many entries a chunk is to get: any, or about as many as make one more quick word.
fn entry_limit(random: &mut Random, density: u32) -> usize {
    let step = quick_step(density.into());
    match random.below(4) {
        0 => random.between(1..=4) as usize,
        1 => usize::MAX,
        _ => {
            let words = random.between(1..=3);
            (words * step + random.below(2)) as usize
        }
    }
}

/// The bytes of a chunk that are still free.
pub(super) struct Room {
    density: u32,
    used: usize,
    entries: u64,
}

impl Room {
    pub fn new(header: usize, density: u32) -> Room {
        Room {
            density,
            used: header,
            entries: 0,
        }
    }

    fn tail(&self, entries: u64) -> usize {
        2 + 2 * quick_words(entries.max(1), self.density.into()) as usize
    }

    /// Takes an entry of this length if it fits.
    pub fn take(&mut self, length: usize) -> bool {
        let fits = length <= self.longest();
        if fits {
            self.used += length;
            self.entries += 1;
        }
        fits
    }

    /// The length of the longest entry that fits.
    pub fn longest(&self) -> usize {
        (CHUNK - self.used).saturating_sub(self.tail(self.entries + 1))
    }

    fn left(&self) -> usize {
        CHUNK - self.used - self.tail(self.entries)
    }
}

/// The entries of a listing chunk with the names that come next, `most` of them at most.
fn listing_chunk(
    random: &mut Random,
    names: &mut Peekable<impl Iterator<Item = Vec<u8>>>,
    common: &Common,
    most: usize,
) -> Vec<Item> {
    let mut items = Vec::new();
    let mut room = Room::new(LISTING_HEADER, common.density);
    while items.len() < most {
        let name = match names.peek() {
            Some(name) => name,
            None => break,
        };
        let item = common.listing_item(random, name);
        if !room.take(item.bytes().len()) {
            break;
        }
        items.push(item);
        names.next();
    }
    if random.once_in(3) {
        match common.padding.is_some() && random.once_in(2) {
            true => pad_up(&mut items, room.left()),
            false => fill_up(random, &mut items, room.left()),
        }
    }
    items
}

/// Section, offset and length by the rules, often at their borders.
pub fn stored_fields(random: &mut Random, content_length: u64) -> [u64; 3] {
    let below_63 = u64::MAX >> 1;
    match random.below(4) {
        0 | 1 => {
            let inside = random.between(0..=content_length);
            let offset = random.pick(&[0, content_length, inside]);
            let inside = random.between(0..=content_length - offset);
            let size = random.pick(&[0, content_length - offset, inside]);
            [0, offset, size]
        }
        2 => {
            let section = random.pick(&[1, 2, 127, 128, 16_383, 16_384, 65_535]);
            [section, random.wide() & below_63, random.wide() & below_63]
        }
        _ => [1, random.below(100_000), random.below(100_000)],
    }
}

/// Lengthens offsets and lengths until nothing is left free, as far as they go.
fn fill_up(random: &mut Random, items: &mut [Item], mut left: usize) {
    for item in items {
        if left == 0 {
            return;
        }
        item.fields[0] = item.fields[0].max(1); // outside section 0 they are free
        for number in [OFFSET, LENGTH] {
            let now = item.numbers()[number].len();
            let wanted = (now + left).min(9);
            if wanted > now {
                let smallest = 1u64 << (7 * (wanted - 1));
                item.fields[number - 1] = random.between(smallest..=2 * smallest - 1);
                item.padding[number] = 0;
                left -= wanted - now;
            }
        }
    }
}

/// Pads numbers until nothing is left free, as far as they go.
fn pad_up(items: &mut [Item], mut left: usize) {
    for item in items {
        for number in [NAME_LENGTH, SECTION, OFFSET, LENGTH] {
            left -= item.pad(number, left);
        }
    }
}

/// Index entries for the chunks below, in chunks of at most `most` entries. The number below is
/// put in as the child for now; room for two bytes, and what pads them, is kept.
fn index_level(random: &mut Random, below: &Level, common: &Common, most: usize) -> Level {
    let mut level = Level::new();
    let mut room = Room::new(INDEX_HEADER, common.density);
    for (number, chunk) in below.iter().enumerate() {
        let item = Item::new(&chunk[0].name, &[number as u64]);
        let item = common.padding.pad(random, item);
        let length = item.with_fields(&[4095]).bytes().len();
        let fits = !level.is_empty() && level[level.len() - 1].len() < most && room.take(length);
        if !fits {
            level.push(Vec::new());
            room = Room::new(INDEX_HEADER, common.density);
            room.take(length);
        }
        let last = level.len() - 1;
        level[last].push(item);
    }
    level
}

/// Keeps the first chunk of the highest level and what is below it.
fn keep_first_tree(levels: &mut [Level]) {
    let mut kept = 1;
    for level in levels.iter_mut().rev() {
        level.truncate(kept);
        kept = level.iter().map(Vec::len).sum();
    }
}

/// Depth 2, with a root that has no free byte.
fn full_root_levels(random: &mut Random, common: &Common) -> Vec<Level> {
    let lengths = full_root_lengths(random, common.density);
    let mut listing = Level::new();
    for (number, &length) in lengths.iter().enumerate() {
        // The first byte sets the order, so the rest is free. Letters are avoided: they fold.
        let mut name = random.bytes(length);
        name[0] = b'{' + number as u8;
        let mut items = vec![common.listing_item(random, &name)];
        if length < 1024 && random.once_in(2) {
            name.push(random.below(256) as u8);
            items.push(common.listing_item(random, &name));
        }
        listing.push(items);
    }
    let children = (0..).zip(&listing);
    let root = children.map(|(number, chunk)| Item::new(&chunk[0].name, &[number]));
    let root = vec![root.collect()];
    vec![listing, root]
}

/// Name lengths of index entries with a child of one byte that fill a chunk exactly.
fn full_root_lengths(random: &mut Random, density: u32) -> Vec<usize> {
    loop {
        let c = random.between(4..=60) as usize;
        let words = quick_words(c as u64, density.into()) as usize;
        let space = CHUNK - INDEX_HEADER - 2 - 2 * words;
        let mut sizes = vec![space / c; c];
        for size in sizes.iter_mut().take(space % c) {
            *size += 1;
        }
        // An entry of 130 bytes cannot be: the length takes a second byte from 128 on.
        if !sizes.contains(&130) {
            let length = |size: usize| if size < 130 { size - 2 } else { size - 3 };
            return sizes.into_iter().map(length).collect();
        }
    }
}

/// Numbers the chunks, links them and chooses all that is free.
fn numbered(random: &mut Random, levels: Vec<Level>, common: &Common) -> Book {
    let depth = levels.len() as u32;
    let count: usize = levels.iter().map(Vec::len).sum();
    let mut numbers: Vec<u32> = (0..count as u32).collect();
    match random.below(4) {
        0 => {}
        1 => numbers.reverse(),
        _ => random.shuffle(&mut numbers),
    }
    let listing = numbers[..levels[0].len()].to_vec();
    let chunks = linked(levels, &numbers);

    let version = random.pick(&[2, 3, 3]);
    let mut gap = || random.pick(&[0, 0, 1, 8, 23, 24, 100]);
    let gaps = [gap(), gap(), if version == 2 { 0 } else { gap() }];
    Book {
        version,
        time: random.number() as u32,
        language: random.pick(&[0x409, 0x407, 0, NONE]),
        density: common.density,
        depth,
        root: match depth {
            1 => random.pick(&[NONE, 0]),
            _ => numbers[count - 1],
        },
        first: listing[0],
        last: listing[listing.len() - 1],
        chunks,
        section_first: version == 2 || random.once_in(2),
        gaps,
        content: random.bytes(common.content_length as usize),
        noise: match random.below(3) {
            0 => None,
            _ => Some(random.number()),
        },
        pokes: Vec::new(),
        cut: None,
        extra: 0,
    }
}

/// The chunks by their numbers, which are given in the order of the levels; listing chunks are
/// linked, and index entries get their children.
fn linked(levels: Vec<Level>, numbers: &[u32]) -> Vec<Planned> {
    let listing = &numbers[..levels[0].len()];
    let empty = Planned {
        links: None,
        items: Vec::new(),
    };
    let mut chunks = vec![empty; numbers.len()];
    let mut base = 0; // where the numbers of the level start
    let mut base_below = 0;
    for (level, planned) in levels.into_iter().enumerate() {
        let width = planned.len();
        for (at, mut items) in planned.into_iter().enumerate() {
            let mut links = None;
            if level == 0 {
                let previous = if at > 0 { listing[at - 1] } else { NONE };
                let next = listing.get(at + 1).copied().unwrap_or(NONE);
                links = Some((previous, next));
            } else {
                for item in &mut items {
                    let below = base_below + item.fields[0] as usize;
                    item.fields[0] = numbers[below].into();
                }
            }
            chunks[numbers[base + at] as usize] = Planned { links, items };
        }
        base_below = base;
        base += width;
    }
    chunks
}
