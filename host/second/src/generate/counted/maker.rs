//! The entries of a tree, made of ranks.

use super::way::{Draw, Way};
use super::Extent;
use crate::chunk::{quick_words, CHUNK, INDEX_HEADER, LISTING_HEADER};
use crate::generate::book::{book_of_levels, stored_fields, Level};
use crate::generate::padding::Padding;
use crate::generate::plan::{Book, Item};
use crate::generate::ranked::{Rank, Ranked};
use crate::generate::Random;
use std::collections::BTreeMap;

/// From so many entries on their numbers are short, so that more of them fit.
const MANY: usize = 100;

/// The ranks of the chunks of each level, the root's first.
type Ranks = Vec<Vec<Vec<Rank>>>;

/// Whether the chunks on the way have room for all names but the first, with numbers of one byte.
pub fn may_fit(draw: &Draw, ways: &[Way], ranked: &Ranked) -> bool {
    ways.iter().enumerate().all(|(level, way)| {
        let (header, numbers) = match level + 1 == ways.len() {
            true => (LISTING_HEADER, 4),
            false => (INDEX_HEADER, 2),
        };
        let words = quick_words(way.entries as u64, draw.density.into()) as usize;
        let entry = ranked.least_length(level) + numbers;
        header + entry * (way.entries - 1) + 2 + 2 * words <= CHUNK
    })
}

/// The ranks of all entries: those of the chunks on the way and, in a whole tree, few for each other
/// chunk.
fn ranks(random: &mut Random, draw: &Draw, ways: &[Way]) -> Ranks {
    let mut levels = Ranks::new();
    let mut parents = vec![vec![1; ways.len()]];
    let mut on_way = 0; // which of them leads on
    for (level, way) in ways.iter().enumerate() {
        let is_listing = level + 1 == ways.len();
        let mut chunk = |(at, parent): (usize, &Rank)| -> Vec<Rank> {
            let (entries, first) = match at == on_way {
                true => (way.entries, way.first),
                false if is_listing => (1 + random.index(3).min(way.entries - 1), 1),
                false => (1, 1),
            };
            let mut rank = parent.clone();
            let mut entry = |entry: usize| {
                rank[level] = first + 2 * entry;
                rank.clone()
            };
            (0..entries).map(&mut entry).collect()
        };
        let chunks: Vec<Vec<Rank>> = parents.iter().enumerate().map(&mut chunk).collect();
        let in_front: usize = chunks[..on_way].iter().map(Vec::len).sum();
        let taken = in_front + way.taken();
        parents = chunks.concat();
        on_way = taken;
        if draw.extent == Extent::Descent {
            parents = vec![parents.swap_remove(taken)];
            on_way = 0;
        }
        levels.push(chunks);
    }
    levels
}

/// Makes entries of ranks.
pub struct Maker {
    pub ranked: Ranked,
    /// The names that were made: an index entry has the very bytes of its child's first name.
    names: BTreeMap<Rank, Vec<u8>>,
    padding: Padding,
    content_length: u64,
}

impl Maker {
    pub fn new(random: &mut Random, ranked: Ranked) -> Maker {
        Maker {
            ranked,
            names: BTreeMap::new(),
            padding: Padding::of_some_book(random),
            content_length: random.pick(&[0, 5, 1000, 3000]),
        }
    }

    /// A tree in which a name leads through these chunks. In the chunks of one descent alone all
    /// index entries lead on along it.
    pub fn book(&mut self, random: &mut Random, draw: &Draw, ways: &[Way]) -> Book {
        let ranks = ranks(random, draw, ways);
        let levels = self.levels(random, &ranks, draw.extent);
        book_of_levels(random, levels, draw.density, self.content_length)
    }

    /// The entries of all levels, those of the listing chunks first.
    fn levels(&mut self, random: &mut Random, ranks: &Ranks, extent: Extent) -> Vec<Level> {
        let mut levels = Vec::new();
        for (level, chunks) in ranks.iter().enumerate().rev() {
            let mut child = 0;
            let mut made = Level::new();
            for chunk in chunks {
                let many = chunk.len() >= MANY;
                let mut items = Vec::new();
                for rank in chunk {
                    let fields = match level + 1 == ranks.len() {
                        true => self.stored(random, many),
                        false => vec![child],
                    };
                    items.push(self.item(random, rank, &fields));
                    child += u64::from(extent == Extent::Whole);
                }
                made.push(items);
            }
            levels.push(made);
        }
        levels
    }

    fn stored(&self, random: &mut Random, many: bool) -> Vec<u64> {
        match many {
            true => vec![random.between(1..=9), random.below(128), random.below(128)],
            false => stored_fields(random, self.content_length).to_vec(),
        }
    }

    fn item(&mut self, random: &mut Random, rank: &Rank, fields: &[u64]) -> Item {
        if !self.names.contains_key(rank) {
            let name = self.ranked.name(random, rank);
            self.names.insert(rank.clone(), name);
        }
        self.padding
            .pad(random, Item::new(&self.names[rank], fields))
    }

    /// The ranks of the entries of each chunk of a book that was made of such entries.
    pub fn ranks_of(&self, book: &Book) -> Vec<Vec<Rank>> {
        let ranks: BTreeMap<&Vec<u8>, &Rank> =
            self.names.iter().map(|(rank, name)| (name, rank)).collect();
        let chunk_ranks = |items: &[Item]| -> Vec<Rank> {
            let ranks = items.iter().map(|item| ranks[&item.name].clone());
            ranks.collect()
        };
        let chunks = book.chunks.iter();
        chunks.map(|chunk| chunk_ranks(&chunk.items)).collect()
    }
}
