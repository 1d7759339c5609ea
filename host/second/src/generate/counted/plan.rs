//! A tree with names made of ranks, and what is answered in it by numbers.

use super::maker::{may_fit, Maker};
use super::way::{Draw, Way};
use super::{Extent, Told};
use crate::generate::plan::Book;
use crate::generate::ranked::{Rank, Ranked};
use crate::generate::standing::Standing;
use crate::generate::Random;
use crate::{Answer, Record};

/// A planned tree.
pub struct Plan {
    pub book: Book,
    pub record: Record,
    /// The ranks of the entries of each chunk, by the chunk's number.
    ranks: Vec<Vec<Rank>>,
    ranked: Ranked,
}

impl Plan {
    /// A tree in which a name leads through these chunks; nothing if their entries do not fit.
    pub fn of(random: &mut Random, draw: &Draw, ways: &[Way]) -> Option<Plan> {
        let most: Vec<usize> = ways.iter().map(|way| way.first + 2 * way.entries).collect();
        let ranked = Ranked::some(random, &most);
        if !may_fit(draw, ways, &ranked) {
            return None;
        }
        let mut maker = Maker::new(random, ranked);
        let book = maker.book(random, draw, ways);
        let mut plan = Plan {
            record: book.record(),
            ranks: maker.ranks_of(&book),
            ranked: maker.ranked,
            book,
        };
        if draw.extent == Extent::Descent {
            plan.lead_anywhere(random, ways);
        }
        let mut chunks = plan.book.chunks.iter();
        let fits = chunks.all(|chunk| chunk.fits(draw.density));
        fits.then_some(plan)
    }

    /// Gives the index entries that the descent does not take any child below the count, which
    /// becomes higher than there are chunks in most cases.
    fn lead_anywhere(&mut self, random: &mut Random, ways: &[Way]) {
        let chunks = self.book.count().into();
        let more = chunks + random.below(100);
        self.record.count = random.pick(&[chunks, more, 127, 127, 4096]);
        let mut at = self.book.root;
        for way in &ways[..ways.len() - 1] {
            let items = &mut self.book.chunks[at as usize].items;
            let child = items[way.taken()].fields[0];
            let others = (0..).zip(items.iter_mut());
            for (_, item) in others.filter(|(entry, _)| *entry != way.taken()) {
                item.fields[0] = random.below(self.record.count);
            }
            at = child as u32;
        }
    }

    /// Lowers the count to that of the chunks: damage holds children to it.
    pub fn lead_inside(&mut self, random: &mut Random) {
        let count = self.book.count().into();
        self.record.count = count;
        for number in self.book.indexes() {
            let items = self.book.chunks[number as usize].items.iter_mut();
            for item in items.filter(|item| item.fields[0] >= count) {
                item.fields[0] = random.below(count);
            }
        }
    }

    /// Where a descent starts.
    pub fn top(&self) -> u32 {
        match self.book.depth {
            1 => self.book.first,
            _ => self.book.root,
        }
    }

    /// The answer for the name of a rank. In chunks of one descent alone it has to be the name that
    /// leads through them.
    pub fn told(&self, random: &mut Random, asked: &Rank) -> Told {
        let mut at = self.top();
        let mut trail = Vec::new();
        let mut comparisons = 0;
        let report = loop {
            trail.push(at);
            let standing = self.standing(at, asked);
            comparisons += standing.comparisons(self.book.density.into());
            let chunk = &self.book.chunks[at as usize];
            if chunk.is_listing() {
                let listed = self.book.listed_of(at);
                break standing.equal.then(|| listed[standing.below].report);
            }
            match standing.taken() {
                Some(taken) => at = chunk.items[taken].fields[0] as u32,
                None => break None,
            }
        };
        Told {
            name: self.ranked.name(random, asked),
            met: trail.iter().map(|&number| number.into()).collect(),
            answer: match report {
                Some(report) => Answer::Found {
                    report,
                    trail,
                    comparisons,
                },
                None => Answer::Absent { trail, comparisons },
            },
        }
    }

    fn standing(&self, chunk: u32, asked: &Rank) -> Standing {
        let ranks = &self.ranks[chunk as usize];
        Standing {
            entries: ranks.len(),
            below: ranks.iter().filter(|&rank| rank < asked).count(),
            equal: ranks.contains(asked),
        }
    }

    /// The rank of an entry, or one right behind it or behind all entries below an index entry, or
    /// in front of all.
    pub fn some_rank(&self, random: &mut Random) -> Rank {
        let any = &self.ranks[random.index(self.ranks.len())];
        let largest = self.ranks.iter().max_by_key(|ranks| ranks.len());
        let chunk = random.pick(&[any, largest.unwrap_or(any)]);
        let mut rank = chunk[random.index(chunk.len())].clone();
        match random.below(8) {
            0 => rank[0] = 0,
            1..=3 => {
                let level = random.index(rank.len());
                rank[level] += 1;
            }
            _ => {}
        }
        rank
    }
}
