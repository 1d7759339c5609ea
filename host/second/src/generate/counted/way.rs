//! How the chunks that a name leads through are filled, level by level.

use super::Extent;
use crate::generate::standing::{groups, halvings, step};
use crate::generate::Random;

/// A chunk that the asked name leads through, or ends in.
#[derive(Debug, Clone, Copy)]
pub struct Way {
    pub entries: usize,
    /// The number of entry 0 in its level; entry i has one that is higher by 2i.
    pub first: usize,
    /// The asked number. It is that of an entry, or lies between two, or in front of all or behind.
    pub asked: usize,
}

impl Way {
    /// Asks for an entry of a chunk.
    pub fn at((entries, entry): (usize, usize)) -> Way {
        Way {
            entries,
            first: 1,
            asked: 1 + 2 * entry,
        }
    }

    /// Asks for what comes right behind an entry.
    pub fn behind(chunk: (usize, usize)) -> Way {
        let mut way = Way::at(chunk);
        way.asked += 1;
        way
    }

    /// The entry that is taken, the last one for a name that is above all.
    pub fn taken(&self) -> usize {
        let entry = self.asked.saturating_sub(self.first) / 2;
        entry.min(self.entries - 1)
    }
}

/// What is drawn before the ways.
#[derive(Debug, Clone, Copy)]
pub struct Draw {
    pub extent: Extent,
    pub density: u32,
    pub depth: usize,
}

impl Draw {
    pub fn some(random: &mut Random, extent: Extent) -> Draw {
        let depth = match extent {
            Extent::Whole => random.pick(&[1, 1, 2, 2, 3, 4, 5]),
            Extent::Descent => random.pick(&[2, 3, 4, 5]),
        };
        Draw {
            extent,
            density: random.below(8) as u32,
            depth,
        }
    }

    /// How many entries a group has that is full.
    fn step(&self) -> usize {
        step(self.density.into())
    }

    /// How many entries the chunk of a level may get, the root's being 0: as many as fit at density 0
    /// with names of two and of three bytes. In a whole tree each entry of an index chunk stands for
    /// a chunk.
    fn most(&self, level: usize) -> usize {
        const INDEX: [usize; 6] = [0, 0, 140, 34, 17, 10];
        match self.extent {
            _ if level + 1 == self.depth => 580,
            Extent::Whole => INDEX[self.depth],
            Extent::Descent => 680,
        }
    }

    /// A number of groups that can all be full, often a power of two; nothing if not even one can be.
    fn full_groups(&self, random: &mut Random, level: usize) -> Option<usize> {
        let most = self.most(level) / self.step();
        if most == 0 {
            return None;
        }
        let any = random.between(1..=most as u64) as usize;
        let few = random.between(1..=4) as usize;
        let power = 1 << random.below(10);
        Some(random.pick(&[any, few, few, power, power]).min(most))
    }

    /// A chunk and an entry of it with which the search reaches its bound, as does one for what
    /// comes right behind that entry: the last of a full group that is halved most often.
    pub fn bound(&self, random: &mut Random, level: usize) -> Option<(usize, usize)> {
        let (step, groups) = (self.step(), self.full_groups(random, level)?);
        let often = halvings(groups);
        let most = often.iter().max();
        let deepest: Vec<usize> = (0..groups).filter(|&at| often.get(at) == most).collect();
        let group = random.pick(&deepest);
        let any = random.between(1..=step as u64) as usize;
        let last = match group + 1 == groups {
            true => step,
            false => random.pick(&[1, any, step, step]),
        };
        Some(((groups - 1) * step + last, group * step + step - 1))
    }

    /// A chunk and the first entry of one of its groups.
    pub fn front(&self, random: &mut Random, level: usize) -> (usize, usize) {
        let (entries, _) = self.any(random, level);
        let groups = groups(entries, self.density.into());
        (entries, random.index(groups) * self.step())
    }

    /// Any chunk and entry, few entries as often as many.
    pub fn any(&self, random: &mut Random, level: usize) -> (usize, usize) {
        let most = self.most(level);
        let some = random.between(1..=most as u64) as usize;
        let few = random.between(1..=most.min(5) as u64) as usize;
        let around = self.step() * random.between(1..=3) as usize + random.index(2);
        let entries = random.pick(&[some, few, around]).min(most);
        (entries, random.index(entries))
    }
}
