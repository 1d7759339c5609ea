//! The tree of index chunks over the chain: refusal 14.

use super::bytes::Bytes;
use super::chain;
use super::chunk::{place_of, Chunk, Item};
use super::header::Directory;
use super::Finding;
use crate::text::shown;

/// A walk through the tree from left to right. It ends at the first leaf that is not the chain's, so that it meets no more chunks than there are
/// leaves and levels.
struct Walk<'a> {
    file: Bytes<'a>,
    directory: &'a Directory,
    chain: Vec<u64>,
    leaves: usize,
    met: Vec<bool>,
}

pub fn finding(file: Bytes, directory: &Directory) -> Option<Finding> {
    // At depth 1 there is no root and no rule of the tree that could fail.
    if directory.root >= directory.count {
        return None;
    }
    let mut walk = Walk {
        file,
        directory,
        chain: chain::chunks(file, directory)?,
        leaves: 0,
        met: vec![false; directory.count as usize],
    };
    walk.root()
        .or_else(|| walk.below(directory.root, directory.depth))
        .or_else(|| walk.rest())
}

impl<'a> Walk<'a> {
    fn chunk(&self, number: u64) -> Option<Chunk<'a>> {
        Chunk::read(self.file, self.directory, number)
    }

    /// T2: the root is an index chunk.
    fn root(&self) -> Option<Finding> {
        let root = self.directory.root;
        let holds = !self.chunk(root)?.listing;
        Finding::unless(holds, "T2", self.directory.start + 0x1C, || {
            format!("the root is {root}, a listing chunk")
        })
    }

    /// The first fault under an index chunk of some level.
    fn below(&mut self, number: u64, level: u64) -> Option<Finding> {
        self.met[number as usize] = true;
        let chunk = self.chunk(number)?;
        let items = chunk.items(self.directory).ok()?;
        items
            .iter()
            .find_map(|item| self.child(chunk.place, item, level - 1))
    }

    /// The first fault at the child of an entry, or under it.
    fn child(&mut self, place: u64, item: &Item, level: u64) -> Option<Finding> {
        let (number, place) = (item.child, place + item.name_at);
        let name = shown(item.name);
        let child = self.chunk(number)?;
        if child.listing != (level == 1) {
            let kind = if child.listing {
                "a listing"
            } else {
                "an index"
            };
            let found =
                format!("the child {number} of the entry {name} is {kind} chunk at level {level}");
            return Some(Finding::new("T3", place, found));
        }
        let items = child.items(self.directory).ok()?;
        let first = items.first()?.name;
        if first != item.name {
            let found = format!(
                "the entry has the name {name}, but its child {number} starts with {}",
                shown(first)
            );
            return Some(Finding::new("T4", place, found));
        }
        match level {
            1 => self.leaf(number, place),
            _ => self.below(number, level),
        }
    }

    /// T5: the next leaf is the chain's next chunk.
    fn leaf(&mut self, number: u64, place: u64) -> Option<Finding> {
        let want = self.chain.get(self.leaves).copied();
        self.leaves += 1;
        Finding::unless(want == Some(number), "T5", place, || match want {
            Some(want) => format!("the tree goes on with chunk {number}, the chain with {want}"),
            None => format!("the tree goes on with chunk {number}, but the chain has ended"),
        })
    }

    /// T5, T6: no chunk of the chain and no index chunk is left over.
    fn rest(&self) -> Option<Finding> {
        if let Some(number) = self.chain.get(self.leaves) {
            let found = format!("listing chunk {number} of the chain is not in the tree");
            return Some(Finding::new("T5", place_of(self.directory, *number), found));
        }
        let index = |n: u64| self.chunk(n).map_or(false, |chunk| !chunk.listing);
        let number = (0..self.directory.count).find(|n| !self.met[*n as usize] && index(*n))?;
        let found = format!("index chunk {number} is not in the tree");
        Some(Finding::new("T6", place_of(self.directory, number), found))
    }
}
