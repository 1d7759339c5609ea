//! Damage to what chunks have to do with each other: refusals 13 and 14.

use super::{Damage, NOWHERE};
use crate::generate::names::other_case;
use crate::generate::plan::{Book, Item, Planned};
use crate::generate::Random;
use crate::{compare, NONE};
use std::cmp::Ordering;

/// The chain, if it has at least this many chunks.
fn long_chain(book: &Book, least: usize) -> Option<Vec<u32>> {
    let chain = book.chain();
    (chain.len() >= least).then_some(chain)
}

pub fn set_previous(book: &mut Book, chunk: u32, previous: u32) -> Option<u32> {
    let links = book.chunks[chunk as usize].links.as_mut()?;
    if links.0 == previous {
        return None;
    }
    links.0 = previous;
    NOWHERE
}

pub fn set_next(book: &mut Book, chunk: u32, next: u32) -> Option<u32> {
    let links = book.chunks[chunk as usize].links.as_mut()?;
    if links.1 == next {
        return None;
    }
    links.1 = next;
    NOWHERE
}

/// Any number where a chunk number is expected, mostly a bad one.
pub fn any_number(random: &mut Random, book: &Book) -> u32 {
    let inside = random.index(book.chunks.len()) as u32;
    let count = book.count();
    random.pick(&[inside, inside, count, count + 1, 0x8000_0000, NONE - 1])
}

/// An index chunk and a place in it, if there are that many entries.
pub fn index_entry(random: &mut Random, book: &Book, least: usize) -> Option<(u32, usize)> {
    let indexes = book.indexes();
    if indexes.is_empty() {
        return None;
    }
    let chunk = random.pick(&indexes);
    let entries = book.chunks[chunk as usize].items.len();
    (entries >= least).then(|| (chunk, random.index(entries)))
}

/// Gives an index entry another name that still rises between its neighbours.
pub fn rename(book: &mut Book, chunk: u32, at: usize, name: Vec<u8>) -> Option<u32> {
    let mut changed = book.chunks[chunk as usize].clone();
    changed.items[at].name = name;
    let names: Vec<&Vec<u8>> = changed.items.iter().map(|item| &item.name).collect();
    let rises = names
        .windows(2)
        .all(|pair| compare(pair[0], pair[1]) == Ordering::Less);
    if !rises || !changed.fits(book.density) {
        return None;
    }
    book.chunks[chunk as usize] = changed;
    NOWHERE
}

fn set_child(book: &mut Book, chunk: u32, at: usize, child: u32) -> Option<u32> {
    let mut changed = book.chunks[chunk as usize].clone();
    let field = &mut changed.items[at].fields[0];
    if *field == u64::from(child) {
        return None;
    }
    *field = child.into();
    if !changed.fits(book.density) {
        return None;
    }
    book.chunks[chunk as usize] = changed;
    NOWHERE
}

/// Two index chunks that stand side by side under one parent: the parent, the place of the second
/// one's entry in it, and both. The first of them has entries to spare.
fn neighbours(random: &mut Random, book: &Book) -> Option<(u32, usize, u32, u32)> {
    let (parent, at) = index_entry(random, book, 2)?;
    let items = &book.chunks[parent as usize].items;
    let one = items[at.checked_sub(1)?].fields[0] as u32;
    let two = items[at].fields[0] as u32;
    let index = |number: u32| !book.chunks[number as usize].is_listing();
    let spare = book.chunks[one as usize].items.len() >= 2;
    (index(one) && index(two) && spare).then_some((parent, at, one, two))
}

pub const DAMAGES: &[Damage] = &[
    Damage {
        number: 13,
        label: "first chunk has a previous",
        apply: |random, book| {
            let previous = any_number(random, book);
            set_previous(book, book.first, previous)
        },
    },
    Damage {
        number: 13,
        label: "last chunk has a next",
        apply: |random, book| {
            let next = any_number(random, book);
            set_next(book, book.last, next)
        },
    },
    Damage {
        number: 13,
        label: "last chunk leads to the first",
        apply: |random, book| {
            // With the previous set too, the chain is a ring.
            if random.once_in(2) {
                set_previous(book, book.first, book.last);
            }
            set_next(book, book.last, book.first)
        },
    },
    Damage {
        number: 13,
        label: "a previous is another one",
        apply: |random, book| {
            let chain = long_chain(book, 2)?;
            let chunk = random.pick(&chain[1..]);
            let previous = any_number(random, book);
            set_previous(book, chunk, previous)
        },
    },
    Damage {
        number: 13,
        label: "a previous is none",
        apply: |random, book| {
            let chain = long_chain(book, 2)?;
            set_previous(book, random.pick(&chain[1..]), NONE)
        },
    },
    Damage {
        number: 13,
        label: "a next is another one",
        apply: |random, book| {
            let chain = long_chain(book, 2)?;
            let next = any_number(random, book);
            set_next(book, random.pick(&chain[..chain.len() - 1]), next)
        },
    },
    Damage {
        number: 13,
        label: "a next is none",
        apply: |random, book| {
            let chain = long_chain(book, 2)?;
            set_next(book, random.pick(&chain[..chain.len() - 1]), NONE)
        },
    },
    Damage {
        number: 13,
        label: "a next skips a chunk",
        apply: |random, book| {
            let chain = long_chain(book, 3)?;
            let at = random.index(chain.len() - 2);
            set_next(book, chain[at], chain[at + 2])
        },
    },
    Damage {
        number: 13,
        label: "a chunk left out of the chain",
        apply: |random, book| {
            let chain = long_chain(book, 3)?;
            let at = random.index(chain.len() - 2);
            set_next(book, chain[at], chain[at + 2])?;
            set_previous(book, chain[at + 2], chain[at])
        },
    },
    Damage {
        number: 13,
        label: "chain starts one chunk late",
        apply: |random, book| {
            let chain = long_chain(book, 2)?;
            book.first = chain[1];
            if random.once_in(2) {
                set_previous(book, chain[1], NONE);
            }
            NOWHERE
        },
    },
    Damage {
        number: 13,
        label: "chain ends one chunk early",
        apply: |random, book| {
            let chain = long_chain(book, 2)?;
            book.last = chain[chain.len() - 2];
            if random.once_in(2) {
                set_next(book, book.last, NONE);
            }
            NOWHERE
        },
    },
    Damage {
        number: 13,
        label: "first or last is another chunk",
        apply: |random, book| {
            let other = random.index(book.chunks.len()) as u32;
            let field = if random.once_in(2) {
                &mut book.first
            } else {
                &mut book.last
            };
            if *field == other {
                return None;
            }
            *field = other;
            NOWHERE
        },
    },
    Damage {
        number: 13,
        label: "first or last is an index chunk",
        apply: |random, book| {
            let (index, _) = index_entry(random, book, 1)?;
            if random.once_in(2) {
                book.first = index;
            } else {
                book.last = index;
            }
            NOWHERE
        },
    },
    Damage {
        number: 13,
        label: "first and last exchanged",
        apply: |_, book| {
            long_chain(book, 2)?;
            std::mem::swap(&mut book.first, &mut book.last);
            NOWHERE
        },
    },
    Damage {
        number: 13,
        label: "previous and next exchanged",
        apply: |random, book| {
            let chain = long_chain(book, 2)?;
            let links = book.chunks[random.pick(&chain) as usize].links.as_mut()?;
            *links = (links.1, links.0);
            NOWHERE
        },
    },
    Damage {
        number: 13,
        label: "a ring apart from the chain",
        apply: |random, book| {
            let chain = long_chain(book, 3)?;
            let cut = random.between(1..=chain.len() as u64 - 2) as usize;
            book.last = chain[cut - 1];
            set_next(book, book.last, NONE);
            set_previous(book, chain[cut], chain[chain.len() - 1]);
            set_next(book, chain[chain.len() - 1], chain[cut])
        },
    },
    Damage {
        number: 13,
        label: "two chunks in the wrong order",
        apply: |random, book| {
            let chain = long_chain(book, 2)?;
            let at = random.index(chain.len() - 1);
            let (one, two) = (chain[at] as usize, chain[at + 1] as usize);
            if one == two {
                return None; // an earlier damage has led the chunk to itself
            }
            let items = std::mem::take(&mut book.chunks[one].items);
            book.chunks[one].items = std::mem::replace(&mut book.chunks[two].items, items);
            NOWHERE
        },
    },
    Damage {
        number: 13,
        label: "a name at the end of a chunk and in front of the next",
        apply: |random, book| {
            let chain = long_chain(book, 2)?;
            let at = random.index(chain.len() - 1);
            let name = &book.chunks[chain[at] as usize].items.last()?.name;
            let name = other_case(random, name).unwrap_or(name.clone());
            let mut changed = book.chunks[chain[at + 1] as usize].clone();
            changed.items[0].name = name;
            if !changed.fits(book.density) {
                return None;
            }
            book.chunks[chain[at + 1] as usize] = changed;
            NOWHERE
        },
    },
    Damage {
        number: 13,
        label: "the only chunk is an index chunk",
        apply: |_, book| {
            if book.depth != 1 {
                return None;
            }
            let name = book.chunks[0].items[0].name.clone();
            book.chunks[0] = Planned {
                links: None,
                items: vec![Item::new(&name, &[0])],
            };
            NOWHERE
        },
    },
    Damage {
        number: 14,
        label: "root is a listing chunk",
        apply: |random, book| {
            if book.depth == 1 {
                return None;
            }
            book.root = random.pick(&book.chain());
            NOWHERE
        },
    },
    Damage {
        number: 14,
        label: "root is a lower index chunk",
        apply: |random, book| {
            let (index, _) = index_entry(random, book, 1)?;
            if index == book.root {
                return None;
            }
            book.root = index;
            NOWHERE
        },
    },
    Damage {
        number: 14,
        label: "another depth",
        apply: |random, book| {
            let depth = random.between(2..=5) as u32;
            if book.depth == 1 || depth == book.depth {
                return None;
            }
            book.depth = depth;
            NOWHERE
        },
    },
    Damage {
        number: 14,
        label: "index name in another case",
        apply: |random, book| {
            let (chunk, at) = index_entry(random, book, 1)?;
            let name = &book.chunks[chunk as usize].items[at].name;
            let name = other_case(random, name)?;
            rename(book, chunk, at, name)
        },
    },
    Damage {
        number: 14,
        label: "index name below its child's first",
        apply: |random, book| {
            let (chunk, at) = index_entry(random, book, 1)?;
            let mut name = book.chunks[chunk as usize].items[at].name.clone();
            name.pop();
            if name.is_empty() {
                return None;
            }
            rename(book, chunk, at, name)
        },
    },
    Damage {
        number: 14,
        label: "index name above its child's first",
        apply: |random, book| {
            let (chunk, at) = index_entry(random, book, 1)?;
            let mut name = book.chunks[chunk as usize].items[at].name.clone();
            if name.len() == 1024 {
                return None;
            }
            name.push(0);
            rename(book, chunk, at, name)
        },
    },
    Damage {
        number: 14,
        label: "two children exchanged",
        apply: |random, book| {
            let (chunk, at) = index_entry(random, book, 2)?;
            let items = &book.chunks[chunk as usize].items;
            let other = if at > 0 { at - 1 } else { 1 };
            let child = items[at].fields[0] as u32;
            let other_child = items[other].fields[0] as u32;
            set_child(book, chunk, at, other_child)?;
            set_child(book, chunk, other, child)
        },
    },
    Damage {
        number: 14,
        label: "another child",
        apply: |random, book| {
            let (chunk, at) = index_entry(random, book, 1)?;
            let child = random.index(book.chunks.len()) as u32;
            set_child(book, chunk, at, child)
        },
    },
    Damage {
        number: 14,
        label: "an index chunk is its own child",
        apply: |random, book| {
            let (chunk, at) = index_entry(random, book, 1)?;
            set_child(book, chunk, at, chunk)
        },
    },
    Damage {
        number: 14,
        label: "first child is the grandchild",
        apply: |random, book| {
            // The names agree, the levels do not.
            let (chunk, at) = index_entry(random, book, 1)?;
            let child = book.chunks[chunk as usize].items[at].fields[0] as usize;
            if book.chunks[child].is_listing() {
                return None;
            }
            let grandchild = book.chunks[child].items[0].fields[0] as u32;
            set_child(book, chunk, at, grandchild)
        },
    },
    Damage {
        number: 14,
        label: "chunks out of order over two index chunks",
        apply: |random, book| {
            // Every index name is still that of its child, and names rise in every index chunk.
            let (parent, at, one, two) = neighbours(random, book)?;
            let mut first = book.chunks[one as usize].clone();
            let mut second = book.chunks[two as usize].clone();
            std::mem::swap(first.items.last_mut()?, &mut second.items[0]);
            let name = second.items[0].name.clone();
            if !first.fits(book.density) || !second.fits(book.density) {
                return None;
            }
            book.chunks[one as usize] = first;
            book.chunks[two as usize] = second;
            rename(book, parent, at, name)
        },
    },
    Damage {
        number: 14,
        label: "a chunk twice and another not at all",
        apply: |random, book| {
            let (_, _, one, two) = neighbours(random, book)?;
            let mut first = book.chunks[one as usize].clone();
            let second = &book.chunks[two as usize];
            *first.items.last_mut()? = random
                .pick(&[&second.items[0], second.items.last()?])
                .clone();
            if !first.fits(book.density) {
                return None;
            }
            book.chunks[one as usize] = first;
            NOWHERE
        },
    },
    Damage {
        number: 14,
        label: "an index entry left out",
        apply: |random, book| {
            let (chunk, at) = index_entry(random, book, 2)?;
            book.chunks[chunk as usize].items.remove(at);
            NOWHERE
        },
    },
    Damage {
        number: 14,
        label: "an index chunk that nothing leads to",
        apply: |random, book| {
            let (index, _) = index_entry(random, book, 1)?;
            let copy = book.chunks[index as usize].clone();
            book.chunks.push(copy);
            NOWHERE
        },
    },
];
