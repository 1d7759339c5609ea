//! Comparisons with a broken chunk, a broken chain or a broken index in one book or in both.

use super::issues::Issues;
use super::{Course, Made, Way};
use crate::generate::ask::{break_chunk, break_some_chunk, end_inside};
use crate::generate::damage::{damage_for, index_entry, set_next};
use crate::generate::plan::{Book, Item};
use crate::generate::Random;
use crate::{Difference, NONE};

const FIRST: usize = 0;
const SECOND: usize = 1;

/// A chunk of the chain of one book, by its place there, broken in the file alone: the plan keeps
/// its names. Behind how many names it is met.
struct Broken {
    book: Book,
    behind: usize,
}

fn break_in(random: &mut Random, issues: &Issues, side: usize, at: usize) -> Option<Broken> {
    let chunk = issues.books[side].chain()[at];
    Some(Broken {
        book: break_chunk(random, &issues.books[side], chunk)?,
        behind: issues.behind_chunks(side, at),
    })
}

fn break_some(random: &mut Random, issues: &Issues, side: usize) -> Option<Broken> {
    let at = random.index(issues.books[side].chain().len());
    break_in(random, issues, side, at)
}

fn broken_chunk(random: &mut Random, side: usize) -> Option<Made> {
    let issues = Issues::any(random)?;
    let broken = break_some(random, &issues, side)?;
    let mut given = issues.given();
    given[side].file = broken.book.bytes();
    Some((given, issues.refused(broken.behind, side)))
}

/// The one that is met behind fewer names is refused, the first book if both are at once.
fn broken_chunks(random: &mut Random) -> Option<Made> {
    let issues = Issues::any(random)?;
    let (one, two) = match random.once_in(3) {
        true => (
            break_in(random, &issues, FIRST, 0)?,
            break_in(random, &issues, SECOND, 0)?,
        ),
        false => (
            break_some(random, &issues, FIRST)?,
            break_some(random, &issues, SECOND)?,
        ),
    };
    let mut given = issues.given();
    given[FIRST].file = one.book.bytes();
    given[SECOND].file = two.book.bytes();
    let course = match one.behind <= two.behind {
        true => issues.refused(one.behind, FIRST),
        false => issues.refused(two.behind, SECOND),
    };
    Some((given, course))
}

/// Leads a chunk of the chain back. The names of the ring are met again until as many chunks as the
/// count have been entered; all that is left of the other book is behind them.
fn ring(random: &mut Random, side: usize) -> Option<Made> {
    let mut issues = Issues::any(random)?;
    let chain = issues.books[side].chain();
    let last = random.index(chain.len());
    let back = random.index(last + 1);
    let behind = issues.behind_chunks(side, last + 1);
    let (mut differences, _) = issues.differences(behind);

    let book = &mut issues.books[side];
    let again = chain[back..=last].iter().cycle();
    for &chunk in again.take(chain_left(book, last + 1)) {
        let entries = book.listed_of(chunk).into_iter();
        differences.extend(entries.map(|listed| match side {
            FIRST => Difference::OnlyFirst(listed),
            _ => Difference::OnlySecond(listed),
        }));
    }
    set_next(book, chain[last], chain[back])?;
    Some((
        issues.given(),
        Course::Refused(differences, side as u64 + 1),
    ))
}

/// How many chunks may be entered behind these.
fn chain_left(book: &Book, entered: usize) -> usize {
    book.chunks.len() - entered
}

/// A ring in a book beside itself: it goes round in both, and the first is asked first.
fn ring_in_both(random: &mut Random) -> Option<Made> {
    let mut issues = Issues::any(random)?;
    let book = &mut issues.books[FIRST];
    let chain = book.chain();
    let last = random.index(chain.len());
    let back = random.index(last + 1);
    set_next(book, chain[last], chain[back])?;
    issues.books[SECOND] = book.clone();
    Some((issues.given(), Course::Refused(Vec::new(), 1)))
}

/// Rings in two books that differ.
fn rings(random: &mut Random) -> Option<Made> {
    let mut issues = Issues::any(random)?;
    for side in [FIRST, SECOND] {
        let chain = issues.books[side].chain();
        let back = random.pick(&chain);
        let last = issues.books[side].last;
        set_next(&mut issues.books[side], last, back)?;
    }
    Some((issues.given(), Course::Free))
}

/// Makes the chain of a book go over all its chunks, with names behind all others.
fn list_all(issues: &mut Issues, side: usize) -> Option<()> {
    let last = issues.names.last()?;
    let highest = last.iter().flatten().all(|item| item.name[0] == 0xFF);
    let more: Vec<u32> = issues.books[side].indexes();
    if highest || more.is_empty() {
        return None;
    }
    issues.books[side].list_all();
    for number in more {
        let item: Item = issues.books[side].chunks[number as usize].items[0].clone();
        let mut name = [None, None];
        name[side] = Some(item);
        issues.names.push(name);
    }
    Some(())
}

fn whole_chain(random: &mut Random) -> Option<Made> {
    let mut issues = Issues::any(random)?;
    let side = random.index(2);
    list_all(&mut issues, side)?;
    Some((issues.given(), issues.course()))
}

/// A ring of as many chunks as the count.
fn whole_ring(random: &mut Random) -> Option<Made> {
    let mut issues = Issues::any(random)?;
    let side = random.index(2);
    list_all(&mut issues, side)?;
    let course = issues.refused(issues.names.len(), side);
    let book = &mut issues.books[side];
    let (last, back) = (book.last, random.pick(&book.chain()));
    set_next(book, last, back)?;
    Some((issues.given(), course))
}

/// Gives some chunk of a chain this next; the book is refused behind it.
fn lead(random: &mut Random, issues: &mut Issues, side: usize, next: u32) -> Option<Course> {
    let chain = issues.books[side].chain();
    let at = random.index(chain.len());
    let course = issues.refused(issues.behind_chunks(side, at + 1), side);
    set_next(&mut issues.books[side], chain[at], next)?;
    Some(course)
}

fn no_chunk(random: &mut Random) -> Option<Made> {
    let mut issues = Issues::any(random)?;
    let side = random.index(2);
    let count = issues.books[side].count();
    let next = random.pick(&[count, count, count + 1, 0x8000_0000, NONE - 1]);
    let course = lead(random, &mut issues, side, next)?;
    Some((issues.given(), course))
}

fn index_chunk(random: &mut Random) -> Option<Made> {
    let mut issues = Issues::any(random)?;
    let side = random.index(2);
    let (next, _) = index_entry(random, &issues.books[side], 1)?;
    let course = lead(random, &mut issues, side, next)?;
    Some((issues.given(), course))
}

/// What is behind the cut is not in that book.
fn cut_short(random: &mut Random) -> Option<Made> {
    let mut issues = Issues::any(random)?;
    let side = random.index(2);
    let chain = issues.books[side].chain();
    let at = random.index(chain.len());
    set_next(&mut issues.books[side], chain[at], NONE)?;
    let (from, to) = (issues.behind_chunks(side, at + 1), issues.names.len());
    issues.leave_out(side, from, to);
    Some((issues.given(), issues.course()))
}

/// The index is not followed.
fn broken_tree(random: &mut Random) -> Option<Made> {
    let mut issues = Issues::any(random)?;
    let side = random.index(2);
    let damage = damage_for(random, 14);
    (damage.apply)(random, &mut issues.books[side])?;
    Some((issues.given(), issues.course()))
}

fn broken_chain(random: &mut Random) -> Option<Made> {
    let mut issues = Issues::any(random)?;
    let side = random.index(2);
    let damage = damage_for(random, 13);
    (damage.apply)(random, &mut issues.books[side])?;
    Some((issues.given(), Course::Free))
}

/// Entries of two chunks change places: names do not rise any more.
fn wrong_order(random: &mut Random) -> Option<Made> {
    let mut issues = Issues::any(random)?;
    let book = &mut issues.books[random.index(2)];
    let chain = book.chain();
    let (one, two) = (random.pick(&chain) as usize, random.pick(&chain) as usize);
    let items = std::mem::take(&mut book.chunks[one].items);
    let items = std::mem::replace(&mut book.chunks[two].items, items);
    if one == two {
        return None;
    }
    book.chunks[one].items = items;
    Some((issues.given(), Course::Free))
}

/// The chunk that is cut off, or one behind it in the file, is the first to be refused.
fn file_cut(random: &mut Random) -> Option<Made> {
    let issues = Issues::any(random)?;
    let side = random.index(2);
    let mut given = issues.given();
    let book = &issues.books[side];
    let chunk = random.pick(&book.chain());
    let at = book.chain().iter().position(|&other| other >= chunk)?;
    end_inside(book, chunk, &mut given[side].file, &mut given[side].record);
    Some((given, issues.refused(issues.behind_chunks(side, at), side)))
}

/// Some chunk of a book or of both is broken, on the chain or off it; or bits are changed.
fn anyhow(random: &mut Random) -> Option<Made> {
    let mut issues = Issues::any(random)?;
    for book in &mut issues.books {
        if random.once_in(2) {
            break_some_chunk(random, book)?;
        }
    }
    let mut given = issues.given();
    flip(random, &mut given[FIRST].file);
    flip(random, &mut given[SECOND].file);
    Some((given, Course::Free))
}

fn flip(random: &mut Random, file: &mut [u8]) {
    for _ in 0..random.below(4) {
        let at = random.index(file.len());
        file[at] ^= 1 << random.below(8);
    }
}

pub(super) const WAYS: &[Way] = &[
    Way {
        label: "broken chunk in the first book",
        make: |random| broken_chunk(random, FIRST),
    },
    Way {
        label: "broken chunk in the second book",
        make: |random| broken_chunk(random, SECOND),
    },
    Way {
        label: "broken chunks in both books",
        make: broken_chunks,
    },
    Way {
        label: "ring in the first book",
        make: |random| ring(random, FIRST),
    },
    Way {
        label: "ring in the second book",
        make: |random| ring(random, SECOND),
    },
    Way {
        label: "ring in a book beside itself",
        make: ring_in_both,
    },
    Way {
        label: "rings in two books",
        make: rings,
    },
    Way {
        label: "chain of as many chunks as the count in one book",
        make: whole_chain,
    },
    Way {
        label: "ring of as many chunks as the count in one book",
        make: whole_ring,
    },
    Way {
        label: "next that is no chunk in one book",
        make: no_chunk,
    },
    Way {
        label: "next that is an index chunk in one book",
        make: index_chunk,
    },
    Way {
        label: "chain cut short in one book",
        make: cut_short,
    },
    Way {
        label: "broken tree in one book",
        make: broken_tree,
    },
    Way {
        label: "broken chain in one book",
        make: broken_chain,
    },
    Way {
        label: "chunks in the wrong order in one book",
        make: wrong_order,
    },
    Way {
        label: "one file ends inside a chunk",
        make: file_cut,
    },
    Way {
        label: "two books broken anyhow",
        make: anyhow,
    },
];
