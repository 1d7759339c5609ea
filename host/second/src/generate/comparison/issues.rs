//! Two issues of a book, both good.

use super::{Course, Given, Made, Way};
use crate::generate::book::{book, book_of_items, stored_fields};
use crate::generate::names::{other_case, rising_names};
use crate::generate::plan::{Book, Item};
use crate::generate::Random;
use crate::{Difference, Totals};

/// Two books by their names.
pub(super) struct Issues {
    /// All names, rising, each with its entry in either book; one of them or both have it.
    pub names: Vec<[Option<Item>; 2]>,
    pub books: [Book; 2],
}

/// What a name is to the two issues.
#[derive(Debug, Clone, Copy, PartialEq, Eq)]
enum Fate {
    Same,
    OnlyFirst,
    OnlySecond,
    /// In another case, with the same numbers.
    Recased,
    /// In another case, and one number differs.
    RecasedChanged,
    Section,
    Offset,
    Length,
    /// All numbers may differ.
    Changed,
}

const ALL: &[Fate] = &[
    Fate::Same,
    Fate::OnlyFirst,
    Fate::OnlySecond,
    Fate::Recased,
    Fate::RecasedChanged,
    Fate::Section,
    Fate::Offset,
    Fate::Length,
    Fate::Changed,
];

impl Issues {
    /// A book twice.
    pub fn of_book(book: Book) -> Issues {
        let both = |item: &&Item| [Some((*item).clone()), Some((*item).clone())];
        Issues {
            names: book.items().iter().map(both).collect(),
            books: [book.clone(), book],
        }
    }

    /// Issues that differ in any of all ways.
    pub fn any(random: &mut Random) -> Option<Issues> {
        Issues::with(random, ALL)
    }

    /// Issues with names of these fates, and some that are the same.
    fn with(random: &mut Random, fates: &[Fate]) -> Option<Issues> {
        let content_length = random.pick(&[0, 1, 5, 128, 2000]);
        let names = some_names(random);
        let same = random.pick(&[0, 1, 4]); // to one of another fate
        let mut entries = Vec::new();
        for name in names {
            let fate = match random.below(same + 1) {
                0 => random.pick(fates),
                _ => Fate::Same,
            };
            entries.push(pair(random, &name, fate, content_length));
        }
        Issues::arranged(random, entries, content_length)
    }

    /// Books of these entries, each arranged in its own way; nothing if one of them has none.
    fn arranged(
        random: &mut Random,
        names: Vec<[Option<Item>; 2]>,
        content_length: u64,
    ) -> Option<Issues> {
        let items = |side: usize| -> Vec<Item> {
            let items = names.iter().filter_map(|name| name[side].clone());
            items.collect()
        };
        let (one, two) = (items(0), items(1));
        if one.is_empty() || two.is_empty() {
            return None;
        }
        let more = random.pick(&[0, 0, 1, 500]);
        let books = [
            book_of_items(random, &one, content_length),
            book_of_items(random, &two, content_length + more),
        ];
        Some(Issues { names, books })
    }

    /// Writes another entry over that of the same name.
    pub fn replace(&mut self, side: usize, item: Item) {
        let chunks = self.books[side].chunks.iter_mut();
        let listing = chunks.filter(|chunk| chunk.is_listing());
        let mut items = listing.flat_map(|chunk| &mut chunk.items);
        if let Some(place) = items.find(|place| place.name == item.name) {
            *place = item;
        }
    }

    pub fn given(&self) -> [Given; 2] {
        [0, 1].map(|side| Given {
            file: self.books[side].bytes(),
            record: self.books[side].record(),
        })
    }

    /// What comes of both books whole.
    pub fn course(&self) -> Course {
        let (differences, totals) = self.differences(self.names.len());
        Course::End(differences, totals)
    }

    /// What comes of them if this book is refused behind so many names.
    pub fn refused(&self, behind: usize, side: usize) -> Course {
        Course::Refused(self.differences(behind).0, side as u64 + 1)
    }

    /// The differences among so many names, and the totals.
    pub fn differences(&self, behind: usize) -> (Vec<Difference>, Totals) {
        let mut listed = [0, 1].map(|side: usize| self.books[side].listed().into_iter());
        let mut differences = Vec::new();
        let mut totals = Totals::default();
        for name in &self.names[..behind] {
            let mut take = |side: usize| name[side].as_ref().and_then(|_| listed[side].next());
            let (one, two) = (take(0), take(1));
            let fields = |side: usize| name[side].as_ref().map(|item| &item.fields);
            match (one, two) {
                (Some(one), None) => {
                    totals.only_first += 1;
                    differences.push(Difference::OnlyFirst(one));
                }
                (None, Some(two)) => {
                    totals.only_second += 1;
                    differences.push(Difference::OnlySecond(two));
                }
                (Some(one), Some(two)) if fields(0) != fields(1) => {
                    totals.changed += 1;
                    differences.push(Difference::Changed(one, two));
                }
                _ => totals.same += 1,
            }
        }
        (differences, totals)
    }

    /// How many names are behind one another when so many entries of a book have been taken.
    pub fn behind(&self, side: usize, entries: usize) -> usize {
        let places = self.names.iter().enumerate();
        let mut there = places.filter(|(_, name)| name[side].is_some());
        match entries.checked_sub(1) {
            Some(last) => there.nth(last).map_or(self.names.len(), |(at, _)| at + 1),
            None => 0,
        }
    }

    /// The same behind so many chunks of the chain.
    pub fn behind_chunks(&self, side: usize, chunks: usize) -> usize {
        let book = &self.books[side];
        let entries = |&number: &u32| book.chunks[number as usize].items.len();
        let taken = book.chain()[..chunks].iter().map(entries).sum();
        self.behind(side, taken)
    }

    /// Takes the names from one place to another out of a book.
    pub fn leave_out(&mut self, side: usize, from: usize, to: usize) {
        for name in &mut self.names[from..to] {
            name[side] = None;
        }
        self.names
            .retain(|[one, two]| one.is_some() || two.is_some());
    }
}

fn some_names(random: &mut Random) -> Vec<Vec<u8>> {
    let wanted = match random.below(16) {
        0 => 400,
        1 => 120,
        _ => random.pick(&[1, 2, 4, 8, 15, 30]),
    };
    rising_names(random, wanted, 16_000)
}

/// The entries of a name in both books.
fn pair(random: &mut Random, name: &[u8], fate: Fate, content_length: u64) -> [Option<Item>; 2] {
    let mut one = Item::new(name, &stored_fields(random, content_length));
    let mut two = one.clone();
    if matches!(fate, Fate::Recased | Fate::RecasedChanged) {
        two.name = other_case(random, name).unwrap_or(name.to_vec());
    }
    match fate {
        Fate::OnlyFirst => return [Some(one), None],
        Fate::OnlySecond => return [None, Some(two)],
        Fate::Same | Fate::Recased => {}
        Fate::Section => change(random, &mut one, &mut two, 0, content_length),
        Fate::Offset => change(random, &mut one, &mut two, 1, content_length),
        Fate::Length => change(random, &mut one, &mut two, 2, content_length),
        Fate::RecasedChanged => {
            let field = random.index(3);
            change(random, &mut one, &mut two, field, content_length);
        }
        Fate::Changed => two.fields = stored_fields(random, content_length).to_vec(),
    }
    [Some(one), Some(two)]
}

/// Makes one of the three numbers differ, often in a single bit.
fn change(random: &mut Random, one: &mut Item, two: &mut Item, field: usize, content_length: u64) {
    let bits = if field == 0 { 16 } else { 63 };
    let inside = |fields: &[u64]| fields[0] != 0 || fields[1] + fields[2] <= content_length;
    for _ in 0..8 {
        let mut fields = one.fields.clone();
        fields[field] = match random.below(3) {
            0 if field > 0 => random.between(0..=content_length),
            _ => fields[field] ^ 1 << random.below(bits),
        };
        if fields != one.fields && inside(&fields) {
            two.fields = fields;
            return;
        }
    }
    // Outside section 0 any bit may differ.
    one.fields[0] = 1;
    two.fields = one.fields.clone();
    two.fields[field] ^= 1 << random.below(bits - 1) << 1;
}

fn made(issues: Issues) -> Option<Made> {
    Some((issues.given(), issues.course()))
}

fn made_with(random: &mut Random, fates: &[Fate]) -> Option<Made> {
    made(Issues::with(random, fates)?)
}

pub(super) const WAYS: &[Way] = &[
    Way {
        label: "two issues, the same",
        make: |random| made_with(random, &[Fate::Same]),
    },
    Way {
        label: "a book beside itself",
        make: |random| made(Issues::of_book(book(random))),
    },
    Way {
        label: "two issues, entries added",
        make: |random| made_with(random, &[Fate::OnlySecond]),
    },
    Way {
        label: "two issues, entries taken away",
        make: |random| made_with(random, &[Fate::OnlyFirst]),
    },
    Way {
        label: "two issues, another section",
        make: |random| made_with(random, &[Fate::Section]),
    },
    Way {
        label: "two issues, another offset",
        make: |random| made_with(random, &[Fate::Offset]),
    },
    Way {
        label: "two issues, another length",
        make: |random| made_with(random, &[Fate::Length]),
    },
    Way {
        label: "two issues, names in another case",
        make: |random| made_with(random, &[Fate::Recased]),
    },
    Way {
        label: "two issues, names in another case and changed",
        make: |random| made_with(random, &[Fate::RecasedChanged, Fate::Recased]),
    },
    Way {
        label: "two issues, an entry moved to another name",
        make: moved,
    },
    Way {
        label: "two issues, a stretch of names taken away",
        make: stretch,
    },
    Way {
        label: "two issues, edited in all ways",
        make: |random| made_with(random, ALL),
    },
    Way {
        label: "two books without a common name",
        make: |random| made_with(random, &[Fate::OnlyFirst, Fate::OnlySecond]),
    },
    Way {
        label: "two books, one behind the other",
        make: one_behind,
    },
    Way {
        label: "a book beside one of one entry",
        make: beside_one,
    },
];

/// Entries of these fates for a content of 100 bytes.
fn entries_in_both(random: &mut Random, fates: &[Fate]) -> Vec<[Option<Item>; 2]> {
    let names = some_names(random);
    let entry = |name: &Vec<u8>| {
        let fate = random.pick(fates);
        pair(random, name, fate, 100)
    };
    names.iter().map(entry).collect()
}

/// An entry that is in one book by one name and in the other by another.
fn moved(random: &mut Random) -> Option<Made> {
    let mut entries = entries_in_both(random, &[Fate::Same]);
    let (from, to) = (random.index(entries.len()), random.index(entries.len()));
    let fields = entries[from][0].as_ref()?.fields.clone();
    entries[to][1].as_mut()?.fields = fields;
    entries[from][1] = None;
    entries[to][0] = None;
    if from == to {
        return None;
    }
    made(Issues::arranged(random, entries, 100)?)
}

/// Many names one behind another that one book lacks, whole chunks for the most part.
fn stretch(random: &mut Random) -> Option<Made> {
    let mut entries = entries_in_both(random, &[Fate::Same, Fate::Same, Fate::Changed]);
    let from = random.index(entries.len());
    let to = from + 1 + random.index(entries.len() - from);
    let side = random.index(2);
    for entry in &mut entries[from..to] {
        entry[side] = None;
    }
    made(Issues::arranged(random, entries, 100)?)
}

/// All names of one book are below those of the other.
fn one_behind(random: &mut Random) -> Option<Made> {
    let names = some_names(random);
    let border = random.index(names.len());
    let (low, high) = match random.once_in(2) {
        true => (Fate::OnlyFirst, Fate::OnlySecond),
        false => (Fate::OnlySecond, Fate::OnlyFirst),
    };
    let mut entries = Vec::new();
    for (at, name) in names.iter().enumerate() {
        let fate = if at < border { low } else { high };
        entries.push(pair(random, name, fate, 100));
    }
    made(Issues::arranged(random, entries, 100)?)
}

/// A book, and one with just an entry of a name that it has or lacks.
fn beside_one(random: &mut Random) -> Option<Made> {
    let names = some_names(random);
    let one = random.index(names.len());
    let fate = random.pick(ALL);
    let mut entries = Vec::new();
    for (at, name) in names.iter().enumerate() {
        let fate = if at == one { fate } else { Fate::OnlyFirst };
        entries.push(pair(random, name, fate, 100));
    }
    if random.once_in(2) {
        entries.iter_mut().for_each(|entry| entry.swap(0, 1));
    }
    made(Issues::arranged(random, entries, 100)?)
}
