//! Batches that are answered: names and room keep the rules.

use super::super::lookup::{askable, present, unaskable};
use super::{joined, joined_by, joined_padded, Batch};
use crate::generate::names::{near_miss, other_case};
use crate::generate::{Kind, Random};

/// Some of these names at some places among those that are asked for.
fn mixed(random: &mut Random, batch: &Batch, more: Vec<Vec<u8>>) -> Vec<Vec<u8>> {
    let mut names = [batch.names.clone(), more].concat();
    random.shuffle(&mut names);
    names
}

/// Names of the book as they stand there.
fn some_present(random: &mut Random, batch: &Batch) -> Vec<Vec<u8>> {
    let count = random.between(1..=8);
    (0..count).map(|_| present(random, &batch.book)).collect()
}

/// Names in front of the first name of the book and behind its last, as far as there are any.
fn outside(batch: &Batch) -> Vec<Vec<u8>> {
    let items = batch.book.items();
    let (first, last) = (&items[0].name, &items[items.len() - 1].name);
    let mut names = vec![vec![0x00], vec![0xFF; 1024]];
    names.push(first[..first.len() - 1].to_vec());
    names.push([last, &[0x00][..]].concat());
    names.retain(|name| (1..=1024).contains(&name.len()) && name != first && name != last);
    names
}

pub const KINDS: &[Kind<Batch>] = &[
    Kind {
        label: "batch",
        change: |_, batch| Some(batch.told()),
    },
    Kind {
        label: "batch of no names",
        change: |random, batch| {
            let aim = batch.ask(Vec::new());
            batch.room = random.pick(&[0, 0, 1, 31, 32, 64]);
            Some(aim)
        },
    },
    Kind {
        label: "batch of one name",
        change: |random, batch| {
            let name = askable(random, &batch.book);
            Some(batch.ask(vec![name]))
        },
    },
    Kind {
        label: "batch of many names",
        change: |random, batch| {
            let count = random.between(30..=140);
            let names = (0..count).map(|_| askable(random, &batch.book));
            let names = names.collect();
            Some(batch.ask(names))
        },
    },
    Kind {
        label: "batch of every name of a chunk",
        change: |random, batch| {
            let chunk = random.pick(&batch.book.chain());
            let items = &batch.book.chunks[chunk as usize].items;
            let names = items.iter().map(|item| item.name.clone()).collect();
            Some(batch.ask(names))
        },
    },
    Kind {
        label: "batch of names in another case",
        change: |random, batch| {
            let names = some_present(random, batch);
            let changed = names.iter().filter_map(|name| other_case(random, name));
            let changed: Vec<Vec<u8>> = changed.collect();
            (!changed.is_empty()).then(|| batch.ask(changed))
        },
    },
    Kind {
        label: "batch of names near those of the book",
        change: |random, batch| {
            let names = some_present(random, batch);
            let near = names.iter().map(|name| near_miss(random, name)).collect();
            Some(batch.ask(near))
        },
    },
    Kind {
        label: "batch of names in front of the first and behind the last",
        change: |_, batch| {
            let names = outside(batch);
            Some(batch.ask(names))
        },
    },
    Kind {
        label: "batch with a name several times",
        change: |random, batch| {
            let name = askable(random, &batch.book);
            let other = other_case(random, &name).unwrap_or(name.clone());
            let times = random.between(1..=4) as usize;
            let again = [vec![name; times], vec![other]].concat();
            let names = mixed(random, batch, again);
            Some(batch.ask(names))
        },
    },
    Kind {
        label: "batch with names that are too short or too long",
        change: |random, batch| {
            let count = random.between(1..=3);
            let wrong = (0..count).map(|_| unaskable(random)).collect();
            let names = mixed(random, batch, wrong);
            Some(batch.ask(names))
        },
    },
    Kind {
        label: "batch of nothing but names that are too short or too long",
        change: |random, batch| {
            let count = random.between(1..=4);
            let wrong = (0..count).map(|_| unaskable(random)).collect();
            Some(batch.ask(wrong))
        },
    },
    Kind {
        label: "batch with shortest and longest names",
        change: |random, batch| {
            let longest = random.bytes(1024);
            let names = vec![vec![0x00], vec![0xFF], vec![0xFF; 1024], longest];
            let names = mixed(random, batch, names);
            Some(batch.ask(names))
        },
    },
    Kind {
        label: "batch with padded lengths",
        change: |random, batch| {
            let wrong = match random.once_in(2) {
                true => vec![unaskable(random)],
                false => Vec::new(),
            };
            let names = mixed(random, batch, wrong);
            let aim = batch.ask(names);
            batch.bytes = joined_padded(random, &batch.names);
            Some(aim)
        },
    },
    Kind {
        label: "batch with lengths of nine bytes",
        change: |_, batch| {
            batch.bytes = joined_by(&batch.names, || 8);
            Some(batch.told())
        },
    },
    Kind {
        label: "batch with a zero behind the names",
        change: |_, batch| {
            // It is the length of one name more.
            let names = [batch.names.clone(), vec![Vec::new()]].concat();
            Some(batch.ask(names))
        },
    },
    Kind {
        label: "batch with a length of all bytes that are left",
        change: |random, batch| {
            let at = random.index(batch.names.len());
            let behind = joined(&batch.names[at + 1..]);
            let mut names = batch.names[..=at].to_vec();
            names[at].extend(behind);
            Some(batch.ask(names))
        },
    },
    Kind {
        label: "batch cut between two names",
        change: |random, batch| {
            let kept = random.index(batch.names.len());
            let room = batch.room;
            let aim = batch.ask(batch.names[..kept].to_vec());
            batch.room = random.pick(&[room, batch.room]);
            Some(aim)
        },
    },
    Kind {
        label: "batch with room behind the answers",
        change: |random, batch| {
            batch.room += random.between(1..=64) as usize;
            Some(batch.told())
        },
    },
];
