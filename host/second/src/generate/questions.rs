//! More questions about the bytes of a case. They aim at nothing; what came of them is counted.

mod batch;

use super::ask::{bad_record, made_up_record, part_call, unaskable};
use super::names::{any_name, near_miss, other_case};
use super::{Call, Case, Input, Random};
use crate::number::number_at;
use crate::{chunk_entries, part, start, step, Cursor, Record, Step, NONE};

/// Questions about the file of a case, or about the input of its writer.
pub fn questions(random: &mut Random, case: &Case) -> Vec<Call> {
    match &case.call {
        Call::Write(input) => outputs(random, input),
        Call::Open | Call::Part { .. } | Call::Batch { .. } => about(random, &case.file, None),
        Call::Lookup { record, name, .. } | Call::Scan { record, name } => {
            let opened = Call::Opened {
                record: *record,
                name: name.clone(),
            };
            let more = about(random, &case.file, Some(*record));
            [vec![opened], more].concat()
        }
        Call::Opened { record, .. }
        | Call::Start { record }
        | Call::Step { record, .. }
        | Call::Page { record, .. } => about(random, &case.file, Some(*record)),
    }
}

/// The same input with other lengths of output.
fn outputs(random: &mut Random, input: &Input) -> Vec<Call> {
    let some = random.index(5000);
    let mut lengths = vec![random.pick(&[0, 204, 4299, 4300, some])];
    if let Ok(head) = input.head_within(usize::MAX) {
        let length = head.len();
        let more = random.index(5000);
        lengths.extend([length - 1, random.pick(&[length, length + more])]);
    }
    let with = |out_len| Input {
        out_len,
        ..input.clone()
    };
    lengths.into_iter().map(with).map(Call::Write).collect()
}

/// Questions about some bytes, with this record or with the one that they claim.
pub fn about(random: &mut Random, file: &[u8], given: Option<Record>) -> Vec<Call> {
    let claimed = claimed_record(file);
    let book = Bytes {
        file,
        record: given.or(claimed).unwrap_or_else(|| shapeless(random)),
    };
    let names = book.some_names(random);
    let mut calls = vec![Call::Open];
    calls.extend(book.walk(random));
    if random.once_in(16) {
        calls.extend(book.every_name(random));
    }
    if random.once_in(64) {
        calls.extend(book.every_cut(random, &names));
    }
    for _ in 0..2 {
        calls.push(book.batch(random, &names));
    }
    for _ in 0..6 {
        calls.extend(book.searches(random, &names));
        calls.push(book.step(random));
        calls.push(book.page(random));
    }
    calls.push(part_call(random, file));
    calls.push(part_call(random, file));
    calls
}

/// The record that the headers give, nothing of it checked.
fn claimed_record(file: &[u8]) -> Option<Record> {
    if file.len() < 96 {
        return None;
    }
    let place = number_at(file, 0x48, 8);
    let directory = part(file, place, 84);
    if directory.is_empty() {
        return None;
    }
    let version = number_at(file, 0x04, 4);
    let field = |offset| number_at(directory, offset, 4);
    Some(Record {
        version,
        time: number_at(file, 0x10, 4),
        language: number_at(file, 0x14, 4),
        start: place,
        count: field(0x2C),
        density: field(0x14),
        depth: field(0x18),
        root: field(0x1C),
        first: field(0x20),
        last: field(0x24),
        content: match version {
            2 => place.wrapping_add(number_at(file, 0x50, 8)),
            _ => number_at(file, 0x58, 8),
        },
    })
}

/// Names that stand in some bytes, as far as these claim a record with which chunks can be met.
pub fn names_in(random: &mut Random, file: &[u8]) -> Vec<Vec<u8>> {
    match claimed_record(file) {
        Some(record) => Bytes { file, record }.some_names(random),
        None => Vec::new(),
    }
}

/// A record for bytes that claim none.
fn shapeless(random: &mut Random) -> Record {
    Record {
        version: 3,
        time: 0,
        language: 0,
        start: random.pick(&[0, 120]),
        count: random.between(1..=3),
        density: random.below(8),
        depth: random.between(1..=5),
        root: 0,
        first: 0,
        last: 0,
        content: 0,
    }
}

/// One of these names, one like it, or any.
fn some_name(random: &mut Random, names: &[Vec<u8>]) -> Vec<u8> {
    match random.below(10) {
        0 => unaskable(random),
        1 => any_name(random),
        _ if names.is_empty() => any_name(random),
        choice => {
            let name = &names[random.index(names.len())];
            match choice {
                2 | 3 => other_case(random, name).unwrap_or(name.clone()),
                4..=6 => near_miss(random, name),
                _ => name.clone(),
            }
        }
    }
}

/// A lookup, a scan and a lookup in an opened book.
fn searches(record: Record, name: Vec<u8>, places: usize) -> [Call; 3] {
    let scan = Call::Scan {
        record,
        name: name.clone(),
    };
    let opened = Call::Opened {
        record,
        name: name.clone(),
    };
    let lookup = Call::Lookup {
        record,
        name,
        places,
    };
    [lookup, scan, opened]
}

/// Bytes, and the record that they are asked with for the most part.
struct Bytes<'a> {
    file: &'a [u8],
    record: Record,
}

impl Bytes<'_> {
    fn some_record(&self, random: &mut Random) -> Record {
        match random.below(8) {
            0 | 1 => made_up_record(random, &self.record, self.file),
            2 if random.once_in(3) => bad_record(random, &self.record, self.file),
            _ => self.record,
        }
    }

    /// A chunk number, most often below the count.
    fn some_chunk(&self, random: &mut Random) -> u64 {
        let count = self.record.count.clamp(1, 4097);
        let wide = random.wide();
        match random.below(12) {
            0 => random.pick(&[count, NONE.into(), u64::from(NONE) - 1, wide]),
            1 | 2 => self.record.first,
            _ => random.below(count),
        }
    }

    fn entries(&self, chunk: u64) -> usize {
        chunk_entries(self.file, &self.record, chunk).map_or(0, |(reports, _)| reports.len())
    }

    /// Names of a few chunks as they stand there, as far as these can be met.
    fn some_names(&self, random: &mut Random) -> Vec<Vec<u8>> {
        let mut names = Vec::new();
        for _ in 0..4 {
            let chunk = self.some_chunk(random);
            if let Ok((reports, _)) = chunk_entries(self.file, &self.record, chunk) {
                for report in [
                    random.pick(&reports),
                    reports[0],
                    reports[reports.len() - 1],
                ] {
                    names.push(part(self.file, report.place, report.length).to_vec());
                }
            }
        }
        names
    }

    /// A lookup, and the other two searches for the same name with the same record.
    fn searches(&self, random: &mut Random, names: &[Vec<u8>]) -> [Call; 3] {
        let name = some_name(random, names);
        let record = self.some_record(random);
        let places = match random.below(4) {
            0 => random.index(8),
            1 => random.pick(&[6, 7, 16]),
            _ => 5,
        };
        searches(record, name, places)
    }

    /// All names of a chunk, and one near each.
    fn every_name(&self, random: &mut Random) -> Vec<Call> {
        let chunk = self.some_chunk(random);
        let reports = match chunk_entries(self.file, &self.record, chunk) {
            Ok((reports, _)) => reports,
            Err(_) => return Vec::new(),
        };
        let mut names = Vec::new();
        for report in &reports {
            let name = part(self.file, report.place, report.length);
            names.extend([name.to_vec(), near_miss(random, name)]);
        }
        let searches = |name| searches(self.record, name, 5);
        names.into_iter().flat_map(searches).collect()
    }

    fn step(&self, random: &mut Random) -> Call {
        let chunk = self.some_chunk(random);
        let entries = self.entries(chunk) as u64;
        let (inside, wide) = (random.below(entries.max(1)), random.wide());
        let last = entries.saturating_sub(1);
        let choices = [0, inside, inside, last, last, entries, entries + 1, wide];
        Call::Step {
            record: self.some_record(random),
            cursor: Cursor {
                chunk,
                entry: random.pick(&choices),
            },
        }
    }

    fn page(&self, random: &mut Random) -> Call {
        let chunk = self.some_chunk(random);
        let needed = 5 * self.entries(chunk);
        let around = needed + random.index(13);
        let sizes = [
            around.saturating_sub(6),
            needed.saturating_sub(1),
            needed,
            needed + 1,
            0,
            4070,
            4070 + random.index(3),
        ];
        Call::Page {
            record: self.some_record(random),
            chunk,
            numbers: random.pick(&sizes),
        }
    }

    /// The start and the steps that follow. Half of the walks go on to the last entry of a chunk
    /// now and then, to come to the next one soon.
    fn walk(&self, random: &mut Random) -> Vec<Call> {
        let record = self.some_record(random);
        let leaps = random.once_in(2);
        let mut calls = vec![Call::Start { record }];
        let mut cursor = start(&record);
        for _ in 0..random.pick(&[3, 8, 8, 40]) {
            calls.push(Call::Step { record, cursor });
            match step(self.file, &record, cursor) {
                Step::Entry(_, moved) => cursor = moved,
                _ => break,
            }
            if leaps && random.once_in(3) {
                let last = self.entries(cursor.chunk).saturating_sub(1);
                cursor.entry = cursor.entry.max(last as u64);
            }
        }
        calls
    }
}
