//! Seeded cases to compare another implementation with this one.
//!
//! A case follows from a seed and its number alone. It says what it aims at where that is known,
//! so that the generators can be tested too: a refusal, an answer that is none, for a search the
//! entry that is found, for a step the one that is reported, or for a batch all answers.

pub mod ask;
pub mod book;
pub mod comparison;
pub mod counted;
pub mod damage;
pub mod large;
pub mod names;
pub mod opening;
mod padding;
pub mod pairs;
pub mod plan;
pub mod questions;
mod random;
mod ranked;
pub mod standing;
mod twin;
pub mod write;

pub use random::Random;
pub use twin::{kept, twin};

use crate::{
    batch, chunk_entries, lookup, lookup_opened, open, own, scan, step, write_head, Cursor,
    Expected, Listed, Record, Refusal, Reply, Report, Step,
};

/// What is asked of a file.
#[derive(Debug, Clone)]
pub enum Call {
    Open,
    Lookup {
        record: Record,
        name: Vec<u8>,
        /// The length of the lent trail.
        places: usize,
    },
    Scan {
        record: Record,
        name: Vec<u8>,
    },
    /// A lookup in an opened book.
    Opened {
        record: Record,
        name: Vec<u8>,
    },
    Batch {
        /// The bytes of all names, with their lengths.
        names: Vec<u8>,
        /// The length of the lent slice for the answers.
        room: usize,
    },
    Start {
        record: Record,
    },
    /// With the own bytes of the entry that it reports.
    Step {
        record: Record,
        cursor: Cursor,
    },
    /// All entries of a chunk at once.
    Page {
        record: Record,
        chunk: u64,
        /// The length of the lent slice; an entry takes five numbers.
        numbers: usize,
    },
    Part {
        place: u64,
        length: u64,
    },
    /// The file has no part in this.
    Write(Input),
}

/// What the writer is given.
#[derive(Debug, Clone)]
pub struct Input {
    pub entries: Vec<u8>,
    pub density: u32,
    pub time: u32,
    pub language: u32,
    pub content_length: u64,
    /// The length of the lent output.
    pub out_len: usize,
}

impl Input {
    /// What this implementation writes.
    pub fn head(&self) -> Result<Vec<u8>, Refusal> {
        self.head_within(self.out_len)
    }

    /// The same with another length of output.
    pub fn head_within(&self, out_len: usize) -> Result<Vec<u8>, Refusal> {
        write_head(
            &self.entries,
            self.density,
            self.time,
            self.language,
            self.content_length,
            out_len,
        )
    }
}

/// What has to come of a case.
#[derive(Debug, Clone, PartialEq, Eq)]
pub enum Aim {
    /// An answer that is no refusal.
    Good,
    /// The name is found in the entry of this report.
    Found(Report),
    Absent,
    /// A step reports this entry, with these own bytes.
    Listed(Listed),
    /// The name is found where it stands, or absent: no rule says which (FORMAT K24).
    FoundThereOrAbsent,
    /// The answers of a batch, in these bytes.
    Answers(Vec<u8>),
    Refused(Refusal),
    /// This refusal, unless something else in the case hides it.
    Likely(Refusal),
    /// Anything.
    Free,
}

impl Aim {
    /// Without a place.
    fn refused(number: u8) -> Aim {
        Aim::Refused(Refusal::new(number))
    }

    /// Whether this answer keeps what the case says; a hidden refusal does not break it.
    pub fn allows(&self, outcome: &Outcome) -> bool {
        match self {
            Aim::Good => outcome.refusal().is_none(),
            Aim::Found(report) => *outcome == Outcome::Found(*report),
            Aim::Absent => *outcome == Outcome::Absent,
            Aim::Listed(listed) => *outcome == Outcome::Listed(*listed),
            Aim::FoundThereOrAbsent => *outcome == Outcome::FoundThereOrAbsent,
            Aim::Answers(aimed) => matches!(outcome, Outcome::Answers(answers) if answers == aimed),
            Aim::Refused(aimed) => *outcome == Outcome::Refused(*aimed),
            Aim::Likely(_) | Aim::Free => true,
        }
    }
}

/// What came of a call, as far as an aim speaks of it.
#[derive(Debug, Clone, PartialEq, Eq)]
pub enum Outcome {
    Found(Report),
    Absent,
    Listed(Listed),
    FoundThereOrAbsent,
    Answers(Vec<u8>),
    Refused(Refusal),
    /// Any other answer.
    Other,
}

impl Outcome {
    pub fn refusal(&self) -> Option<Refusal> {
        match self {
            Outcome::Refused(refusal) => Some(*refusal),
            _ => None,
        }
    }

    fn of_search(reply: Reply) -> Outcome {
        match reply {
            Reply::Found(report) => Outcome::Found(report),
            Reply::Absent => Outcome::Absent,
            Reply::Refused(refusal) => Outcome::Refused(refusal),
        }
    }

    /// What a step reports, with the own bytes at its cursor.
    fn of_step(step: Step, own: Option<(u64, u64)>) -> Outcome {
        match (step, own) {
            (Step::Entry(report, _), Some((place, length))) => Outcome::Listed(Listed {
                report,
                place,
                length,
            }),
            (Step::Refused(refusal), _) => Outcome::Refused(refusal),
            _ => Outcome::Other,
        }
    }

    fn of_opened(expected: Expected) -> Outcome {
        match expected {
            Expected::Exactly(reply) => Outcome::of_search(reply),
            Expected::FoundThereOrAbsent => Outcome::FoundThereOrAbsent,
        }
    }
}

/// One case of a run.
#[derive(Debug, Clone)]
pub struct Case {
    pub label: &'static str,
    pub file: Vec<u8>,
    pub call: Call,
    pub aim: Aim,
}

/// Every so many cases there is one with as many chunks as a book may have, or more.
const LARGE: u64 = 1500;

/// The case of this number in the run of this seed.
pub fn case(seed: u64, index: u64) -> Case {
    let random = &mut Random::of_case(seed, index);
    if index % LARGE == LARGE - 1 {
        return large::case(random, index / LARGE);
    }
    match random.below(100) {
        0..=47 => opening::case(random),
        48..=55 => ask::lookup_case(random),
        56..=63 => ask::scan_case(random),
        64..=69 => ask::opened_case(random),
        70..=77 => ask::batch_case(random),
        78..=85 => ask::step_case(random),
        86 => ask::part_case(random),
        _ => write::case(random),
    }
}

/// The labels of all cases that there are.
pub fn labels() -> Vec<&'static str> {
    let groups = [
        opening::labels(),
        ask::labels(),
        write::labels(),
        large::labels(),
    ];
    groups.concat()
}

/// A way to make a case out of a subject: a good book with what is asked, or good input.
struct Kind<Subject> {
    label: &'static str,
    /// Changes the subject and says the aim; nothing if this subject cannot be made into the kind.
    change: fn(&mut Random, &mut Subject) -> Option<Aim>,
}

/// Some kind, with a subject made into it.
fn choose<Subject>(
    random: &mut Random,
    kinds: &[Kind<Subject>],
    subject: fn(&mut Random) -> Subject,
) -> (&'static str, Subject, Aim) {
    let kind = &kinds[random.index(kinds.len())];
    loop {
        let mut subject = subject(random);
        if let Some(aim) = (kind.change)(random, &mut subject) {
            return (kind.label, subject, aim);
        }
    }
}

fn labels_of<Subject>(kinds: &[Kind<Subject>]) -> Vec<&'static str> {
    kinds.iter().map(|kind| kind.label).collect()
}

/// What this implementation makes of a call.
pub fn outcome_of(file: &[u8], call: &Call) -> Outcome {
    let refusal = match call {
        Call::Lookup {
            record,
            name,
            places,
        } => return Outcome::of_search(lookup(file, record, name, *places).reply()),
        Call::Scan { record, name } => return Outcome::of_search(scan(file, record, name)),
        Call::Opened { record, name } => {
            return Outcome::of_opened(lookup_opened(open(file), file, record, name))
        }
        Call::Batch { names, room } => match batch(file, names, *room) {
            Ok(answers) => return Outcome::Answers(answers),
            Err(refusal) => Some(refusal),
        },
        Call::Open => open(file).err(),
        Call::Step { record, cursor } => {
            let own = own(file, record, *cursor);
            return Outcome::of_step(step(file, record, *cursor), own);
        }
        Call::Page { record, chunk, .. } => chunk_entries(file, record, *chunk).err(),
        Call::Start { .. } | Call::Part { .. } => None,
        Call::Write(input) => input.head().err(),
    };
    refusal.map_or(Outcome::Other, Outcome::Refused)
}

/// How this implementation refuses a call, if it does.
pub fn refusal_of(file: &[u8], call: &Call) -> Option<Refusal> {
    outcome_of(file, call).refusal()
}
