//! Two books side by side (FORMAT, Comparison).

use crate::ask::Asked;
use crate::chunk::{read_entry, read_stored, CHUNK, LISTING_HEADER};
use crate::name::compare;
use crate::number::Reader;
use crate::{Record, Refusal, Report, NONE};
use std::cmp::Ordering;

/// A book of a comparison: any bytes, with any record (FORMAT X1).
#[derive(Debug, Clone, Copy)]
pub struct Side<'a> {
    pub file: &'a [u8],
    pub record: &'a Record,
}

/// How far one book has been read along its chain (FORMAT X2).
#[derive(Debug, Clone, Copy, PartialEq, Eq)]
pub struct Walk {
    /// The chunk that is being read.
    pub chunk: u64,
    /// Where the next entry stands in it.
    pub place: u64,
    /// How many entries are left in it.
    pub left: u64,
    /// The chunk that follows.
    pub next: u64,
    /// How many chunks may still be entered.
    pub more: u64,
}

/// How far a comparison has come (FORMAT X2).
#[derive(Debug, Clone, Copy, PartialEq, Eq)]
pub struct Progress {
    pub one: Walk,
    pub two: Walk,
    pub totals: Totals,
}

/// How many names were only in the first book, only in the second, the same, changed, each modulo
/// 2^64 (FORMAT X10).
#[derive(Debug, Clone, Copy, PartialEq, Eq, Default)]
pub struct Totals {
    pub only_first: u64,
    pub only_second: u64,
    pub same: u64,
    pub changed: u64,
}

/// The seven numbers of an entry (FORMAT X9).
#[derive(Debug, Clone, Copy, PartialEq, Eq)]
pub struct Listed {
    pub report: Report,
    /// Where the entry's own bytes stand in the file, from its name's length on (FORMAT K25).
    pub place: u64,
    /// How many they are.
    pub length: u64,
}

/// A name that is not the same in both books (FORMAT X9).
#[derive(Debug, Clone, Copy, PartialEq, Eq)]
pub enum Difference {
    OnlyFirst(Listed),
    OnlySecond(Listed),
    Changed(Listed, Listed),
}

/// What a step of a comparison answers (FORMAT X9 to X11).
#[derive(Debug, Clone, Copy, PartialEq, Eq)]
pub enum Compared {
    /// With the cursor that is handed back.
    Difference(Difference, Progress),
    End(Totals),
    Refused {
        /// 1 or 2.
        book: u64,
        refusal: Refusal,
    },
}

impl Progress {
    /// The fourteen numbers in their order (FORMAT X2).
    pub fn numbers(&self) -> [u64; 14] {
        let Progress { one, two, totals } = self;
        let mut numbers = [0; 14];
        numbers[..5].copy_from_slice(&one.numbers());
        numbers[5..10].copy_from_slice(&two.numbers());
        numbers[10..].copy_from_slice(&totals.numbers());
        numbers
    }

    pub fn of_numbers(numbers: [u64; 14]) -> Progress {
        let walk = |from: usize| Walk {
            chunk: numbers[from],
            place: numbers[from + 1],
            left: numbers[from + 2],
            next: numbers[from + 3],
            more: numbers[from + 4],
        };
        Progress {
            one: walk(0),
            two: walk(5),
            totals: Totals {
                only_first: numbers[10],
                only_second: numbers[11],
                same: numbers[12],
                changed: numbers[13],
            },
        }
    }
}

impl Walk {
    fn numbers(&self) -> [u64; 5] {
        [self.chunk, self.place, self.left, self.next, self.more]
    }
}

impl Totals {
    pub fn numbers(&self) -> [u64; 4] {
        [self.only_first, self.only_second, self.same, self.changed]
    }
}

/// The cursor that a comparison starts with (FORMAT X3).
pub fn compare_start(one: &Record, two: &Record) -> Progress {
    let start = |record: &Record| Walk {
        chunk: NONE.into(),
        place: 0,
        left: 0,
        next: record.first,
        more: record.count,
    };
    Progress {
        one: start(one),
        two: start(two),
        totals: Totals::default(),
    }
}

/// Goes on to the next difference (FORMAT X6, X9 to X11).
pub fn compare_step(one: Side, two: Side, from: &Progress) -> Compared {
    let mut progress = *from;
    loop {
        let first = match ahead(one, progress.one) {
            Ok(ahead) => ahead,
            Err(refusal) => return Compared::Refused { book: 1, refusal },
        };
        let second = match ahead(two, progress.two) {
            Ok(ahead) => ahead,
            Err(refusal) => return Compared::Refused { book: 2, refusal },
        };
        let turn = match turn(&first, &second) {
            Some(turn) => turn,
            None => return Compared::End(progress.totals),
        };
        progress = turn.count(&progress.totals, &first, &second);
        if let Some(difference) = turn.difference() {
            return Compared::Difference(difference, progress);
        }
    }
}

/// What comes next at a walk.
struct Ahead<'a> {
    /// In front of the entry, inside the chunk that was entered (FORMAT X8); or at the end.
    walk: Walk,
    /// Nothing at the end.
    entry: Option<Met<'a>>,
}

/// An entry that comes next.
struct Met<'a> {
    name: &'a [u8],
    listed: Listed,
    /// The walk behind it.
    behind: Walk,
}

/// Looks ahead in one book (FORMAT X4, X5).
fn ahead(side: Side, walk: Walk) -> Result<Ahead, Refusal> {
    let book = Asked::new(side.file, side.record)?;
    if walk.left > 0 {
        let entry = Some(meet_entry(&book, walk)?);
        return Ok(Ahead { walk, entry });
    }
    if walk.next == u64::from(NONE) && walk.more < side.record.count {
        return Ok(Ahead { walk, entry: None });
    }
    let entered = enter(&book, walk)?;
    let entry = Some(meet_entry(&book, entered)?);
    Ok(Ahead {
        walk: entered,
        entry,
    })
}

/// Enters the chunk that follows (FORMAT X4).
fn enter(book: &Asked, walk: Walk) -> Result<Walk, Refusal> {
    let more = walk.more.checked_sub(1).ok_or(Refusal::new(17))?;
    let (entries, next) = book.meet_listing(walk.next)?;
    Ok(Walk {
        chunk: walk.next,
        place: LISTING_HEADER as u64,
        left: entries.len() as u64,
        next: next.into(),
        more,
    })
}

/// Reads the entry at the walk's place; entries are left (FORMAT X5).
fn meet_entry<'a>(book: &Asked<'a>, walk: Walk) -> Result<Met<'a>, Refusal> {
    let refused = Refusal::new(17);
    let chunk = book.chunk_bytes(walk.chunk).ok_or(refused)?;
    if walk.place > CHUNK as u64 {
        return Err(refused);
    }
    let at = walk.place as usize;
    let mut reader = Reader::new(&chunk[at..]);
    let entry = read_entry(&mut reader, at, &book.limits, read_stored).ok_or(refused)?;
    Ok(Met {
        name: entry.name,
        listed: book.listed(walk.chunk, &entry),
        behind: Walk {
            place: entry.own.end as u64,
            left: walk.left - 1,
            ..walk
        },
    })
}

/// What is taken at a turn (FORMAT X7).
enum Turn {
    OnlyFirst(Listed),
    OnlySecond(Listed),
    Same,
    Changed(Listed, Listed),
}

/// Nothing if both books are at their ends.
fn turn(first: &Ahead, second: &Ahead) -> Option<Turn> {
    let (one, two) = match (&first.entry, &second.entry) {
        (Some(one), Some(two)) => (one, two),
        (Some(one), None) => return Some(Turn::OnlyFirst(one.listed)),
        (None, Some(two)) => return Some(Turn::OnlySecond(two.listed)),
        (None, None) => return None,
    };
    Some(match compare(one.name, two.name) {
        Ordering::Less => Turn::OnlyFirst(one.listed),
        Ordering::Greater => Turn::OnlySecond(two.listed),
        Ordering::Equal if stored(&one.listed) == stored(&two.listed) => Turn::Same,
        Ordering::Equal => Turn::Changed(one.listed, two.listed),
    })
}

/// What may differ between two entries of one name.
fn stored(listed: &Listed) -> [u64; 3] {
    let Report {
        section,
        offset,
        size,
        ..
    } = listed.report;
    [section, offset, size]
}

impl Turn {
    fn difference(&self) -> Option<Difference> {
        match *self {
            Turn::OnlyFirst(one) => Some(Difference::OnlyFirst(one)),
            Turn::OnlySecond(two) => Some(Difference::OnlySecond(two)),
            Turn::Changed(one, two) => Some(Difference::Changed(one, two)),
            Turn::Same => None,
        }
    }

    /// The cursor behind what is taken (FORMAT X7, X8, X10).
    fn count(&self, totals: &Totals, first: &Ahead, second: &Ahead) -> Progress {
        let mut totals = *totals;
        let total = match self {
            Turn::OnlyFirst(_) => &mut totals.only_first,
            Turn::OnlySecond(_) => &mut totals.only_second,
            Turn::Same => &mut totals.same,
            Turn::Changed(..) => &mut totals.changed,
        };
        *total = total.wrapping_add(1);
        let first_taken = !matches!(self, Turn::OnlySecond(_));
        let second_taken = !matches!(self, Turn::OnlyFirst(_));
        Progress {
            one: first.moved(first_taken),
            two: second.moved(second_taken),
            totals,
        }
    }
}

impl Ahead<'_> {
    /// The walk behind the entry if it is taken, else in front of it.
    fn moved(&self, taken: bool) -> Walk {
        match &self.entry {
            Some(met) if taken => met.behind,
            _ => self.walk,
        }
    }
}
