//! Lookups whose whole answer is said beforehand, with the trail and the number of comparisons
//! (FORMAT K26).
//!
//! The names of such a tree are made of ranks. So the plan knows by numbers which entry is taken in
//! each chunk, and what the search costs there.

mod kinds;
mod maker;
mod plan;
mod refused;
mod way;

use super::Random;
use crate::{Answer, Record};
use kinds::{Kind, KINDS};
use plan::Plan;
use way::Draw;

/// What of a tree is in the file.
#[derive(Debug, Clone, Copy, PartialEq, Eq, PartialOrd, Ord)]
pub enum Extent {
    /// All chunks: a good book, or what has been made of it.
    Whole,
    /// Those of one descent, of two chunks or more. Index entries that it does not take lead
    /// anywhere below the count.
    Descent,
}

/// Lookups with one record.
#[derive(Debug, Clone)]
pub struct Counted {
    pub label: &'static str,
    pub extent: Extent,
    pub file: Vec<u8>,
    pub record: Record,
    /// The first one is what the label says.
    pub lookups: Vec<Told>,
}

/// A lookup with five places of trail or more, and what it has to answer.
#[derive(Debug, Clone)]
pub struct Told {
    pub name: Vec<u8>,
    pub answer: Answer,
    /// The chunks that it meets, one that it refuses last.
    pub met: Vec<u64>,
}

/// How many lookups of other names go with one in a whole tree.
const OTHERS: usize = 5;

/// All labels with what is in the file.
pub fn labels() -> Vec<(Extent, &'static str)> {
    let of = |extent: Extent| {
        let kinds = KINDS.iter();
        kinds
            .filter(move |kind| kind.extents.contains(&extent))
            .map(move |kind| (extent, kind.label))
    };
    of(Extent::Whole).chain(of(Extent::Descent)).collect()
}

/// Lookups of the kind whose turn it is.
pub fn counted(random: &mut Random, turn: u64) -> Counted {
    let labels = labels();
    let (extent, label) = labels[turn as usize % labels.len()];
    let kind = KINDS.iter().find(|kind| kind.label == label);
    let kind = kind.expect("a kind for each label");
    loop {
        if let Some(counted) = attempt(random, kind, extent) {
            return counted;
        }
    }
}

/// Nothing where the entries that were drawn do not fit into their chunks.
fn attempt(random: &mut Random, kind: &Kind, extent: Extent) -> Option<Counted> {
    let draw = Draw::some(random, extent);
    let ways = (kind.ways)(random, &draw)?;
    let mut plan = Plan::of(random, &draw, &ways)?;
    let asked = ways.iter().map(|way| way.asked).collect();
    let told = plan.told(random, &asked);
    let mut lookups = vec![match kind.refuse {
        Some(refuse) => refuse(random, &mut plan, told)?,
        None => told,
    }];
    if kind.refuse.is_none() && extent == Extent::Whole {
        for _ in 0..OTHERS {
            let rank = plan.some_rank(random);
            lookups.push(plan.told(random, &rank));
        }
    }
    Some(Counted {
        label: kind.label,
        extent,
        file: plan.book.bytes(),
        record: plan.record,
        lookups,
    })
}
