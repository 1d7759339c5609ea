//! Counted lookups that are refused at a chunk of their way.

use super::plan::Plan;
use super::Told;
use crate::generate::ask::break_chunk;
use crate::generate::Random;
use crate::{Answer, Refusal};

/// A lookup that is refused by 17 behind so many chunks, with one more where that has bytes.
fn refused(told: Told, behind: usize, chunk: Option<u64>) -> Option<Told> {
    let met = told.met[..behind].iter().copied().chain(chunk).collect();
    Some(Told {
        met,
        answer: Answer::Refused(Refusal::new(17)),
        ..told
    })
}

/// One of the chunks on the way is broken by itself.
pub fn broken(random: &mut Random, plan: &mut Plan, told: Told) -> Option<Told> {
    plan.lead_inside(random);
    let behind = random.index(told.met.len());
    let chunk = told.met[behind];
    plan.book = break_chunk(random, &plan.book, chunk as u32)?;
    refused(told, behind, Some(chunk))
}

/// The descent comes to an index chunk where a listing chunk is expected, or the other way round.
pub fn other_kind(random: &mut Random, plan: &mut Plan, told: Told) -> Option<Told> {
    let behind = random.index(told.met.len());
    let listing = behind + 1 == told.met.len();
    let others: Vec<u32> = (0..plan.book.count())
        .filter(|&number| plan.book.chunks[number as usize].is_listing() != listing)
        .collect();
    if others.is_empty() {
        return None; // at depth 1
    }
    let other = random.pick(&others);
    lead(plan, &told, behind, other.into())?;
    refused(told, behind, Some(other.into()))
}

/// The descent comes to a number below the count where the file has no chunk any more.
pub fn outside(random: &mut Random, plan: &mut Plan, told: Told) -> Option<Told> {
    let behind = random.index(told.met.len());
    // Content and gaps are shorter than a chunk.
    let first = u64::from(plan.book.count()) + 1;
    let count = random.pick(&[first + 1, first + 1, 127.max(first + 1), 4096]);
    plan.record.count = plan.record.count.max(count);
    let number = first + random.below(plan.record.count - first);
    lead(plan, &told, behind, number)?;
    refused(told, behind, None)
}

/// Lets a descent go to this chunk behind so many; nothing if the number has no room.
fn lead(plan: &mut Plan, told: &Told, behind: usize, number: u64) -> Option<()> {
    let density = plan.book.density;
    match behind.checked_sub(1) {
        None if plan.book.depth == 1 => plan.record.first = number,
        None => plan.record.root = number,
        Some(before) => {
            let child = told.met[before + 1];
            let chunk = &mut plan.book.chunks[told.met[before] as usize];
            // In chunks of one descent others may lead there too.
            let items = chunk.items.iter_mut();
            for item in items.filter(|item| item.fields[0] == child) {
                item.fields[0] = number;
            }
            if !chunk.fits(density) {
                return None;
            }
        }
    }
    Some(())
}
