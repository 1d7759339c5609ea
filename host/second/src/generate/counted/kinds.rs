//! The kinds of counted lookups.

use super::plan::Plan;
use super::way::{Draw, Way};
use super::{refused, Extent, Told};
use crate::generate::Random;

/// A kind of lookup.
pub struct Kind {
    pub label: &'static str,
    pub extents: &'static [Extent],
    /// How the chunks on its way are filled; nothing if this draw cannot be made into the kind.
    pub ways: fn(&mut Random, &Draw) -> Option<Vec<Way>>,
    /// What makes it be refused.
    pub refuse: Option<Refuse>,
}

/// Changes the plan so that a lookup that was to give this answer is refused; nothing if that cannot
/// be made of it.
type Refuse = fn(&mut Random, &mut Plan, Told) -> Option<Told>;

const BOTH: &[Extent] = &[Extent::Whole, Extent::Descent];
const DESCENT: &[Extent] = &[Extent::Descent];

pub const KINDS: &[Kind] = &[
    Kind {
        label: "every chunk reaches the bound, found",
        extents: BOTH,
        ways: |random, draw| bounds(random, draw, Way::at),
        refuse: None,
    },
    Kind {
        label: "every chunk reaches the bound, absent",
        extents: BOTH,
        ways: |random, draw| bounds(random, draw, Way::behind),
        refuse: None,
    },
    Kind {
        label: "the first name of a group",
        extents: BOTH,
        ways: |random, draw| {
            let last = Way::at(draw.front(random, draw.depth - 1));
            Some(led_to(random, draw, last))
        },
        refuse: None,
    },
    Kind {
        label: "any name",
        extents: BOTH,
        ways: any_name,
        refuse: None,
    },
    Kind {
        label: "right behind a name",
        extents: BOTH,
        ways: |random, draw| {
            let last = Way::behind(draw.any(random, draw.depth - 1));
            Some(led_to(random, draw, last))
        },
        refuse: None,
    },
    Kind {
        label: "above all names of a chunk that an index entry leads to",
        extents: BOTH,
        ways: above_a_chunk,
        refuse: None,
    },
    Kind {
        label: "below all names of a chunk that an index entry leads to",
        extents: DESCENT,
        ways: below_a_chunk,
        refuse: None,
    },
    Kind {
        label: "below all names",
        extents: BOTH,
        ways: |random, draw| {
            let mut ways = any_name(random, draw)?;
            ways[0].asked = 0;
            Some(ways)
        },
        refuse: None,
    },
    Kind {
        label: "above all names",
        extents: BOTH,
        ways: |random, draw| {
            let mut ways = any_name(random, draw)?;
            for way in &mut ways {
                way.asked = 2 * way.entries;
            }
            Some(ways)
        },
        refuse: None,
    },
    Kind {
        label: "refused, a broken chunk",
        extents: BOTH,
        ways: any_name,
        refuse: Some(refused::broken),
    },
    Kind {
        label: "refused, a chunk of the other kind",
        extents: BOTH,
        ways: any_name,
        refuse: Some(refused::other_kind),
    },
    Kind {
        label: "refused, a chunk outside the file",
        extents: BOTH,
        ways: any_name,
        refuse: Some(refused::outside),
    },
];

/// This chunk, led to by some entry of any index chunk at each level above.
fn led_to(random: &mut Random, draw: &Draw, last: Way) -> Vec<Way> {
    let above = 0..draw.depth - 1;
    let mut ways: Vec<Way> = above
        .map(|level| Way::at(draw.any(random, level)))
        .collect();
    ways.push(last);
    ways
}

fn any_name(random: &mut Random, draw: &Draw) -> Option<Vec<Way>> {
    let last = Way::at(draw.any(random, draw.depth - 1));
    Some(led_to(random, draw, last))
}

/// The bound at each level; the listing chunk is asked for the entry or for what is behind it.
fn bounds(random: &mut Random, draw: &Draw, ask: fn((usize, usize)) -> Way) -> Option<Vec<Way>> {
    let above = 0..draw.depth - 1;
    let ways = above.map(|level| draw.bound(random, level).map(Way::at));
    let mut ways = ways.collect::<Option<Vec<Way>>>()?;
    ways.push(ask(draw.bound(random, draw.depth - 1)?));
    Some(ways)
}

/// What comes right behind an index entry is above all names of the chunks below it.
fn above_a_chunk(random: &mut Random, draw: &Draw) -> Option<Vec<Way>> {
    let mut ways = any_name(random, draw)?;
    if draw.depth == 1 {
        return None;
    }
    let level = random.index(draw.depth - 1);
    ways[level].asked += 1;
    for way in &mut ways[level + 1..] {
        way.asked = 2 * way.entries;
    }
    Some(ways)
}

/// A chunk whose first name is above that of its index entry (FORMAT T4 fails), asked for the name
/// of the index entry or for one between.
fn below_a_chunk(random: &mut Random, draw: &Draw) -> Option<Vec<Way>> {
    let mut ways = any_name(random, draw)?;
    let level = 1 + random.index(draw.depth - 1);
    ways[level].first = 3;
    ways[level].asked = random.pick(&[1, 2]);
    for way in &mut ways[level + 1..] {
        way.asked = 1;
    }
    Some(ways)
}
