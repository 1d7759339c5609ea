//! Cursors that no comparison gave.

use super::{Comparison, Given};
use crate::chunk::{CHUNK, LISTING_HEADER};
use crate::generate::ask::{bad_record, made_up_record};
use crate::generate::Random;
use crate::{chunk_entries, chunk_listed, compare_start, Progress, Record, Walk, NONE};

const TOP: u64 = u64::MAX;
const NO_CHUNK: u64 = NONE as u64;

/// A step from a made-up cursor, at times with other records too.
#[derive(Debug, Clone)]
pub struct MadeUp {
    pub label: &'static str,
    pub records: [Record; 2],
    pub cursor: Progress,
}

/// A way to make a cursor out of one that a comparison gave.
struct Way {
    label: &'static str,
    /// Nothing if it did not come about.
    change: fn(&mut Random, &mut Draft) -> Option<()>,
}

/// A cursor that is being made, with one of its walks, and the book of that walk.
struct Draft<'a> {
    given: &'a [Given; 2],
    side: usize,
    records: [Record; 2],
    cursor: Progress,
}

impl Draft<'_> {
    fn given(&self) -> &Given {
        &self.given[self.side]
    }

    fn record(&mut self) -> &mut Record {
        &mut self.records[self.side]
    }

    fn walk(&mut self) -> &mut Walk {
        match self.side {
            0 => &mut self.cursor.one,
            _ => &mut self.cursor.two,
        }
    }

    /// A listing chunk that can be met.
    fn listing(&self, random: &mut Random) -> Option<Listing> {
        let Given { file, record } = self.given();
        let chunk = random.below(record.count.clamp(1, 4096));
        let (entries, next) = chunk_listed(file, record, chunk).ok()?;
        let start = record.start + 84 + CHUNK as u64 * chunk;
        let places = entries.iter().map(|listed| listed.place - start);
        Some(Listing {
            chunk,
            places: places.collect(),
            next: next.into(),
        })
    }

    /// In front of some entry of a listing chunk.
    fn stand(&mut self, random: &mut Random) -> Option<Listing> {
        let listing = self.listing(random)?;
        let at = random.index(listing.places.len());
        let more = random.below(self.given().record.count.clamp(1, 4096));
        *self.walk() = Walk {
            chunk: listing.chunk,
            place: listing.places[at],
            left: (listing.places.len() - at) as u64,
            next: listing.next,
            more,
        };
        Some(listing)
    }

    /// At the end of a chunk, with this to come.
    fn leave(&mut self, random: &mut Random, next: u64, more: u64) {
        let (chunk, place) = (random.wide(), random.wide());
        let walk = self.walk();
        *walk = Walk {
            chunk: random.pick(&[walk.chunk, chunk]),
            place: random.pick(&[walk.place, place]),
            left: 0,
            next,
            more,
        };
    }

    /// Walks that may enter chunks without a bound could go round equal rings without an end. No
    /// file has a chunk of the highest numbers: with entries left there, the first turn is the last.
    fn bound(&mut self, random: &mut Random) {
        const MOST: u64 = 4100;
        let Progress { one, two, .. } = &mut self.cursor;
        let outside = |walk: &Walk| walk.left > 0 && walk.chunk >= 1 << 52;
        if one.more > MOST && two.more > MOST && !outside(one) && !outside(two) {
            let walk = if random.once_in(2) { one } else { two };
            walk.more = random.below(6);
        }
    }
}

/// A listing chunk: where its entries stand, and what follows it.
struct Listing {
    chunk: u64,
    places: Vec<u64>,
    next: u64,
}

pub fn cursor_labels() -> Vec<&'static str> {
    WAYS.iter().map(|way| way.label).collect()
}

/// A made-up cursor for these books; `seen` are cursors that comparing them gave.
pub fn made_up(random: &mut Random, pair: &Comparison, seen: &[Progress]) -> MadeUp {
    let given = &pair.given;
    let records = [given[0].record, given[1].record];
    loop {
        let way = &WAYS[random.index(WAYS.len())];
        let start = compare_start(&records[0], &records[1]);
        let mut draft = Draft {
            given,
            side: random.index(2),
            records,
            cursor: match seen.len() {
                0 => start,
                count => seen[random.index(count)],
            },
        };
        if (way.change)(random, &mut draft).is_some() {
            draft.bound(random);
            return MadeUp {
                label: way.label,
                records: draft.records,
                cursor: draft.cursor,
            };
        }
    }
}

const WAYS: &[Way] = &[
    Way {
        label: "any numbers",
        change: |random, draft| {
            let numbers = [(); 14].map(|()| random.wide());
            draft.cursor = Progress::of_numbers(numbers);
            Some(())
        },
    },
    Way {
        label: "one number changed",
        change: |random, draft| {
            let mut numbers = draft.cursor.numbers();
            let at = random.index(14);
            let (number, wide) = (numbers[at], random.wide());
            let near = [number.wrapping_add(1), number.wrapping_sub(1)];
            let far = [1 << 32, NO_CHUNK, 1 << 63, TOP, 0];
            let (near, far) = (random.pick(&near), random.pick(&far));
            numbers[at] = random.pick(&[near, far, wide, number ^ 1 << 32, number ^ 1 << 63]);
            draft.cursor = Progress::of_numbers(numbers);
            Some(())
        },
    },
    Way {
        label: "all 2^64 - 1",
        change: |_, draft| {
            draft.cursor = Progress::of_numbers([TOP; 14]);
            Some(())
        },
    },
    Way {
        label: "in front of any entry",
        change: |random, draft| draft.stand(random).map(|_| ()),
    },
    Way {
        label: "entry of a chunk not below the count",
        change: |random, draft| {
            let listing = draft.stand(random)?;
            if listing.chunk == 0 {
                return None;
            }
            draft.record().count = random.between(1..=listing.chunk);
            Some(())
        },
    },
    Way {
        label: "entry of a chunk by another start of the directory",
        change: |random, draft| {
            let listing = draft.stand(random)?;
            let before = random.below(listing.chunk + 1);
            let start = draft.record().start;
            draft.record().start = start + CHUNK as u64 * before;
            draft.walk().chunk -= before;
            Some(())
        },
    },
    Way {
        label: "place at the end of the chunk or behind it",
        change: |random, draft| {
            let listing = draft.stand(random)?;
            let wide = 1 << random.between(13..=63) | listing.places[0];
            let end = CHUNK as u64;
            let far = random.pick(&[1 << 32, 1 << 63, TOP, end + 20]);
            draft.walk().place = random.pick(&[end - 1, end, end, end + 1, wide, far]);
            Some(())
        },
    },
    Way {
        label: "any place in the chunk",
        change: |random, draft| {
            draft.stand(random)?;
            draft.walk().place = random.below(CHUNK as u64);
            Some(())
        },
    },
    Way {
        label: "more entries left than the chunk has",
        change: |random, draft| {
            draft.stand(random)?;
            let left = draft.walk().left;
            let far = random.pick(&[1 << 32, 1 << 63, TOP]);
            draft.walk().left = random.pick(&[left + 1, left + 1, left + 2, far]);
            Some(())
        },
    },
    Way {
        label: "fewer entries left than the chunk has",
        change: |random, draft| {
            draft.stand(random)?;
            let left = draft.walk().left;
            draft.walk().left = random.below(left);
            Some(())
        },
    },
    Way {
        label: "entry in a chunk that cannot be met",
        change: |random, draft| {
            let chunk = random.below(draft.record().count.clamp(1, 4096));
            let Given { file, record } = draft.given();
            if chunk_entries(file, record, chunk).is_ok() {
                return None;
            }
            let (place, left) = (
                random.pick(&[8, LISTING_HEADER as u64]),
                random.between(1..=3),
            );
            let walk = draft.walk();
            *walk = Walk {
                chunk,
                place,
                left,
                ..*walk
            };
            Some(())
        },
    },
    Way {
        label: "entry in a chunk outside the file",
        change: |random, draft| {
            let listing = draft.stand(random)?;
            let Given { file, record } = draft.given();
            let behind = (file.len() as u64).saturating_sub(record.start + 84) / CHUNK as u64;
            // Times 4,096, each of the last ones is the chunk's own place in 64 bits.
            let around = random.between(1..=4095) << 52 | listing.chunk;
            let far = random.pick(&[NO_CHUNK, 1 << 32, 1 << 63, TOP]);
            draft.walk().chunk = random.pick(&[behind, behind + 1, far, around, around]);
            Some(())
        },
    },
    Way {
        label: "no chunk may be entered",
        change: |random, draft| {
            let listing = draft.listing(random)?;
            draft.leave(random, listing.chunk, 0);
            Some(())
        },
    },
    Way {
        label: "some chunk follows",
        change: |random, draft| {
            let listing = draft.listing(random)?;
            let wide = random.wide();
            let more = random.pick(&[1, 2, 4096, TOP, wide]);
            draft.leave(random, listing.chunk, more);
            Some(())
        },
    },
    Way {
        label: "no chunk follows",
        change: |random, draft| {
            let listing = draft.listing(random)?;
            let (count, wide) = (draft.record().count, random.wide());
            let around = 1 << 32 | listing.chunk;
            let far = random.pick(&[NO_CHUNK - 1, NO_CHUNK + 1, 1 << 63 | NO_CHUNK, TOP]);
            let next = random.pick(&[count, around, far, wide]);
            draft.leave(random, next, 1);
            Some(())
        },
    },
    Way {
        label: "none follows, and fewer chunks may be entered than the count",
        change: |random, draft| {
            let count = draft.record().count.max(1);
            let more = random.below(count);
            draft.leave(random, NO_CHUNK, more);
            Some(())
        },
    },
    Way {
        label: "none follows, and as many chunks as the count may be entered",
        change: |random, draft| {
            let count = draft.record().count;
            draft.leave(random, NO_CHUNK, count);
            Some(())
        },
    },
    Way {
        label: "none follows, and more chunks than the count may be entered",
        change: |random, draft| {
            let more = draft.record().count.saturating_add(1);
            let more = random.pick(&[more, 4097, 1 << 32, 1 << 63, TOP]);
            draft.leave(random, NO_CHUNK, more);
            Some(())
        },
    },
    Way {
        label: "totals that wrap",
        change: |random, draft| {
            let totals = &mut draft.cursor.totals;
            totals.only_first = random.pick(&[TOP, TOP - 1]);
            totals.only_second = random.pick(&[TOP, TOP - 1]);
            totals.same = random.pick(&[TOP, TOP - 1, TOP - 2]);
            totals.changed = random.pick(&[TOP, TOP - 1]);
            Some(())
        },
    },
    Way {
        label: "both at their ends",
        change: |random, draft| {
            for side in [0, 1] {
                draft.side = side;
                let count = draft.record().count.max(1);
                let more = random.below(count);
                draft.leave(random, NO_CHUNK, more);
            }
            draft.cursor.totals.same = random.wide();
            Some(())
        },
    },
    Way {
        label: "bad record beside a cursor",
        change: |random, draft| {
            let Given { file, record } = draft.given();
            let bad = bad_record(random, record, file);
            *draft.record() = bad;
            Some(())
        },
    },
    Way {
        label: "other content start beside a cursor",
        change: |random, draft| {
            draft.stand(random)?;
            let Given { file, record } = draft.given();
            let length = file.len() as u64;
            let near = (record.content + 1).min(length);
            draft.record().content = random.pick(&[length, length, near, 0]);
            Some(())
        },
    },
    Way {
        label: "made-up record beside a cursor",
        change: |random, draft| {
            let Given { file, record } = draft.given();
            let made_up = made_up_record(random, record, file);
            *draft.record() = made_up;
            Some(())
        },
    },
];
