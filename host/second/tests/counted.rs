//! Lookups that say the number of comparisons beforehand, and bytes that have to be answered alike.

use second::generate::ask::lookup_case;
use second::generate::counted::{counted, labels, Counted, Extent, Told};
use second::generate::standing::{groups, halvings, Standing};
use second::generate::{twin, Call, Random};
use second::*;
use std::collections::{BTreeMap, BTreeSet};

/// Turns that bring each kind many times.
const TURNS: u64 = 1500;

fn in_turn(seed: u64, turn: u64) -> (Counted, Random) {
    let mut random = Random::of_case(seed, turn);
    (counted(&mut random, turn), random)
}

/// How many chunks have been met, and the comparisons; nothing for a refusal.
fn counts(answer: &Answer) -> Option<(usize, u64)> {
    match answer {
        Answer::Found {
            trail, comparisons, ..
        }
        | Answer::Absent { trail, comparisons } => Some((trail.len(), *comparisons)),
        Answer::Refused(_) => None,
    }
}

/// What is said beforehand comes of it, in the book and in bytes that agree with it in the chunks of
/// the descent alone (FORMAT K26, K27).
#[test]
fn counts_said_beforehand() {
    let mut seen = BTreeSet::new();
    for turn in 0..TURNS {
        let (counted, mut random) = in_turn(1, turn);
        let Counted { file, record, .. } = &counted;
        for Told { name, answer, met } in &counted.lookups {
            let label = counted.label;
            assert_eq!(lookup(file, record, name, 5), *answer, "{turn}, {label}");
            let other = twin(&mut random, file, record, met);
            assert_eq!(lookup(&other, record, name, 5), *answer, "{turn}, {label}");
            assert_ne!(open(&other), Ok(*record));
        }
        let refused = counted.label.starts_with("refused");
        let opens = open(file) == Ok(*record);
        assert!(!(opens && refused), "{turn}");
        assert!(opens || refused || counted.extent == Extent::Descent);
        seen.insert((counted.extent, counted.label));
    }
    assert_eq!(seen, labels().into_iter().collect());
}

/// The chunks that a lookup meets are those that the plan says; one outside the file has no bytes.
#[test]
fn chunks_that_are_met() {
    for turn in 0..TURNS {
        let (counted, _) = in_turn(2, turn);
        let Counted { file, record, .. } = &counted;
        for told in &counted.lookups {
            let mut chunks = met(file, record, &told.name, 5);
            if counted.label == "refused, a chunk outside the file" {
                let outside = chunks.pop().unwrap();
                assert!(record.start + 84 + 4096 * (outside + 1) > file.len() as u64);
            }
            assert_eq!(chunks, told.met, "{turn}, {}", counted.label);
        }
    }
}

/// Every bound holds, and is reached where a kind says so: at every depth and density, and for all
/// numbers of halvings that a chunk has room for (FORMAT Q12).
#[test]
fn bounds_are_reached() {
    let mut reached = BTreeSet::new();
    for turn in 0..TURNS {
        let (counted, _) = in_turn(3, turn);
        let Counted { file, record, .. } = &counted;
        for (at, told) in counted.lookups.iter().enumerate() {
            let (chunks, comparisons) = match counts(&told.answer) {
                Some(counts) => counts,
                None => continue,
            };
            let place = |chunk: &u64| (record.start + 84 + 4096 * (chunk + 1) - 2) as usize;
            let entries = |at: usize| u64::from(file[at]) + 256 * u64::from(file[at + 1]);
            let bound = |chunk| most_comparisons(entries(place(chunk)), record.density);
            let bounds: Vec<u64> = told.met.iter().map(bound).collect();
            let most: u64 = bounds.iter().sum();
            assert!(comparisons <= most, "{turn}");
            if at == 0 && counted.label.starts_with("every chunk reaches the bound") {
                assert_eq!(comparisons, most, "{turn}");
                assert_eq!(chunks as u64, record.depth);
                reached.insert(("depth", record.depth));
                reached.insert(("density", record.density));
                let step = 1 + (1 << record.density);
                reached.extend(bounds.iter().map(|bound| ("halvings", bound - step)));
            }
        }
    }
    assert_eq!(reached.len(), 5 + 8 + 10, "{reached:?}");
}

/// The table by numbers is the search by names, for all chunks of up to 300 names and wherever the
/// asked one stands.
#[test]
fn numbers_and_names_agree() {
    let name = |number: u16| format!("{number:03}").into_bytes();
    for density in 0..=7 {
        for entries in 1..=300 {
            let names: Vec<Vec<u8>> = (0..entries).map(|entry| name(2 * entry + 1)).collect();
            let names: Vec<&[u8]> = names.iter().map(|name| &name[..]).collect();
            for asked in 0..=2 * entries {
                let standing = Standing {
                    entries: entries.into(),
                    below: usize::from(asked / 2),
                    equal: asked % 2 == 1,
                };
                let count = comparisons(&names, density, &name(asked));
                assert_eq!(
                    count,
                    standing.comparisons(density),
                    "{density} {standing:?}"
                );
                assert!(count <= most_comparisons(entries.into(), density));
            }
        }
    }
}

/// FORMAT Q12 by numbers: h halvings are the most for up to 2^h groups, and each group of 2^h has
/// them.
#[test]
fn halvings_of_powers() {
    for h in 0..=9u32 {
        let power = 1 << h;
        assert!(halvings(power).iter().all(|&often| often == u64::from(h)));
        for groups in power / 2 + 1..=power {
            assert_eq!(halvings(groups).iter().max(), Some(&u64::from(h)));
        }
    }
    assert_eq!((groups(5, 2), groups(6, 2), groups(11, 2)), (1, 2, 3));
}

/// Lookups of every other kind give the same answer in bytes that agree in the chunks they meet.
#[test]
fn lookups_in_twins() {
    let random = &mut Random::new(41);
    let mut seen = BTreeMap::new();
    for _ in 0..3000 {
        let case = lookup_case(random);
        let (record, name, places) = match &case.call {
            Call::Lookup {
                record,
                name,
                places,
            } => (record, name, *places),
            _ => unreachable!(),
        };
        let chunks = met(&case.file, record, name, places);
        let answer = lookup(&case.file, record, name, places);
        let other = twin(random, &case.file, record, &chunks);
        assert_eq!(other.len(), case.file.len());
        assert_eq!(lookup(&other, record, name, places), answer);
        assert_eq!(met(&other, record, name, places), chunks);
        let word = match answer {
            Answer::Found { .. } => "found".to_owned(),
            Answer::Absent { .. } => "absent".to_owned(),
            Answer::Refused(refusal) => format!("{} behind {}", refusal.number, chunks.len()),
        };
        *seen.entry(word).or_insert(0) += 1;
    }
    // Bad records are refused behind no chunk.
    for word in [
        "found",
        "absent",
        "15 behind 0",
        "16 behind 0",
        "17 behind 0",
        "17 behind 1",
    ] {
        assert!(seen.get(word) > Some(&20), "{word}: {seen:?}");
    }
}
