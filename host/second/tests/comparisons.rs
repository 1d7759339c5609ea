//! The generators of comparisons: what they say beforehand comes of them.

use second::generate::comparison::{
    comparison, cursor_labels, file_labels, files, labels, made_up,
};
use second::generate::comparison::{Comparison, Course, Given};
use second::generate::Random;
use second::*;
use std::collections::{BTreeMap, BTreeSet};

/// All differences from the start on, what ends them, and the cursors on the way. A course that is
/// not known may be long.
fn run(given: &[Given; 2]) -> (Vec<Difference>, Option<Compared>, Vec<Progress>) {
    let [one, two] = given;
    let mut differences = Vec::new();
    let mut seen = vec![compare_start(&one.record, &two.record)];
    while differences.len() < 20_000 {
        match compare_step(one.side(), two.side(), &seen[seen.len() - 1]) {
            Compared::Difference(difference, behind) => {
                differences.push(difference);
                seen.push(behind);
            }
            end => return (differences, Some(end), seen),
        }
    }
    (differences, None, seen)
}

fn expected(course: &Course) -> Option<(&Vec<Difference>, Compared)> {
    match course {
        Course::End(differences, totals) => Some((differences, Compared::End(*totals))),
        Course::Refused(differences, book) => {
            let (book, refusal) = (*book, Refusal::new(17));
            Some((differences, Compared::Refused { book, refusal }))
        }
        Course::Free => None,
    }
}

/// The numbers of every entry by its name in lower case.
fn by_name(given: &Given) -> BTreeMap<Vec<u8>, [u64; 3]> {
    let mut names = BTreeMap::new();
    let mut chunk = given.record.first;
    while chunk != u64::from(NONE) {
        let (reports, next) = chunk_entries(&given.file, &given.record, chunk).unwrap();
        names.extend(reports.iter().map(|report| {
            let name = part(&given.file, report.place, report.length);
            let numbers = [report.section, report.offset, report.size];
            (name.to_ascii_lowercase(), numbers)
        }));
        chunk = next.into();
    }
    names
}

/// FORMAT X12, by sets of names: the kind of each difference, their order, and the totals.
fn check_sets(given: &[Given; 2], differences: &[Difference], totals: Totals) {
    let (one, two) = (by_name(&given[0]), by_name(&given[1]));
    let all: BTreeSet<&Vec<u8>> = one.keys().chain(two.keys()).collect();
    let mut told = differences.iter();
    let mut counted = Totals::default();
    let name = |side: usize, listed: &Listed| {
        let report = listed.report;
        part(&given[side].file, report.place, report.length).to_ascii_lowercase()
    };
    for asked in all {
        match (one.get(asked), two.get(asked)) {
            (Some(first), Some(second)) if first == second => counted.same += 1,
            (Some(_), Some(_)) => {
                counted.changed += 1;
                assert!(
                    matches!(told.next(), Some(Difference::Changed(first, second))
                    if name(0, first) == *asked && name(1, second) == *asked)
                );
            }
            (Some(_), None) => {
                counted.only_first += 1;
                assert!(matches!(told.next(), Some(Difference::OnlyFirst(first))
                    if name(0, first) == *asked));
            }
            _ => {
                counted.only_second += 1;
                assert!(matches!(told.next(), Some(Difference::OnlySecond(second))
                    if name(1, second) == *asked));
            }
        }
    }
    assert_eq!((told.next(), counted), (None, totals));
    let [only_first, only_second, same, changed] = totals.numbers();
    assert_eq!(only_first + same + changed, one.len() as u64);
    assert_eq!(only_second + same + changed, two.len() as u64);
}

/// An entry's own bytes stand where its difference says: its four numbers, padded or not, and its
/// name.
fn check_own(given: &Given, listed: &Listed) {
    let report = listed.report;
    let own = own_bytes(&given.file, listed);
    let (length, taken) = read_encint(own).unwrap();
    assert_eq!(length, report.length);
    assert_eq!(listed.place + taken as u64, report.place);
    let mut at = taken + length as usize;
    for number in [report.section, report.offset, report.size] {
        let (value, taken) = read_encint(&own[at..]).unwrap();
        assert_eq!(value, number);
        at += taken;
    }
    assert_eq!(at, own.len());
}

fn check(index: u64, pair: &Comparison, open_pairs: &mut u64) {
    let (differences, end, _) = run(&pair.given);
    if let Some((aimed, aimed_end)) = expected(&pair.course) {
        let label = pair.label;
        assert!(*aimed == differences, "{index}, {label}");
        assert_eq!(end, Some(aimed_end), "{index}, {label}");
    }
    let [one, two] = &pair.given;
    for difference in differences.iter().take(50) {
        match difference {
            Difference::OnlyFirst(first) => check_own(one, first),
            Difference::OnlySecond(second) => check_own(two, second),
            Difference::Changed(first, second) => {
                check_own(one, first);
                check_own(two, second);
            }
        }
    }
    if open(&one.file) == Ok(one.record) && open(&two.file) == Ok(two.record) {
        *open_pairs += 1;
        match end {
            Some(Compared::End(totals)) => check_sets(&pair.given, &differences, totals),
            end => panic!("{index}: {end:?}"),
        }
    }
}

/// Every course comes about, and books that open keep FORMAT X12.
#[test]
fn courses_are_kept() {
    let mut seen = BTreeSet::new();
    let mut open_pairs = 0;
    for index in (0..4000).chain([5999, 8999]) {
        let pair = comparison(&mut Random::of_case(5, index), index);
        check(index, &pair, &mut open_pairs);
        seen.insert(pair.label);
    }
    assert_eq!(seen, labels().into_iter().collect());
    assert!(open_pairs > 1500, "{open_pairs}");
}

/// A name for what a step answers.
fn word(told: &Compared) -> &'static str {
    match told {
        Compared::Difference(Difference::OnlyFirst(_), _) => "only first",
        Compared::Difference(Difference::OnlySecond(_), _) => "only second",
        Compared::Difference(Difference::Changed(..), _) => "changed",
        Compared::End(_) => "end",
        Compared::Refused { book: 1, .. } => "first refused",
        Compared::Refused { .. } => "second refused",
    }
}

/// Made-up cursors are answered, in every way and in every kind.
#[test]
fn made_up_cursors_are_answered() {
    let mut seen = BTreeSet::new();
    let mut answers = BTreeMap::new();
    for index in 0..1500 {
        let random = &mut Random::of_case(6, index);
        let pair = comparison(random, index);
        let (_, _, cursors) = run(&pair.given);
        for _ in 0..6 {
            let made = made_up(random, &pair, &cursors);
            let side = |at: usize| Side {
                file: &pair.given[at].file,
                record: &made.records[at],
            };
            let told = compare_step(side(0), side(1), &made.cursor);
            *answers.entry(word(&told)).or_insert(0) += 1;
            seen.insert(made.label);
        }
    }
    assert_eq!(seen, cursor_labels().into_iter().collect());
    assert_eq!(answers.len(), 6, "{answers:?}");
    assert!(answers.values().all(|&count| count > 50), "{answers:?}");
}

/// A cursor is its fourteen numbers.
#[test]
fn cursors_as_numbers() {
    let numbers = [1, 2, 3, 4, 5, 6, 7, 8, 9, 10, 11, 12, 13, 14];
    let progress = Progress::of_numbers(numbers);
    assert_eq!(progress.numbers(), numbers);
    assert_eq!((progress.one.next, progress.two.chunk), (4, 6));
    assert_eq!(progress.totals.numbers(), [11, 12, 13, 14]);
}

/// Files for the program meet every refusal, in the first and in the second.
#[test]
fn files_meet_every_refusal() {
    let mut seen = BTreeSet::new();
    let mut frames = BTreeSet::new();
    for index in 0..1500 {
        let made = files(&mut Random::of_case(7, index));
        let [one, two] = &made.files;
        let text = diff_frames(one, two);
        let by_first = one.len() > 30_000 || open(one).is_err();
        frames.insert((by_first, text.get(..4).unwrap_or("").to_owned()));
        seen.insert(made.label);
    }
    assert_eq!(seen, file_labels().into_iter().collect());
    for number in (1..=14).chain([29]) {
        for by_first in [false, true] {
            assert!(
                frames.contains(&(by_first, format!("ee{number:02x}"))),
                "{number}"
            );
        }
    }
    assert!(frames.contains(&(false, String::new())));
    assert!(frames.iter().any(|(_, text)| text.starts_with("01")));
}
