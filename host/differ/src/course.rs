//! A comparison of two books: from the start on, and from made-up cursors.

use crate::compare::{Asked, Differ};
use crate::run::Difference;
use crate::{coverage, sides};
use second::generate::comparison::{comparison, made_up, Comparison, Course};
use second::generate::Random;
use second::{Compared, Progress, Record, Refusal, Side};

/// Two books are compared with every so many cases.
const COMPARED: u64 = 4;

/// Changes the seed for comparisons.
const SEED: u64 = u64::from_be_bytes(*b"two book");

/// How many steps are asked for where the course is known, and where it is not.
const STEPS: usize = 20_000;
const FREE_STEPS: usize = 400;

/// How many made-up cursors go with a comparison, and how many steps with each.
const CURSORS: usize = 4;
const CURSOR_STEPS: usize = 3;

/// How many cursors on the way are kept to make others of.
const SEEN: usize = 100;

/// Compares two books if it is the turn of this case to bring them.
pub fn run(differ: &mut Differ, seed: u64, index: u64) -> Result<(), Difference> {
    if index % COMPARED != 0 {
        return Ok(());
    }
    // A stream of its own, so that nothing else depends on what this draws.
    let random = &mut Random::of_case(seed ^ SEED, index);
    let pair = comparison(random, index / COMPARED);
    differ.coverage.count("compared books", pair.label);
    let before = [0, 1].map(|side: usize| pair.given[side].file.clone());
    let compare = Compare::new(&pair);
    compare.run(differ, random)?;
    if (0..2).any(|side| pair.given[side].file != before[side]) {
        let told = "changed by the library".to_owned();
        let records = compare.records();
        return Err(compare.failed("all steps of", &records, told));
    }
    Ok(())
}

/// Two books that are compared, and what opening them gives.
struct Compare<'a> {
    pair: &'a Comparison,
    asked: [Asked<'a>; 2],
}

impl<'a> Compare<'a> {
    fn new(pair: &'a Comparison) -> Compare<'a> {
        let [one, two] = &pair.given;
        // A file beside itself is lent twice.
        let second = if one.file == two.file { one } else { two };
        Compare {
            pair,
            asked: [Asked::new(&one.file), Asked::new(&second.file)],
        }
    }

    fn records(&self) -> [Record; 2] {
        [self.pair.given[0].record, self.pair.given[1].record]
    }

    fn run(&self, differ: &mut Differ, random: &mut Random) -> Result<(), Difference> {
        let records = self.records();
        let start = differ.sides_start(&records[0], &records[1]);
        let start = start.map_err(|told| self.failed("the start of", &records, told))?;
        let (seen, course) = self.steps(differ, &records, start, self.most())?;
        self.keeps_its_course(&course)
            .and_then(|()| self.keeps_the_sums(differ, course.last()))
            .map_err(|told| self.failed("all steps of", &records, told))?;
        for _ in 0..CURSORS {
            let made = made_up(random, self.pair, &seen);
            differ.coverage.count("made-up cursor", made.label);
            self.count_cursor(differ, &made.cursor, &made.records);
            self.steps(differ, &made.records, made.cursor, CURSOR_STEPS)?;
        }
        Ok(())
    }

    fn most(&self) -> usize {
        match self.pair.course {
            Course::Free => FREE_STEPS,
            _ => STEPS,
        }
    }

    fn side<'b>(&'b self, at: usize, records: &'b [Record; 2]) -> Side<'b> {
        Side {
            file: self.asked[at].file,
            record: &records[at],
        }
    }

    /// Asks for the steps from a cursor on, so many at most; some of the cursors on the way, and all
    /// answers.
    fn steps(
        &self,
        differ: &mut Differ,
        records: &[Record; 2],
        from: Progress,
        most: usize,
    ) -> Result<(Vec<Progress>, Vec<Compared>), Difference> {
        let (one, two) = (self.side(0, records), self.side(1, records));
        let mut at = from;
        let mut seen = vec![from];
        let mut course = Vec::new();
        while course.len() < most {
            let told = differ.sides_step(one, two, &at);
            let told = told.map_err(|told| self.failed(&shown(&at), records, told))?;
            self.count_records(differ, records, &told);
            course.push(told);
            match told {
                Compared::Difference(_, behind) => at = behind,
                _ => break,
            }
            if seen.len() < SEEN {
                seen.push(at);
            }
        }
        Ok((seen, course))
    }

    /// Both may be wrong alike: what the pair says beforehand has to come of it.
    fn keeps_its_course(&self, course: &[Compared]) -> Result<(), String> {
        let (differences, end) = match &self.pair.course {
            Course::End(differences, totals) => (differences, Compared::End(*totals)),
            Course::Refused(differences, book) => {
                let (book, refusal) = (*book, Refusal::new(17));
                (differences, Compared::Refused { book, refusal })
            }
            Course::Free => return Ok(()),
        };
        for (at, told) in course.iter().enumerate() {
            let kept = match told {
                Compared::Difference(told, _) => differences.get(at) == Some(told),
                told => at == differences.len() && *told == end,
            };
            if !kept {
                let aim = differences.get(at);
                return Err(format!(
                    "step {at}, aim: {aim:?} or {end:?}\nboth: {told:?}"
                ));
            }
        }
        Ok(())
    }

    /// FORMAT X12 for two books that open, with their records.
    fn keeps_the_sums(&self, differ: &mut Differ, end: Option<&Compared>) -> Result<(), String> {
        let [one, two] = &self.asked;
        let records = self.records();
        if !(one.gave(&records[0]) && two.gave(&records[1])) {
            return Ok(());
        }
        let asked = [(one, &records[0]), (two, &records[1])];
        let totals = sides::count_books(&mut differ.coverage, asked);
        match end {
            Some(Compared::End(told)) if *told == totals => Ok(()),
            end => Err(format!("both, FORMAT X12: {end:?}, listed {totals:?}")),
        }
    }

    fn count_records(&self, differ: &mut Differ, records: &[Record; 2], told: &Compared) {
        const GROUP: &str = "comparison with a record of no book";
        let answered = !matches!(told, Compared::Refused { .. });
        for (asked, record) in self.asked.iter().zip(records) {
            differ.count_made_up(GROUP, asked, record, answered);
        }
    }

    fn count_cursor(&self, differ: &mut Differ, cursor: &Progress, records: &[Record; 2]) {
        let numbers = cursor.numbers();
        differ
            .coverage
            .count_extremes(&coverage::SIDES_CURSOR, &numbers);
        let [one, two] = &self.asked;
        let asked = [(one.file, &records[0]), (two.file, &records[1])];
        sides::count_cursor(&mut differ.coverage, cursor, asked);
    }

    fn failed(&self, asked: &str, records: &[Record; 2], answers: String) -> Difference {
        let lengths = [self.asked[0].file.len(), self.asked[1].file.len()];
        let asked = format!("{asked} two books of {lengths:?} bytes with {records:?}");
        Difference {
            label: self.pair.label,
            asked,
            answers,
        }
    }
}

fn shown(cursor: &Progress) -> String {
    format!("a step from {:?} of", cursor.numbers())
}
