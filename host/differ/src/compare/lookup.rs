//! Lookup, with its trail and its comparisons.

use super::{code, lent, reply_text, report_numbers, Asked, Both, Differ, DONE, NOTHING};
use crate::lent::Lent;
use crate::{coverage, library, searches};
use second::{lookup, Answer, Record};

/// How many numbers are lent for an answer, and the place of the comparisons behind those of the
/// chunks and of the entry.
const NUMBERS: usize = 7;
const COMPARISONS: usize = 6;

/// What an answer means for the numbers and the trail that are lent, and the answer as a number.
/// Absent leaves the five numbers of an entry as they were.
fn expect_answer(told: &Answer, answer: &mut Lent<u64>, trail: &mut Lent<u32>) -> u64 {
    let (descent, comparisons, report) = match told {
        Answer::Found {
            report,
            trail,
            comparisons,
        } => (trail, comparisons, Some(report)),
        Answer::Absent { trail, comparisons } => (trail, comparisons, None),
        Answer::Refused(refusal) => return code(*refusal),
    };
    trail.expect(descent);
    answer.expect(&[descent.len() as u64]);
    answer.expect_at(COMPARISONS, &[*comparisons]);
    match report {
        Some(report) => {
            answer.expect_at(1, &report_numbers(report));
            DONE
        }
        None => NOTHING,
    }
}

impl Differ {
    pub(super) fn lookup(
        &mut self,
        asked: &Asked,
        record: &Record,
        name: &[u8],
        places: usize,
    ) -> Both {
        let mut answer = Lent::new("answer", NUMBERS);
        let mut trail = Lent::new("trail", places);
        let told = lookup(asked.file, record, name, places);
        let expected = expect_answer(&told, &mut answer, &mut trail);
        self.count_lookup(asked, record, name, places, &told);
        let wrong = searches::count(&mut self.coverage, asked.file, record, name, &told);

        let mut lent_record = lent(record);
        let mut lent_name = Lent::with("name", name);
        let got = library::lookup(
            asked.file,
            lent_record.lend_array(),
            lent_name.lend(),
            trail.lend(),
            answer.lend_array(),
        );
        Both::new(expected, got)
            .lent(answer.difference())
            .lent(trail.difference())
            .lent(lent_record.difference())
            .lent(lent_name.difference())
            .lent(wrong)
    }

    fn count_lookup(
        &mut self,
        asked: &Asked,
        record: &Record,
        name: &[u8],
        places: usize,
        told: &Answer,
    ) {
        let answer = reply_text(told.reply());
        self.coverage.count("lookup", answer);
        let places = match places {
            0..=7 => coverage::number(places as u8),
            _ => "more places",
        };
        self.coverage.count("trail", places);
        self.count_name("asked name", asked, name, told.reply());
        self.count_descent(record, told);
        if !matches!(answer, "15" | "16") {
            self.count_made_up(
                "lookup with a record of no book",
                asked,
                record,
                answer != "17",
            );
        }
    }

    fn count_descent(&mut self, record: &Record, told: &Answer) {
        const DESCENTS: [&str; 5] = ["1 chunk", "2 chunks", "3 chunks", "4 chunks", "5 chunks"];
        let (trail, absent) = match told {
            Answer::Found { trail, .. } => (trail, false),
            Answer::Absent { trail, .. } => (trail, true),
            Answer::Refused(_) => return,
        };
        let name = match absent && (trail.len() as u64) < record.depth {
            true => "ends in an index chunk",
            false => DESCENTS[trail.len() - 1],
        };
        self.coverage.count("descent", name);
    }
}
