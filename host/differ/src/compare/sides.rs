//! Two books side by side.

use super::{answer_text, code, lent, Both, Differ, DONE, NOTHING};
use crate::lent::Lent;
use crate::{library, sides};
use second::{compare_start, compare_step, Compared, Difference, Listed, Progress, Record, Side};

/// Times the number of its book, this goes with a refusal.
const BOOK: u64 = 1 << 40;

fn listed_numbers(listed: &Listed) -> [u64; 7] {
    let report = super::report_numbers(&listed.report);
    let [name, name_length, section, offset, size] = report;
    [
        name,
        name_length,
        section,
        offset,
        size,
        listed.place,
        listed.length,
    ]
}

/// The kind, and seven numbers for each book, 0 for an entry that is not there.
fn difference_numbers(difference: &Difference) -> [u64; 15] {
    let (kind, one, two) = match difference {
        Difference::OnlyFirst(one) => (1, Some(one), None),
        Difference::OnlySecond(two) => (2, None, Some(two)),
        Difference::Changed(one, two) => (3, Some(one), Some(two)),
    };
    let mut numbers = [0; 15];
    numbers[0] = kind;
    numbers[1..8].copy_from_slice(&one.map_or([0; 7], listed_numbers));
    numbers[8..].copy_from_slice(&two.map_or([0; 7], listed_numbers));
    numbers
}

/// A refusal with its book, if it can be one.
fn sides_text(answer: u64) -> String {
    match answer / BOOK {
        book @ (1 | 2) => format!("{} of book {book}", answer_text(answer % BOOK)),
        _ => answer_text(answer),
    }
}

/// What a step's answer means for the cursor, the difference and the totals that are lent, and the
/// answer as a number.
fn expect_step(told: &Compared, lent: [&mut Lent<u64>; 3]) -> u64 {
    let [cursor, difference, totals] = lent;
    match told {
        Compared::Difference(told, behind) => {
            cursor.expect(&behind.numbers());
            difference.expect(&difference_numbers(told));
            DONE
        }
        Compared::End(told) => {
            totals.expect(&told.numbers());
            NOTHING
        }
        Compared::Refused { book, refusal } => code(*refusal) + BOOK * book,
    }
}

impl Differ {
    /// Asks for the start of a comparison with these records.
    pub fn sides_start(&mut self, one: &Record, two: &Record) -> Result<Progress, String> {
        self.comparisons += 1;
        let start = compare_start(one, two);
        let mut cursor = Lent::new("cursor", 14);
        cursor.expect(&start.numbers());
        let (mut lent_one, mut lent_two) = (lent(one), lent(two));
        let got = library::compare_start(
            lent_one.lend_array(),
            lent_two.lend_array(),
            cursor.lend_array(),
        );
        self.coverage.count("start of a comparison", "0");
        Both::new(DONE, got)
            .lent(cursor.difference())
            .lent(lent_one.difference())
            .lent(lent_two.difference())
            .told_as(sides_text)?;
        Ok(start)
    }

    /// Asks for a step from this cursor; what both answer.
    pub fn sides_step(
        &mut self,
        one: Side,
        two: Side,
        from: &Progress,
    ) -> Result<Compared, String> {
        self.comparisons += 1;
        let told = compare_step(one, two, from);
        let mut cursor = Lent::with("cursor", &from.numbers());
        let mut difference = Lent::new("difference", 15);
        let mut totals = Lent::new("totals", 4);
        let expected = expect_step(&told, [&mut cursor, &mut difference, &mut totals]);
        let (mut lent_one, mut lent_two) = (lent(one.record), lent(two.record));
        let got = library::compare_step(
            (one.file, lent_one.lend_array()),
            (two.file, lent_two.lend_array()),
            cursor.lend_array(),
            difference.lend_array(),
            totals.lend_array(),
        );
        Both::new(expected, got)
            .lent(cursor.difference())
            .lent(difference.difference())
            .lent(totals.difference())
            .lent(lent_one.difference())
            .lent(lent_two.difference())
            .told_as(sides_text)?;
        sides::count_step(&mut self.coverage, from, &told);
        Ok(told)
    }
}

#[cfg(test)]
mod tests {
    use super::*;

    #[test]
    fn refusals_with_their_books() {
        let refusal = code(second::Refusal::new(17));
        assert_eq!(refusal + BOOK, 0x1FF_FFFF_FF11);
        assert!(sides_text(refusal + 2 * BOOK).ends_with("of book 2"));
    }
}
