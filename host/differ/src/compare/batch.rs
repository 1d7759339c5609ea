//! Many names in one call.

use super::{answer_text, code, record_numbers, Asked, Both, Differ, DONE, NOTHING};
use crate::lent::Lent;
use crate::{batches, coverage, library};
use second::{batch_after, batch_names, Record, Refusal, ANSWER};

/// On a book that opens, the first answer of the library's batch that its lookup does not give
/// (FORMAT B6).
fn lookups_disagree(
    file: &[u8],
    record: &Record,
    names: &[&[u8]],
    answers: &[u8],
) -> Option<String> {
    let numbers = record_numbers(record);
    let mut groups = (0u32..).zip(names).zip(answers.chunks_exact(ANSWER));
    groups.find_map(|((at, name), group)| {
        let (mut trail, mut entry) = ([0; 5], [0; 7]);
        let got = library::lookup(file, &numbers, name, &mut trail, &mut entry);
        let told = match got {
            DONE => [DONE, entry[3], entry[4], entry[5]],
            NOTHING => [NOTHING, 0, 0, 0],
            refusal => [refusal % 256, 0, 0, 0],
        };
        let bytes = told.iter().flat_map(|number| number.to_le_bytes());
        let same = bytes.eq(group.iter().copied());
        (!same).then(|| {
            let lookup = answer_text(got);
            format!("library, FORMAT B6, name {at}: lookup {lookup} {entry:?}, batch {group:?}")
        })
    })
}

impl Differ {
    pub(super) fn batch(&mut self, asked: &Asked, names: &[u8], room: usize) -> Both {
        let mut answers = Lent::new("answers", room);
        let told = batch_after(asked.opening, asked.file, names, room);
        let expected = match &told {
            Ok(bytes) => {
                answers.expect(bytes);
                DONE
            }
            Err(refusal) => code(*refusal),
        };
        self.count_batch(asked, names, room, &told);

        let mut lent_names = Lent::with("names", names);
        let got = library::batch(asked.file, lent_names.lend(), answers.lend());
        let disagreement = match (asked.opening, batch_names(names)) {
            (Ok(record), Some(names)) if got == DONE => {
                lookups_disagree(asked.file, &record, &names, answers.lend())
            }
            _ => None,
        };
        Both::new(expected, got)
            .lent(answers.difference())
            .lent(lent_names.difference())
            .lent(disagreement)
    }

    fn count_batch(
        &mut self,
        asked: &Asked,
        names: &[u8],
        room: usize,
        told: &Result<Vec<u8>, Refusal>,
    ) {
        let number = told.as_ref().map_or_else(|refusal| refusal.number, |_| 0);
        self.coverage.count("batch", coverage::number(number));
        batches::count(&mut self.coverage, asked, names, room);
        if let Ok(answers) = told {
            batches::count_answers(&mut self.coverage, answers);
        }
    }
}
