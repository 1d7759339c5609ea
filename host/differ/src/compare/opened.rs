//! Lookup in an opened book.

use super::{expect_reply, lent, lookup_disagrees, reply_text};
use super::{Asked, Both, Differ, Searched, DONE, NOTHING};
use crate::lent::Lent;
use crate::library;
use second::{lookup_opened, stands_there, Expected, Record, Reply, Report};

/// What the library may answer where the rules leave it open, given what it did answer: that, or
/// absent and why that is wrong (FORMAT K24).
fn allowed(file: &[u8], name: &[u8], got: u64, answer: &mut Lent<u64>) -> (u64, Option<String>) {
    let numbers: [u64; 5] = *answer.lend_array();
    let [place, length, section, offset, size] = numbers;
    let report = Report {
        place,
        length,
        section,
        offset,
        size,
    };
    match got {
        DONE if stands_there(file, &report, name) => {
            answer.expect(&numbers);
            (DONE, None)
        }
        DONE => {
            let wrong = "library, FORMAT K24: found, and no such name stands there";
            (NOTHING, Some(wrong.to_owned()))
        }
        _ => (NOTHING, None),
    }
}

impl Differ {
    pub(super) fn opened(&mut self, asked: &Asked, record: &Record, name: &[u8]) -> Both {
        let file = asked.file;
        let mut answer = Lent::new("answer", 5);
        let mut lent_record = lent(record);
        let mut lent_name = Lent::with("name", name);
        let got = library::lookup_opened(
            file,
            lent_record.lend_array(),
            lent_name.lend(),
            answer.lend_array(),
        );
        let told = lookup_opened(asked.opening, file, record, name);
        self.count_opened(asked, record, name, told);
        let (expected, wrong) = match told {
            Expected::Exactly(reply) => {
                let searched = Searched {
                    search: "lookup_opened",
                    row: "K23",
                    got,
                    entry: answer.lend_array(),
                };
                let disagreement = match asked.gave(record) {
                    true => lookup_disagrees(file, record, name, &searched),
                    false => None,
                };
                (expect_reply(&mut answer, reply), disagreement)
            }
            Expected::FoundThereOrAbsent => {
                self.count_elsewhere(got);
                allowed(file, name, got, &mut answer)
            }
        };
        Both::new(expected, got)
            .lent(answer.difference())
            .lent(lent_record.difference())
            .lent(lent_name.difference())
            .lent(wrong)
    }

    fn count_opened(&mut self, asked: &Asked, record: &Record, name: &[u8], told: Expected) {
        const NAME: &str = "name looked up in an opened book";
        const MADE_UP: &str = "lookup in an opened book with a record of no book";
        match told {
            Expected::Exactly(reply) => {
                let answer = reply_text(reply);
                self.coverage.count("lookup in an opened book", answer);
                self.count_name(NAME, asked, name, reply);
                if answer == "17" {
                    self.count_made_up(MADE_UP, asked, record, false);
                }
            }
            Expected::FoundThereOrAbsent => {
                self.count_name(NAME, asked, name, Reply::Absent);
                self.count_made_up(MADE_UP, asked, record, true);
            }
        }
    }

    /// Counts what the library answers where the rules leave it open.
    fn count_elsewhere(&mut self, got: u64) {
        const GROUP: &str = "lookup in other bytes than were opened";
        match got {
            DONE => self.coverage.count(GROUP, "found"),
            NOTHING => self.coverage.count(GROUP, "absent"),
            _ => {}
        }
    }
}
