//! Asks the library and the second implementation the same, and compares the answers and every
//! lent place.

mod batch;
mod lookup;
mod opened;
mod order;
mod own;
mod sides;

use crate::coverage::{self, Coverage};
use crate::lent::Lent;
use crate::{inputs, library, padding};
use second::generate::{Call, Input};
use second::{
    chunk_entries, diff_frames, frames, lookup, open, part, scan, start, step, Cursor, Record,
    Refusal, Reply, Report, Step, NONE,
};

/// What the library answers for no refusal, and where it has nothing to tell: an absent name, the
/// end of the listing, too few places.
const DONE: u64 = 0;
const NOTHING: u64 = 255;

/// Counts comparisons and what came up in them.
pub struct Differ {
    pub coverage: Coverage,
    pub comparisons: u64,
}

/// Bytes and what opening them gives.
pub struct Asked<'a> {
    pub file: &'a [u8],
    pub opening: Result<Record, Refusal>,
}

impl<'a> Asked<'a> {
    pub fn new(file: &'a [u8]) -> Asked<'a> {
        Asked {
            file,
            opening: open(file),
        }
    }

    /// Whether opening gives this record for these bytes.
    pub fn gave(&self, record: &Record) -> bool {
        self.opening == Ok(*record)
    }
}

/// A refusal as one number.
fn code(refusal: Refusal) -> u64 {
    u64::from(refusal.number) + 256 * u64::from(refusal.place)
}

fn record_numbers(record: &Record) -> [u64; library::RECORD] {
    [
        record.version,
        record.time,
        record.language,
        record.start,
        record.count,
        record.density,
        record.depth,
        record.root,
        record.first,
        record.last,
        record.content,
    ]
}

/// The record as it is lent to be read: on the heap between guards, where a change is seen. Of a
/// local array behind `&` the compiler takes for granted that it stays.
fn lent(record: &Record) -> Lent<u64> {
    Lent::with("record", &record_numbers(record))
}

fn report_numbers(report: &Report) -> [u64; 5] {
    [
        report.place,
        report.length,
        report.section,
        report.offset,
        report.size,
    ]
}

/// The answers, and what is wrong besides, mostly with the lent places.
struct Both {
    second: u64,
    library: u64,
    differences: Vec<String>,
}

impl Both {
    fn new(second: u64, library: u64) -> Both {
        Both {
            second,
            library,
            differences: Vec::new(),
        }
    }

    fn lent(mut self, difference: Option<String>) -> Both {
        self.differences.extend(difference);
        self
    }

    fn told(self) -> Result<(), String> {
        self.told_as(answer_text)
    }

    /// The same for answers that read in another way.
    fn told_as(self, text: fn(u64) -> String) -> Result<(), String> {
        if self.second == self.library && self.differences.is_empty() {
            return Ok(());
        }
        let answers = format!(
            "second: {}\nlibrary: {}",
            text(self.second),
            text(self.library)
        );
        Err([vec![answers], self.differences].concat().join("\n"))
    }
}

/// The name that coverage has for an answer of either search.
fn reply_text(reply: Reply) -> &'static str {
    match reply {
        Reply::Found(_) => "found",
        Reply::Absent => "absent",
        Reply::Refused(refusal) => coverage::number(refusal.number),
    }
}

/// What a reply means for the five numbers that are lent for an entry, and the answer as a number.
fn expect_reply(answer: &mut Lent<u64>, reply: Reply) -> u64 {
    match reply {
        Reply::Found(report) => {
            answer.expect(&report_numbers(&report));
            DONE
        }
        Reply::Absent => NOTHING,
        Reply::Refused(refusal) => code(refusal),
    }
}

/// What a search of the library without a trail answered, and the row that ties it to lookup.
struct Searched<'a> {
    search: &'static str,
    row: &'static str,
    got: u64,
    entry: &'a [u64; 5],
}

/// On a book that opens, how the library's lookup differs from another search of it.
fn lookup_disagrees(
    file: &[u8],
    record: &Record,
    name: &[u8],
    searched: &Searched,
) -> Option<String> {
    let Searched {
        search, row, entry, ..
    } = searched;
    let (mut trail, mut answer) = ([0; 5], [0; 7]);
    let numbers = record_numbers(record);
    let got = library::lookup(file, &numbers, name, &mut trail, &mut answer);
    let same = got == searched.got && (got != DONE || answer[1..6] == entry[..]);
    (!same).then(|| {
        let (lookup, other) = (answer_text(got), answer_text(searched.got));
        format!("library, FORMAT {row}: lookup {lookup} {answer:?}, {search} {other} {entry:?}")
    })
}

/// An answer, as a refusal with its place if it can be one.
fn answer_text(answer: u64) -> String {
    let (number, place) = (answer % 256, answer / 256);
    if (1..=29).contains(&number) && place <= u64::from(NONE) {
        format!("{answer} (refusal {number}, place {place:X})")
    } else {
        answer.to_string()
    }
}

impl Differ {
    pub fn new() -> Differ {
        Differ {
            coverage: Coverage::new(),
            comparisons: 0,
        }
    }

    /// Nothing, or how the answers differ.
    pub fn compare(&mut self, asked: &Asked, call: &Call) -> Result<(), String> {
        self.comparisons += 1;
        let both = match call {
            Call::Open => self.open(asked.file),
            Call::Lookup {
                record,
                name,
                places,
            } => self.lookup(asked, record, name, *places),
            Call::Scan { record, name } => self.scan(asked, record, name),
            Call::Opened { record, name } => self.opened(asked, record, name),
            Call::Batch { names, room } => self.batch(asked, names, *room),
            Call::Start { record } => self.start(record),
            Call::Step { record, cursor } => {
                self.step(asked, record, *cursor).told()?;
                let own = self.own(asked, record, *cursor).told();
                return own.map_err(|answers| format!("own bytes there\n{answers}"));
            }
            Call::Page {
                record,
                chunk,
                numbers,
            } => self.page(asked, record, *chunk, *numbers),
            Call::Part { place, length } => self.part(asked.file, *place, *length),
            Call::Write(input) => self.write(input),
        };
        both.told()
    }

    fn open(&mut self, file: &[u8]) -> Both {
        let mut record = Lent::new("record", library::RECORD);
        let (answer, number) = match open(file) {
            Ok(opened) => {
                record.expect(&record_numbers(&opened));
                (DONE, 0)
            }
            Err(refusal) => (code(refusal), refusal.number),
        };
        self.coverage.count("open", coverage::number(number));
        let got = library::open(file, record.lend_array());
        Both::new(answer, got).lent(record.difference())
    }

    fn count_name(&mut self, group: &'static str, asked: &Asked, name: &[u8], told: Reply) {
        match name.len() {
            0 => self.coverage.count(group, "0 bytes"),
            1 => self.coverage.count(group, "1 byte"),
            1024 => self.coverage.count(group, "1,024 bytes"),
            1025 => self.coverage.count(group, "1,025 bytes"),
            1026.. => self.coverage.count(group, "longer"),
            _ => {}
        }
        if let Reply::Found(report) = told {
            if part(asked.file, report.place, report.length) != name {
                self.coverage.count(group, "found in another case");
            }
            if asked.opening.is_ok() && padding::found_padded(asked.file, &report) {
                self.coverage.count(group, "found in a padded entry");
            }
        }
    }

    fn scan(&mut self, asked: &Asked, record: &Record, name: &[u8]) -> Both {
        let mut answer = Lent::new("answer", 5);
        let told = scan(asked.file, record, name);
        let expected = expect_reply(&mut answer, told);
        self.count_scan(asked, record, name, told);

        let mut lent_record = lent(record);
        let mut lent_name = Lent::with("name", name);
        let got = library::scan(
            asked.file,
            lent_record.lend_array(),
            lent_name.lend(),
            answer.lend_array(),
        );
        let searched = Searched {
            search: "scan",
            row: "K20",
            got,
            entry: answer.lend_array(),
        };
        let disagreement = match asked.gave(record) {
            true => lookup_disagrees(asked.file, record, name, &searched),
            false => None,
        };
        Both::new(expected, got)
            .lent(answer.difference())
            .lent(lent_record.difference())
            .lent(lent_name.difference())
            .lent(disagreement)
    }

    fn count_scan(&mut self, asked: &Asked, record: &Record, name: &[u8], told: Reply) {
        let answer = reply_text(told);
        self.coverage.count("scan", answer);
        self.count_name("name scanned for", asked, name, told);
        if answer == "15" {
            return;
        }
        let answered = answer != "17";
        self.count_made_up("scan with a record of no book", asked, record, answered);
        let looked_up = lookup(asked.file, record, name, 5).reply();
        let pair = match (looked_up, told) {
            (Reply::Found(one), Reply::Found(two)) if one != two => "found in different chunks",
            (Reply::Found(_), Reply::Found(_)) => "both found",
            (Reply::Found(_), Reply::Absent) => "lookup found, scan absent",
            (Reply::Found(_), Reply::Refused(_)) => "lookup found, scan 17",
            (Reply::Absent, Reply::Found(_)) => "lookup absent, scan found",
            (Reply::Absent, Reply::Absent) => "both absent",
            (Reply::Absent, Reply::Refused(_)) => "lookup absent, scan 17",
            (Reply::Refused(_), Reply::Found(_)) => "lookup 17, scan found",
            (Reply::Refused(_), Reply::Absent) => "lookup 17, scan absent",
            (Reply::Refused(_), Reply::Refused(_)) => "both 17",
        };
        self.coverage.count("scan beside lookup", pair);
    }

    /// Counts an answer to a record that the bytes did not give.
    pub fn count_made_up(
        &mut self,
        group: &'static str,
        asked: &Asked,
        record: &Record,
        answered: bool,
    ) {
        if !asked.gave(record) {
            let answer = if answered { "answered" } else { "17" };
            self.coverage.count(group, answer);
            let numbers = record_numbers(record);
            self.coverage.count_extremes(&coverage::RECORD, &numbers);
        }
    }

    fn start(&mut self, record: &Record) -> Both {
        let mut cursor = Lent::new("cursor", 2);
        let first = start(record);
        cursor.expect(&[first.chunk, first.entry]);
        self.coverage.count("start", "0");
        let mut lent_record = lent(record);
        let got = library::start(lent_record.lend_array(), cursor.lend_array());
        Both::new(DONE, got)
            .lent(cursor.difference())
            .lent(lent_record.difference())
    }

    fn step(&mut self, asked: &Asked, record: &Record, at: Cursor) -> Both {
        let mut cursor = Lent::with("cursor", &[at.chunk, at.entry]);
        let mut entry = Lent::new("entry", 5);
        let (answer, name) = match step(asked.file, record, at) {
            Step::Entry(report, moved) => {
                cursor.expect(&[moved.chunk, moved.entry]);
                entry.expect(&report_numbers(&report));
                let onto = match moved.chunk {
                    chunk if chunk == at.chunk => "the same chunk",
                    chunk if chunk == u64::from(NONE) => "the end",
                    _ => "another chunk",
                };
                self.coverage.count("step onto", onto);
                (DONE, "entry")
            }
            Step::End(end) => {
                cursor.expect(&[end.chunk, end.entry]);
                (NOTHING, "end")
            }
            Step::Refused(refusal) => (code(refusal), coverage::number(refusal.number)),
        };
        self.coverage.count("step", name);
        let numbers = [at.chunk, at.entry];
        self.coverage.count_extremes(&coverage::CURSOR, &numbers);
        self.count_made_up("step with a record of no book", asked, record, name != "17");

        let mut lent_record = lent(record);
        let got = library::step(
            asked.file,
            lent_record.lend_array(),
            cursor.lend_array(),
            entry.lend_array(),
        );
        Both::new(answer, got)
            .lent(cursor.difference())
            .lent(entry.difference())
            .lent(lent_record.difference())
    }

    fn page(&mut self, asked: &Asked, record: &Record, chunk: u64, places: usize) -> Both {
        let mut entries = Lent::new("entries", places);
        let mut next = Lent::new("next", 2);
        let (answer, name) = match chunk_entries(asked.file, record, chunk) {
            Ok((reports, following)) => {
                let needed = 5 * reports.len();
                self.count_places(needed, places);
                if needed > places {
                    (NOTHING, "too few places")
                } else {
                    let numbers: Vec<u64> = reports.iter().flat_map(report_numbers).collect();
                    entries.expect(&numbers);
                    next.expect(&[reports.len() as u64, following.into()]);
                    (DONE, "entries")
                }
            }
            Err(refusal) => (code(refusal), coverage::number(refusal.number)),
        };
        self.coverage.count("page", name);
        self.count_made_up("page with a record of no book", asked, record, name != "17");

        let mut lent_record = lent(record);
        let got = library::chunk(
            asked.file,
            lent_record.lend_array(),
            chunk,
            entries.lend(),
            next.lend_array(),
        );
        Both::new(answer, got)
            .lent(entries.difference())
            .lent(next.difference())
            .lent(lent_record.difference())
    }

    fn count_places(&mut self, needed: usize, places: usize) {
        const GROUP: &str = "places for a page";
        if places == 0 {
            self.coverage.count(GROUP, "none");
        } else if places + 1 == needed {
            self.coverage.count(GROUP, "one short");
        } else if places == needed {
            self.coverage.count(GROUP, "enough");
        } else if places == needed + 1 {
            self.coverage.count(GROUP, "one more");
        } else if places == 4070 {
            self.coverage.count(GROUP, "4,070");
        }
    }

    fn part(&mut self, file: &[u8], place: u64, length: u64) -> Both {
        let answer = part(file, place, length).len() as u64;
        let name = match (answer, length) {
            (0, 0) => "of no bytes",
            (0, _) => "outside",
            _ => "inside",
        };
        self.coverage.count("part", name);
        Both::new(answer, library::part(file, place, length))
    }

    fn write(&mut self, input: &Input) -> Both {
        let mut out = Lent::new("out", input.out_len);
        let mut length = Lent::new("length", 1);
        let (answer, number) = match input.head() {
            Ok(head) => {
                out.expect(&head);
                length.expect(&[head.len() as u64]);
                self.count_output(head.len(), input.out_len);
                (DONE, 0)
            }
            Err(refusal) => (code(refusal), refusal.number),
        };
        self.coverage.count("write_head", coverage::number(number));
        match number {
            18 => inputs::count_padded(&mut self.coverage, input),
            20 => {
                let head = input.head_within(usize::MAX);
                self.count_output(head.map_or(0, |head| head.len()), input.out_len);
            }
            _ => {}
        }

        let mut lent_entries = Lent::with("entries", &input.entries);
        let got = library::write_head(
            lent_entries.lend(),
            input.density,
            input.time,
            input.language,
            input.content_length,
            out.lend(),
            length.lend_array(),
        );
        Both::new(answer, got)
            .lent(out.difference())
            .lent(length.difference())
            .lent(lent_entries.difference())
    }

    fn count_output(&mut self, head: usize, output: usize) {
        const GROUP: &str = "output";
        if output == 0 {
            self.coverage.count(GROUP, "none");
        } else if output + 1 == head {
            self.coverage.count(GROUP, "one byte short");
        } else if output == head {
            self.coverage.count(GROUP, "as long as the head");
        } else if output > head {
            self.coverage.count(GROUP, "longer");
        }
    }

    /// Compares what `list` wrote for these bytes.
    pub fn program(&mut self, file: &[u8], written: &str) -> Result<(), String> {
        self.comparisons += 1;
        let expected = frames(file);
        let number = refused_within(file, 60_000);
        self.coverage.count("list", coverage::number(number));
        if number == 0 {
            self.count_frames("frame of list", &expected, 0);
        }
        told_lines("list", &expected, written)
    }

    /// Compares what `diff` wrote for these two files.
    pub fn diff(&mut self, one: &[u8], two: &[u8], written: &str) -> Result<(), String> {
        self.comparisons += 1;
        let expected = diff_frames(one, two);
        let numbers = (refused_within(one, 30_000), refused_within(two, 30_000));
        let (group, name) = match numbers {
            (0, 0) if expected.is_empty() => ("diff", "no frame"),
            (0, 0) => ("diff", "frames"),
            (0, number) => ("diff, the second book refused", coverage::number(number)),
            (number, 0) => ("diff, the first book refused", coverage::number(number)),
            (one, two) if one == two => ("diff", "both books refused alike"),
            _ => ("diff", "both books refused"),
        };
        self.coverage.count(group, name);
        self.count_file(one);
        self.count_file(two);
        if numbers == (0, 0) {
            self.count_frames("frame of diff", &expected, 1);
        }
        for kind in ["01", "02", "03"] {
            if expected.lines().any(|line| line.starts_with(kind)) {
                self.coverage.count("frame of diff", kind);
            }
        }
        told_lines("diff", &expected, written)
    }

    /// Counts frames by their numbers; the entries stand behind so many bytes.
    fn count_frames(&mut self, group: &'static str, lines: &str, behind: usize) {
        for line in lines.lines() {
            let name = match padding::is_padded_frame(line, behind) {
                true => "with a padded number",
                false => "all numbers in their short form",
            };
            self.coverage.count(group, name);
        }
    }

    fn count_file(&mut self, file: &[u8]) {
        const GROUP: &str = "file of diff";
        match file.len() {
            0 => self.coverage.count(GROUP, "of no bytes"),
            29_999 => self.coverage.count(GROUP, "of 29,999 bytes"),
            30_000 => self.coverage.count(GROUP, "of 30,000 bytes"),
            30_001 => self.coverage.count(GROUP, "of 30,001 bytes"),
            30_002.. => self.coverage.count(GROUP, "longer"),
            _ => {}
        }
    }
}

/// The number by which a program refuses a book, 0 for none; it takes so many bytes at most.
fn refused_within(file: &[u8], most: usize) -> u8 {
    match open(file) {
        _ if file.len() > most => 29,
        Ok(_) => 0,
        Err(refusal) => refusal.number,
    }
}

/// Nothing, or the first line of a program's that differs.
fn told_lines(program: &str, expected: &str, written: &str) -> Result<(), String> {
    if expected == written {
        return Ok(());
    }
    let lines = |text: &str| text.lines().map(str::to_owned).collect::<Vec<String>>();
    let (expected, written) = (lines(expected), lines(written));
    let pairs = expected.iter().zip(&written);
    let at = pairs.take_while(|(one, two)| one == two).count();
    Err(format!(
        "second: {} lines, line {}: {:?}\n{program}: {} lines, line {}: {:?}",
        expected.len(),
        at + 1,
        expected.get(at),
        written.len(),
        at + 1,
        written.get(at)
    ))
}

#[cfg(test)]
mod tests {
    use super::*;

    #[test]
    fn refusals_as_numbers() {
        assert_eq!(code(Refusal::new(22)), 1_099_511_627_542);
        assert_eq!(code(Refusal::of_chunk(8, 3)), 776);
    }
}
