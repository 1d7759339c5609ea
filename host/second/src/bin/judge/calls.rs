//! Questions that tests/driver.c asks of the library, answered in its words: what a function
//! returns, and every lent place behind it, so that those that stay show what they held.
//!
//!   o                               open
//!   l RECORD PLACES NAME            lookup with a record and a trail of so many places
//!   f RECORD NAME                   lookup in an opened book; K24 where the rules settle no answer
//!   c RECORD NAME                   scan
//!   m ROOM NAMES                    batch into so many bytes, and 64 behind them
//!   s RECORD CHUNK ENTRY            step
//!   p RECORD CHUNK NUMBERS          page into so many numbers, as a sum over them
//!   b PLACE LENGTH                  part: its length
//!   n NAME NAME                     order of two names

use crate::words::{code, hexadecimal, line, Words};
use crate::Books;
use second::{Answer, Cursor, Expected, Record, Refusal, Reply, Report, Step};

/// What places that were lent hold before: those for numbers of an answer, and all others.
const NUMBER: u64 = 88;
const PLACE: u8 = 77;
/// How many bytes there are behind the room of a batch, and how many numbers for a page.
const BEHIND: usize = 64;
const PAGE: usize = 4200;

pub fn answer(books: &mut Books, letter: &str, words: &mut Words) -> Option<String> {
    Some(match letter {
        "o" => opened(books.opening()),
        "l" => lookup(&books.one, words),
        "f" => lookup_opened(books, words),
        "c" => {
            let (record, name) = (words.record(), words.bytes());
            reply(second::scan(&books.one, &record, &name))
        }
        "m" => batch(books, words),
        "s" => step(&books.one, words),
        "p" => page(&books.one, words),
        "b" => {
            let (place, length) = (words.number(), words.number());
            second::part(&books.one, place, length).len().to_string()
        }
        "n" => second::order(&words.bytes(), &words.bytes()).to_string(),
        _ => return None,
    })
}

pub fn report(report: Report) -> [u64; 5] {
    let Report {
        place,
        length,
        section,
        offset,
        size,
    } = report;
    [place, length, section, offset, size]
}

fn opened(opening: Result<Record, Refusal>) -> String {
    let (code, numbers) = match opening {
        Ok(r) => (
            0,
            [
                r.version, r.time, r.language, r.start, r.count, r.density, r.depth, r.root,
                r.first, r.last, r.content,
            ],
        ),
        Err(refusal) => (code(refusal), [NUMBER; 11]),
    };
    line([code].into_iter().chain(numbers))
}

fn lookup(file: &[u8], words: &mut Words) -> String {
    let (record, places, name) = (words.record(), words.number() as usize, words.bytes());
    let answer = second::lookup(file, &record, &name, places);
    let entry = match &answer {
        Answer::Found { report: found, .. } => report(*found),
        _ => [NUMBER; 5],
    };
    let (code, chunks, count, mut trail) = match answer {
        Answer::Found {
            trail, comparisons, ..
        } => (0, trail.len() as u64, comparisons, trail),
        Answer::Absent { trail, comparisons } => (255, trail.len() as u64, comparisons, trail),
        Answer::Refused(refusal) => (code(refusal), NUMBER, NUMBER, Vec::new()),
    };
    trail.resize(places, PLACE.into());
    let numbers = [code, chunks].into_iter().chain(entry).chain([count]);
    line(numbers.chain(trail.into_iter().map(u64::from)))
}

fn reply(reply: Reply) -> String {
    let (code, entry) = match reply {
        Reply::Found(found) => (0, report(found)),
        Reply::Absent => (255, [NUMBER; 5]),
        Reply::Refused(refusal) => (code(refusal), [NUMBER; 5]),
    };
    line([code].into_iter().chain(entry))
}

fn lookup_opened(books: &mut Books, words: &mut Words) -> String {
    let (record, name) = (words.record(), words.bytes());
    match second::lookup_opened(books.opening(), &books.one, &record, &name) {
        Expected::Exactly(expected) => reply(expected),
        Expected::FoundThereOrAbsent => "K24".to_string(),
    }
}

fn batch(books: &mut Books, words: &mut Words) -> String {
    let (room, names) = (words.number() as usize, words.bytes());
    let answers = second::batch_after(books.opening(), &books.one, &names, room);
    let (code, mut bytes) = match answers {
        Ok(answers) => (0, answers),
        Err(refusal) => (code(refusal), Vec::new()),
    };
    bytes.resize(room + BEHIND, PLACE);
    format!("{code} {}", hexadecimal(&bytes))
}

fn step(file: &[u8], words: &mut Words) -> String {
    let (record, chunk, entry) = (words.record(), words.number(), words.number());
    let at = Cursor { chunk, entry };
    let (code, behind, entry) = match second::step(file, &record, at) {
        Step::Entry(found, behind) => (0, behind, report(found)),
        Step::End(behind) => (255, behind, [NUMBER; 5]),
        Step::Refused(refusal) => (code(refusal), at, [NUMBER; 5]),
    };
    line([code, behind.chunk, behind.entry].into_iter().chain(entry))
}

fn page(file: &[u8], words: &mut Words) -> String {
    let (record, chunk, places) = (words.record(), words.number(), words.number() as usize);
    let (code, told, mut numbers) = match second::chunk_entries(file, &record, chunk) {
        Ok((entries, _)) if 5 * entries.len() > places => (255, [NUMBER; 2], Vec::new()),
        Ok((entries, next)) => {
            let told = [entries.len() as u64, next.into()];
            (0, told, entries.into_iter().flat_map(report).collect())
        }
        Err(refusal) => (code(refusal), [NUMBER; 2], Vec::new()),
    };
    numbers.resize(PAGE, PLACE.into());
    let times = |sum: u64, &number: &u64| sum.wrapping_mul(31).wrapping_add(number);
    let sum = numbers.iter().fold(0, times);
    line([code, told[0], told[1], sum])
}
