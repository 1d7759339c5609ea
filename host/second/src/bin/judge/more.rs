//! Questions that no function of the library answers in one call.
//!
//!   E                        the entries of a book that opens, seven numbers each (FORMAT X9),
//!                            behind 0; or the refusal
//!   L                        what the program `list` writes, with spaces between its lines
//!   D                        what `diff` writes of the two books
//!   X                        two books that open, compared: the four totals, then of each
//!                            difference its kind and 14 numbers
//!   W DENSITY TIME LANGUAGE CONTENT ROOM
//!                            the head for these entries, behind 0; or the refusal
//!   M RECORD PLACES NAME     the chunks that a lookup comes to, one that it refuses too
//!   A PLACE LENGTH NAME      1 where FORMAT K24 lets this place be found for the name, else 0
//!   Q C DENSITY              the most comparisons in a chunk of c entries
//!   C DENSITY COUNT CONTENT  one chunk by itself: its refusal; or L, previous and next, or I; then
//!                            of each entry its place, the place behind it, place and length of
//!                            its name, and the numbers behind the name
//!   K DENSITY COUNT CONTENT ENTRIES NAMES
//!                            what the program `chunk_report` writes of it for these entries and
//!                            the last one, and for these names; commas stand between them

use crate::calls::report;
use crate::words::{code, hexadecimal, line, Words};
use crate::Books;
use second::{Chunk, Compared, Difference, Entry, Limits, Listed, Report, Side};

pub fn answer(books: &mut Books, letter: &str, words: &mut Words) -> Option<String> {
    Some(match letter {
        "E" => entries(books),
        "L" => joined(second::frames(&books.one)),
        "D" => joined(second::diff_frames(&books.one, &books.two)),
        "X" => compared(books),
        "W" => head(&books.one, words),
        "M" => {
            let (record, places, name) = (words.record(), words.number() as usize, words.bytes());
            line(second::met(&books.one, &record, &name, places))
        }
        "A" => {
            let (place, length, name) = (words.number(), words.number(), words.bytes());
            let report = Report {
                place,
                length,
                section: 0,
                offset: 0,
                size: 0,
            };
            let there = second::stands_there(&books.one, &report, &name);
            u8::from(there).to_string()
        }
        "Q" => second::most_comparisons(words.number(), words.number()).to_string(),
        "C" => chunk(&books.one, words),
        "K" => chunk_report(&books.one, words),
        _ => return None,
    })
}

fn joined(lines: String) -> String {
    lines.trim_end().replace('\n', " ")
}

fn seven(listed: &Listed) -> Vec<u64> {
    [&report(listed.report)[..], &[listed.place, listed.length]].concat()
}

fn entries(books: &mut Books) -> String {
    let record = match books.opening() {
        Ok(record) => record,
        Err(refusal) => return code(refusal).to_string(),
    };
    let mut numbers = vec![0];
    let mut chunk = record.first;
    while let Ok((listed, next)) = second::chunk_listed(&books.one, &record, chunk) {
        numbers.extend(listed.iter().flat_map(seven));
        chunk = next.into();
    }
    line(numbers)
}

/// Both books open.
fn compared(books: &mut Books) -> String {
    let first = books.opening().expect("a book");
    let second = second::open(&books.two).expect("a second book");
    let side = |file, record| Side { file, record };
    let (one, two) = (side(&books.one, &first), side(&books.two, &second));
    let mut at = second::compare_start(&first, &second);
    let mut numbers = Vec::new();
    loop {
        match second::compare_step(one, two, &at) {
            Compared::Difference(difference, behind) => {
                numbers.extend(difference_numbers(&difference));
                at = behind;
            }
            Compared::End(totals) => return line(totals.numbers().into_iter().chain(numbers)),
            Compared::Refused { .. } => panic!("a book that opened is refused"),
        }
    }
}

fn difference_numbers(difference: &Difference) -> Vec<u64> {
    match difference {
        Difference::OnlyFirst(one) => [vec![1], seven(one), vec![0; 7]].concat(),
        Difference::OnlySecond(two) => [vec![2], vec![0; 7], seven(two)].concat(),
        Difference::Changed(one, two) => [vec![3], seven(one), seven(two)].concat(),
    }
}

fn head(entries: &[u8], words: &mut Words) -> String {
    let mut word = || words.number() as u32;
    let (density, time, language) = (word(), word(), word());
    let (content, room) = (words.number(), words.number() as usize);
    match second::write_head(entries, density, time, language, content, room) {
        Ok(head) => format!("0 {}", hexadecimal(&head)),
        Err(refusal) => code(refusal).to_string(),
    }
}

fn limits(words: &mut Words) -> Limits {
    Limits {
        density: words.number(),
        count: words.number(),
        content_length: words.number(),
    }
}

fn chunk(bytes: &[u8], words: &mut Words) -> String {
    fn parts<Value>(entry: &Entry<Value>) -> [u64; 4] {
        let (own, name) = (&entry.own, entry.name);
        [own.start, own.end, entry.name_place, name.len()].map(|n| n as u64)
    }
    match second::read_chunk(bytes, &limits(words)) {
        Err(refused) => refused.to_string(),
        Ok(Chunk::Listing {
            previous,
            next,
            entries,
        }) => {
            let told = |e: &Entry<second::Stored>| {
                let value = e.value;
                [&parts(e)[..], &[value.section, value.offset, value.size]].concat()
            };
            let numbers = [previous.into(), next.into()].into_iter();
            format!("L {}", line(numbers.chain(entries.iter().flat_map(told))))
        }
        Ok(Chunk::Index { entries }) => {
            let told = |e: &Entry<u64>| [&parts(e)[..], &[e.value]].concat();
            format!("I {}", line(entries.iter().flat_map(told)))
        }
    }
}

fn chunk_report(bytes: &[u8], words: &mut Words) -> String {
    let read = second::read_chunk(bytes, &limits(words));
    let numbers = words
        .word()
        .split(',')
        .map(|n| n.parse().expect("a number"));
    let asked: Vec<usize> = numbers.collect();
    let names = words.list();
    match read {
        Err(refused) => refused.to_string(),
        Ok(Chunk::Listing {
            previous,
            next,
            entries,
        }) => {
            let found =
                |name: &Vec<u8>| second::holding(&entries, name).map(|e| e.own.start as u64);
            let front = format!("L {previous} {next} {}", entries.len());
            front + &places(&entries, &asked) + &shown(names.iter().map(found))
        }
        Ok(Chunk::Index { entries }) => {
            let child = |name: &Vec<u8>| second::leading(&entries, name).map(|e| e.value);
            let front = format!("I {}", entries.len());
            front + &places(&entries, &asked) + &shown(names.iter().map(child))
        }
    }
}

/// The places of these entries and of the last one.
fn places<Value>(entries: &[Entry<Value>], asked: &[usize]) -> String {
    let asked = asked.iter().map(|&index| entries.get(index));
    let with_last = asked.chain([entries.last()]);
    shown(with_last.map(|entry| entry.map(|entry| entry.own.start as u64)))
}

/// Numbers, or dashes, behind a colon.
fn shown(numbers: impl Iterator<Item = Option<u64>>) -> String {
    let word = |number: Option<u64>| match number {
        Some(number) => format!(" {number}"),
        None => " -".to_string(),
    };
    " :".to_string() + &numbers.map(word).collect::<String>()
}
