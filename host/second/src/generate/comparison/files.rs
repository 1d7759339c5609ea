//! Files for the program `diff`: books about as long as it takes, shorter and longer ones, broken ones.

use super::issues::Issues;
use crate::generate::damage::{damage_for, damaged, varied};
use crate::generate::plan::Book;
use crate::generate::Random;

/// How long a file may be (FORMAT P7).
const MOST: usize = 30_000;

/// Two files to be compared by the program.
#[derive(Debug, Clone)]
pub struct Files {
    pub label: &'static str,
    pub files: [Vec<u8>; 2],
}

const ISSUES: &str = "files of two issues";
const FIRST: &str = "files, the first refused";
const SECOND: &str = "files, the second refused";
const BOTH: &str = "files, both refused";
const LIMIT: &str = "files about as long as the program takes";
const UNLIKE: &str = "files of two other books";

pub fn file_labels() -> Vec<&'static str> {
    vec![ISSUES, FIRST, SECOND, BOTH, LIMIT, UNLIKE]
}

pub fn files(random: &mut Random) -> Files {
    let label = random.pick(&[
        ISSUES, ISSUES, FIRST, FIRST, SECOND, SECOND, BOTH, LIMIT, UNLIKE,
    ]);
    let files = match label {
        ISSUES => issues(random),
        FIRST => [refused(random), good(random)],
        SECOND => [good(random), refused(random)],
        BOTH => [refused(random), refused(random)],
        LIMIT => about_limit(random),
        _ => [good(random), good(random)],
    };
    Files { label, files }
}

/// What this makes, once it is short enough.
fn short<const N: usize>(mut make: impl FnMut() -> Option<[Vec<u8>; N]>) -> [Vec<u8>; N] {
    loop {
        let made = make().filter(|files| files.iter().all(|file| file.len() <= MOST));
        if let Some(files) = made {
            return files;
        }
    }
}

fn issues(random: &mut Random) -> [Vec<u8>; 2] {
    short(|| {
        let issues = Issues::any(random)?;
        Some([0, 1].map(|side| issues.books[side].bytes()))
    })
}

fn good(random: &mut Random) -> Vec<u8> {
    let [file] = short(|| Some([varied(random).bytes()]));
    file
}

/// A book that is refused: too long, or by any number from 1 to 14.
fn refused(random: &mut Random) -> Vec<u8> {
    let number = random.between(0..=14) as u8;
    if number == 0 {
        return vec![0; MOST + random.between(1..=2) as usize];
    }
    let damage = damage_for(random, number);
    let [file] = short(|| Some([damaged(random, damage).0.bytes()]));
    file
}

/// Good books with content up to 30,000 bytes in all, or a few more or less.
fn about_limit(random: &mut Random) -> [Vec<u8>; 2] {
    loop {
        let issues = Issues::any(random);
        let lengths = [(); 2].map(|()| MOST - 1 + random.index(3));
        let files = issues.and_then(|issues| {
            let [one, two] = issues.books;
            Some([padded(one, lengths[0])?, padded(two, lengths[1])?])
        });
        if let Some(files) = files {
            return files;
        }
    }
}

/// A book with more content, in so many bytes; nothing if it has more.
fn padded(mut book: Book, length: usize) -> Option<Vec<u8>> {
    let content = length.checked_sub(book.places().content)?;
    // An entry may end with the content, so this becomes no shorter.
    if content < book.content.len() {
        return None;
    }
    book.content.resize(content, 0x5A);
    Some(book.bytes())
}
