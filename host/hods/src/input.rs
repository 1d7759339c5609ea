//! Books and other files, read whole.

use std::ffi::OsStr;
use std::fs::File;
use std::io::{self, Read};

use hodsplinter::{Book, Chain};

use crate::finding;
use crate::progress::Progress;
use crate::status::Trouble;
use crate::text::shown_path;

/// How many bytes are read at once.
const PIECE: u64 = 1 << 20;

/// How many bytes decide the refusals 2 and 3.
const FILE_HEADER: usize = 96;

/// What a path is called in messages.
pub fn called(path: &OsStr) -> String {
    match path == "-" {
        true => "standard input".to_string(),
        false => shown_path(path),
    }
}

/// What a line of a file is called in messages.
pub fn at_line(file: &str, line: usize) -> String {
    format!("{file}: line {line}")
}

/// The bytes of a book. What its first bytes show to be no book is not read to the end, however long it is.
pub fn read_book(path: &OsStr) -> Result<Vec<u8>, Trouble> {
    let judge = |front: &[u8]| match Book::open(front) {
        Err(refusal) if matches!(refusal.number(), 2 | 3) => {
            Err(finding::refused(&called(path), front, refusal))
        }
        _ => Ok(()),
    };
    read(path, judge)
}

/// The bytes of any file.
pub fn read_file(path: &OsStr) -> Result<Vec<u8>, Trouble> {
    read(path, |_| Ok(()))
}

/// The book in these bytes.
pub fn open<'a>(path: &OsStr, bytes: &'a [u8]) -> Result<Book<'a>, Trouble> {
    Book::open(bytes).map_err(|refusal| finding::refused(&called(path), bytes, refusal))
}

/// The same for a search along the chain: a book whose index is broken is taken too.
pub fn open_chain<'a>(path: &OsStr, bytes: &'a [u8]) -> Result<Chain<'a>, Trouble> {
    Chain::open(bytes).map_err(|refusal| finding::refused(&called(path), bytes, refusal))
}

fn read(path: &OsStr, judge: impl Fn(&[u8]) -> Result<(), Trouble>) -> Result<Vec<u8>, Trouble> {
    let trouble = |error: io::Error| Trouble::io(&called(path), &error);
    if path == "-" {
        return read_from(io::stdin().lock(), 0, path, judge);
    }
    let file = File::open(path).map_err(trouble)?;
    let size = file.metadata().map_err(trouble)?.len();
    read_from(file, size, path, judge)
}

fn read_from(
    mut file: impl Read,
    size: u64,
    path: &OsStr,
    judge: impl Fn(&[u8]) -> Result<(), Trouble>,
) -> Result<Vec<u8>, Trouble> {
    let name = called(path);
    let mut bytes = Vec::new();
    let mut progress = Progress::new(format!("reading {name}"), size);
    loop {
        let got = file
            .by_ref()
            .take(PIECE)
            .read_to_end(&mut bytes)
            .map_err(|error| Trouble::io(&name, &error))?;
        if got == 0 {
            return Ok(bytes);
        }
        if bytes.len() == got {
            judge(&bytes[..got.min(FILE_HEADER)])?;
            let rest = size.saturating_sub(got as u64);
            bytes
                .try_reserve_exact(rest as usize)
                .map_err(|_| Trouble::failed(&name, format!("no memory for {size} bytes")))?;
        }
        progress.add(got);
    }
}
