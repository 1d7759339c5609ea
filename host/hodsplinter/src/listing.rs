//! Listing by pages and by steps.

use std::iter::FusedIterator;

use crate::book::Book;
use crate::entry::Entry;
use crate::refusal::Refusal;
use crate::sys;

/// The chunk number behind the last listing chunk.
const NONE: u64 = 0xFFFF_FFFF;

/// The entries of a book, in order: [`Book::entries`].
///
/// # Panics
///
/// The chain of a book that opened is proved to list to its end, so no page of it is refused. Should it be, this panics rather than end early and
/// lose entries.
#[derive(Clone, Debug)]
pub struct Entries<'a> {
    book: Book<'a>,
    page: Vec<u64>,
    at: usize,
    end: usize,
    chunk: u64,
}

impl<'a> Entries<'a> {
    pub(crate) fn of(book: Book<'a>) -> Entries<'a> {
        Entries {
            book,
            page: vec![0; sys::PAGE],
            at: 0,
            end: 0,
            chunk: book.record().first.into(),
        }
    }

    /// Fetches the page of the next chunk.
    fn turn(&mut self) {
        let mut next = [0; 2];
        let (file, record) = (self.book.file(), self.book.record().numbers());
        let told = sys::chunk(file, &record, self.chunk, &mut self.page, &mut next);
        assert_eq!(told, Ok(true), "chunk {} of a book that opened", self.chunk);
        self.at = 0;
        self.end = next[0] as usize * sys::ENTRY;
        self.chunk = next[1];
    }
}

impl<'a> Iterator for Entries<'a> {
    type Item = Entry<'a>;

    fn next(&mut self) -> Option<Entry<'a>> {
        while self.at == self.end {
            if self.chunk == NONE {
                return None;
            }
            self.turn();
        }
        let numbers = &self.page[self.at..self.at + sys::ENTRY];
        let number = self.at / sys::ENTRY;
        self.at += sys::ENTRY;
        Some(Entry::listed(self.book.file(), numbers, number as u64))
    }
}

impl FusedIterator for Entries<'_> {}

/// A place in the listing: the entry to be reported next. At the end the chunk is FFFFFFFF hex.
#[derive(Clone, Copy, Debug, PartialEq, Eq, Hash)]
pub struct Cursor {
    /// The listing chunk.
    pub chunk: u64,
    /// The number of the entry in the chunk, from 0 on.
    pub entry: u64,
}

/// The entries of a book by steps of a cursor: [`Book::steps`]. The cursor can be kept and the listing taken up there again.
///
/// A cursor that did not come from the book is refused with 17 where it leads to no entry; the steps end behind a refusal.
///
/// ```
/// let file = std::fs::read("../../samples/several.chm")?;
/// let book = hodsplinter::Book::open(&file)?;
/// let mut steps = book.steps();
/// let first = steps.next().unwrap()?;
/// let cursor = steps.cursor();
/// let second = book.steps_from(cursor).next().unwrap()?;
/// assert_eq!((first.name(), second.name()), (&b"/"[..], &b"/#SYSTEM"[..]));
/// # Ok::<(), Box<dyn std::error::Error>>(())
/// ```
#[derive(Clone, Debug)]
pub struct Steps<'a> {
    book: Book<'a>,
    cursor: [u64; 2],
    refused: bool,
}

impl<'a> Steps<'a> {
    pub(crate) fn from_start(book: Book<'a>) -> Steps<'a> {
        let mut cursor = [0; 2];
        let told = sys::start(&book.record().numbers(), &mut cursor);
        // Any record has a start. Steps that are empty instead would lose all entries.
        assert_eq!(told, Ok(true), "the start of a listing");
        Steps {
            book,
            cursor,
            refused: false,
        }
    }

    pub(crate) fn from_cursor(book: Book<'a>, cursor: Cursor) -> Steps<'a> {
        Steps {
            book,
            cursor: [cursor.chunk, cursor.entry],
            refused: false,
        }
    }

    /// Where the listing stands.
    pub fn cursor(&self) -> Cursor {
        let [chunk, entry] = self.cursor;
        Cursor { chunk, entry }
    }
}

impl<'a> Iterator for Steps<'a> {
    type Item = Result<Entry<'a>, Refusal>;

    fn next(&mut self) -> Option<Self::Item> {
        if self.refused {
            return None;
        }
        let mut entry = [0; sys::ENTRY];
        let (file, record) = (self.book.file(), self.book.record().numbers());
        let number = self.cursor[1];
        match sys::step(file, &record, &mut self.cursor, &mut entry) {
            Ok(true) => Some(Ok(Entry::listed(file, &entry, number))),
            Ok(false) => None,
            Err(refusal) => {
                self.refused = true;
                Some(Err(refusal))
            }
        }
    }
}

impl FusedIterator for Steps<'_> {}
