//! Entries of a book, and what a lookup answers.

use std::fmt;
use std::hash::{Hash, Hasher};
use std::ops::Deref;

use crate::own;
use crate::sys::{ENTRY, TRAIL};

/// One listing entry of a book. Its name is lent from the book's bytes.
///
/// Entries are equal where their names, places and numbers are, however they were come by: listed, looked up or compared.
#[derive(Clone, Copy)]
pub struct Entry<'a> {
    file: &'a [u8],
    place: u64,
    size: u16,
    section: u16,
    offset: u64,
    length: u64,
    /// Its number in its chunk, which a listing tells and a search does not.
    number: Option<u32>,
}

impl<'a> Entry<'a> {
    /// The entry of the library's five numbers, on a file where it was found.
    pub(crate) fn of(file: &'a [u8], numbers: &[u64]) -> Entry<'a> {
        debug_assert_eq!(numbers.len(), ENTRY);
        Entry {
            file,
            place: numbers[0],
            size: numbers[1] as u16,
            section: numbers[2] as u16,
            offset: numbers[3],
            length: numbers[4],
            number: None,
        }
    }

    /// The same for the entry of this number in its chunk.
    pub(crate) fn listed(file: &'a [u8], numbers: &[u64], number: u64) -> Entry<'a> {
        Entry {
            number: Some(number as u32),
            ..Entry::of(file, numbers)
        }
    }

    /// The name as stored: 1 to 1,024 bytes of any value.
    pub fn name(&self) -> &'a [u8] {
        &self.file[self.place as usize..][..self.size.into()]
    }

    /// Where the name stands in the file.
    pub fn name_place(&self) -> u64 {
        self.place
    }

    /// The content section.
    pub fn section(&self) -> u16 {
        self.section
    }

    /// The offset in the section.
    pub fn offset(&self) -> u64 {
        self.offset
    }

    /// The length in bytes.
    pub fn length(&self) -> u64 {
        self.length
    }

    /// The entry's own bytes as they stand in the file, from its name's length to its last number: a padded number with its leading bytes 80 (docs/FORMAT.md, N4, K25).
    /// Bytes in section 0 that the entry leads to are those of [`Book::stored`](crate::Book::stored).
    ///
    /// The library checks the entry's chunk again to tell where they are, so that this is slower than the numbers; it also lists the chunk once for an entry that
    /// was looked up or compared.
    ///
    /// ```
    /// let file = std::fs::read("../../samples/sample.chm")?;
    /// let book = hodsplinter::Book::open(&file)?;
    /// let entry = book.find("/A.htm")?.unwrap();
    /// assert_eq!(entry.stored_bytes(), b"\x06/a.htm\x00\x00\x05");
    /// # Ok::<(), Box<dyn std::error::Error>>(())
    /// ```
    ///
    /// # Panics
    ///
    /// That the library tells own bytes wherever a step reports an entry is proved. Should it not tell them, this panics rather than give others.
    pub fn stored_bytes(&self) -> &'a [u8] {
        match own::bytes(self.file, self.place, self.number) {
            Some(bytes) => bytes,
            None => panic!("the own bytes of {self:?}"),
        }
    }

    /// What the library told of it.
    fn told(&self) -> (&[u8], u64, u16, u64, u64) {
        let name = self.name();
        (name, self.place, self.section, self.offset, self.length)
    }
}

impl PartialEq for Entry<'_> {
    fn eq(&self, other: &Entry<'_>) -> bool {
        self.told() == other.told()
    }
}

impl Eq for Entry<'_> {}

impl Hash for Entry<'_> {
    fn hash<H: Hasher>(&self, state: &mut H) {
        self.told().hash(state);
    }
}

impl fmt::Debug for Entry<'_> {
    fn fmt(&self, f: &mut fmt::Formatter<'_>) -> fmt::Result {
        f.debug_struct("Entry")
            .field("name", &self.name().escape_ascii().to_string())
            .field("section", &self.section)
            .field("offset", &self.offset)
            .field("length", &self.length)
            .finish_non_exhaustive()
    }
}

/// The numbers of the chunks that a lookup went through, from the root down: one to five of them. It is a slice, as `trail[0]` or `trail.len()`.
#[derive(Clone, Copy, PartialEq, Eq, Hash)]
pub struct Trail {
    chunks: [u32; TRAIL],
    count: usize,
}

impl Trail {
    pub(crate) fn of(chunks: [u32; TRAIL], count: u64) -> Trail {
        Trail {
            chunks,
            count: (count as usize).min(TRAIL),
        }
    }
}

impl Deref for Trail {
    type Target = [u32];

    fn deref(&self) -> &[u32] {
        &self.chunks[..self.count]
    }
}

impl fmt::Debug for Trail {
    fn fmt(&self, f: &mut fmt::Formatter<'_>) -> fmt::Result {
        f.debug_list().entries(self.iter()).finish()
    }
}

/// What a lookup answers.
#[derive(Clone, Copy, Debug, PartialEq, Eq)]
pub enum Lookup<'a> {
    /// The book holds the name, in this entry and no other.
    Found {
        /// The entry; the case of its name may differ from the one asked for.
        entry: Entry<'a>,
        /// The chunks of the descent; the last one holds the entry.
        trail: Trail,
        /// How many comparisons of the name it took.
        comparisons: u64,
    },
    /// No listing chunk of the book holds the name.
    Absent {
        /// The chunks of the descent.
        trail: Trail,
        /// How many comparisons of the name it took.
        comparisons: u64,
    },
}

impl<'a> Lookup<'a> {
    /// The entry, where one was found.
    pub fn entry(&self) -> Option<Entry<'a>> {
        match self {
            Lookup::Found { entry, .. } => Some(*entry),
            Lookup::Absent { .. } => None,
        }
    }

    /// The chunks of the descent, found or absent.
    pub fn trail(&self) -> Trail {
        match self {
            Lookup::Found { trail, .. } | Lookup::Absent { trail, .. } => *trail,
        }
    }

    /// How many comparisons of the asked name with one of the book it took, in all chunks of the descent (docs/FORMAT.md, K26); a name that it was compared with
    /// twice counts twice, what the check of a chunk compares does not count. Found or absent, a chunk takes at most h + n: n is 1 + 2^density, h the least whole
    /// number for which 2^h is at least 1 + the number of the chunk's quick words (Q12).
    ///
    /// ```
    /// let file = std::fs::read("../../samples/sample.chm")?;
    /// let book = hodsplinter::Book::open(&file)?; // it holds / and /a.htm
    /// assert_eq!(book.lookup("/")?.comparisons(), 1);
    /// assert_eq!(book.lookup("/A.htm")?.comparisons(), 2);
    /// assert_eq!(book.lookup("/b")?.comparisons(), 2);
    /// # Ok::<(), Box<dyn std::error::Error>>(())
    /// ```
    pub fn comparisons(&self) -> u64 {
        match self {
            Lookup::Found { comparisons, .. } | Lookup::Absent { comparisons, .. } => *comparisons,
        }
    }
}
