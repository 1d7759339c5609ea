//! The record of a book.

use crate::sys::RECORD;

/// What opening reads from a book's headers (docs/FORMAT.md, K1).
#[derive(Clone, Copy, Debug, PartialEq, Eq, Hash)]
pub struct Record {
    /// The version of the format, 2 or 3.
    pub version: u32,
    /// The time, a word of the file header that no rule gives a meaning.
    pub time: u32,
    /// The language of the file header.
    pub language: u32,
    /// Where the directory starts in the file.
    pub directory_start: u64,
    /// How many chunks the directory has, 1 to 4,096.
    pub count: u32,
    /// The density of the quick words, 0 to 7.
    pub density: u32,
    /// The depth of the tree, 1 to 5.
    pub depth: u32,
    /// The root chunk; at depth 1 it is 0 or FFFFFFFF hex, as stored.
    pub root: u32,
    /// The first listing chunk.
    pub first: u32,
    /// The last listing chunk.
    pub last: u32,
    /// Where the content starts in the file.
    pub content_start: u64,
}

impl Record {
    /// The record of the library's numbers. All but the two places were read from fields of 32 bits.
    pub(crate) fn of(numbers: &[u64; RECORD]) -> Record {
        let n = |i: usize| numbers[i] as u32;
        Record {
            version: n(0),
            time: n(1),
            language: n(2),
            directory_start: numbers[3],
            count: n(4),
            density: n(5),
            depth: n(6),
            root: n(7),
            first: n(8),
            last: n(9),
            content_start: numbers[10],
        }
    }

    /// The record of a head that refusals 1 to 7 pass, as opening reads it (docs/FORMAT.md, K1). It is for a book that a later refusal keeps from opening;
    /// `None` where a field is not inside the file.
    pub(crate) fn of_head(file: &[u8]) -> Option<Record> {
        let version = word(file, 0x04)?;
        let directory_start = long(file, 0x48)?;
        let directory = file.get(usize::try_from(directory_start).ok()?..)?;
        Some(Record {
            version,
            time: word(file, 0x10)?,
            language: word(file, 0x14)?,
            directory_start,
            count: word(directory, 0x2C)?,
            density: word(directory, 0x14)?,
            depth: word(directory, 0x18)?,
            root: word(directory, 0x1C)?,
            first: word(directory, 0x20)?,
            last: word(directory, 0x24)?,
            content_start: match version {
                2 => directory_start.checked_add(long(file, 0x50)?)?,
                _ => long(file, 0x58)?,
            },
        })
    }

    /// The numbers again.
    pub(crate) fn numbers(&self) -> [u64; RECORD] {
        [
            self.version.into(),
            self.time.into(),
            self.language.into(),
            self.directory_start,
            self.count.into(),
            self.density.into(),
            self.depth.into(),
            self.root.into(),
            self.first.into(),
            self.last.into(),
            self.content_start,
        ]
    }
}

/// The 32-bit number at a place.
fn word(bytes: &[u8], place: usize) -> Option<u32> {
    let bytes = bytes.get(place..)?.get(..4)?;
    Some(u32::from_le_bytes(bytes.try_into().ok()?))
}

/// The 64-bit number at a place.
fn long(bytes: &[u8], place: usize) -> Option<u64> {
    let bytes = bytes.get(place..)?.get(..8)?;
    Some(u64::from_le_bytes(bytes.try_into().ok()?))
}

#[cfg(test)]
mod tests {
    use super::Record;
    use crate::Book;

    #[test]
    fn the_head_has_the_record_of_a_book_that_opens() {
        for name in ["sample.chm", "several.chm"] {
            let file = std::fs::read(format!("../../samples/{name}")).unwrap();
            let book = Book::open(&file).unwrap();
            assert_eq!(Record::of_head(&file).as_ref(), Some(book.record()));
            assert_eq!(Record::of_head(&file[..0x58]), None);
        }
    }
}
