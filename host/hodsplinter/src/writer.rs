//! The head of a new book.

use crate::encint;
use crate::entry::Entry;
use crate::refusal::Refusal;
use crate::sys;

/// The length of the longest head: 4,096 chunks.
const LONGEST: usize = 204 + 4_096 * 4_096;

/// An entry for a new book.
#[derive(Clone, Copy, Debug, PartialEq, Eq, Hash)]
pub struct NewEntry<'a> {
    /// The name, 1 to 1,024 bytes.
    pub name: &'a [u8],
    /// The content section.
    pub section: u16,
    /// The offset in the section.
    pub offset: u64,
    /// The length in bytes. In section 0, offset and length must be inside the content.
    pub length: u64,
}

impl NewEntry<'_> {
    fn encode(&self, out: &mut Vec<u8>) {
        encint::push(out, self.name.len() as u64);
        out.extend_from_slice(self.name);
        for number in [self.section.into(), self.offset, self.length] {
            encint::push(out, number);
        }
    }
}

impl<'a> From<Entry<'a>> for NewEntry<'a> {
    fn from(entry: Entry<'a>) -> NewEntry<'a> {
        NewEntry {
            name: entry.name(),
            section: entry.section(),
            offset: entry.offset(),
            length: entry.length(),
        }
    }
}

/// The numbers of a new book.
#[derive(Clone, Copy, Debug, PartialEq, Eq, Hash)]
pub struct Options {
    /// The density of the quick words, 0 to 7.
    pub density: u32,
    /// The time of the file header, any number.
    pub time: u32,
    /// The language of both headers, any number.
    pub language: u32,
    /// How many bytes of content will follow the head, fewer than 2^62.
    pub content_length: u64,
}

impl Options {
    /// Density 2, time 0 and language 409 hex (English, United States), as in the sample book.
    pub fn new(content_length: u64) -> Options {
        Options {
            density: 2,
            time: 0,
            language: 0x409,
            content_length,
        }
    }
}

/// The head of a book with these entries, everything in front of its content. The entries must rise by [`name_order`](crate::name_order).
///
/// Refused with 18 where an entry or a number breaks docs/FORMAT.md, W2, and with 19 where 4,096 chunks or five levels are not enough.
///
/// ```
/// use hodsplinter::{write_head, Book, NewEntry, Options};
///
/// let entry = |name, length| NewEntry { name, section: 0, offset: 0, length };
/// let entries = [entry(&b"/"[..], 0), entry(&b"/a.htm"[..], 5)];
/// let mut file = write_head(entries, &Options::new(5))?;
/// file.extend_from_slice(b"hello");
/// assert_eq!(file, std::fs::read("../../samples/sample.chm")?);
/// assert_eq!(Book::open(&file)?.entries().count(), 2);
///
/// let falling = [entries[1], entries[0]];
/// assert_eq!(write_head(falling, &Options::new(5)).unwrap_err().number(), 18);
/// # Ok::<(), Box<dyn std::error::Error>>(())
/// ```
pub fn write_head<'a, I>(entries: I, options: &Options) -> Result<Vec<u8>, Refusal>
where
    I: IntoIterator<Item = NewEntry<'a>>,
{
    let mut source = Vec::new();
    for entry in entries {
        entry.encode(&mut source);
    }
    let numbers = [options.density, options.time, options.language];
    // Room for any head: memory that is not written to costs nothing before it is given back.
    let (mut out, mut length) = (vec![0; LONGEST], [0]);
    sys::write_head(
        &source,
        numbers,
        options.content_length,
        &mut out,
        &mut length,
    )?;
    out.truncate(length[0] as usize);
    out.shrink_to_fit();
    Ok(out)
}

#[cfg(test)]
mod tests {
    use super::*;

    /// The number of the refusal of these bytes, or none.
    fn refused(source: &[u8]) -> Option<u8> {
        let (mut out, mut length) = (vec![0; 204 + 4096], [0]);
        let told = sys::write_head(source, [2, 0, 0x409], 5, &mut out, &mut length);
        assert!(told.is_ok() || out.iter().all(|b| *b == 0) && length == [0]);
        told.err().map(Refusal::number)
    }

    /// `NewEntry` has no way to say a padded number; bytes have one, and W2 asks for the short form.
    #[test]
    fn padded_numbers() {
        let first = b"\x01/\x00\x00\x00";
        let short = [&b"\x02"[..], b"/a", b"\x00", b"\x02", b"\x03"];
        let source = |fields: &[&[u8]]| [first, &fields.concat()[..]].concat();
        assert_eq!(refused(&source(&short)), None);
        for (k, field) in short.iter().enumerate().filter(|(k, _)| *k != 1) {
            for many in [1, 2, 8, 9] {
                let long = [&vec![0x80; many][..], field].concat();
                let mut fields = short;
                fields[k] = &long;
                assert_eq!(refused(&source(&fields)), Some(18), "{fields:?}");
            }
        }
    }
}
