//! The chain of a book, where it can be followed though the index cannot.

use std::fmt;

use crate::book::Book;
use crate::entry::Entry;
use crate::record::Record;
use crate::refusal::Refusal;
use crate::sys;

/// The number of a book whose rules are kept but for those of the index.
const BROKEN_INDEX: u8 = 14;

/// A book whose chain can be followed: one that opens, or one that opening refuses by 14. There head, chunks and chain keep every rule, and the chain has
/// every listing chunk; only the tree of the index chunks breaks one. That a scan with the record of such a head finds exactly the names that some listing
/// chunk holds is proved.
///
/// ```
/// use hodsplinter::{Book, Chain};
///
/// let mut file = std::fs::read("../../samples/several.chm")?;
/// file[0x78 + 84 + 6 * 4096 + 9] = b'.'; // a name in the root
/// assert_eq!(Book::open(&file).unwrap_err().number(), 14);
/// let chain = Chain::open(&file)?;
/// assert_eq!(chain.broken_index().unwrap().number(), 14);
/// assert_eq!(chain.scan("/zones.htm")?.unwrap().name(), b"/Zones.htm");
/// assert_eq!(chain.scan("/no-such-page")?, None);
/// # Ok::<(), Box<dyn std::error::Error>>(())
/// ```
#[derive(Clone, Copy)]
pub struct Chain<'a> {
    file: &'a [u8],
    record: Record,
    refusal: Option<Refusal>,
}

impl<'a> Chain<'a> {
    /// Opens a book for scans: the lent bytes must be the whole file. The answer is that of [`Book::open`] but for refusal 14.
    pub fn open(file: &'a [u8]) -> Result<Chain<'a>, Refusal> {
        let (record, refusal) = match Book::open(file) {
            Ok(book) => (*book.record(), None),
            Err(refusal) if refusal.number() == BROKEN_INDEX => {
                (Record::of_head(file).ok_or(refusal)?, Some(refusal))
            }
            Err(refusal) => return Err(refusal),
        };
        Ok(Chain {
            file,
            record,
            refusal,
        })
    }

    /// Refusal 14 where the index is broken.
    pub fn broken_index(&self) -> Option<Refusal> {
        self.refusal
    }

    /// The numbers of the book's headers.
    pub fn record(&self) -> &Record {
        &self.record
    }

    /// Looks a name up along the chain, as [`Book::scan`] does.
    pub fn scan(&self, name: impl AsRef<[u8]>) -> Result<Option<Entry<'a>>, Refusal> {
        scan(self.file, &self.record, name.as_ref())
    }
}

/// The entry of a name along the chain that a record tells of.
pub(crate) fn scan<'a>(
    file: &'a [u8],
    record: &Record,
    name: &[u8],
) -> Result<Option<Entry<'a>>, Refusal> {
    let mut answer = [0; sys::ENTRY];
    let found = sys::scan(file, &record.numbers(), name, &mut answer)?;
    Ok(found.then(|| Entry::of(file, &answer)))
}

impl fmt::Debug for Chain<'_> {
    fn fmt(&self, f: &mut fmt::Formatter<'_>) -> fmt::Result {
        f.debug_struct("Chain")
            .field("bytes", &self.file.len())
            .field("record", &self.record)
            .field("refusal", &self.refusal)
            .finish()
    }
}
