//! Two books side by side.

use std::iter::FusedIterator;

use crate::book::Book;
use crate::entry::Entry;
use crate::sys;

/// A name of which two books do not say the same (docs/FORMAT.md, X7). Each entry is lent from its own book.
#[derive(Clone, Copy, Debug, PartialEq, Eq)]
pub enum Change<'a, 'b> {
    /// The first book has the name, the second has not.
    OnlyFirst(Entry<'a>),
    /// The second book has the name, the first has not.
    OnlySecond(Entry<'b>),
    /// Both have the name, with another section, offset or length. The case of A to Z may differ too; by itself it is no change.
    Changed(Entry<'a>, Entry<'b>),
}

impl<'a, 'b> Change<'a, 'b> {
    /// The difference of the library's numbers: its kind and seven numbers for each book.
    fn of(one: &'a [u8], two: &'b [u8], numbers: &[u64; sys::DIFFERENCE]) -> Change<'a, 'b> {
        let first = || Entry::of(one, &numbers[1..][..sys::ENTRY]);
        let second = || Entry::of(two, &numbers[1 + sys::COMPARED..][..sys::ENTRY]);
        match numbers[0] {
            1 => Change::OnlyFirst(first()),
            2 => Change::OnlySecond(second()),
            _ => Change::Changed(first(), second()),
        }
    }

    /// The entry of the first book, where it has the name.
    pub fn first(&self) -> Option<Entry<'a>> {
        match self {
            Change::OnlyFirst(entry) | Change::Changed(entry, _) => Some(*entry),
            Change::OnlySecond(_) => None,
        }
    }

    /// The entry of the second book, where it has the name.
    pub fn second(&self) -> Option<Entry<'b>> {
        match self {
            Change::OnlySecond(entry) | Change::Changed(_, entry) => Some(*entry),
            Change::OnlyFirst(_) => None,
        }
    }
}

/// How many names there were of each kind. All but `only_second` add up to the entries of the first book, all but `only_first` to those of the second
/// (docs/FORMAT.md, X12).
#[derive(Clone, Copy, Debug, PartialEq, Eq, Hash)]
pub struct Totals {
    /// Names of the first book alone.
    pub only_first: u64,
    /// Names of the second book alone.
    pub only_second: u64,
    /// Names of both, with the same section, offset and length.
    pub same: u64,
    /// Names of both, with another section, offset or length.
    pub changed: u64,
}

/// The names of which two books do not say the same, in the order of names: [`compare`].
///
/// # Panics
///
/// That no step is refused on two books that opened is proved. Should one be, this panics rather than end early and lose names.
#[derive(Clone, Debug)]
pub struct Changes<'a, 'b> {
    one: Book<'a>,
    two: Book<'b>,
    cursor: [u64; sys::COMPARISON],
    totals: Option<Totals>,
}

/// Lays two books side by side. A name of one book that no name of the other is equal to, the case of A to Z aside, is told; so is one that both have with another
/// section, offset or length. That each such name comes, once, and no other is proved for every two books that open.
///
/// ```
/// use hodsplinter::{compare, write_head, Book, Change, NewEntry, Options, Totals};
///
/// let old = std::fs::read("../../samples/sample.chm")?; // it has / and /a.htm
/// let entry = |name, section, offset, length| NewEntry { name, section, offset, length };
/// let entries = [entry(&b"/"[..], 0, 0, 0), entry(b"/A.htm", 0, 0, 4), entry(b"/b", 1, 7, 9)];
/// let mut new = write_head(entries, &Options::new(4))?;
/// new.extend_from_slice(b"hell");
/// let (old, new) = (Book::open(&old)?, Book::open(&new)?);
///
/// let mut changes = compare(&old, &new);
/// match changes.next() {
///     Some(Change::Changed(was, is)) => {
///         assert_eq!((was.name(), was.length()), (&b"/a.htm"[..], 5));
///         assert_eq!((is.name(), is.length()), (&b"/A.htm"[..], 4));
///     }
///     other => panic!("{other:?}"),
/// }
/// assert_eq!(changes.totals(), None);
/// assert!(matches!(changes.next(), Some(Change::OnlySecond(entry)) if entry.name() == b"/b"));
/// assert_eq!(changes.next(), None);
/// assert_eq!(changes.totals(), Some(Totals { only_first: 0, only_second: 1, same: 1, changed: 1 }));
/// # Ok::<(), Box<dyn std::error::Error>>(())
/// ```
pub fn compare<'a, 'b>(one: &Book<'a>, two: &Book<'b>) -> Changes<'a, 'b> {
    let mut cursor = [0; sys::COMPARISON];
    let records = (one.record().numbers(), two.record().numbers());
    let told = sys::compare_start(&records.0, &records.1, &mut cursor);
    // Any two records have a start. Changes that are none instead would lose all names.
    assert_eq!(told, Ok(true), "the start of a comparison");
    Changes {
        one: *one,
        two: *two,
        cursor,
        totals: None,
    }
}

impl Changes<'_, '_> {
    /// How many names there were of each kind, the same ones too; `None` before the end.
    pub fn totals(&self) -> Option<Totals> {
        self.totals
    }
}

impl<'a, 'b> Iterator for Changes<'a, 'b> {
    type Item = Change<'a, 'b>;

    fn next(&mut self) -> Option<Change<'a, 'b>> {
        // A step at the end would go over the names behind the last difference once more.
        if self.totals.is_some() {
            return None;
        }
        let (mut difference, mut totals) = ([0; sys::DIFFERENCE], [0; 4]);
        let records = (self.one.record().numbers(), self.two.record().numbers());
        let (one, two) = (self.one.file(), self.two.file());
        let told = sys::compare_step(
            (one, &records.0),
            (two, &records.1),
            &mut self.cursor,
            &mut difference,
            &mut totals,
        );
        match told {
            Ok(true) => Some(Change::of(one, two, &difference)),
            Ok(false) => {
                let [only_first, only_second, same, changed] = totals;
                self.totals = Some(Totals {
                    only_first,
                    only_second,
                    same,
                    changed,
                });
                None
            }
            Err(refusal) => panic!("two books that opened: {refusal}"),
        }
    }
}

impl FusedIterator for Changes<'_, '_> {}
