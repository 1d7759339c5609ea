//! A book that opened: its record, its entries, its bytes.

use std::fmt;

use crate::chain;
use crate::entry::{Entry, Lookup, Trail};
use crate::listing::{Cursor, Entries, Steps};
use crate::record::Record;
use crate::refusal::Refusal;
use crate::sys;

/// A book whose header, chunks, chain and tree keep every rule of docs/FORMAT.md. It borrows the bytes of the file and copies none of them.
///
/// ```
/// use hodsplinter::Book;
///
/// let file = std::fs::read("../../samples/sample.chm")?;
/// let book = Book::open(&file)?;
/// for entry in book.entries() {
///     println!("{:?} {}", entry.name(), entry.length());
/// }
/// match book.find("/A.HTM")? {
///     Some(entry) => {
///         assert_eq!(entry.name(), b"/a.htm");
///         assert_eq!(book.stored(&entry), Some(&b"hello"[..]));
///     }
///     None => panic!("the sample book has this page"),
/// }
/// # Ok::<(), Box<dyn std::error::Error>>(())
/// ```
#[derive(Clone, Copy)]
pub struct Book<'a> {
    file: &'a [u8],
    record: Record,
}

impl<'a> Book<'a> {
    /// Opens a book: the lent bytes must be the whole file. The answer is the first rule that fails, in the order of docs/FORMAT.md, RO1 to RO4.
    ///
    /// ```
    /// let mut file = std::fs::read("../../samples/sample.chm")?;
    /// assert!(hodsplinter::Book::open(&file).is_ok());
    /// file[204] = b'?'; // the tag of chunk 0
    /// let refusal = hodsplinter::Book::open(&file).unwrap_err();
    /// assert_eq!((refusal.number(), refusal.chunk()), (8, Some(0)));
    /// # Ok::<(), std::io::Error>(())
    /// ```
    pub fn open(file: &'a [u8]) -> Result<Book<'a>, Refusal> {
        let mut numbers = [0; sys::RECORD];
        sys::open(file, &mut numbers)?;
        let record = Record::of(&numbers);
        Ok(Book { file, record })
    }

    /// The numbers of the book's headers.
    pub fn record(&self) -> &Record {
        &self.record
    }

    /// The bytes that were lent.
    pub fn file(&self) -> &'a [u8] {
        self.file
    }

    /// Looks a name up by the descent from the root: the entry, or `None` only where no listing chunk holds the name. That is proved for every book that opens and
    /// every name of 1 to 1,024 bytes. Names of other lengths get the refusal 15.
    ///
    /// This is the lookup to use. It checks no chunk again, and its answers are those of [`Book::lookup`] where these bytes gave this record when they were
    /// opened (docs/FORMAT.md, K23). A `Book` comes from opening alone, keeps bytes and record together, and borrows the bytes so that they cannot change: so this
    /// holds for every `Book`.
    ///
    /// ```
    /// let file = std::fs::read("../../samples/several.chm")?;
    /// let book = hodsplinter::Book::open(&file)?;
    /// assert_eq!(book.find("/zones.htm")?.unwrap().name(), b"/Zones.htm");
    /// assert_eq!(book.find("/no-such-page")?, None);
    /// assert_eq!(book.find("").unwrap_err().number(), 15);
    /// # Ok::<(), Box<dyn std::error::Error>>(())
    /// ```
    pub fn find(&self, name: impl AsRef<[u8]>) -> Result<Option<Entry<'a>>, Refusal> {
        let mut answer = [0; sys::ENTRY];
        let record = self.record.numbers();
        let found = sys::lookup_opened(self.file, &record, name.as_ref(), &mut answer)?;
        Ok(found.then(|| Entry::of(self.file, &answer)))
    }

    /// The same with the trail, the numbers of the chunks that the descent went through, and how many comparisons of the name it took. It checks each of these chunks
    /// again, so that it is slower than [`Book::find`].
    ///
    /// ```
    /// let file = std::fs::read("../../samples/several.chm")?;
    /// let book = hodsplinter::Book::open(&file)?;
    /// let answer = book.lookup("/zones.htm")?;
    /// assert_eq!(answer.entry().unwrap().name(), b"/Zones.htm");
    /// assert_eq!(*answer.trail(), [6, 1, 3]);
    /// assert_eq!(answer.comparisons(), 8);
    /// assert_eq!(book.lookup("/no-such-page")?.entry(), None);
    /// assert_eq!(book.lookup("").unwrap_err().number(), 15);
    /// # Ok::<(), Box<dyn std::error::Error>>(())
    /// ```
    pub fn lookup(&self, name: impl AsRef<[u8]>) -> Result<Lookup<'a>, Refusal> {
        let (mut trail, mut answer) = ([0; sys::TRAIL], [0; sys::LOOKUP]);
        let record = self.record.numbers();
        let found = sys::lookup(self.file, &record, name.as_ref(), &mut trail, &mut answer)?;
        let [chunks, entry @ .., comparisons] = &answer;
        let (trail, comparisons) = (Trail::of(trail, *chunks), *comparisons);
        if !found {
            return Ok(Lookup::Absent { trail, comparisons });
        }
        Ok(Lookup::Found {
            entry: Entry::of(self.file, entry),
            trail,
            comparisons,
        })
    }

    /// Looks a name up along the chain from the first listing chunk on, without the index. It checks every chunk up to the one that holds the name, so
    /// that it is slower than [`Book::find`]; that both give the same entry, and say of the same names that they are absent, is proved for every book that
    /// opens. Names of other than 1 to 1,024 bytes get the refusal 15.
    ///
    /// ```
    /// let file = std::fs::read("../../samples/several.chm")?;
    /// let book = hodsplinter::Book::open(&file)?;
    /// let entry = book.scan("/zones.htm")?.unwrap();
    /// assert_eq!(entry.name(), b"/Zones.htm");
    /// assert_eq!(Some(entry), book.find("/zones.htm")?);
    /// assert_eq!(book.scan("/no-such-page")?, None);
    /// assert_eq!(book.scan("").unwrap_err().number(), 15);
    /// # Ok::<(), Box<dyn std::error::Error>>(())
    /// ```
    pub fn scan(&self, name: impl AsRef<[u8]>) -> Result<Option<Entry<'a>>, Refusal> {
        chain::scan(self.file, &self.record, name.as_ref())
    }

    /// All entries in the order of the listing, read chunk by chunk.
    ///
    /// ```
    /// let file = std::fs::read("../../samples/sample.chm")?;
    /// let book = hodsplinter::Book::open(&file)?;
    /// let names: Vec<_> = book.entries().map(|entry| entry.name()).collect();
    /// assert_eq!(names, [&b"/"[..], &b"/a.htm"[..]]);
    /// # Ok::<(), Box<dyn std::error::Error>>(())
    /// ```
    pub fn entries(&self) -> Entries<'a> {
        Entries::of(*self)
    }

    /// The same entries one step of the cursor at a time. A step needs no memory but checks its chunk anew, so that a whole listing is slower
    /// than by [`Book::entries`].
    pub fn steps(&self) -> Steps<'a> {
        Steps::from_start(*self)
    }

    /// The steps from a cursor on, such as one that [`Steps::cursor`] gave.
    pub fn steps_from(&self, cursor: Cursor) -> Steps<'a> {
        Steps::from_cursor(*self, cursor)
    }

    /// A part of the file itself; an empty part where the range is not inside.
    ///
    /// ```
    /// let file = std::fs::read("../../samples/sample.chm")?;
    /// let book = hodsplinter::Book::open(&file)?;
    /// assert_eq!(book.part(0, 4), b"ITSF");
    /// assert_eq!(book.part(book.record().content_start, 5), b"hello");
    /// assert_eq!(book.part(u64::MAX, 2), b"");
    /// # Ok::<(), Box<dyn std::error::Error>>(())
    /// ```
    pub fn part(&self, place: u64, length: u64) -> &'a [u8] {
        match sys::part(self.file, place, length) as usize {
            0 => &[],
            size => &self.file[place as usize..][..size],
        }
    }

    /// The bytes of an entry of section 0, which stand in the content as they are; `None` for another section, and for an entry of another
    /// book whose bytes would not be inside this one.
    pub fn stored(&self, entry: &Entry<'_>) -> Option<&'a [u8]> {
        let place = self.record.content_start.checked_add(entry.offset())?;
        let bytes = self.part(place, entry.length());
        (entry.section() == 0 && bytes.len() as u64 == entry.length()).then_some(bytes)
    }
}

impl fmt::Debug for Book<'_> {
    fn fmt(&self, f: &mut fmt::Formatter<'_>) -> fmt::Result {
        f.debug_struct("Book")
            .field("bytes", &self.file.len())
            .field("record", &self.record)
            .finish()
    }
}
