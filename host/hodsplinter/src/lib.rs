//! The directory of compiled HTML Help books (CHM, the ITSF format): open and check a book, list its entries, look one name up or many, compare two books, hand out
//! stored bytes, write the head of a new book.
//!
//! This is a safe wrapper over the static library of the repository, whose functions are proved, for all inputs, to meet their contracts, to
//! touch nothing but what they are lent, and to end. The wrapper lends them slices and gives their numbers names; it judges nothing
//! itself. Limits and refusals are those of docs/FORMAT.md, cited here by their rows.
//!
//! - [`Book::open`] checks a whole file and gives a [`Book`], or the first [`Refusal`].
//! - [`Book::find`] finds an entry by its name, [`Book::lookup`] also tells the chunks of the descent and counts comparisons, [`Book::scan`] does without the index;
//!   [`Book::entries`] lists all entries.
//! - [`batch`] opens a book and looks many names up, in one call.
//! - [`compare`] lays two books side by side and gives each [`Change`], in the order of names.
//! - [`Chain::open`] takes books with a broken index too, for scans alone.
//! - [`Book::stored`] lends the bytes that an entry of section 0 leads to, [`Entry::stored_bytes`] the entry's own, [`Book::part`] any part of the file.
//! - [`write_head`] makes the head of a new book from entries, which rise by [`name_order`].
//!
//! `cargo build` links `target/staticlib/libhodsplinter.a`, which `make library` makes; the environment variable `HODSPLINTER_LIB` can
//! name another copy.

#![deny(unsafe_code)]
#![warn(missing_docs)]

mod batch;
mod book;
mod chain;
mod compare;
mod encint;
mod entry;
mod listing;
mod order;
mod own;
#[allow(unsafe_code)]
mod raw;
mod record;
mod refusal;
mod sys;
mod writer;

pub use batch::{batch, batch_bytes, push_name, read_answers, Answer, ANSWER};
pub use book::Book;
pub use chain::Chain;
pub use compare::{compare, Change, Changes, Totals};
pub use entry::{Entry, Lookup, Trail};
pub use listing::{Cursor, Entries, Steps};
pub use order::name_order;
pub use record::Record;
pub use refusal::Refusal;
pub use writer::{write_head, NewEntry, Options};
