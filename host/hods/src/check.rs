//! `hods check`: whether books keep every rule.

use std::ffi::OsStr;

use crate::args::{flag, Given, Spec};
use crate::input;
use crate::output::Output;
use crate::status::{Status, Trouble};
use crate::text::many;

pub const OPTIONS: [Spec; 1] = [flag("quiet", Some('q'))];

/// Checks each book and goes on behind one that is refused.
pub fn run(given: &Given, out: &mut Output) -> Result<Status, Trouble> {
    if given.operands.is_empty() {
        return Err(Trouble::usage("check: no book is named"));
    }
    let mut status = Status::Good;
    for path in &given.operands {
        match check(path) {
            Ok(line) if !given.has("quiet") => out.line(&line)?,
            Ok(_) => {}
            Err(trouble) => {
                out.complain(&trouble)?;
                status = status.max(trouble.status);
            }
        }
    }
    Ok(status)
}

fn check(path: &OsStr) -> Result<String, Trouble> {
    let bytes = input::read_book(path)?;
    let book = input::open(path, &bytes)?;
    let record = book.record();
    Ok(format!(
        "{}: good: version {}, {}, {}, depth {}, {} of content",
        input::called(path),
        record.version,
        many(book.entries().count() as u64, "entry", "entries"),
        many(record.count.into(), "chunk", "chunks"),
        record.depth,
        many(bytes.len() as u64 - record.content_start, "byte", "bytes")
    ))
}
