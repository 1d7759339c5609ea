//! `hods cat`: the stored bytes of an entry.

use std::os::unix::ffi::OsStrExt;

use crate::args::{Given, Spec};
use crate::finding;
use crate::input;
use crate::output::Output;
use crate::status::{Status, Trouble};
use crate::text::shown_path;

pub const OPTIONS: [Spec; 0] = [];

pub fn run(given: &Given, out: &mut Output) -> Result<Status, Trouble> {
    let (path, name) = match &given.operands[..] {
        [path, name] => (path, name),
        _ => return Err(Trouble::usage("cat: a book and one name are to be given")),
    };
    let bytes = input::read_book(path)?;
    let book = input::open(path, &bytes)?;
    let subject = input::called(path);
    let asked = shown_path(name);
    let entry = match book.find(name.as_bytes()) {
        Ok(Some(entry)) => entry,
        Ok(None) => return Err(Trouble::refused(&subject, format!("{asked} is absent"))),
        Err(refusal) => return Err(finding::refused_name(&subject, name.len(), refusal)),
    };
    let stored = book.stored(&entry).ok_or_else(|| {
        let section = entry.section();
        let why = format!(
            "{asked} is in section {section}: only section 0 holds bytes as they are (FORMAT E8, M1)"
        );
        Trouble::refused(&subject, why)
    })?;
    out.write(stored)?;
    Ok(Status::Good)
}
