//! `hods list`: the entries of a book.

use std::ffi::OsStr;

use hodsplinter::{Book, Entry, Refusal};

use crate::args::{flag, Given, Spec};
use crate::input;
use crate::output::Output;
use crate::status::{Status, Trouble};
use crate::text::{hex, json_string, shown};

pub const OPTIONS: [Spec; 2] = [flag("json", None), flag("frames", None)];

pub fn run(given: &Given, out: &mut Output) -> Result<Status, Trouble> {
    let path = match &given.operands[..] {
        [path] => path,
        _ => return Err(Trouble::usage("list: one book is to be named")),
    };
    match (given.has("json"), given.has("frames")) {
        (true, true) => Err(Trouble::usage(
            "list: --json and --frames exclude each other",
        )),
        (true, false) => listed(path, out, json),
        (false, true) => framed(path, out),
        (false, false) => listed(path, out, columns),
    }
}

type Print = fn(&Book, &mut Output) -> Result<(), Trouble>;

fn listed(path: &OsStr, out: &mut Output, print: Print) -> Result<Status, Trouble> {
    let bytes = input::read_book(path)?;
    let book = input::open(path, &bytes)?;
    print(&book, out)?;
    Ok(Status::Good)
}

/// Prints as the program `list` does: a refusal has a frame too.
fn framed(path: &OsStr, out: &mut Output) -> Result<Status, Trouble> {
    let done = listed(path, out, frames);
    if let Err(Trouble {
        refusal: Some(refusal),
        ..
    }) = done
    {
        out.line(&refusal_frame(refusal))?;
    }
    done
}

/// FORMAT P4.
fn refusal_frame(refusal: Refusal) -> String {
    format!("ee{:02x}{:08x}", refusal.number(), refusal.place())
}

/// FORMAT P2, P3.
fn frames(book: &Book, out: &mut Output) -> Result<(), Trouble> {
    each(book, out, |entry| hex(entry.stored_bytes()))
}

/// Section, offset, length, name: what `hods write --list` reads.
fn columns(book: &Book, out: &mut Output) -> Result<(), Trouble> {
    let mut highest = [0; 3];
    for entry in book.entries() {
        for (high, n) in highest.iter_mut().zip(numbers(&entry)) {
            *high = n.max(*high);
        }
    }
    let [a, b, c] = highest.map(|n| n.to_string().len());
    each(book, out, |entry| {
        let [section, offset, length] = numbers(entry);
        format!(
            "{section:>a$} {offset:>b$} {length:>c$} {}",
            shown(entry.name())
        )
    })
}

/// Section, offset, length.
pub fn numbers(entry: &Entry) -> [u64; 3] {
    [entry.section().into(), entry.offset(), entry.length()]
}

/// A line for each entry, as long as somebody reads.
fn each(book: &Book, out: &mut Output, text: impl Fn(&Entry) -> String) -> Result<(), Trouble> {
    for entry in book.entries() {
        out.line(&text(&entry))?;
        if out.closed() {
            break;
        }
    }
    Ok(())
}

/// An array with an object for each entry, one a line.
fn json(book: &Book, out: &mut Output) -> Result<(), Trouble> {
    let mut before = "[\n";
    for entry in book.entries() {
        out.write(before.as_bytes())?;
        out.write(json_entry(&entry).as_bytes())?;
        if out.closed() {
            break;
        }
        before = ",\n";
    }
    out.line("\n]")
}

/// An entry as an object; a name that is not UTF-8 is null, with its bytes beside it.
pub fn json_entry(entry: &Entry) -> String {
    let name = match std::str::from_utf8(entry.name()) {
        Ok(name) => json_string(name),
        Err(_) => format!("null,\"name_hex\":\"{}\"", hex(entry.name())),
    };
    let [section, offset, length] = numbers(entry);
    format!("{{\"name\":{name},\"section\":{section},\"offset\":{offset},\"length\":{length}}}")
}
