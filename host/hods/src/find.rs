//! `hods find`: what a book says of names.

use std::ffi::{OsStr, OsString};
use std::os::unix::ffi::OsStrExt;

use hodsplinter::{Book, Chain, Entry, Lookup, Refusal, Trail};

use crate::args::{flag, valued, Given, Spec};
use crate::finding;
use crate::input;
use crate::names::Names;
use crate::output::Output;
use crate::progress::Progress;
use crate::status::{Status, Trouble};
use crate::text::{many, shown};

pub const OPTIONS: [Spec; 4] = [
    flag("chain", None),
    flag("trail", None),
    flag("count", None),
    valued("names", None),
];

/// Looks each name up, those of the command line first; the status is that of the worst answer, or that of the book.
pub fn run(given: &Given, out: &mut Output) -> Result<Status, Trouble> {
    let (path, names) = operands(given)?;
    // A file that is not there is told before a long book is read.
    let listed = given.value("names").map(Names::open).transpose()?;
    let bytes = input::read_book(path)?;
    let (way, mut status) = open(given, path, &bytes, out)?;
    for name in names {
        let name = name.as_bytes();
        let answer = told(&way, name)
            .map_err(|refusal| finding::refused_name(&input::called(path), name.len(), refusal));
        status = status.max(print(answer, out)?);
    }
    match listed {
        Some(names) => Ok(status.max(all_told(&way, names, out)?)),
        None => Ok(status),
    }
}

/// The book, and the names that stand beside it on the command line.
fn operands(given: &Given) -> Result<(&OsStr, &[OsString]), Trouble> {
    for other in ["trail", "count"] {
        if given.has("chain") && given.has(other) {
            let why = format!("find: --chain and --{other} exclude each other");
            return Err(Trouble::usage(why));
        }
    }
    let listed = given.value("names");
    match given.operands.split_first() {
        Some((path, _)) if path == "-" && listed == Some(OsStr::new("-")) => Err(Trouble::usage(
            "find: only one of the book and --names can be standard input",
        )),
        Some((path, names)) if listed.is_some() || !names.is_empty() => Ok((path, names)),
        _ => Err(Trouble::usage(
            "find: a book is to be given, and a name or --names",
        )),
    }
}

/// How names are looked up.
enum Way<'a> {
    /// From the root down.
    Index(Book<'a>),
    /// The same, and more is told of the way.
    Descent(Book<'a>, Asked),
    /// From the first listing chunk on.
    Chain(Chain<'a>),
}

/// What is to be told of a descent.
struct Asked {
    trail: bool,
    count: bool,
}

impl Asked {
    /// Behind the answer: the chunks that were opened, and how many comparisons it took.
    fn told(&self, answer: &Lookup) -> String {
        let mut text = String::new();
        if self.trail {
            text.push_str(&format!("; {}", opened(&answer.trail())));
        }
        if self.count {
            let count = many(answer.comparisons(), "comparison", "comparisons");
            text.push_str(&format!("; {count}"));
        }
        text
    }
}

/// The way that is asked for. A broken index, which the chain does without, is told and gives the status.
fn open<'a>(
    given: &Given,
    path: &OsStr,
    bytes: &'a [u8],
    out: &mut Output,
) -> Result<(Way<'a>, Status), Trouble> {
    if !given.has("chain") {
        let book = input::open(path, bytes)?;
        let asked = Asked {
            trail: given.has("trail"),
            count: given.has("count"),
        };
        let way = if asked.trail || asked.count {
            Way::Descent(book, asked)
        } else {
            Way::Index(book)
        };
        return Ok((way, Status::Good));
    }
    let chain = input::open_chain(path, bytes)?;
    let mut status = Status::Good;
    if let Some(refusal) = chain.broken_index() {
        let trouble = finding::refused(&input::called(path), bytes, refusal);
        out.complain(&trouble)?;
        status = trouble.status;
    }
    Ok((Way::Chain(chain), status))
}

impl<'a> Way<'a> {
    /// The entry of a name, and what is told of the way to it.
    fn find(&self, name: &[u8]) -> Result<(Option<Entry<'a>>, String), Refusal> {
        match self {
            Way::Index(book) => Ok((book.find(name)?, String::new())),
            Way::Descent(book, asked) => {
                let answer = book.lookup(name)?;
                Ok((answer.entry(), asked.told(&answer)))
            }
            Way::Chain(chain) => Ok((chain.scan(name)?, String::new())),
        }
    }
}

/// The names of a file. What was printed goes out before the tool waits for more of them, so that a program that feeds it gets its answers.
fn all_told(way: &Way, mut names: Names, out: &mut Output) -> Result<Status, Trouble> {
    let mut status = Status::Good;
    let what = format!("looking up the names in {}", names.called());
    let mut progress = Progress::of_printing(what, names.length());
    loop {
        if !names.has_line() {
            out.flush()?;
        }
        let line = match names.read()? {
            Some(line) => line,
            None => return Ok(status),
        };
        let answer = told(way, line.name)
            .map_err(|refusal| finding::refused_name(&line.place(), line.size, refusal));
        if answer.is_err() {
            progress.wipe();
        }
        status = status.max(print(answer, out)?);
        progress.add(line.taken);
    }
}

/// What the book says of a name, and how that counts.
fn told(way: &Way, name: &[u8]) -> Result<(Status, String), Refusal> {
    let asked = shown(name);
    Ok(match way.find(name)? {
        (Some(entry), descent) => {
            let text = format!(
                "{asked}: found{}, section {}, offset {}, length {}{descent}",
                stored_name(&entry, name),
                entry.section(),
                entry.offset(),
                entry.length()
            );
            (Status::Good, text)
        }
        (None, descent) => (Status::Refused, format!("{asked}: absent{descent}")),
    })
}

fn print(answer: Result<(Status, String), Trouble>, out: &mut Output) -> Result<Status, Trouble> {
    match answer {
        Ok((status, text)) => {
            out.line(&text)?;
            Ok(status)
        }
        Err(trouble) => {
            out.complain(&trouble)?;
            Ok(trouble.status)
        }
    }
}

/// The name of the entry, where its case is not that of the name asked for.
fn stored_name(entry: &Entry, asked: &[u8]) -> String {
    match entry.name() == asked {
        true => String::new(),
        false => format!(" as {}", shown(entry.name())),
    }
}

fn opened(trail: &Trail) -> String {
    let numbers: Vec<String> = trail.iter().map(u32::to_string).collect();
    let what = if trail.len() == 1 { "chunk" } else { "chunks" };
    format!("{what} {}", numbers.join(" "))
}
