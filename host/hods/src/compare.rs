//! `hods compare`: two issues of a book, entry against entry.

use std::ffi::OsStr;
use std::fs;
use std::os::unix::fs::MetadataExt;
use std::path::Path;

use hodsplinter::{compare, Book, Change, Changes, Entry, Totals};

use crate::args::{flag, valued, Given, Spec};
use crate::input;
use crate::list::{json_entry, numbers};
use crate::newfile::{self, NewFile};
use crate::output::Output;
use crate::page;
use crate::status::{Status, Trouble};
use crate::text::{many, shown, shown_path};

pub const OPTIONS: [Spec; 4] = [
    flag("json", None),
    flag("quiet", Some('q')),
    valued("html", None),
    flag("force", Some('f')),
];

/// The numbers of an entry, in the order of a listing.
const WHAT: [&str; 3] = ["section", "offset", "length"];

/// Two books that opened, and what they are called.
pub struct Issues<'a> {
    pub called: [String; 2],
    pub old: Book<'a>,
    pub new: Book<'a>,
}

impl<'a> Issues<'a> {
    fn changes(&self) -> Changes<'a, 'a> {
        compare(&self.old, &self.new)
    }

    /// How many names there are of each kind; they are known when all changes were gone through.
    fn totals(&self) -> Totals {
        let mut changes = self.changes();
        loop {
            if let (None, Some(totals)) = (changes.next(), changes.totals()) {
                return totals;
            }
        }
    }
}

/// The status tells whether the books differ. Where one cannot be had or is refused, the other is still looked at, so that both are told of, and nothing is compared.
pub fn run(given: &Given, out: &mut Output) -> Result<Status, Trouble> {
    let paths = operands(given)?;
    let target = target(given, paths)?;
    let [old, new] = paths.map(input::read_book);
    let (old, new) = match (opened(paths[0], &old), opened(paths[1], &new)) {
        (Ok(old), Ok(new)) => (old, new),
        (old, new) => return complain([old.err(), new.err()], out),
    };
    let called = paths.map(input::called);
    let issues = Issues { called, old, new };
    let totals = issues.totals();
    if let Some(target) = target {
        write_page(target, &issues, &totals, given.has("force"))?;
    }
    match (given.has("json"), given.has("quiet"), target) {
        (true, ..) => json(&issues, &totals, out)?,
        (_, true, _) => {}
        (_, _, Some(_)) => out.line(&summary(&issues, &totals))?,
        (_, _, None) => lines(&issues, &totals, out)?,
    }
    Ok(match differences(&totals) {
        0 => Status::Good,
        _ => Status::Refused,
    })
}

fn operands(given: &Given) -> Result<[&OsStr; 2], Trouble> {
    if given.has("json") && given.has("quiet") {
        let why = "compare: --json and --quiet exclude each other";
        return Err(Trouble::usage(why));
    }
    if given.has("force") && !given.has("html") {
        let why = "compare: --force is for the page of --html";
        return Err(Trouble::usage(why));
    }
    match &given.operands[..] {
        [old, new] if old == "-" && new == "-" => Err(Trouble::usage(
            "compare: only one of the books can be standard input",
        )),
        [old, new] => Ok([old, new]),
        _ => Err(Trouble::usage(
            "compare: two books are to be named, the old one first",
        )),
    }
}

/// Where the page goes, where one is asked for. Neither book is replaced, not even by force.
fn target<'a>(given: &'a Given, books: [&OsStr; 2]) -> Result<Option<&'a Path>, Trouble> {
    let path = match given.value("html") {
        None => return Ok(None),
        Some(path) => path,
    };
    let there = identity(Path::new(path));
    if there.is_some() && books.map(book_identity).contains(&there) {
        let why = "this is one of the books to be compared, and it is not replaced";
        return Err(Trouble::failed(&shown_path(path), why));
    }
    newfile::target("compare: --html", path, given.has("force")).map(Some)
}

fn book_identity(path: &OsStr) -> Option<(u64, u64)> {
    let path = if path == "-" {
        OsStr::new("/dev/stdin")
    } else {
        path
    };
    identity(Path::new(path))
}

/// The numbers of a file's device and of the file.
fn identity(path: &Path) -> Option<(u64, u64)> {
    let about = fs::metadata(path).ok()?;
    Some((about.dev(), about.ino()))
}

/// The book in what was read, if it was.
fn opened<'a>(path: &OsStr, read: &'a Result<Vec<u8>, Trouble>) -> Result<Book<'a>, Trouble> {
    let bytes = read.as_ref().map_err(Trouble::clone)?;
    input::open(path, bytes)
}

/// Says of each book why there is none.
fn complain(troubles: [Option<Trouble>; 2], out: &mut Output) -> Result<Status, Trouble> {
    let mut status = Status::Good;
    for trouble in troubles.iter().flatten() {
        out.complain(trouble)?;
        status = status.max(trouble.status);
    }
    Ok(status)
}

/// How many names are not the same in both.
pub fn differences(totals: &Totals) -> u64 {
    totals.only_first + totals.only_second + totals.changed
}

fn lines(issues: &Issues, totals: &Totals, out: &mut Output) -> Result<(), Trouble> {
    for change in issues.changes() {
        out.line(&line(&change))?;
    }
    out.line(&summary(issues, totals))
}

fn line(change: &Change) -> String {
    match change {
        Change::OnlyFirst(old) => format!("- {}", whole(old)),
        Change::OnlySecond(new) => format!("+ {}", whole(new)),
        Change::Changed(old, new) => format!("~ {}: {}", names(old, new), moved(old, new)),
    }
}

/// As `hods find` prints it.
fn whole(entry: &Entry) -> String {
    let [section, offset, length] = numbers(entry);
    let name = shown(entry.name());
    format!("{name}: section {section}, offset {offset}, length {length}")
}

/// The name, in both cases where the two differ.
fn names(old: &Entry, new: &Entry) -> String {
    match old.name() == new.name() {
        true => shown(old.name()),
        false => format!("{} -> {}", shown(old.name()), shown(new.name())),
    }
}

/// The numbers that differ.
fn moved(old: &Entry, new: &Entry) -> String {
    let pairs = numbers(old).into_iter().zip(numbers(new));
    let each = WHAT.iter().zip(pairs);
    let differ = each.filter(|(_, (was, is))| was != is);
    let parts: Vec<String> = differ
        .map(|(what, (was, is))| format!("{what} {was} -> {is}"))
        .collect();
    parts.join(", ")
}

/// The totals in words.
pub fn summary(issues: &Issues, totals: &Totals) -> String {
    let Totals {
        only_first,
        only_second,
        same,
        changed,
    } = totals;
    if differences(totals) == 0 {
        let same = many(*same, "entry is", "entries are");
        return format!("no difference: {same} the same");
    }
    let [old, new] = &issues.called;
    format!("{only_first} only in {old}, {only_second} only in {new}, {changed} changed, {same} the same")
}

/// An object with the totals and an array of the differences, one a line.
fn json(issues: &Issues, totals: &Totals, out: &mut Output) -> Result<(), Trouble> {
    let Totals {
        only_first,
        only_second,
        same,
        changed,
    } = totals;
    out.line(&format!(
        "{{\"totals\":{{\"only_old\":{only_first},\"only_new\":{only_second},\"same\":{same},\"changed\":{changed}}},"
    ))?;
    out.write(b"\"differences\":[")?;
    let mut before = "\n";
    for change in issues.changes() {
        out.write(before.as_bytes())?;
        out.write(json_change(&change).as_bytes())?;
        before = ",\n";
    }
    out.line("\n]}")
}

fn json_change(change: &Change) -> String {
    let kind = match change {
        Change::OnlyFirst(_) => "only_old",
        Change::OnlySecond(_) => "only_new",
        Change::Changed(..) => "changed",
    };
    let object =
        |entry: Option<Entry>| entry.map_or("null".to_string(), |entry| json_entry(&entry));
    let (old, new) = (object(change.first()), object(change.second()));
    format!("{{\"kind\":\"{kind}\",\"old\":{old},\"new\":{new}}}")
}

fn write_page(target: &Path, issues: &Issues, totals: &Totals, force: bool) -> Result<(), Trouble> {
    let mut file = NewFile::create(target)?;
    file.write(page::front(issues, totals).as_bytes())?;
    for (number, change) in issues.changes().enumerate() {
        file.write(page::row(number, &change).as_bytes())?;
    }
    file.write(page::end(totals).as_bytes())?;
    file.finish(force)
}
