//! `hods write`: a new book.

use std::ffi::OsStr;
use std::fs::File;
use std::io::{ErrorKind, Read};
use std::path::Path;

use hodsplinter::{write_head, Options};

use crate::args::{flag, valued, Given, Spec};
use crate::finding;
use crate::newfile::{self, NewFile};
use crate::output::Output;
use crate::progress::Progress;
use crate::source::{self, Content, Source};
use crate::status::{Status, Trouble};
use crate::text::shown_path;

pub const OPTIONS: [Spec; 7] = [
    valued("output", Some('o')),
    flag("force", Some('f')),
    valued("list", None),
    valued("content", None),
    valued("density", None),
    valued("time", None),
    valued("language", None),
];

/// How many bytes are copied at once.
const PIECE: usize = 1 << 18;

pub fn run(given: &Given, _: &mut Output) -> Result<Status, Trouble> {
    let target = target(given)?;
    let numbers = numbers(given)?;
    let source = source(given, target)?;
    let options = Options {
        content_length: source.content.length(),
        ..numbers
    };
    let entries = source.entries();
    let head = write_head(entries.iter().copied(), &options)
        .map_err(|refusal| finding::refused_head(&source, &entries, &options, refusal))?;
    write_book(target, &head, &source.content, given.has("force"))?;
    Ok(Status::Good)
}

/// Where the book goes.
fn target(given: &Given) -> Result<&Path, Trouble> {
    match given.value("output") {
        None => Err(Trouble::usage("write: -o BOOK is missing")),
        Some(path) => newfile::target("write: -o", path, given.has("force")),
    }
}

fn numbers(given: &Given) -> Result<Options, Trouble> {
    let usual = Options::new(0);
    let density = given.number("density", usual.density)?;
    if density > 7 {
        let why = format!("--density: {density} is not 0 to 7 (FORMAT D7)");
        return Err(Trouble::usage(why));
    }
    Ok(Options {
        density,
        time: given.number("time", usual.time)?,
        language: given.number("language", usual.language)?,
        ..usual
    })
}

fn source(given: &Given, target: &Path) -> Result<Source, Trouble> {
    match (
        &given.operands[..],
        given.value("list"),
        given.value("content"),
    ) {
        ([folder], None, None) => source::from_folder(folder, target),
        ([], Some(list), Some(content)) => source::from_list(list, content),
        _ => Err(Trouble::usage(
            "write: either a folder is to be named, or --list and --content",
        )),
    }
}

fn write_book(target: &Path, head: &[u8], content: &Content, force: bool) -> Result<(), Trouble> {
    let mut book = NewFile::create(target)?;
    book.write(head)?;
    match content {
        Content::Bytes(bytes) => book.write(bytes)?,
        Content::Files(files) => {
            let what = format!("writing {}", shown_path(target.as_os_str()));
            let mut progress = Progress::new(what, content.length());
            let mut piece = vec![0; PIECE];
            for (path, length) in files {
                let mut file = Stored::open(path.as_os_str(), *length)?;
                while let Some(got) = file.read(&mut piece)? {
                    book.write(got)?;
                    progress.add(got.len());
                }
            }
        }
    }
    book.finish(force)
}

/// A file to be stored, which must keep the length that the head was told.
struct Stored {
    name: String,
    file: File,
    left: u64,
}

impl Stored {
    fn open(path: &OsStr, length: u64) -> Result<Stored, Trouble> {
        let name = shown_path(path);
        let file = File::open(path).map_err(|error| Trouble::io(&name, &error))?;
        Ok(Stored {
            name,
            file,
            left: length,
        })
    }

    /// The next bytes, none at the end.
    fn read<'a>(&mut self, piece: &'a mut [u8]) -> Result<Option<&'a [u8]>, Trouble> {
        let got = loop {
            match self.file.read(piece) {
                Err(error) if error.kind() == ErrorKind::Interrupted => {}
                got => break got.map_err(|error| Trouble::io(&self.name, &error))?,
            }
        };
        if got as u64 > self.left || got == 0 && self.left > 0 {
            let why = "its length changed while the book was written";
            return Err(Trouble::failed(&self.name, why));
        }
        self.left -= got as u64;
        Ok(Some(&piece[..got]).filter(|got| !got.is_empty()))
    }
}
