//! What a new book is made of: its entries in the order of names (FORMAT S1, S2), and its content.

use std::ffi::OsStr;
use std::fs::{self, DirEntry};
use std::io;
use std::os::unix::ffi::OsStringExt;
use std::os::unix::fs::MetadataExt;
use std::path::{Path, PathBuf};

use hodsplinter::{name_order, NewEntry};

use crate::input;
use crate::status::Trouble;
use crate::text::{read_name, shown_path};

/// Entries and content for a new book.
pub struct Source {
    /// What messages call it.
    subject: String,
    pub content: Content,
    entries: Vec<Listed>,
}

/// The content.
pub enum Content {
    /// Files one behind another, with their lengths.
    Files(Vec<(PathBuf, u64)>),
    /// Bytes of what has no length beforehand: standard input, a pipe, a device.
    Bytes(Vec<u8>),
}

impl Content {
    /// A sum that does not fit is longer than the writer allows as well.
    pub fn length(&self) -> u64 {
        match self {
            Content::Files(files) => files
                .iter()
                .fold(0, |sum, (_, length)| sum.saturating_add(*length)),
            Content::Bytes(bytes) => bytes.len() as u64,
        }
    }
}

struct Listed {
    name: Vec<u8>,
    section: u16,
    offset: u64,
    length: u64,
    /// Its line in a list, from 1 on.
    line: Option<usize>,
}

impl Listed {
    fn entry(&self) -> NewEntry<'_> {
        NewEntry {
            name: &self.name,
            section: self.section,
            offset: self.offset,
            length: self.length,
        }
    }
}

impl Source {
    pub fn entries(&self) -> Vec<NewEntry<'_>> {
        self.entries.iter().map(Listed::entry).collect()
    }

    /// What messages call an entry's place, or all of it: an entry of a list has a line, and a file's name says where it is.
    pub fn place(&self, entry: Option<usize>) -> String {
        let line = entry.and_then(|i| self.entries[i].line);
        match line {
            Some(line) => input::at_line(&self.subject, line),
            None => self.subject.clone(),
        }
    }
}

/// The files of a folder and of the folders in it. Each has its path from the folder, with `/` in front, as its name; they are stored in
/// section 0 in the order of their names. The new book itself must not be among them.
pub fn from_folder(folder: &OsStr, book: &Path) -> Result<Source, Trouble> {
    let mut files = walk(Path::new(folder), book)?;
    files.sort_by(|a, b| name_order(&a.name, &b.name));
    let (mut entries, mut stored, mut offset) = (Vec::new(), Vec::new(), 0);
    for File { name, path, length } in files {
        entries.push(Listed {
            name,
            section: 0,
            offset,
            length,
            line: None,
        });
        stored.push((path, length));
        offset = u64::saturating_add(offset, length);
    }
    Ok(Source {
        subject: shown_path(folder),
        content: Content::Files(stored),
        entries,
    })
}

/// A file to be stored.
struct File {
    name: Vec<u8>,
    path: PathBuf,
    length: u64,
}

fn walk(top: &Path, book: &Path) -> Result<Vec<File>, Trouble> {
    let old = fs::metadata(book)
        .ok()
        .map(|about| (about.dev(), about.ino()));
    let (mut files, mut folders) = (Vec::new(), vec![(top.to_path_buf(), b"/".to_vec())]);
    while let Some((folder, prefix)) = folders.pop() {
        let trouble = |error: io::Error| Trouble::io(&shown_path(folder.as_os_str()), &error);
        for item in fs::read_dir(&folder).map_err(trouble)? {
            let item = item.map_err(trouble)?;
            let mut name = prefix.clone();
            name.extend(item.file_name().into_vec());
            match met(&item)? {
                Met::Folder => {
                    name.push(b'/');
                    folders.push((item.path(), name));
                }
                Met::File(_, id) if Some(id) == old => {
                    let subject = shown_path(item.path().as_os_str());
                    let why = "this is the book to be written, and it cannot be its own content";
                    return Err(Trouble::failed(&subject, why));
                }
                Met::File(length, _) => files.push(File {
                    name,
                    path: item.path(),
                    length,
                }),
            }
        }
    }
    Ok(files)
}

/// What was met in a folder.
enum Met {
    Folder,
    /// A file's length, and the numbers of its device and itself.
    File(u64, (u64, u64)),
}

/// Links to files are followed, links to folders are not: they could lead round in a ring.
fn met(item: &DirEntry) -> Result<Met, Trouble> {
    let subject = shown_path(item.path().as_os_str());
    let trouble = |error: io::Error| Trouble::io(&subject, &error);
    if item.file_type().map_err(trouble)?.is_dir() {
        return Ok(Met::Folder);
    }
    let about = fs::metadata(item.path()).map_err(trouble)?;
    if about.is_file() {
        return Ok(Met::File(about.len(), (about.dev(), about.ino())));
    }
    let what = if about.is_dir() {
        "a link to a folder, which is not followed"
    } else {
        "neither a file nor a folder"
    };
    Err(Trouble::failed(&subject, what))
}

/// The entries of a list, and a file with the content.
pub fn from_list(list: &OsStr, content: &OsStr) -> Result<Source, Trouble> {
    if list == "-" && content == "-" {
        return Err(Trouble::usage(
            "write: only one of --list and --content can be standard input",
        ));
    }
    let mut entries = read_list(list)?;
    entries.sort_by(|a, b| name_order(&a.name, &b.name));
    Ok(Source {
        subject: input::called(list),
        content: read_content(content)?,
        entries,
    })
}

/// A file stays where it is until it is copied; what has no length beforehand is read now.
fn read_content(path: &OsStr) -> Result<Content, Trouble> {
    if path == "-" {
        return Ok(Content::Bytes(input::read_file(path)?));
    }
    let about = fs::metadata(path).map_err(|error| Trouble::io(&shown_path(path), &error))?;
    match about.is_file() {
        true => Ok(Content::Files(vec![(path.into(), about.len())])),
        false => Ok(Content::Bytes(input::read_file(path)?)),
    }
}

fn read_list(path: &OsStr) -> Result<Vec<Listed>, Trouble> {
    let text = input::read_file(path)?;
    let mut entries = Vec::new();
    for (n, line) in (1..).zip(text.split(|b| *b == b'\n')) {
        let line = trimmed(line);
        if line.is_empty() || line.starts_with(b"#") {
            continue;
        }
        let trouble = |why| Trouble::failed(&input::at_line(&input::called(path), n), why);
        entries.push(read_line(n, line).map_err(trouble)?);
    }
    Ok(entries)
}

/// A line as `hods list` prints it.
fn read_line(n: usize, line: &[u8]) -> Result<Listed, String> {
    let (section, rest) = number(line)?;
    let (offset, rest) = number(rest)?;
    let (length, rest) = number(rest)?;
    let section = u16::try_from(section)
        .map_err(|_| format!("the section is {section}, above 65535 (FORMAT E5)"))?;
    Ok(Listed {
        name: read_name(rest)?,
        section,
        offset,
        length,
        line: Some(n),
    })
}

/// The number at the front of a line, and what stands behind it.
fn number(line: &[u8]) -> Result<(u64, &[u8]), String> {
    let end = line.iter().position(u8::is_ascii_whitespace);
    let (word, rest) = line.split_at(end.unwrap_or(line.len()));
    let digits = !word.is_empty() && word.iter().all(u8::is_ascii_digit);
    let word = std::str::from_utf8(word).ok().filter(|_| digits);
    let word = word.ok_or("this is not SECTION OFFSET LENGTH NAME")?;
    let n = word
        .parse()
        .map_err(|_| format!("{word} is not below 2^63 (FORMAT N3)"))?;
    Ok((n, trimmed(rest)))
}

fn trimmed(line: &[u8]) -> &[u8] {
    let keep = |b: &u8| !b.is_ascii_whitespace();
    let start = line.iter().position(keep).unwrap_or(line.len());
    let end = line.iter().rposition(keep).map_or(start, |last| last + 1);
    &line[start..end]
}
