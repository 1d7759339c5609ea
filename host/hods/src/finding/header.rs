//! The file header and the directory header: refusals 1 to 7.

use super::bytes::Bytes;
use super::{Finding, NONE};
use crate::text::{shown, spaced_hex};

const GUID_1: [u8; 16] = *b"\x10\xFD\x01\x7C\xAA\x7B\xD0\x11\x9E\x0C\x00\xA0\xC9\x22\xE6\xEC";
const GUID_2: [u8; 16] = *b"\x11\xFD\x01\x7C\xAA\x7B\xD0\x11\x9E\x0C\x00\xA0\xC9\x22\xE6\xEC";
const DIRECTORY_GUID: [u8; 16] =
    *b"\x6A\x92\x02\x5D\x2E\x21\xD0\x11\x9D\xF9\x00\xA0\xC9\x22\xE6\xEC";

/// Places of fields in the file header.
const SECTION_0: u64 = 0x38;
const SECTION_0_LENGTH: u64 = 0x40;
const DIRECTORY: u64 = 0x48;
const DIRECTORY_LENGTH: u64 = 0x50;
const CONTENT: u64 = 0x58;

pub fn short(file: Bytes) -> Finding {
    let size = file.len();
    let found = format!("the file has {size} bytes, a book has 96 or more");
    Finding::new("", size, found)
}

/// A finding where bytes are not those that are asked for.
fn differs(file: Bytes, row: &'static str, place: u64, what: &str, want: &[u8]) -> Option<Finding> {
    let found = file.part(place, want.len() as u64)?;
    Finding::unless(found == want, row, place, || {
        let text = match want.is_ascii() {
            true => format!(" ({})", shown(want)),
            false => String::new(),
        };
        let (found, want) = (spaced_hex(found), spaced_hex(want));
        format!("the {what} is {found}, not {want}{text}")
    })
}

/// A finding where a number of 32 bits is not the one that is asked for.
fn other(file: Bytes, row: &'static str, place: u64, what: &str, want: u64) -> Option<Finding> {
    let found = file.number(place, 4)?;
    Finding::unless(found == want, row, place, || {
        format!("the {what} is {found}, not {want}")
    })
}

pub fn tags(file: Bytes) -> Option<Finding> {
    differs(file, "F1", 0, "tag", b"ITSF")
        .or_else(|| differs(file, "F5", 0x18, "first GUID", &GUID_1))
        .or_else(|| differs(file, "F6", 0x28, "second GUID", &GUID_2))
}

pub fn version(file: Bytes) -> Option<Finding> {
    let version = file.number(4, 4)?;
    let length = if version == 2 { 0x58 } else { 0x60 };
    Finding::unless(matches!(version, 2 | 3), "F2", 4, || {
        format!("the version is {version}, not 2 or 3")
    })
    .or_else(|| other(file, "F3", 8, "header's length", length))
}

/// Where the parts of a file stand.
struct Parts {
    header_end: u64,
    section_0: u64,
    section_0_length: u64,
    directory: u64,
    directory_length: u64,
    content: u128,
    content_place: u64,
    file_length: u64,
}

impl Parts {
    fn read(file: Bytes) -> Option<Parts> {
        let directory = file.number(DIRECTORY, 8)?;
        let directory_length = file.number(DIRECTORY_LENGTH, 8)?;
        let old = file.number(4, 4)? == 2;
        Some(Parts {
            header_end: if old { 0x58 } else { 0x60 },
            section_0: file.number(SECTION_0, 8)?,
            section_0_length: file.number(SECTION_0_LENGTH, 8)?,
            directory,
            directory_length,
            content: match old {
                true => u128::from(directory) + u128::from(directory_length),
                false => file.number(CONTENT, 8)?.into(),
            },
            content_place: if old { DIRECTORY } else { CONTENT },
            file_length: file.len(),
        })
    }

    fn section_0_end(&self) -> u128 {
        u128::from(self.section_0) + u128::from(self.section_0_length)
    }

    fn directory_end(&self) -> u128 {
        u128::from(self.directory) + u128::from(self.directory_length)
    }

    /// F7, F8: the two lengths.
    fn lengths(&self) -> Option<Finding> {
        let (a, b) = (self.section_0_length, self.directory_length);
        Finding::unless(a == 24, "F7", SECTION_0_LENGTH, || {
            format!("section 0 has {a} bytes, not 24")
        })
        .or_else(|| {
            Finding::unless(b >= 84, "F8", DIRECTORY_LENGTH, || {
                format!("the directory has {b} bytes, fewer than 84")
            })
        })
    }

    /// F11, F12: one part inside the file and behind the header.
    fn inside(&self, field: u64, what: &str, start: u64, end: u128) -> Option<Finding> {
        let (size, header) = (self.file_length, self.header_end);
        Finding::unless(end <= size.into(), "F11", field, || {
            format!("{what}, 0x{start:x} to 0x{end:x}, is not inside the file, 0x0 to 0x{size:x}")
        })
        .or_else(|| {
            Finding::unless(start >= header, "F12", field, || {
                format!("{what} starts at 0x{start:x}, before the header's end, 0x{header:x}")
            })
        })
    }

    /// F13: the parts do not overlap.
    fn apart(&self) -> Option<Finding> {
        let (a, b) = (self.section_0_end(), self.directory_end());
        let apart = a <= self.directory.into() || b <= self.section_0.into();
        Finding::unless(apart, "F13", DIRECTORY, || {
            let (s, d) = (self.section_0, self.directory);
            format!("section 0, 0x{s:x} to 0x{a:x}, overlaps the directory, 0x{d:x} to 0x{b:x}")
        })
    }

    /// F14: the content behind both.
    fn content(&self) -> Option<Finding> {
        let (at, size) = (self.content, self.file_length);
        let behind = self.section_0_end().max(self.directory_end());
        Finding::unless(at >= behind, "F14", self.content_place, || {
            format!(
                "the content starts at 0x{at:x}, section 0 or the directory ends at 0x{behind:x}"
            )
        })
        .or_else(|| {
            Finding::unless(at <= size.into(), "F14", self.content_place, || {
                format!("the content starts at 0x{at:x}, behind the file's end, 0x{size:x}")
            })
        })
    }
}

pub fn places(file: Bytes) -> Option<Finding> {
    let parts = Parts::read(file)?;
    let (section_0, directory) = (parts.section_0_end(), parts.directory_end());
    parts
        .lengths()
        .or_else(|| parts.inside(SECTION_0, "section 0", parts.section_0, section_0))
        .or_else(|| parts.inside(DIRECTORY, "the directory", parts.directory, directory))
        .or_else(|| parts.apart())
        .or_else(|| parts.content())
}

pub fn file_length(file: Bytes) -> Option<Finding> {
    let place = file.number(SECTION_0, 8)?.checked_add(8)?;
    let (found, size) = (file.number(place, 8)?, file.len());
    Finding::unless(found == size, "F15", place, || {
        format!("the file's length is written as {found}, but it has {size} bytes")
    })
}

pub fn directory_tags(file: Bytes) -> Option<Finding> {
    let at = file.number(DIRECTORY, 8)?;
    differs(file, "D2", at, "tag", b"ITSP")
        .or_else(|| other(file, "D3", at + 0x04, "directory's version", 1))
        .or_else(|| other(file, "D4", at + 0x08, "directory header's length", 84))
        .or_else(|| differs(file, "D12", at + 0x34, "GUID", &DIRECTORY_GUID))
        .or_else(|| other(file, "D13", at + 0x44, "second length", 84))
}

/// The numbers of the directory header.
pub struct Directory {
    pub start: u64,
    pub density: u64,
    pub depth: u64,
    pub root: u64,
    pub first: u64,
    pub last: u64,
    pub count: u64,
    pub content_length: u64,
}

impl Directory {
    pub fn read(file: Bytes) -> Option<Directory> {
        let parts = Parts::read(file)?;
        let start = parts.directory;
        let field = |offset| file.number(start.checked_add(offset)?, 4);
        Some(Directory {
            start,
            density: field(0x14)?,
            depth: field(0x18)?,
            root: field(0x1C)?,
            first: field(0x20)?,
            last: field(0x24)?,
            count: field(0x2C)?,
            content_length: file.len().checked_sub(parts.content.try_into().ok()?)?,
        })
    }

    /// D7, D8, D11: each number by itself.
    fn bounds(&self) -> Option<Finding> {
        let fields = [
            ("D7", 0x14, "density", self.density, 0, 7),
            ("D8", 0x18, "depth", self.depth, 1, 5),
            ("D11", 0x2C, "number of chunks", self.count, 1, 4096),
        ];
        fields
            .into_iter()
            .find_map(|(row, offset, what, found, low, high)| {
                let holds = (low..=high).contains(&found);
                Finding::unless(holds, row, self.start + offset, || {
                    format!("the {what} is {found}, not {low} to {high}")
                })
            })
    }

    /// D15 to D18: the numbers of chunks, by the count and the depth.
    fn chunks(&self) -> Option<Finding> {
        let Directory {
            start,
            depth,
            root,
            count,
            ..
        } = *self;
        let below = |row, offset, what: &str, found: u64| {
            Finding::unless(found < count, row, start + offset, || {
                format!("the {what} is {found}, not below the number of chunks, {count}")
            })
        };
        below("D15", 0x20, "first listing chunk", self.first)
            .or_else(|| below("D15", 0x24, "last listing chunk", self.last))
            .or_else(|| {
                Finding::unless((depth == 1) == (count == 1), "D16", start + 0x18, || {
                    format!("the depth is {depth}, the number of chunks {count}: both are 1, or neither")
                })
            })
            .or_else(|| match depth {
                1 => Finding::unless(matches!(root, 0 | NONE), "D17", start + 0x1C, || {
                    format!("the root is {root}, not 0 or {NONE}, at depth 1")
                }),
                _ => below("D18", 0x1C, "root", root),
            })
    }
}

pub fn directory_numbers(file: Bytes) -> Option<Finding> {
    let directory = Directory::read(file)?;
    let length = file.number(DIRECTORY_LENGTH, 8)?;
    let count = directory.count;
    other(file, "D6", directory.start + 0x10, "chunk size", 4096)
        .or_else(|| directory.bounds())
        .or_else(|| {
            let holds = length == 84 + 4096 * count;
            Finding::unless(holds, "D14", DIRECTORY_LENGTH, || {
                format!(
                    "the directory has {length} bytes, not 84 and 4096 for each of {count} chunks"
                )
            })
        })
        .or_else(|| directory.chunks())
}
