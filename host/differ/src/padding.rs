//! Leading 80 bytes of ENCINTs (FORMAT N4), read from the bytes: the generators are not asked.

use crate::coverage::Coverage;
use second::{encint, read_encint, Listed, Report};

/// The numbers of a listing entry that are padded, each a group of its own.
pub const LISTING: [&str; 4] = [
    "padded name length of a listing entry",
    "padded section",
    "padded offset",
    "padded length",
];

/// The same for an index entry.
pub const INDEX: [&str; 2] = ["padded name length of an index entry", "padded child"];

/// What pads a number.
pub const PADDED: &[&str] = &[
    "by 1 byte",
    "by 2 to 7 bytes",
    "by 8 bytes",
    "to nine bytes, by 2 to 7",
];

/// An ENCINT as it stands.
#[derive(Clone, Copy)]
pub struct Number {
    pub value: u64,
    /// How many bytes it takes, leading ones with them.
    pub bytes: usize,
}

impl Number {
    pub fn read(bytes: &[u8]) -> Option<Number> {
        let (value, bytes) = read_encint(bytes)?;
        Some(Number { value, bytes })
    }

    fn leading(self) -> usize {
        self.bytes - encint(self.value).len()
    }

    pub fn is_padded(self) -> bool {
        self.leading() > 0
    }

    /// Counts what pads the number, if anything does.
    pub fn count(self, coverage: &mut Coverage, group: &'static str) {
        match (self.leading(), self.bytes) {
            (0, _) => {}
            (1, _) => coverage.count(group, "by 1 byte"),
            (8, _) => coverage.count(group, "by 8 bytes"),
            (_, 9) => coverage.count(group, "to nine bytes, by 2 to 7"),
            _ => coverage.count(group, "by 2 to 7 bytes"),
        }
    }
}

/// An entry as it stands: its name, and its numbers, the name's length first.
pub struct Entry<'a> {
    pub name: &'a [u8],
    pub numbers: Vec<Number>,
}

impl Entry<'_> {
    pub fn is_padded(&self) -> bool {
        self.numbers.iter().any(|number| number.is_padded())
    }

    /// The entry with its numbers in their short forms.
    pub fn short(&self) -> Vec<u8> {
        let mut numbers = self.numbers.iter().map(|number| encint(number.value));
        let length = numbers.next().unwrap_or_default();
        let behind: Vec<Vec<u8>> = numbers.collect();
        [&length, self.name, &behind.concat()].concat()
    }

    pub fn count(&self, coverage: &mut Coverage, groups: &[&'static str]) {
        for (number, group) in self.numbers.iter().zip(groups) {
            number.count(coverage, group);
        }
    }
}

/// Entries one behind another, up to the first that cannot be read.
pub struct Entries<'a> {
    rest: &'a [u8],
    /// How many numbers follow the name.
    fields: usize,
}

impl<'a> Entries<'a> {
    pub fn listing(bytes: &'a [u8]) -> Entries<'a> {
        Entries {
            rest: bytes,
            fields: 3,
        }
    }

    pub fn index(bytes: &'a [u8]) -> Entries<'a> {
        Entries {
            rest: bytes,
            fields: 1,
        }
    }

    /// What has not been read.
    pub fn rest(&self) -> &'a [u8] {
        self.rest
    }
}

impl<'a> Iterator for Entries<'a> {
    type Item = Entry<'a>;

    fn next(&mut self) -> Option<Entry<'a>> {
        let length = Number::read(self.rest)?;
        let rest = &self.rest[length.bytes..];
        let name = rest.get(..usize::try_from(length.value).ok()?)?;
        let mut rest = &rest[name.len()..];
        let mut numbers = vec![length];
        for _ in 0..self.fields {
            let number = Number::read(rest)?;
            rest = &rest[number.bytes..];
            numbers.push(number);
        }
        self.rest = rest;
        Some(Entry { name, numbers })
    }
}

/// Whether an entry's own bytes are more than its numbers in their short forms take.
pub fn is_padded(listed: &Listed) -> bool {
    let report = &listed.report;
    let numbers = [report.length, report.section, report.offset, report.size];
    let short: usize = numbers.iter().map(|&number| encint(number).len()).sum();
    listed.length > report.length + short as u64
}

/// Whether a number of an entry in a book that opens is padded, by where its name stands.
pub fn found_padded(file: &[u8], report: &Report) -> bool {
    // In front of the name's length no 80 can stand but one that pads it: an entry ends with bit 7
    // clear, and a chunk's header with the highest byte of a next, 00 or FF in such a book.
    let length = report.place as usize - encint(report.length).len();
    let mut behind = &file[(report.place + report.length) as usize..];
    let mut numbers = (0..3).map_while(|_| {
        let number = Number::read(behind)?;
        behind = &behind[number.bytes..];
        Some(number)
    });
    file[length - 1] == 0x80 || numbers.any(Number::is_padded)
}

/// Whether a frame of a program holds a padded number; its entries stand behind so many bytes.
pub fn is_padded_frame(line: &str, behind: usize) -> bool {
    let digits = line.as_bytes().chunks(2).skip(behind);
    let byte = |pair: &[u8]| u8::from_str_radix(std::str::from_utf8(pair).ok()?, 16).ok();
    let bytes: Vec<u8> = digits.filter_map(byte).collect();
    let mut entries = Entries::listing(&bytes);
    entries.any(|entry| entry.is_padded())
}

#[cfg(test)]
mod tests {
    use super::*;

    #[test]
    fn entries_as_they_stand() {
        let bytes = b"\x80\x01a\x00\x80\x80\x00\x05\x01b\x01\x02\x03\x02c";
        let mut entries = Entries::listing(bytes);
        let one = entries.next().unwrap();
        assert!(one.is_padded());
        assert_eq!(one.short(), b"\x01a\x00\x00\x05");
        let padded: Vec<bool> = one
            .numbers
            .iter()
            .map(|number| number.is_padded())
            .collect();
        assert_eq!(padded, [true, false, true, false]);
        assert!(!entries.next().unwrap().is_padded());
        assert!(entries.next().is_none());
        assert_eq!(entries.rest(), b"\x02c");
    }

    #[test]
    fn frames_with_padding() {
        assert!(!is_padded_frame("012f000000", 0));
        assert!(is_padded_frame("012f00008000", 0));
        assert!(is_padded_frame("0380012f000000012f000001", 1));
        assert!(is_padded_frame("03012f000000012f00008001", 1));
        assert!(!is_padded_frame("03012f000000012f000001", 1));
    }
}
