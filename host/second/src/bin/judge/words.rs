//! The words of a question, and numbers as an answer tells them.

use second::{Record, Refusal};
use std::str::SplitAsciiWhitespace;

pub struct Words<'a>(SplitAsciiWhitespace<'a>);

impl<'a> Words<'a> {
    pub fn new(line: &'a str) -> Words<'a> {
        Words(line.split_ascii_whitespace())
    }

    pub fn word(&mut self) -> &'a str {
        self.0.next().expect("one more word")
    }

    pub fn number(&mut self) -> u64 {
        self.word().parse().expect("a number of 64 bits")
    }

    pub fn bytes(&mut self) -> Vec<u8> {
        bytes_of(self.word())
    }

    /// Runs of bytes with commas between.
    pub fn list(&mut self) -> Vec<Vec<u8>> {
        self.word().split(',').map(bytes_of).collect()
    }

    /// The numbers of a record in the order of FORMAT K1.
    pub fn record(&mut self) -> Record {
        Record {
            version: self.number(),
            time: self.number(),
            language: self.number(),
            start: self.number(),
            count: self.number(),
            density: self.number(),
            depth: self.number(),
            root: self.number(),
            first: self.number(),
            last: self.number(),
            content: self.number(),
        }
    }
}

fn bytes_of(digits: &str) -> Vec<u8> {
    let digit = |byte: u8| (byte as char).to_digit(16).expect("a hexadecimal digit") as u8;
    let pairs = digits.as_bytes().chunks_exact(2);
    pairs
        .map(|pair| digit(pair[0]) << 4 | digit(pair[1]))
        .collect()
}

pub fn hexadecimal(bytes: &[u8]) -> String {
    let digit = |value: u8| char::from(b"0123456789abcdef"[usize::from(value)]);
    let pairs = bytes
        .iter()
        .flat_map(|&byte| [digit(byte >> 4), digit(byte & 15)]);
    pairs.collect()
}

/// Numbers with a space between.
pub fn line(numbers: impl IntoIterator<Item = u64>) -> String {
    let words: Vec<String> = numbers.into_iter().map(|n| n.to_string()).collect();
    words.join(" ")
}

/// A refusal as the C functions return it.
pub fn code(refusal: Refusal) -> u64 {
    u64::from(refusal.number) + 256 * u64::from(refusal.place)
}
