//! Names from a file, a line each.

use std::ffi::OsStr;
use std::fs::File;
use std::io::{self, BufRead, BufReader, ErrorKind, Read};

use crate::input;
use crate::status::Trouble;

/// How many bytes are read at once.
const PIECE: usize = 1 << 16;

/// How many bytes of a name are held: one more than a name may have, so that the library still refuses a longer one.
const HELD: usize = 1_025;

/// A file of names. It is read line by line, and however long a line is, no more than its front is held.
pub struct Names {
    called: String,
    length: u64,
    from: BufReader<Box<dyn Read>>,
    lines: usize,
    held: Vec<u8>,
}

/// A line: a name, of which more than the longest good one is not held.
pub struct Line<'a> {
    pub name: &'a [u8],
    /// How many bytes the name has, held or not.
    pub size: usize,
    /// How many bytes the line has with its end.
    pub taken: usize,
    number: usize,
    file: &'a str,
}

impl Line<'_> {
    /// What messages call it.
    pub fn place(&self) -> String {
        input::at_line(self.file, self.number)
    }
}

impl Names {
    pub fn open(path: &OsStr) -> Result<Names, Trouble> {
        let called = input::called(path);
        let trouble = |error: io::Error| Trouble::io(&called, &error);
        let (from, length): (Box<dyn Read>, u64) = if path == "-" {
            (Box::new(io::stdin()), 0)
        } else {
            let file = File::open(path).map_err(trouble)?;
            let length = file.metadata().map_err(trouble)?.len();
            (Box::new(file), length)
        };
        Ok(Names {
            called,
            length,
            from: BufReader::with_capacity(PIECE, from),
            lines: 0,
            held: Vec::with_capacity(HELD),
        })
    }

    /// What messages call the file.
    pub fn called(&self) -> &str {
        &self.called
    }

    /// How many bytes the file has, 0 where that is not known.
    pub fn length(&self) -> u64 {
        self.length
    }

    /// Whether a whole line is there already: else reading it may have to wait.
    pub fn has_line(&self) -> bool {
        self.from.buffer().contains(&b'\n')
    }

    /// The next line, none at the end. A line ends with LF or CR LF, the last one also with the file. A CR at the end is that of a list from a system that
    /// writes both: left in the name it would make every name absent.
    pub fn read(&mut self) -> Result<Option<Line<'_>>, Trouble> {
        let (mut size, mut taken, mut last) = (0, 0, None);
        self.held.clear();
        loop {
            let piece = match self.from.fill_buf() {
                Err(error) if error.kind() == ErrorKind::Interrupted => continue,
                piece => piece.map_err(|error| Trouble::io(&self.called, &error))?,
            };
            let end = piece.iter().position(|b| *b == b'\n');
            let part = &piece[..end.unwrap_or(piece.len())];
            let room = HELD - self.held.len();
            self.held.extend_from_slice(&part[..part.len().min(room)]);
            size += part.len();
            last = part.last().copied().or(last);
            let used = part.len() + usize::from(end.is_some());
            self.from.consume(used);
            taken += used;
            if end.is_some() && last == Some(b'\r') {
                size -= 1;
            }
            if end.is_some() || used == 0 {
                break;
            }
        }
        self.lines += 1;
        self.held.truncate(size);
        let line = Line {
            name: &self.held,
            size,
            taken,
            number: self.lines,
            file: &self.called,
        };
        Ok(Some(line).filter(|line| line.taken > 0))
    }
}
