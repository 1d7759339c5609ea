//! What a batch is like, read from its bytes: the generators are not asked.

use crate::compare::Asked;
use crate::coverage::Coverage;
use crate::padding::Number;
use second::{batch_names, read_encint, ANSWER};

const BOOK: &str = "book of a batch";
const NAMES: &str = "names of a batch";
const BROKEN: &str = "broken name of a batch";
const ROOM: &str = "room of a batch";
const STATUS: &str = "answer of a batch";
pub const PADDED: &str = "padded length of a name in a batch";

/// Counts the book, the names and the room of a batch.
pub fn count(coverage: &mut Coverage, asked: &Asked, names: &[u8], room: usize) {
    const DEPTHS: [&str; 5] = ["depth 1", "depth 2", "depth 3", "depth 4", "depth 5"];
    let whole = batch_names(names);
    // How many names were to follow a broken one is not known; that one would have an answer too.
    let too_little = match &whole {
        Some(names) => room / ANSWER < names.len(),
        None => room / ANSWER <= broken(names).in_front,
    };
    let record = match asked.opening {
        Ok(record) => record,
        Err(_) => {
            coverage.count(BOOK, refused(whole.is_some(), too_little));
            return;
        }
    };
    coverage.count(BOOK, DEPTHS[record.depth as usize - 1]);
    if record.count == 4096 {
        coverage.count(BOOK, "4,096 chunks");
    }
    match whole {
        Some(whole) => {
            count_names(coverage, &whole);
            count_lengths(coverage, names);
            count_room(coverage, ANSWER * whole.len(), room);
        }
        None => count_broken(coverage, &broken(names), too_little),
    }
}

fn refused(whole: bool, too_little: bool) -> &'static str {
    match (whole, too_little) {
        (true, false) => "refused, with whole names",
        (true, true) => "refused, with too little room",
        (false, false) => "refused, with a broken name",
        (false, true) => "refused, with a broken name and too little room",
    }
}

fn count_names(coverage: &mut Coverage, names: &[&[u8]]) {
    let count = match names.len() {
        0 => "none",
        1 => "1 name",
        2..=8 => "2 to 8 names",
        9..=99 => "9 to 99 names",
        _ => "100 names or more",
    };
    coverage.count(NAMES, count);
    for (at, name) in names.iter().enumerate() {
        match name.len() {
            0 => coverage.count(NAMES, "one of 0 bytes"),
            1 => coverage.count(NAMES, "one of 1 byte"),
            1024 => coverage.count(NAMES, "one of 1,024 bytes"),
            1025 => coverage.count(NAMES, "one of 1,025 bytes"),
            1026.. => coverage.count(NAMES, "a longer one"),
            _ => {}
        }
        if at > 0 && names[..at].contains(name) {
            coverage.count(NAMES, "one that stands there before");
        }
    }
}

/// Counts the padded lengths of whole names.
fn count_lengths(coverage: &mut Coverage, names: &[u8]) {
    let mut rest = names;
    while let Some(length) = Number::read(rest) {
        length.count(coverage, PADDED);
        rest = &rest[length.bytes + length.value as usize..];
    }
}

fn count_room(coverage: &mut Coverage, needed: usize, room: usize) {
    let name = match (needed, room) {
        (0, 0) => "none, and none needed",
        (_, 0) => "none",
        _ if room == needed => "just enough",
        _ if room + 1 == needed => "1 byte short",
        _ if room + 31 == needed => "31 bytes short",
        _ if room + 32 == needed => "32 bytes short",
        _ if room < needed => "shorter",
        _ if room < needed + 32 => "1 to 31 bytes more",
        _ => "32 bytes more or longer",
    };
    coverage.count(ROOM, name);
}

/// The first name that breaks FORMAT B2.
struct Broken {
    /// How many whole names are in front of it.
    in_front: usize,
    how: &'static str,
}

/// How names that are not whole are broken.
fn broken(names: &[u8]) -> Broken {
    let mut rest = names;
    let mut in_front = 0;
    loop {
        let (length, taken) = match read_encint(rest) {
            Some(read) => read,
            None => {
                let how = no_length(rest);
                return Broken { in_front, how };
            }
        };
        rest = &rest[taken..];
        let left = rest.len() as u64;
        if length > left {
            let how = too_long(length, left);
            return Broken { in_front, how };
        }
        rest = &rest[length as usize..];
        in_front += 1;
    }
}

/// Why no ENCINT stands at the front of these bytes.
fn no_length(bytes: &[u8]) -> &'static str {
    match bytes.len() {
        10.. if bytes[0] == 0x80 => "length padded to more than nine bytes",
        10.. => "length of more than nine bytes",
        9 => "end behind nine bytes of the length",
        _ if bytes.iter().all(|&byte| byte == 0x80) => "end inside the leading bytes of the length",
        _ => "end inside the length",
    }
}

/// By how much a length reaches behind the bytes that are left.
fn too_long(length: u64, left: u64) -> &'static str {
    match length - left {
        1 => "length 1 too high",
        _ if length == u64::MAX >> 1 => "length 2^63 - 1",
        _ if length >= 1 << 32 => "length of 2^32 or more",
        _ => "length too high by more",
    }
}

fn count_broken(coverage: &mut Coverage, broken: &Broken, too_little: bool) {
    coverage.count(BROKEN, broken.how);
    let place = match broken.in_front {
        0 => "the first",
        _ => "a later one",
    };
    coverage.count(BROKEN, place);
    if too_little {
        coverage.count(BROKEN, "too little room besides");
    }
}

/// Counts the statuses of these answers.
pub fn count_answers(coverage: &mut Coverage, answers: &[u8]) {
    for answer in answers.chunks_exact(ANSWER) {
        let status = match answer[0] {
            0 => "found",
            255 => "absent",
            _ => "15",
        };
        coverage.count(STATUS, status);
    }
}
