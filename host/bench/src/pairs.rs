//! The pairs of names that are compared.

/// The answers of both functions, by FORMAT S5.
const BELOW: u64 = 0;
const EQUAL: u64 = 1;

/// What the library's comparing has to reach on a pair.
pub enum Goal {
    /// To be many times as fast as the plain way.
    Faster,
    /// To be hardly slower.
    NoSlower,
    /// Nothing; the row is there to be known.
    Nothing,
}

/// Equal bytes in front, what differs, equal bytes behind.
pub struct Pair {
    /// Its name for `--count`.
    pub key: &'static str,
    pub what: &'static str,
    front: usize,
    differ: (&'static [u8], &'static [u8]),
    behind: usize,
    /// What both functions must answer.
    pub order: u64,
    pub goal: Goal,
}

const RECORDS: (&[u8], &[u8]) = (b"/events/1888/02/0017.htm", b"/Events/1888/02/0018.htm");

// One pair a line, to be read as a table.
#[rustfmt::skip]
pub static PAIRS: [Pair; 9] = [
    Pair { key: "front", what: "1,000 equal bytes, then `a` / `b`", front: 1000, differ: (b"a", b"b"), behind: 0, order: BELOW, goal: Goal::Faster },
    Pair { key: "front-case", what: "1,000 equal bytes, then `A` / `a`", front: 1000, differ: (b"A", b"a"), behind: 0, order: EQUAL, goal: Goal::Faster },
    Pair { key: "first-case", what: "`E` / `e`, then 999 equal bytes", front: 0, differ: (b"E", b"e"), behind: 999, order: EQUAL, goal: Goal::Faster },
    Pair { key: "front-8", what: "8 equal bytes, then `a` / `b`", front: 8, differ: (b"a", b"b"), behind: 0, order: BELOW, goal: Goal::Nothing },
    Pair { key: "front-16", what: "16 equal bytes, then `a` / `b`", front: 16, differ: (b"a", b"b"), behind: 0, order: BELOW, goal: Goal::Nothing },
    Pair { key: "front-64", what: "64 equal bytes, then `a` / `b`", front: 64, differ: (b"a", b"b"), behind: 0, order: BELOW, goal: Goal::Nothing },
    Pair { key: "first", what: "`a` / `b`, then 15 equal bytes", front: 0, differ: (b"a", b"b"), behind: 15, order: BELOW, goal: Goal::NoSlower },
    Pair { key: "all-case", what: "1,000 times `E` / `e`", front: 0, differ: (&[b'E'; 1000], &[b'e'; 1000]), behind: 0, order: EQUAL, goal: Goal::Nothing },
    Pair { key: "record", what: "`/events/1888/02/0017.htm` / `/Events/1888/02/0018.htm`", front: 0, differ: RECORDS, behind: 0, order: BELOW, goal: Goal::Nothing },
];

impl Pair {
    /// The two names, in buffers of their own.
    pub fn names(&self) -> (Vec<u8>, Vec<u8>) {
        let (front, behind) = (equal(self.front), equal(self.behind));
        let name = |differ: &[u8]| [&front[..], differ, &behind[..]].concat();
        (name(self.differ.0), name(self.differ.1))
    }
}

/// Bytes such as an archive's names have.
fn equal(length: usize) -> Vec<u8> {
    let bytes = b"/events/1888/02/0017".iter().cycle();
    bytes.take(length).copied().collect()
}
