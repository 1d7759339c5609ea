//! Refusals, and what each of them says.

use std::error::Error;
use std::fmt;

/// The place of a refusal that names no chunk.
const NO_CHUNK: u32 = u32::MAX;

/// Why a book, a question or the entries for a new book were refused: a number of the table of docs/FORMAT.md and, from 8 to 12, a chunk.
///
/// It prints as a sentence:
///
/// ```
/// use hodsplinter::Book;
///
/// let refusal = Book::open(b"ITSF").unwrap_err();
/// assert_eq!(refusal.number(), 1);
/// assert_eq!(refusal.chunk(), None);
/// assert_eq!(refusal.to_string(), "refusal 1 (FORMAT R1): the file has fewer than 96 bytes");
/// ```
#[derive(Clone, Copy, Debug, PartialEq, Eq, Hash)]
pub struct Refusal {
    number: u8,
    place: u32,
}

impl Refusal {
    /// The C functions give a refusal as its number plus 256 times its place.
    pub(crate) fn from_code(code: u64) -> Refusal {
        Refusal {
            number: code as u8,
            place: (code >> 8) as u32,
        }
    }

    /// The status of an answer of a batch is a number alone.
    pub(crate) fn of_status(status: u64) -> Refusal {
        Refusal {
            number: status as u8,
            place: NO_CHUNK,
        }
    }

    /// The number in the table of docs/FORMAT.md, 1 to 20 or 22.
    pub fn number(self) -> u8 {
        self.number
    }

    /// The refusal's second number: the chunk's for 8 to 12, else FFFFFFFF hex.
    pub fn place(self) -> u32 {
        self.place
    }

    /// The chunk that was refused, for 8 to 12.
    pub fn chunk(self) -> Option<u32> {
        (self.place != NO_CHUNK).then_some(self.place)
    }

    /// The rows of docs/FORMAT.md one of which fails, as `"C4, C9, C10"`; empty where the refusal's own row says it all.
    pub fn rows(self) -> &'static str {
        self.meaning().0
    }

    /// What was found wrong, without the number and the chunk.
    pub fn rule(self) -> &'static str {
        self.meaning().1
    }

    fn meaning(self) -> (&'static str, &'static str) {
        let at = usize::from(self.number).wrapping_sub(1);
        MEANINGS.get(at).copied().unwrap_or(NOT_GIVEN)
    }
}

/// What a number says that the table lacks.
const NOT_GIVEN: (&str, &str) = ("", "a refusal that is not in the table");

/// Rows and rule of the refusals from 1 on.
const MEANINGS: [(&str, &str); 22] = [
    ("", "the file has fewer than 96 bytes"),
    (
        "F1, F5, F6",
        "the tag ITSF or one of the two GUIDs of the file header differs",
    ),
    (
        "F2, F3",
        "the version is neither 2 nor 3, or the header's length is not that of its version",
    ),
    (
        "F7, F8, F11, F12, F13, F14",
        "section 0, the directory or the content start does not stand where it may",
    ),
    ("F15", "the file's length is not the one written in section 0"),
    (
        "D2, D3, D4, D12, D13",
        "the tag ITSP, the version, a length or the GUID of the directory header differs",
    ),
    (
        "D6, D7, D8, D11, D14, D15, D16, D17, D18",
        "a number of the directory header is out of its bounds",
    ),
    ("C1, C2", "the chunk's tag is neither PMGL nor PMGI"),
    (
        "C4, C9, C10",
        "the chunk has no entries, or its tail length is out of its bounds",
    ),
    (
        "E1, E2, E3, E4, E5, E6, E7, C3",
        "an entry breaks a rule, or the entries do not fill their space exactly",
    ),
    ("C8", "a quick word is not the place of its entry"),
    ("C12", "names do not rise strictly from entry to entry"),
    (
        "L1, L2, L3, L4, L5, L6, L7",
        "the listing chunks are not linked to one chain with rising names",
    ),
    (
        "T1, T2, T3, T4, T5, T6, T7",
        "the index chunks are not the tree over the chain",
    ),
    ("", "the asked name has 0 bytes, or more than 1,024"),
    ("", "the trail has fewer than 5 places"),
    (
        "K12, K13, K19, X4, X5",
        "the record is bad, or a chunk or an entry that is met",
    ),
    (
        "W2",
        "no entries, an entry that breaks a rule or has a padded number, names that do not rise, or a density or content length out of its bounds",
    ),
    ("D8, D11", "the head would need more than 4,096 chunks or a depth above 5"),
    ("", "the lent output is shorter than the head"),
    NOT_GIVEN,
    (
        "B2, B5",
        "a name is cut off or its length is no ENCINT, or the room for the answers is too short",
    ),
];

impl fmt::Display for Refusal {
    fn fmt(&self, f: &mut fmt::Formatter<'_>) -> fmt::Result {
        write!(f, "refusal {0} (FORMAT R{0})", self.number)?;
        if let Some(chunk) = self.chunk() {
            write!(f, " in chunk {chunk}")?;
        }
        write!(f, ": {}", self.rule())
    }
}

impl Error for Refusal {}

#[cfg(test)]
mod tests {
    use super::*;
    use std::collections::HashSet;
    use std::fs;

    /// The code of a refusal as the C functions give it.
    fn coded(number: u8, place: u32) -> Refusal {
        Refusal::from_code(u64::from(number) + 256 * u64::from(place))
    }

    #[test]
    fn every_refusal_has_its_sentence_and_rows_of_the_format() {
        let format = fs::read_to_string("../../docs/FORMAT.md").unwrap();
        let has = |row: &str| format.contains(&format!("\n| {row} |"));
        let mut sentences = HashSet::new();
        for number in (1..=20).chain([22]) {
            let place = if (8..=12).contains(&number) {
                7
            } else {
                NO_CHUNK
            };
            let refusal = coded(number, place);
            assert_eq!((refusal.number(), refusal.place()), (number, place));
            assert_eq!(refusal.chunk(), (place == 7).then_some(7));
            assert!(has(&format!("R{number}")));
            let mut rows = refusal.rows().split(", ").filter(|row| !row.is_empty());
            assert!(rows.all(has), "{number}: {}", refusal.rows());
            let chunk = if place == 7 { " in chunk 7" } else { "" };
            let front = format!("refusal {number} (FORMAT R{number}){chunk}: ");
            let sentence = refusal.to_string();
            assert_eq!(sentence.strip_prefix(&front), Some(refusal.rule()));
            assert!(sentences.insert(refusal.rule()), "{sentence}");
        }
        for number in [0, 21, 23, 28, 29, 254] {
            assert!(!sentences.contains(coded(number, NO_CHUNK).rule()));
        }
    }
}
