//! Many names in one call.

use crate::encint;
use crate::refusal::Refusal;
use crate::sys;

/// How many bytes an answer of [`batch_bytes`] has: four numbers of 64 bits.
pub const ANSWER: usize = 32;

/// What a batch says of one name (docs/FORMAT.md, B4).
#[derive(Clone, Copy, Debug, PartialEq, Eq, Hash)]
pub enum Answer {
    /// The book holds the name; these are the numbers of its entry.
    Found {
        /// The content section.
        section: u16,
        /// The offset in the section.
        offset: u64,
        /// The length in bytes.
        length: u64,
    },
    /// No listing chunk of the book holds the name.
    Absent,
    /// The name cannot be asked: it has 0 bytes, or more than 1,024. This is refusal 15, and it stops no other name.
    Refused(Refusal),
}

impl Answer {
    /// The answer of its four numbers: status, section, offset, length.
    fn of([status, section, offset, length]: [u64; 4]) -> Answer {
        match status {
            0 => Answer::Found {
                section: section as u16,
                offset,
                length,
            },
            255 => Answer::Absent,
            _ => Answer::Refused(Refusal::of_status(status)),
        }
    }
}

/// Opens a book and looks many names up in it, in one call: the answers in the order of the names. The lent bytes must be the whole file. Each answer has the numbers
/// that [`Book::find`](crate::Book::find) gives for that name. A book that does not open gives its refusal, that of [`Book::open`](crate::Book::open), and no answers.
///
/// ```
/// use hodsplinter::{batch, Answer};
///
/// let file = std::fs::read("../../samples/sample.chm")?;
/// let answers = batch(&file, ["/A.HTM", "/b", ""])?;
/// assert_eq!(answers[0], Answer::Found { section: 0, offset: 0, length: 5 });
/// assert_eq!(answers[1], Answer::Absent);
/// assert!(matches!(answers[2], Answer::Refused(refusal) if refusal.number() == 15));
///
/// assert_eq!(batch(b"ITSF", ["/"]).unwrap_err().number(), 1);
/// # Ok::<(), Box<dyn std::error::Error>>(())
/// ```
pub fn batch<I>(file: &[u8], names: I) -> Result<Vec<Answer>, Refusal>
where
    I: IntoIterator,
    I::Item: AsRef<[u8]>,
{
    let (mut lent, mut count) = (Vec::new(), 0);
    for name in names {
        push_name(&mut lent, name);
        count += 1;
    }
    let mut room = vec![0; count * ANSWER];
    batch_bytes(file, &lent, &mut room)?;
    Ok(read_answers(&room).collect())
}

/// The same on bytes, for names that are kept as docs/FORMAT.md, B2, asks for them, their lengths padded or not, and with no memory taken. The answers stand at the front of the room, [`ANSWER`]
/// bytes for each name; bytes behind them stay as they were. Refused with the book's refusal, or else with 22 where the names break B2 or the room is too short; nothing
/// is written then.
///
/// ```
/// use hodsplinter::{batch_bytes, push_name, read_answers, Answer, ANSWER};
///
/// let file = std::fs::read("../../samples/sample.chm")?;
/// let mut names = Vec::new();
/// push_name(&mut names, "/");
/// push_name(&mut names, "/b");
/// assert_eq!(names, b"\x01/\x02/b");
/// let mut room = [0; 2 * ANSWER];
/// batch_bytes(&file, &names, &mut room)?;
/// let answers: Vec<Answer> = read_answers(&room).collect();
/// assert_eq!(answers, [Answer::Found { section: 0, offset: 0, length: 0 }, Answer::Absent]);
///
/// let refusal = batch_bytes(&file, &names, &mut room[1..]).unwrap_err();
/// assert_eq!(refusal.number(), 22);
/// # Ok::<(), Box<dyn std::error::Error>>(())
/// ```
pub fn batch_bytes(file: &[u8], names: &[u8], room: &mut [u8]) -> Result<(), Refusal> {
    sys::batch(file, names, room).map(|_| ())
}

/// Puts a name behind those for [`batch_bytes`]: its length, an ENCINT in its short form, and its bytes.
pub fn push_name(names: &mut Vec<u8>, name: impl AsRef<[u8]>) {
    let name = name.as_ref();
    encint::push(names, name.len() as u64);
    names.extend_from_slice(name);
}

/// The answers that [`batch_bytes`] wrote, in the order of the names. Give it as many bytes as there are answers: what it reads behind them is none.
pub fn read_answers(bytes: &[u8]) -> impl Iterator<Item = Answer> + '_ {
    bytes.chunks_exact(ANSWER).map(|answer| {
        let mut numbers = [0; 4];
        for (number, bytes) in numbers.iter_mut().zip(answer.chunks_exact(8)) {
            *number = bytes.iter().rev().fold(0, |n, b| n << 8 | u64::from(*b));
        }
        Answer::of(numbers)
    })
}
