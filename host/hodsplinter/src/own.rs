//! An entry's own bytes, as they stand in its chunk (docs/FORMAT.md, K25). Where they are cannot be told from its numbers, since each of these may be padded (N4): the
//! library is asked for it, by the entry's cursor.

use crate::record::Record;
use crate::sys;

/// How many bytes a chunk has, and the directory header in front of the chunks.
const CHUNK: u64 = 4_096;
const HEADER: u64 = 84;

/// The own bytes of the entry whose name stands at this place of a book or of its chain, the entry of this number in its chunk where that is known. The record is the
/// one that opening gave: the head still has it.
pub fn bytes(file: &[u8], name_place: u64, number: Option<u32>) -> Option<&[u8]> {
    let record = Record::of_head(file)?;
    let chunk = name_place.checked_sub(record.directory_start + HEADER)? / CHUNK;
    let record = record.numbers();
    let number = match number {
        Some(number) => number.into(),
        None => number_in(file, &record, chunk, name_place)?,
    };
    let mut part = [0; 2];
    let there = sys::own(file, &record, &[chunk, number], &mut part);
    let [place, length] = part.map(|n| n as usize);
    there.ok()?.then(|| &file[place..place + length])
}

/// The number of the entry in its chunk, by the chunk's page.
fn number_in(file: &[u8], record: &[u64; sys::RECORD], chunk: u64, name_place: u64) -> Option<u64> {
    let (mut page, mut next) = (vec![0; sys::PAGE], [0; 2]);
    sys::chunk(file, record, chunk, &mut page, &mut next).ok()?;
    let mut entries = page.chunks_exact(sys::ENTRY).take(next[0] as usize);
    let number = entries.position(|numbers| numbers[0] == name_place)?;
    Some(number as u64)
}

#[cfg(test)]
mod tests {
    use super::*;
    use crate::Book;

    /// Entry 1 of chunk 7 is told; where a step gives no entry nothing is, and nothing changes.
    #[test]
    fn as_far_as_a_step_goes() {
        let file = std::fs::read("../../samples/several.chm").unwrap();
        let good = Book::open(&file).unwrap().record().numbers();
        let mut dense = good;
        dense[5] = 8;
        let asked = |record, cursor: [u64; 2]| {
            let mut part = [77, 88];
            let told = sys::own(&file, record, &cursor, &mut part);
            (told, part)
        };
        assert_eq!(asked(&good, [7, 1]), (Ok(true), [0x70E5, 12]));
        for cursor in [[0xFFFF_FFFF, 0], [7, 5_000], [9, 0], [6, 0]] {
            assert_eq!(asked(&good, cursor), (Ok(false), [77, 88]));
        }
        assert_eq!(asked(&dense, [7, 1]), (Ok(false), [77, 88]));
        assert_eq!(bytes(&file, 0x70E6, None), bytes(&file, 0x70E6, Some(1)));
        assert_eq!(bytes(&file, 0x70E7, None), None);
        assert_eq!(bytes(b"ITSF", 0, None), None);
    }
}
