//! Directories that no book has, for the lines that rules draw.

use second::Record;

/// A listing chunk with this next and entries of one-letter names, without quick words at density 2.
/// No chunk has the number 7 of its previous.
pub fn listing_chunk(next: u32, entries: &[[u8; 5]]) -> Vec<u8> {
    let bytes = entries.concat();
    let mut chunk = b"PMGL".to_vec();
    for word in [4076 - bytes.len() as u32, 0, 7, next] {
        chunk.extend(word.to_le_bytes());
    }
    chunk.extend(bytes);
    chunk.resize(4094, 0);
    chunk.extend((entries.len() as u16).to_le_bytes());
    chunk
}

/// Bytes with these chunks, and a record for them that no book gave.
pub fn directory(first: u64, chunks: &[Vec<u8>]) -> (Vec<u8>, Record) {
    let file = [vec![0; 84], chunks.concat()].concat();
    let record = Record {
        version: 0,
        time: 0,
        language: 0,
        start: 0,
        count: chunks.len() as u64,
        density: 2,
        depth: 5,
        root: 9,
        first,
        last: 9,
        content: 0,
    };
    (file, record)
}
