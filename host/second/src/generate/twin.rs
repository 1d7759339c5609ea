//! Other bytes that a lookup has to answer alike (FORMAT K27).

use super::Random;
use crate::ask::Asked;
use crate::chunk::CHUNK;
use crate::open::DIRECTORY_HEADER;
use crate::Record;

/// Which of the chunks that a lookup meets are kept: not one that it refuses by its number, or for
/// not being inside the file.
pub fn kept(file: &[u8], record: &Record, met: &[u64]) -> Vec<u64> {
    let below = met.iter().filter(|&&number| number < record.count);
    match Asked::new(file, record) {
        Ok(book) => below
            .filter(|&&number| book.chunk_bytes(number).is_some())
            .copied()
            .collect(),
        Err(_) => Vec::new(),
    }
}

/// A file of the same length that has the same bytes in the chunks that a lookup meets, as far as
/// they are kept, and another byte everywhere else: in headers, other chunks and content.
pub fn twin(random: &mut Random, file: &[u8], record: &Record, met: &[u64]) -> Vec<u8> {
    let mut twin = random.bytes(file.len());
    for (other, byte) in twin.iter_mut().zip(file) {
        if other == byte {
            *other = !byte;
        }
    }
    for number in kept(file, record, met) {
        // It is inside the file.
        let start = record.start as usize + DIRECTORY_HEADER + CHUNK * number as usize;
        let chunk = start..start + CHUNK;
        twin[chunk.clone()].copy_from_slice(&file[chunk]);
    }
    twin
}
