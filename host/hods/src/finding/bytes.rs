//! Fixed numbers and ENCINTs at a place of any bytes.

use crate::text::spaced_hex;

/// Lent bytes that may be anything.
#[derive(Clone, Copy)]
pub struct Bytes<'a>(pub &'a [u8]);

impl<'a> Bytes<'a> {
    pub fn len(self) -> u64 {
        self.0.len() as u64
    }

    /// So many bytes from a place on, if they are all there.
    pub fn part(self, place: u64, length: u64) -> Option<&'a [u8]> {
        let end = place.checked_add(length)?;
        self.0
            .get(usize::try_from(place).ok()?..usize::try_from(end).ok()?)
    }

    /// A number of 16, 32 or 64 bits, lowest byte first.
    pub fn number(self, place: u64, width: u64) -> Option<u64> {
        let bytes = self.part(place, width)?;
        Some(bytes.iter().rev().fold(0, |n, b| n << 8 | u64::from(*b)))
    }

    /// An ENCINT, padded or not, and the place behind it, or why there is none.
    pub fn encint(self, place: u64) -> Result<(u64, u64), Fault> {
        let bytes = self.0.get(place as usize..).unwrap_or(&[]);
        let size = bytes.iter().take_while(|b| **b & 0x80 != 0).count() + 1;
        let fault = |row, why: &str| {
            let shown = spaced_hex(&bytes[..bytes.len().min(10)]);
            Err((row, format!("{shown} is no ENCINT: {why}")))
        };
        if size > 9 {
            return fault("E3, N3", "it has more than nine bytes");
        }
        if size > bytes.len() {
            return fault("E3, N6", "its last byte is missing");
        }
        let value = bytes[..size]
            .iter()
            .fold(0, |n, b| n << 7 | u64::from(*b & 0x7F));
        Ok((value, place + size as u64))
    }
}

/// The row that fails, and what was found.
pub type Fault = (&'static str, String);
