//! Numbers in a book (FORMAT, Numbers).

/// The number of `width` bytes at `place`, lowest byte first (FORMAT N1). The caller knows that
/// they are there.
pub(crate) fn number_at(bytes: &[u8], place: usize, width: usize) -> u64 {
    bytes[place..place + width]
        .iter()
        .rev()
        .fold(0, |value, &byte| value << 8 | u64::from(byte))
}

/// The ENCINT at the front of `bytes`: its value and how many bytes it takes, leading 80 bytes with
/// them (FORMAT N2 to N4, N6).
pub fn read_encint(bytes: &[u8]) -> Option<(u64, usize)> {
    let mut value = 0;
    for (index, &byte) in bytes.iter().take(9).enumerate() {
        // Nine groups of seven bits are 63 bits: no bit is shifted out.
        value = value << 7 | u64::from(byte & 0x7F);
        if byte & 0x80 == 0 {
            return Some((value, index + 1));
        }
    }
    None
}

/// The short form of a value below 2^63 (FORMAT N4).
pub fn encint(value: u64) -> Vec<u8> {
    assert!(value < 1 << 63, "no ENCINT has this value");
    let mut bytes = vec![(value & 0x7F) as u8];
    let mut rest = value >> 7;
    while rest > 0 {
        bytes.insert(0, 0x80 | (rest & 0x7F) as u8);
        rest >>= 7;
    }
    bytes
}

/// Reads fields one behind another and says no where the bytes end.
pub(crate) struct Reader<'a> {
    bytes: &'a [u8],
    at: usize,
}

impl<'a> Reader<'a> {
    pub fn new(bytes: &'a [u8]) -> Reader<'a> {
        Reader { bytes, at: 0 }
    }

    /// How many bytes have been read.
    pub fn at(&self) -> usize {
        self.at
    }

    pub fn at_end(&self) -> bool {
        self.at == self.bytes.len()
    }

    pub fn encint(&mut self) -> Option<u64> {
        let (value, taken) = read_encint(&self.bytes[self.at..])?;
        self.at += taken;
        Some(value)
    }

    pub fn take(&mut self, length: usize) -> Option<&'a [u8]> {
        let taken = self.bytes[self.at..].get(..length)?;
        self.at += length;
        Some(taken)
    }
}
