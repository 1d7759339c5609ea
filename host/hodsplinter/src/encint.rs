//! ENCINTs: seven bits a byte, highest group first, bit 7 set in every byte but the last.

/// How many bytes the ENCINT of a number has in its short form.
fn size(n: u64) -> u64 {
    let bits = 64 - u64::from((n | 1).leading_zeros());
    (bits + 6) / 7
}

/// Writes the ENCINT of a number in its short form (docs/FORMAT.md, N4). From 2^63 on it has ten bytes, which the library refuses.
pub fn push(out: &mut Vec<u8>, n: u64) {
    for group in (1..size(n)).rev() {
        out.push(0x80 | (n >> (7 * group)) as u8);
    }
    out.push(n as u8 & 0x7F);
}

#[cfg(test)]
mod tests {
    use super::*;

    fn encoded(n: u64) -> Vec<u8> {
        let mut out = Vec::new();
        push(&mut out, n);
        assert_eq!(out.len() as u64, size(n));
        out
    }

    /// The readings of docs/FORMAT.md, N9.
    #[test]
    fn known_values() {
        assert_eq!(encoded(0), [0x00]);
        assert_eq!(encoded(127), [0x7F]);
        assert_eq!(encoded(128), [0x81, 0x00]);
        assert_eq!(encoded(13_589), [0xEA, 0x15]);
        assert_eq!(encoded(16_383), [0xFF, 0x7F]);
        assert_eq!(encoded(16_384), [0x81, 0x80, 0x00]);
        let highest = [0xFF, 0xFF, 0xFF, 0xFF, 0xFF, 0xFF, 0xFF, 0xFF, 0x7F];
        assert_eq!(encoded((1 << 63) - 1), highest);
        assert_eq!(encoded(1 << 63).len(), 10);
        assert_eq!(encoded(u64::MAX).len(), 10);
    }
}
