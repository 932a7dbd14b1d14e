//! Little-endian numbers in packed bytes. The caller has checked that the bytes are there.

/// The 16-bit number whose low byte is at `at`.
pub fn u16_at(bytes: &[u8], at: usize) -> u16 {
    u16::from(bytes[at]) + 0x100 * u16::from(bytes[at + 1])
}

/// The 32-bit number whose lowest byte is at `at`.
pub fn u32_at(bytes: &[u8], at: usize) -> u32 {
    u32::from(u16_at(bytes, at)) + 0x1_0000 * u32::from(u16_at(bytes, at + 2))
}

#[cfg(test)]
mod tests {
    use super::*;

    #[test]
    fn low_byte_comes_first() {
        let bytes = [0xFF, 0x0A, 0x01, 0x00, 0x80];
        assert_eq!(u16_at(&bytes, 1), 0x010A);
        assert_eq!(u32_at(&bytes, 1), 0x8000_010A);
        assert_eq!(u32_at(&[0xFF; 4], 0), u32::MAX);
    }
}
