//! Little-endian numbers in bytes. A number that does not end inside the bytes is 0.

/// `N` bytes at an offset.
pub fn array<const N: usize>(bytes: &[u8], at: usize) -> [u8; N] {
    bytes.get(at..).and_then(|rest| rest.first_chunk()).copied().unwrap_or([0; N])
}

pub fn u8_at(bytes: &[u8], at: usize) -> u8 {
    u8::from_le_bytes(array(bytes, at))
}

pub fn u16_at(bytes: &[u8], at: usize) -> u16 {
    u16::from_le_bytes(array(bytes, at))
}

pub fn u32_at(bytes: &[u8], at: usize) -> u32 {
    u32::from_le_bytes(array(bytes, at))
}

pub fn u64_at(bytes: &[u8], at: usize) -> u64 {
    u64::from_le_bytes(array(bytes, at))
}

/// `N` floats, one behind the other. Their bits are kept, a NaN's too.
pub fn f32s_at<const N: usize>(bytes: &[u8], at: usize) -> [f32; N] {
    std::array::from_fn(|i| f32::from_bits(u32_at(bytes, at + 4 * i)))
}

#[cfg(test)]
mod tests {
    use super::*;

    #[test]
    fn numbers_end_inside_the_bytes_or_are_nothing() {
        let bytes = [1, 2, 3, 4, 5, 6, 7, 8];
        assert_eq!(u8_at(&bytes, 7), 8);
        assert_eq!(u16_at(&bytes, 6), 0x0807);
        assert_eq!(u16_at(&bytes, 7), 0);
        assert_eq!(u32_at(&bytes, 1), 0x05040302);
        assert_eq!(u64_at(&bytes, 0), 0x0807060504030201);
        assert_eq!(u64_at(&bytes, 1), 0);
        assert_eq!(u8_at(&bytes, usize::MAX), 0);
    }

    #[test]
    fn floats_keep_their_bits() {
        let [value] = f32s_at(&0x7F80_2001u32.to_le_bytes(), 0);
        assert_eq!(value.to_bits(), 0x7F80_2001);
    }
}
