//! Halves and normalised bytes: single numbers, and whole runs of them as little-endian bytes.
//!
//! ```
//! use calicofern::convert::*;
//! assert_eq!(f16_to_f32(0x3C00), 1.0);
//! assert_eq!(f32_to_f16(65519.0), 0x7BFF); // the greatest half
//! assert_eq!(f32_to_f16(65520.0), 0x7C00); // infinity
//! assert_eq!(snorm8_to_f32(0x80), -1.0);
//! assert_eq!(f32_to_snorm8(-0.999), (-126i8) as u8); // cut, not rounded
//!
//! let mut floats = [0; 8];
//! assert_eq!(halves_to_floats(&[0x00, 0x3C, 0x00, 0xC0], &mut floats), Ok(8));
//! assert_eq!(floats[4..], (-2.0f32).to_le_bytes());
//! ```

use crate::calls::{self, Told};
use crate::Refusal;

/// The float with the half's value. A NaN keeps its sign and payload: a signalling one stays signalling.
pub fn f16_to_f32(half: u16) -> f32 {
    f32::from_bits(calls::f16_to_f32(half))
}

/// The half nearest to the float, of two the even one. A NaN keeps its sign and the upper ten bits of its fraction, and 0x200 is set.
pub fn f32_to_f16(value: f32) -> u16 {
    calls::f32_to_f16(value.to_bits())
}

/// A signed byte divided by 127. -128 gives -1.0 as well.
pub fn snorm8_to_f32(byte: u8) -> f32 {
    f32::from_bits(calls::snorm8_to_f32(byte))
}

/// A byte divided by 255.
pub fn unorm8_to_f32(byte: u8) -> f32 {
    f32::from_bits(calls::unorm8_to_f32(byte))
}

/// The float times 127, clamped to -127 to 127 and cut towards zero, as a signed byte. A NaN gives 0.
pub fn f32_to_snorm8(value: f32) -> u8 {
    calls::f32_to_snorm8(value.to_bits())
}

/// The float clamped to 0 to 1, times 255, cut towards zero. A NaN gives 0.
pub fn f32_to_unorm8(value: f32) -> u8 {
    calls::f32_to_unorm8(value.to_bits())
}

/// The same for half of the float plus 0.5: a signed number as a byte of a colour.
pub fn snorm_colour8(value: f32) -> u8 {
    calls::snorm_colour8(value.to_bits())
}

/// Converts each half of `src`, as [`f16_to_f32`] does, into the first bytes of `dst`, and says how many they are.
/// Refused by check 10 where `dst` is too short. A last byte of `src` that is no whole half is left out.
pub fn halves_to_floats(src: &[u8], dst: &mut [u8]) -> Result<usize, Refusal> {
    run(calls::halves_to_floats, src, dst)
}

/// The same for the floats of `src`, as [`f32_to_f16`] does.
pub fn floats_to_halves(src: &[u8], dst: &mut [u8]) -> Result<usize, Refusal> {
    run(calls::floats_to_halves, src, dst)
}

/// The same for the bytes of `src`, as [`snorm8_to_f32`] does.
pub fn snorm8_to_floats(src: &[u8], dst: &mut [u8]) -> Result<usize, Refusal> {
    run(calls::snorm8_to_floats, src, dst)
}

/// The same for the bytes of `src`, as [`unorm8_to_f32`] does.
pub fn unorm8_to_floats(src: &[u8], dst: &mut [u8]) -> Result<usize, Refusal> {
    run(calls::unorm8_to_floats, src, dst)
}

/// The same for the floats of `src`, as [`f32_to_snorm8`] does.
pub fn floats_to_snorm8(src: &[u8], dst: &mut [u8]) -> Result<usize, Refusal> {
    run(calls::floats_to_snorm8, src, dst)
}

/// The same for the floats of `src`, as [`f32_to_unorm8`] does.
pub fn floats_to_unorm8(src: &[u8], dst: &mut [u8]) -> Result<usize, Refusal> {
    run(calls::floats_to_unorm8, src, dst)
}

fn run(call: fn(&[u8], &mut [u8]) -> Told, src: &[u8], dst: &mut [u8]) -> Result<usize, Refusal> {
    let lent = dst.len();
    Refusal::told(call(src, dst), lent)
}

#[cfg(test)]
mod tests {
    use super::*;

    #[test]
    fn halves_of_the_test_vectors() {
        let decoded = [(0x0001, 0x3380_0000), (0x03FF, 0x387F_C000), (0x0400, 0x3880_0000), (0x7C01, 0x7F80_2000), (0x8000, 0x8000_0000)];
        for (half, bits) in decoded {
            assert_eq!(f16_to_f32(half).to_bits(), bits);
        }
        let encoded = [
            (0x3300_0000, 0),
            (0x3300_0001, 1),
            (0x477F_EFFF, 0x7BFF),
            (0x477F_F000, 0x7C00),
            (0x3F80_1000, 0x3C00),
            (0x7F80_2000, 0x7E01),
        ];
        for (bits, half) in encoded {
            assert_eq!(f32_to_f16(f32::from_bits(bits)), half);
        }
    }

    #[test]
    fn every_half_that_is_no_nan_comes_back() {
        for half in 0..=u16::MAX {
            let float = f16_to_f32(half);
            assert_eq!(f32_to_f16(float), if float.is_nan() { half | 0x200 } else { half });
        }
    }

    #[test]
    fn bytes_come_back() {
        for byte in 0..=255 {
            assert_eq!(f32_to_unorm8(unorm8_to_f32(byte)), byte);
            assert_eq!(f32_to_snorm8(snorm8_to_f32(byte)), if byte == 0x80 { 0x81 } else { byte });
        }
        assert_eq!(snorm_colour8(0.0), 127);
        assert_eq!((f32_to_snorm8(f32::NAN), f32_to_unorm8(f32::NAN)), (0, 0));
    }

    #[test]
    fn runs_are_the_single_conversions() {
        let halves: Vec<u8> = (0..=u16::MAX).flat_map(|half| half.to_le_bytes()).collect();
        let mut floats = vec![0; 2 * halves.len()];
        assert_eq!(halves_to_floats(&halves, &mut floats), Ok(floats.len()));
        for (half, bytes) in (0..=u16::MAX).zip(floats.chunks_exact(4)) {
            assert_eq!(bytes, f16_to_f32(half).to_le_bytes());
        }
        let mut bytes = vec![0; floats.len() / 4];
        assert_eq!(floats_to_snorm8(&floats, &mut bytes), Ok(bytes.len()));
        assert_eq!(bytes[0x3C00], 127);
        let mut back = vec![0; floats.len() / 2];
        assert_eq!(floats_to_halves(&floats, &mut back), Ok(back.len()));
        assert_eq!(floats_to_halves(&floats, &mut back[1..]).unwrap_err().needed(), Some(2 << 16));
        let mut wide = [0; 8];
        assert_eq!(unorm8_to_floats(&[0, 255], &mut wide), Ok(8));
        assert_eq!(wide[4..], 1.0f32.to_le_bytes());
        assert_eq!(snorm8_to_floats(&[0, 0x81], &mut wide), Ok(8));
        assert_eq!(wide[4..], (-1.0f32).to_le_bytes());
        assert_eq!(floats_to_unorm8(&wide, &mut [0; 1]).unwrap_err().number(), 10);
    }
}
