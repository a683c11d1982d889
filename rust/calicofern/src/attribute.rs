//! What one vertex has.

use crate::bytes::{array, f32s_at, u16_at, u8_at};
use crate::convert::{f32_to_unorm8, snorm_colour8, unorm8_to_f32};
use crate::{calls, Refusal, VertexComponent, VertexComponentType, VertexDeclaration, VertexSemantic};
use std::fmt;

/// A component of one vertex, and its value.
#[derive(Debug, Clone, Copy, PartialEq)]
pub struct VertexAttribute {
    /// What it is.
    pub component: VertexComponent,
    /// What it holds.
    pub value: VertexAttributeValue,
}

/// What a component of one vertex holds. Halves and signed bytes are given as floats; a NaN has the bits that it was stored with.
#[derive(Debug, Clone, Copy, PartialEq)]
pub enum VertexAttributeValue {
    /// Two halves.
    Half2([f32; 2]),
    /// One float.
    Float(f32),
    /// Four halves.
    Half4([f32; 4]),
    /// Two floats.
    Float2([f32; 2]),
    /// Three floats.
    Float3([f32; 3]),
    /// Four floats.
    Float4([f32; 4]),
    /// Four bytes.
    UByte4([u8; 4]),
    /// Four bytes, a colour.
    Colour([u8; 4]),
    /// Four signed bytes, each a number from -1 to 1.
    Rgba8Snorm([f32; 4]),
    /// A type that has no bytes.
    Unsupported,
}

impl VertexAttributeValue {
    /// The value in 16 bytes, as the library gives them.
    fn of(component_type: VertexComponentType, bytes: &[u8]) -> Self {
        match component_type {
            VertexComponentType::Half2 => Self::Half2(f32s_at(bytes, 0)),
            VertexComponentType::Float => Self::Float(f32s_at::<1>(bytes, 0)[0]),
            VertexComponentType::Half4 => Self::Half4(f32s_at(bytes, 0)),
            VertexComponentType::Float2 => Self::Float2(f32s_at(bytes, 0)),
            VertexComponentType::Float3 => Self::Float3(f32s_at(bytes, 0)),
            VertexComponentType::Float4 => Self::Float4(f32s_at(bytes, 0)),
            VertexComponentType::UByte4 => Self::UByte4(array(bytes, 0)),
            VertexComponentType::Colour => Self::Colour(array(bytes, 0)),
            VertexComponentType::Rgba8Snorm => Self::Rgba8Snorm(f32s_at(bytes, 0)),
            VertexComponentType::Nothing | VertexComponentType::FloatUnknown | VertexComponentType::Unknown(_) => Self::Unsupported,
        }
    }

    /// Its shape and numbers, as the library takes them: 1 to 4 floats, each as its bits; 5 for four bytes; 0 for none.
    pub(crate) fn passed(&self) -> (u8, [u32; 4]) {
        match *self {
            Self::Float(x) => (1, floats([x])),
            Self::Half2(values) | Self::Float2(values) => (2, floats(values)),
            Self::Float3(values) => (3, floats(values)),
            Self::Half4(values) | Self::Float4(values) | Self::Rgba8Snorm(values) => (4, floats(values)),
            Self::UByte4(bytes) | Self::Colour(bytes) => (5, bytes.map(u32::from)),
            Self::Unsupported => (0, [0; 4]),
        }
    }

    /// As two floats: the first two, with 0 where there is none.
    pub fn as_vec2(&self) -> [f32; 2] {
        let [x, y, ..] = self.filled(0.0);
        [x, y]
    }

    /// As three floats: the first three, with 0 where there is none.
    pub fn as_vec3(&self) -> [f32; 3] {
        let [x, y, z, _] = self.filled(0.0);
        [x, y, z]
    }

    /// As four floats: 0 stands where there is no second or third, 1 where there is no fourth. Zeros where there are none at all.
    pub fn as_vec4(&self) -> [f32; 4] {
        match self {
            Self::Unsupported => [0.0; 4],
            _ => self.filled(1.0),
        }
    }

    /// As a colour: bytes as they are; four floats from 0 to 1, signed bytes from -1 to 1, as bytes; all else is 255 four times.
    ///
    /// ```
    /// use calicofern::VertexAttributeValue;
    /// assert_eq!(VertexAttributeValue::Float4([0.0, 0.5, 1.0, f32::NAN]).as_rgba8(), [0, 127, 255, 0]);
    /// assert_eq!(VertexAttributeValue::Float3([0.0, 0.5, 1.0]).as_rgba8(), [255; 4]);
    /// ```
    pub fn as_rgba8(&self) -> [u8; 4] {
        match self {
            Self::UByte4(bytes) | Self::Colour(bytes) => *bytes,
            Self::Half4(values) | Self::Float4(values) => values.map(f32_to_unorm8),
            Self::Rgba8Snorm(values) => values.map(snorm_colour8),
            Self::Half2(_) | Self::Float(_) | Self::Float2(_) | Self::Float3(_) | Self::Unsupported => [255; 4],
        }
    }

    /// Its numbers, bytes as numbers from 0 to 1, filled up with zeros and the fourth with `w`.
    fn filled(&self, w: f32) -> [f32; 4] {
        match *self {
            Self::Float(x) => [x, 0.0, 0.0, w],
            Self::Half2([x, y]) | Self::Float2([x, y]) => [x, y, 0.0, w],
            Self::Float3([x, y, z]) => [x, y, z, w],
            Self::Half4(values) | Self::Float4(values) | Self::Rgba8Snorm(values) => values,
            Self::UByte4(bytes) | Self::Colour(bytes) => bytes.map(unorm8_to_f32),
            Self::Unsupported => [0.0, 0.0, 0.0, w],
        }
    }
}

/// The bits of up to four floats, with zeros behind them.
fn floats<const N: usize>(values: [f32; N]) -> [u32; 4] {
    let mut bits = [0; 4];
    for (place, value) in bits.iter_mut().zip(values) {
        *place = value.to_bits();
    }
    bits
}

/// The numbers, with spaces between them; `unsupported` where there are none.
impl fmt::Display for VertexAttributeValue {
    fn fmt(&self, out: &mut fmt::Formatter<'_>) -> fmt::Result {
        match self {
            Self::Half2(values) | Self::Float2(values) => spaced(values, out),
            Self::Float(value) => write!(out, "{value}"),
            Self::Half4(values) | Self::Float4(values) | Self::Rgba8Snorm(values) => spaced(values, out),
            Self::Float3(values) => spaced(values, out),
            Self::UByte4(values) | Self::Colour(values) => spaced(values, out),
            Self::Unsupported => out.write_str("unsupported"),
        }
    }
}

fn spaced(values: &[impl fmt::Display], out: &mut fmt::Formatter<'_>) -> fmt::Result {
    let words: Vec<String> = values.iter().map(|value| value.to_string()).collect();
    out.write_str(&words.join(" "))
}

/// The attributes of vertex `index` of `count` vertices that lie `stride` bytes apart.
pub fn attributes_of(
    data: &[u8],
    stride: u16,
    count: u32,
    declaration: &VertexDeclaration,
    index: u64,
) -> Result<Vec<VertexAttribute>, Refusal> {
    // 16 components at most, 20 bytes each
    let mut out = [0; 320];
    let told = calls::vertex_attributes(data, stride, count, declaration.flags, declaration.types, index, &mut out);
    let length = Refusal::told(told, out.len())?;
    Ok(out.chunks_exact(20).take(length / 20).map(attribute).collect())
}

/// One record of the library: semantic u8, type u8, offset u16, 16 bytes of value.
fn attribute(record: &[u8]) -> VertexAttribute {
    let component_type = VertexComponentType::from_nibble(u8_at(record, 1));
    let component = VertexComponent {
        semantic: VertexSemantic::from_index(u8_at(record, 0)),
        semantic_index: u8_at(record, 0),
        component_type,
        offset: u16_at(record, 2),
    };
    VertexAttribute { component, value: VertexAttributeValue::of(component_type, &record[4..]) }
}

#[cfg(test)]
mod tests {
    use super::*;

    /// The value of a vertex with one component of a type.
    fn value(nibble: u64, data: &[u8]) -> VertexAttributeValue {
        let declaration = VertexDeclaration { types: nibble, ..VertexDeclaration::position_only(0) };
        attributes_of(data, 0, 1, &declaration, 0).unwrap()[0].value
    }

    #[test]
    fn each_type_has_its_value() {
        let halves = [0x00, 0x3C, 0x00, 0xC0, 0x01, 0x00, 0x00, 0x7C];
        let floats: Vec<u8> = [1.5f32, -2.0, 3.25, 0.0].iter().flat_map(|value| value.to_le_bytes()).collect();
        let tiny = f32::from_bits(0x3380_0000);
        assert_eq!(value(1, &halves), VertexAttributeValue::Half2([1.0, -2.0]));
        assert_eq!(value(2, &floats), VertexAttributeValue::Float(1.5));
        assert_eq!(value(3, &halves), VertexAttributeValue::Half4([1.0, -2.0, tiny, f32::INFINITY]));
        assert_eq!(value(5, &floats), VertexAttributeValue::Float2([1.5, -2.0]));
        assert_eq!(value(6, &floats), VertexAttributeValue::Float3([1.5, -2.0, 3.25]));
        assert_eq!(value(7, &floats), VertexAttributeValue::Float4([1.5, -2.0, 3.25, 0.0]));
        assert_eq!(value(8, &[1, 2, 3, 4]), VertexAttributeValue::UByte4([1, 2, 3, 4]));
        assert_eq!(value(9, &[9, 8, 7, 6]), VertexAttributeValue::Colour([9, 8, 7, 6]));
        assert_eq!(value(10, &[0x7F, 0x81, 0x80, 0]), VertexAttributeValue::Rgba8Snorm([1.0, -1.0, -1.0, 0.0]));
        for nibble in [0, 4, 11, 12, 13, 14, 15] {
            assert_eq!(value(nibble, &[]), VertexAttributeValue::Unsupported);
        }
    }

    #[test]
    fn a_nan_keeps_its_bits() {
        let bits = 0xFF80_2001u32;
        let VertexAttributeValue::Float(read) = value(2, &bits.to_le_bytes()) else { panic!() };
        assert_eq!(read.to_bits(), bits);
    }

    #[test]
    fn position_only_of_stride_11_ends_after_the_first_vertex() {
        let position = VertexDeclaration::position_only(11);
        let read = |index| attributes_of(&[0; 22], 11, 2, &position, index).map(|found| found.len()).map_err(|refusal| refusal.number());
        assert_eq!((read(0), read(1), read(2)), (Ok(1), Err(9), Err(8)));
        assert_eq!(read(u64::MAX), Err(8));
    }
    #[test]
    fn values_are_passed_by_their_shape() {
        use VertexAttributeValue as Value;
        let bits = 1.5f32.to_bits();
        assert_eq!(Value::Unsupported.passed(), (0, [0; 4]));
        assert_eq!(Value::Float(1.5).passed(), (1, [bits, 0, 0, 0]));
        assert_eq!((Value::Half2([1.5; 2]).passed(), Value::Float2([1.5; 2]).passed()), ((2, [bits, bits, 0, 0]), (2, [bits, bits, 0, 0])));
        assert_eq!(Value::Float3([1.5; 3]).passed(), (3, [bits, bits, bits, 0]));
        for value in [Value::Half4([1.5; 4]), Value::Float4([1.5; 4]), Value::Rgba8Snorm([1.5; 4])] {
            assert_eq!(value.passed(), (4, [bits; 4]));
        }
        assert_eq!((Value::UByte4([9; 4]).passed(), Value::Colour([9; 4]).passed()), ((5, [9; 4]), (5, [9; 4])));
    }
}
