//! What a component of a vertex means, and how it is stored.

use crate::names::{find, UnknownName};
use std::fmt;
use std::str::FromStr;

/// What a component of a vertex means.
#[derive(Debug, Clone, Copy, PartialEq, Eq, PartialOrd, Ord, Hash)]
#[allow(missing_docs)] // the names are the format's own words
pub enum VertexSemantic {
    Position,
    BlendWeights,
    BlendIndices,
    Normal,
    Colour0,
    Colour1,
    TexCoord0,
    TexCoord1,
    TexCoord2,
    TexCoord3,
    TexCoord4,
    TexCoord5,
    TexCoord6,
    TexCoord7,
    Tangent,
    Binormal,
    /// A number above 15.
    Unknown(u8),
}

/// The semantics in the order of their numbers.
const SEMANTICS: [(VertexSemantic, &str); 16] = [
    (VertexSemantic::Position, "Position"),
    (VertexSemantic::BlendWeights, "BlendWeights"),
    (VertexSemantic::BlendIndices, "BlendIndices"),
    (VertexSemantic::Normal, "Normal"),
    (VertexSemantic::Colour0, "Colour0"),
    (VertexSemantic::Colour1, "Colour1"),
    (VertexSemantic::TexCoord0, "TexCoord0"),
    (VertexSemantic::TexCoord1, "TexCoord1"),
    (VertexSemantic::TexCoord2, "TexCoord2"),
    (VertexSemantic::TexCoord3, "TexCoord3"),
    (VertexSemantic::TexCoord4, "TexCoord4"),
    (VertexSemantic::TexCoord5, "TexCoord5"),
    (VertexSemantic::TexCoord6, "TexCoord6"),
    (VertexSemantic::TexCoord7, "TexCoord7"),
    (VertexSemantic::Tangent, "Tangent"),
    (VertexSemantic::Binormal, "Binormal"),
];

impl VertexSemantic {
    /// The semantic with a number: the flag's place in a declaration.
    pub fn from_index(index: u8) -> Self {
        SEMANTICS.get(usize::from(index)).map_or(Self::Unknown(index), |(semantic, _)| *semantic)
    }

    /// Its number.
    pub fn index(self) -> u8 {
        match self {
            Self::Unknown(index) => index,
            known => SEMANTICS.iter().zip(0..).find(|((semantic, _), _)| *semantic == known).map_or(u8::MAX, |(_, index)| index),
        }
    }

    /// Its name; `Unknown` for every number above 15.
    pub fn as_str(&self) -> &'static str {
        SEMANTICS.iter().find(|(semantic, _)| semantic == self).map_or("Unknown", |(_, name)| name)
    }
}

impl fmt::Display for VertexSemantic {
    fn fmt(&self, out: &mut fmt::Formatter<'_>) -> fmt::Result {
        match self {
            Self::Unknown(index) => out.pad(&format!("Unknown{index}")),
            known => out.pad(known.as_str()),
        }
    }
}

/// By its name, whatever its case.
///
/// ```
/// use calicofern::VertexSemantic;
/// assert_eq!("texcoord0".parse(), Ok(VertexSemantic::TexCoord0));
/// let error = "Postion".parse::<VertexSemantic>().unwrap_err();
/// assert_eq!(error.to_string(), "'Postion' is no semantic; did you mean Position?");
/// ```
impl FromStr for VertexSemantic {
    type Err = UnknownName;

    fn from_str(name: &str) -> Result<Self, UnknownName> {
        find("semantic", name, SEMANTICS.map(|(semantic, name)| (name, semantic)))
    }
}

/// How a component of a vertex is stored.
#[derive(Debug, Clone, Copy, PartialEq, Eq, PartialOrd, Ord, Hash)]
pub enum VertexComponentType {
    /// No bytes.
    Nothing,
    /// Two halves.
    Half2,
    /// One float.
    Float,
    /// Four halves.
    Half4,
    /// A number that the format gives no size: no bytes.
    FloatUnknown,
    /// Two floats.
    Float2,
    /// Three floats.
    Float3,
    /// Four floats.
    Float4,
    /// Four bytes.
    UByte4,
    /// Four bytes, a colour.
    Colour,
    /// Four signed bytes, each a number from -1 to 1.
    Rgba8Snorm,
    /// The numbers 11 to 15: no bytes.
    Unknown(u8),
}

impl VertexComponentType {
    /// The type with a number: a nibble of a declaration's types.
    pub fn from_nibble(nibble: u8) -> Self {
        match nibble {
            0 => Self::Nothing,
            1 => Self::Half2,
            2 => Self::Float,
            3 => Self::Half4,
            4 => Self::FloatUnknown,
            5 => Self::Float2,
            6 => Self::Float3,
            7 => Self::Float4,
            8 => Self::UByte4,
            9 => Self::Colour,
            10 => Self::Rgba8Snorm,
            other => Self::Unknown(other),
        }
    }

    /// Its number.
    pub fn nibble(self) -> u8 {
        match self {
            Self::Nothing => 0,
            Self::Half2 => 1,
            Self::Float => 2,
            Self::Half4 => 3,
            Self::FloatUnknown => 4,
            Self::Float2 => 5,
            Self::Float3 => 6,
            Self::Float4 => 7,
            Self::UByte4 => 8,
            Self::Colour => 9,
            Self::Rgba8Snorm => 10,
            Self::Unknown(other) => other,
        }
    }

    /// The bytes that it takes.
    pub fn size_in_bytes(&self) -> u8 {
        match self {
            Self::Nothing | Self::FloatUnknown | Self::Unknown(_) => 0,
            Self::Half2 | Self::Float | Self::UByte4 | Self::Colour | Self::Rgba8Snorm => 4,
            Self::Half4 | Self::Float2 => 8,
            Self::Float3 => 12,
            Self::Float4 => 16,
        }
    }

    /// The numbers that it holds.
    pub fn component_count(&self) -> u8 {
        match self {
            Self::Nothing | Self::FloatUnknown | Self::Unknown(_) => 0,
            Self::Float => 1,
            Self::Half2 | Self::Float2 => 2,
            Self::Float3 => 3,
            Self::Half4 | Self::Float4 | Self::UByte4 | Self::Colour | Self::Rgba8Snorm => 4,
        }
    }

    /// Its name in other tools of the format; `Unknown` for 11 to 15.
    pub fn as_str(&self) -> &'static str {
        match self {
            Self::Nothing => "Nothing",
            Self::Half2 => "Half2",
            Self::Float => "Float",
            Self::Half4 => "Half4",
            Self::FloatUnknown => "FloatUnk",
            Self::Float2 => "Float2",
            Self::Float3 => "Float3",
            Self::Float4 => "Float4",
            Self::UByte4 => "UByte4",
            Self::Colour => "Colour",
            Self::Rgba8Snorm => "RGBA8SNorm",
            Self::Unknown(_) => "Unknown",
        }
    }
}

impl fmt::Display for VertexComponentType {
    fn fmt(&self, out: &mut fmt::Formatter<'_>) -> fmt::Result {
        match self {
            Self::Unknown(nibble) => out.pad(&format!("Unk{nibble}")),
            known => out.pad(known.as_str()),
        }
    }
}

/// By its name, whatever its case.
///
/// ```
/// use calicofern::VertexComponentType;
/// assert_eq!("rgba8snorm".parse(), Ok(VertexComponentType::Rgba8Snorm));
/// let error = "Flaot3".parse::<VertexComponentType>().unwrap_err();
/// assert_eq!(error.to_string(), "'Flaot3' is no type; did you mean Float3?");
/// ```
impl FromStr for VertexComponentType {
    type Err = UnknownName;

    fn from_str(name: &str) -> Result<Self, UnknownName> {
        let known: [Self; 11] = std::array::from_fn(|nibble| Self::from_nibble(nibble as u8));
        find("type", name, known.map(|component_type| (component_type.as_str(), component_type)))
    }
}

#[cfg(test)]
mod tests {
    use super::*;

    #[test]
    fn numbers_and_names() {
        assert_eq!((0..18).map(VertexSemantic::from_index).filter(|semantic| semantic.as_str() == "Unknown").count(), 2);
        for number in 0..20 {
            assert_eq!(VertexSemantic::from_index(number).index(), number);
            assert_eq!(VertexComponentType::from_nibble(number).nibble(), number);
        }
        assert_eq!(VertexSemantic::from_index(14).to_string(), "Tangent");
        assert_eq!(VertexSemantic::from_index(16).to_string(), "Unknown16");
        assert_eq!(VertexComponentType::from_nibble(10).to_string(), "RGBA8SNorm");
        assert_eq!(VertexComponentType::from_nibble(11).to_string(), "Unk11");
        let sizes: Vec<u8> = (0..16).map(|nibble| VertexComponentType::from_nibble(nibble).size_in_bytes()).collect();
        assert_eq!(sizes, [0, 4, 4, 8, 0, 8, 12, 16, 4, 4, 4, 0, 0, 0, 0, 0]);
        let counts: Vec<u8> = (0..16).map(|nibble| VertexComponentType::from_nibble(nibble).component_count()).collect();
        assert_eq!(counts, [0, 2, 1, 4, 0, 2, 3, 4, 4, 4, 4, 0, 0, 0, 0, 0]);
    }
    #[test]
    fn names_are_read_back() {
        for semantic in (0..16).map(VertexSemantic::from_index) {
            assert_eq!(semantic.to_string().parse(), Ok(semantic));
            assert_eq!(semantic.as_str().to_uppercase().parse(), Ok(semantic));
        }
        for component_type in (0..11).map(VertexComponentType::from_nibble) {
            assert_eq!(component_type.to_string().parse(), Ok(component_type));
            assert_eq!(component_type.as_str().to_lowercase().parse(), Ok(component_type));
        }
        for name in ["Unknown16", "Unknown", "", " Position", "0"] {
            assert!(name.parse::<VertexSemantic>().is_err(), "{name}");
        }
        for name in ["Unk11", "Unknown", "", "FloatUnknown", "6"] {
            assert!(name.parse::<VertexComponentType>().is_err(), "{name}");
        }
    }
}
