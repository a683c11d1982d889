//! What each vertex of a buffer has.

use crate::attribute::attributes_of;
use crate::bytes::{u16_at, u32_at, u64_at, u8_at};
use crate::{calls, VertexComponentType, VertexSemantic};
use std::fmt;

/// What each vertex of a buffer has: a flag for each semantic, and a type for each flag. The default has none.
#[derive(Debug, Clone, Copy, Default, PartialEq, Eq, PartialOrd, Ord, Hash)]
pub struct VertexDeclaration {
    /// Bit i, 0 to 15: each vertex has a component of semantic i. The bits above mean nothing.
    pub flags: u32,
    /// The bytes from one vertex to the next, as the declaration says. Reading goes by the buffer's stride.
    pub stride: u16,
    /// A byte without a known meaning.
    pub unknown_6h: u8,
    /// The number of components, as the declaration says. Reading goes by the flags.
    pub count: u8,
    /// Nibble i is the type of the component of semantic i.
    pub types: u64,
}

/// One component of a declaration.
#[derive(Debug, Clone, Copy, PartialEq, Eq, PartialOrd, Ord, Hash)]
pub struct VertexComponent {
    /// What it means.
    pub semantic: VertexSemantic,
    /// The semantic's number.
    pub semantic_index: u8,
    /// How it is stored.
    pub component_type: VertexComponentType,
    /// Where it begins in a vertex.
    pub offset: u16,
}

impl VertexDeclaration {
    /// A position of three floats and nothing else: what vertices without a stored declaration are read by.
    ///
    /// ```
    /// let declaration = calicofern::VertexDeclaration::position_only(12);
    /// assert_eq!(declaration.to_string(), "Position Float3");
    /// assert_eq!(declaration.declaration_id(), 6);
    /// ```
    pub fn position_only(stride: u16) -> Self {
        VertexDeclaration { flags: 1, stride, unknown_6h: 0, count: 1, types: 6 }
    }

    /// A declaration of these components. In a vertex they lie in the order of their semantics' numbers, without gaps, and the stride is the bytes of all.
    /// Of two with one semantic the last counts; semantics above 15 and types above 10 are left out.
    ///
    /// ```
    /// use calicofern::{VertexComponentType, VertexDeclaration, VertexSemantic};
    /// let parts = [(VertexSemantic::Normal, VertexComponentType::Rgba8Snorm), (VertexSemantic::Position, VertexComponentType::Float3)];
    /// let declaration = VertexDeclaration::of(&parts);
    /// assert_eq!(declaration.to_string(), "Position Float3, Normal RGBA8SNorm");
    /// assert_eq!((declaration.stride, declaration.count), (16, 2));
    /// ```
    pub fn of(components: &[(VertexSemantic, VertexComponentType)]) -> Self {
        let mut made = VertexDeclaration::default();
        for (semantic, component_type) in components {
            let (place, nibble) = (u32::from(semantic.index()), component_type.nibble());
            if place < 16 && nibble < 11 {
                made.flags |= 1 << place;
                made.types = made.types & !(15 << (4 * place)) | u64::from(nibble) << (4 * place);
            }
        }
        made.count = made.flags.count_ones() as u8;
        made.stride = made.size_in_bytes();
        made
    }

    /// The declaration that 16 stored bytes say.
    pub fn from_bytes(bytes: [u8; 16]) -> Self {
        VertexDeclaration {
            flags: u32_at(&bytes, 0),
            stride: u16_at(&bytes, 4),
            unknown_6h: u8_at(&bytes, 6),
            count: u8_at(&bytes, 7),
            types: u64_at(&bytes, 8),
        }
    }

    /// The types of the semantics that it has, each at its own place, the others 0.
    pub fn declaration_id(&self) -> u64 {
        calls::declaration_id(self.flags, self.types)
    }

    /// Its components in the order in which they lie in a vertex.
    ///
    /// ```
    /// use calicofern::{VertexDeclaration, VertexSemantic};
    /// let declaration = VertexDeclaration { flags: 0b1001, stride: 16, unknown_6h: 0, count: 2, types: 0xA006 };
    /// let components = declaration.components();
    /// assert_eq!(components[1].semantic, VertexSemantic::Normal);
    /// assert_eq!(components[1].offset, 12);
    /// ```
    pub fn components(&self) -> Vec<VertexComponent> {
        // A vertex has at most 16 components of 16 bytes. The proved library reads such a vertex of zeros and tells its components.
        let vertex = attributes_of(&[0; 256], 0, 1, self, 0);
        vertex.unwrap_or_default().into_iter().map(|attribute| attribute.component).collect()
    }

    /// Whether it declares a position that has bytes.
    pub(crate) fn has_position(&self) -> bool {
        let position = self.components().into_iter().find(|component| component.semantic == VertexSemantic::Position);
        position.is_some_and(|position| position.component_type.size_in_bytes() > 0)
    }

    /// The bytes of its components together.
    pub fn size_in_bytes(&self) -> u16 {
        self.components().iter().map(|component| u16::from(component.component_type.size_in_bytes())).sum()
    }
}

/// Names, in order: `Position Float3, Normal RGBA8SNorm`.
impl fmt::Display for VertexDeclaration {
    fn fmt(&self, out: &mut fmt::Formatter<'_>) -> fmt::Result {
        let components = self.components();
        if components.is_empty() {
            return out.write_str("nothing");
        }
        for (position, component) in components.iter().enumerate() {
            let between = if position == 0 { "" } else { ", " };
            write!(out, "{between}{} {}", component.semantic, component.component_type)?;
        }
        Ok(())
    }
}

#[cfg(test)]
mod tests {
    use super::*;

    #[test]
    fn sizes_add_up_to_the_librarys_offsets() {
        for nibble in 0..16 {
            let pair = VertexDeclaration { flags: 0x8001, types: 6 << 60 | nibble, ..VertexDeclaration::position_only(0) };
            let components = pair.components();
            assert_eq!(components.len(), 2);
            assert_eq!(components[0].component_type, VertexComponentType::from_nibble(nibble as u8));
            assert_eq!(components[1].offset, u16::from(components[0].component_type.size_in_bytes()));
        }
    }

    #[test]
    fn the_longest_vertex_has_256_bytes() {
        let all = VertexDeclaration { flags: u32::MAX, types: 0x7777_7777_7777_7777, ..VertexDeclaration::position_only(0) };
        assert_eq!(all.components().len(), 16);
        assert_eq!(all.size_in_bytes(), 256);
        let names: Vec<String> = all.components().iter().map(|component| component.semantic.to_string()).collect();
        assert_eq!(names[15], "Binormal");
    }

    #[test]
    fn fields_stand_where_the_format_has_them() {
        let bytes = [1, 0, 0, 2, 12, 1, 7, 3, 6, 0, 0, 0, 0, 0, 0, 9];
        let declaration = VertexDeclaration::from_bytes(bytes);
        let expected = VertexDeclaration { flags: 0x0200_0001, stride: 268, unknown_6h: 7, count: 3, types: 0x0900_0000_0000_0006 };
        assert_eq!(declaration, expected);
    }
}
