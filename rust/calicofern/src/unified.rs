//! Vertices in one form.

use crate::bytes::{array, f32s_at};

/// One vertex in the form that every declaration is brought to. What the declaration lacks has the value said beside the field.
#[derive(Debug, Clone, Copy, PartialEq)]
pub struct UnifiedVertex {
    /// (0, 0, 0) where there is none.
    pub position: [f32; 3],
    /// (0, 0, 1) where there is none.
    pub normal: [f32; 3],
    /// 255 four times where there is none.
    pub color0: [u8; 4],
    /// 255 four times where there is none.
    pub color1: [u8; 4],
    /// (0, 0) where there is none.
    pub texcoord0: [f32; 2],
    /// (0, 0) where there is none.
    pub texcoord1: [f32; 2],
    /// (1, 0, 0, 1) where there is none.
    pub tangent: [f32; 4],
    /// Zeros where there is none.
    pub blend_weights: [f32; 4],
    /// Zeros where there is none.
    pub blend_indices: [u8; 4],
}

impl UnifiedVertex {
    /// The bytes of one vertex written out: its fields in order.
    pub const SIZE: usize = 84;

    /// The vertex that 84 bytes say.
    ///
    /// ```
    /// let mut bytes = [0; 84];
    /// bytes[..4].copy_from_slice(&1.5f32.to_le_bytes());
    /// assert_eq!(calicofern::UnifiedVertex::from_bytes(bytes).position, [1.5, 0.0, 0.0]);
    /// ```
    pub fn from_bytes(bytes: [u8; Self::SIZE]) -> Self {
        Self::read(&bytes)
    }

    /// The same of a slice; what it lacks is 0.
    pub(crate) fn read(bytes: &[u8]) -> Self {
        UnifiedVertex {
            position: f32s_at(bytes, 0),
            normal: f32s_at(bytes, 12),
            color0: array(bytes, 24),
            color1: array(bytes, 28),
            texcoord0: f32s_at(bytes, 32),
            texcoord1: f32s_at(bytes, 40),
            tangent: f32s_at(bytes, 48),
            blend_weights: f32s_at(bytes, 64),
            blend_indices: array(bytes, 80),
        }
    }
}

/// A vertex of which nothing is declared.
impl Default for UnifiedVertex {
    fn default() -> Self {
        UnifiedVertex {
            position: [0.0; 3],
            normal: [0.0, 0.0, 1.0],
            color0: [255; 4],
            color1: [255; 4],
            texcoord0: [0.0; 2],
            texcoord1: [0.0; 2],
            tangent: [1.0, 0.0, 0.0, 1.0],
            blend_weights: [0.0; 4],
            blend_indices: [0; 4],
        }
    }
}

#[cfg(test)]
mod tests {
    use super::*;
    use crate::{VertexAttributeValue, VertexBufferLayout, VertexDeclaration, VertexSemantic, Vertices};

    fn vertices(declaration: Option<VertexDeclaration>, vertex_stride: u16, vertex_count: u32, data: &[u8]) -> Vertices<'_> {
        Vertices { layout: VertexBufferLayout::Legacy, vertex_stride, vertex_count, declaration, data }
    }

    #[test]
    fn a_vertex_without_components_has_the_defaults() {
        let nothing = VertexDeclaration { flags: 0, ..VertexDeclaration::position_only(4) };
        assert_eq!(vertices(Some(nothing), 4, 2, &[7; 8]).to_unified_vertices(), Ok(vec![UnifiedVertex::default(); 2]));
    }

    /// Each field is its component, seen by the view of its width: of every type, with numbers that differ everywhere, NaNs among them.
    #[test]
    fn every_field_comes_from_its_component() {
        let data: Vec<u8> = (0..=255).map(|at: u8| if at % 4 > 1 { at | 0x7C } else { at.wrapping_mul(37) }).collect();
        let bits = |values: &[f32]| values.iter().map(|value| value.to_bits()).collect::<Vec<_>>();
        for nibble in 0..16 {
            let declaration =
                VertexDeclaration { flags: 0xFFFF, types: nibble * 0x1111_1111_1111_1111, ..VertexDeclaration::position_only(256) };
            let one = vertices(Some(declaration), 256, 1, &data);
            let attributes = one.read_vertex_attributes(0).unwrap();
            let value = |semantic| attributes.iter().find(|attribute| attribute.component.semantic == semantic).unwrap().value;
            let unified = one.to_unified_vertices().unwrap()[0];
            assert_eq!(bits(&unified.position), bits(&value(VertexSemantic::Position).as_vec3()));
            assert_eq!(bits(&unified.normal), bits(&value(VertexSemantic::Normal).as_vec3()));
            assert_eq!(unified.color0, value(VertexSemantic::Colour0).as_rgba8());
            assert_eq!(unified.color1, value(VertexSemantic::Colour1).as_rgba8());
            assert_eq!(bits(&unified.texcoord0), bits(&value(VertexSemantic::TexCoord0).as_vec2()));
            assert_eq!(bits(&unified.texcoord1), bits(&value(VertexSemantic::TexCoord1).as_vec2()));
            assert_eq!(bits(&unified.tangent), bits(&value(VertexSemantic::Tangent).as_vec4()));
            assert_eq!(bits(&unified.blend_weights), bits(&value(VertexSemantic::BlendWeights).as_vec4()));
            let indices = value(VertexSemantic::BlendIndices);
            assert_eq!(unified.blend_indices, if let VertexAttributeValue::UByte4(bytes) = indices { bytes } else { [0; 4] });
        }
    }

    #[test]
    fn the_last_vertex_must_be_inside_the_data() {
        let refusal = vertices(None, 11, 2, &[0; 22]).to_unified_vertices().unwrap_err();
        assert_eq!((refusal.number(), refusal.needed()), (9, None));
        assert_eq!(vertices(None, 12, 2, &[0; 24]).to_unified_vertices().unwrap().len(), 2);
    }

    #[test]
    fn a_short_output_is_not_touched() {
        let mut out = [5; 100];
        let refusal = vertices(None, 12, 2, &[0; 24]).unify_into(&mut out).unwrap_err();
        assert_eq!((refusal.number(), refusal.needed(), refusal.lent()), (10, Some(168), Some(100)));
        assert_eq!(out, [5; 100]);
        assert_eq!(vertices(None, 12, 1, &[0; 24]).unify_into(&mut out), Ok(84));
        assert_eq!(out[84..], [5; 16]);
    }

    #[test]
    fn more_vertices_than_the_limit_are_refused() {
        // 2^32 - 1 vertices that all lie at the same place
        let refusal = vertices(None, 0, u32::MAX, &[0; 12]).to_unified_vertices().unwrap_err();
        assert_eq!((refusal.number(), refusal.needed()), (10, Some(84 * u64::from(u32::MAX))));
        assert_eq!(refusal.lent(), Some(crate::ALLOCATION_LIMIT as u64));
    }
}
