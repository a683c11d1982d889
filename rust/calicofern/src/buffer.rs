//! The vertices of a geometry, as they are stored.

use crate::attribute::{attributes_of, VertexAttribute};
use crate::blocks::{positions_of, unified_blocks};
use crate::lend::{lend, ALLOCATION_LIMIT};
use crate::{calls, Refusal, UnifiedVertex, VertexDeclaration};
use std::fmt;

/// Where a geometry's vertices were found.
#[derive(Debug, Clone, Copy, PartialEq, Eq, PartialOrd, Ord, Hash)]
pub enum VertexBufferLayout {
    /// In a vertex buffer block, by its first pointer.
    Legacy,
    /// In a vertex buffer block, by its second pointer.
    LegacyData2,
    /// In a vertex buffer block of the newer form, which has no declaration.
    Gen9,
    /// At the geometry's own pointer.
    GeometryInline,
    /// A number above 3, in a list that the library did not write.
    Unknown(u8),
}

impl VertexBufferLayout {
    /// The layout with a number of the list: 0 to 3 in the order above.
    pub fn from_number(number: u8) -> Self {
        match number {
            0 => Self::Legacy,
            1 => Self::LegacyData2,
            2 => Self::Gen9,
            3 => Self::GeometryInline,
            other => Self::Unknown(other),
        }
    }

    /// Its number in the list.
    pub fn number(self) -> u8 {
        match self {
            Self::Legacy => 0,
            Self::LegacyData2 => 1,
            Self::Gen9 => 2,
            Self::GeometryInline => 3,
            Self::Unknown(other) => other,
        }
    }
}

impl fmt::Display for VertexBufferLayout {
    fn fmt(&self, out: &mut fmt::Formatter<'_>) -> fmt::Result {
        match self {
            Self::Legacy => out.pad("Legacy"),
            Self::LegacyData2 => out.pad("LegacyData2"),
            Self::Gen9 => out.pad("Gen9"),
            Self::GeometryInline => out.pad("GeometryInline"),
            Self::Unknown(number) => out.pad(&format!("Unknown{number}")),
        }
    }
}

/// A geometry's own vertices, for where its vertex buffer block leads nowhere.
#[derive(Debug, Clone, Copy, Default, PartialEq, Eq, PartialOrd, Ord, Hash)]
pub struct InlineVertices {
    /// The address of the data.
    pub data_pointer: u64,
    /// The number of vertices.
    pub vertex_count: u32,
    /// The bytes from one vertex to the next.
    pub vertex_stride: u16,
}

/// A vertex buffer that was found by its address.
#[derive(Debug, Clone, Copy, PartialEq, Eq, Hash)]
pub struct VertexBuffer<'a> {
    /// The address of the data.
    pub data_pointer: u64,
    /// The address of the declaration; 0 in the layouts that have none.
    pub info_pointer: u64,
    /// The vertices.
    pub vertices: Vertices<'a>,
}

/// Vertices as they are stored. Any numbers may stand beside any data: a call whose vertices are not inside the data is refused.
#[derive(Debug, Clone, Copy, PartialEq, Eq, Hash)]
pub struct Vertices<'a> {
    /// Where they were found.
    pub layout: VertexBufferLayout,
    /// The bytes from one vertex to the next.
    pub vertex_stride: u16,
    /// The number of vertices.
    pub vertex_count: u32,
    /// What each vertex has, where that is stored.
    pub declaration: Option<VertexDeclaration>,
    /// The bytes of the vertices.
    pub data: &'a [u8],
}

impl Vertices<'_> {
    /// The stored declaration, or else a position of three floats.
    pub fn declaration_or_position_only(&self) -> VertexDeclaration {
        self.declaration.unwrap_or(VertexDeclaration::position_only(self.vertex_stride))
    }

    /// What a vertex has, in the order of the declaration.
    ///
    /// Refused by check 8 where there is no such vertex, by 9 where it is not inside the data.
    ///
    /// ```
    /// use calicofern::{VertexAttributeValue, VertexBufferLayout, Vertices};
    /// let data: Vec<u8> = [1.0f32, 2.0, 3.0].iter().flat_map(|f| f.to_le_bytes()).collect();
    /// let one = Vertices { layout: VertexBufferLayout::Gen9, vertex_stride: 12, vertex_count: 1, declaration: None, data: &data };
    /// assert_eq!(one.read_vertex_attributes(0)?[0].value, VertexAttributeValue::Float3([1.0, 2.0, 3.0]));
    /// assert_eq!(one.read_vertex_attributes(1).unwrap_err().number(), 8);
    /// # Ok::<(), calicofern::Refusal>(())
    /// ```
    pub fn read_vertex_attributes(&self, index: u64) -> Result<Vec<VertexAttribute>, Refusal> {
        let declaration = self.declaration_or_position_only();
        attributes_of(self.data, self.vertex_stride, self.vertex_count, &declaration, index)
    }

    /// All vertices in one form.
    ///
    /// Refused by check 9 where a vertex is not inside the data, by 10 where the vertices need more than [`ALLOCATION_LIMIT`] bytes.
    ///
    /// ```
    /// use calicofern::{VertexBufferLayout, Vertices};
    /// let data: Vec<u8> = [1.0f32, 2.0, 3.0].iter().flat_map(|f| f.to_le_bytes()).collect();
    /// let one = Vertices { layout: VertexBufferLayout::Gen9, vertex_stride: 12, vertex_count: 1, declaration: None, data: &data };
    /// let unified = one.to_unified_vertices()?;
    /// assert_eq!(unified[0].position, [1.0, 2.0, 3.0]);
    /// assert_eq!(unified[0].color0, [255; 4]);
    /// # Ok::<(), calicofern::Refusal>(())
    /// ```
    pub fn to_unified_vertices(&self) -> Result<Vec<UnifiedVertex>, Refusal> {
        Ok(self.to_unified_bytes()?.chunks_exact(UnifiedVertex::SIZE).map(UnifiedVertex::read).collect())
    }

    /// The position of each vertex, as its unified vertex has it: (0, 0, 0) where there is none. The unified vertices themselves are made some thousands at
    /// a time, so this takes 12 bytes for each vertex where they take 84.
    ///
    /// Refused by check 9 where a vertex is not inside the data, by 10 where the positions need more than [`ALLOCATION_LIMIT`] bytes.
    ///
    /// ```
    /// use calicofern::{VertexBufferLayout, Vertices};
    /// let data: Vec<u8> = [1.0f32, 2.0, 3.0].iter().flat_map(|f| f.to_le_bytes()).collect();
    /// let one = Vertices { layout: VertexBufferLayout::Gen9, vertex_stride: 12, vertex_count: 1, declaration: None, data: &data };
    /// assert_eq!(one.positions()?, [[1.0, 2.0, 3.0]]);
    /// # Ok::<(), calicofern::Refusal>(())
    /// ```
    pub fn positions(&self) -> Result<Vec<[f32; 3]>, Refusal> {
        positions_of(self)
    }

    /// The unified vertices as bytes, some thousands at a time: for an output that takes them one after another.
    ///
    /// Refused by check 9 where a vertex is not inside the data, before any is taken; ends with the first error of `take`.
    ///
    /// ```
    /// use calicofern::{Refusal, VertexBufferLayout, Vertices};
    /// let many = Vertices { layout: VertexBufferLayout::Gen9, vertex_stride: 12, vertex_count: 10_000, declaration: None, data: &[0; 120_000] };
    /// let mut bytes: Vec<u8> = Vec::new();
    /// many.unified_blocks(|block| Ok::<(), Refusal>(bytes.extend_from_slice(block)))?;
    /// assert_eq!(bytes, many.to_unified_bytes()?);
    /// # Ok::<(), calicofern::Refusal>(())
    /// ```
    pub fn unified_blocks<E: From<Refusal>>(&self, take: impl FnMut(&[u8]) -> Result<(), E>) -> Result<(), E> {
        unified_blocks(self, take)
    }

    /// The unified vertices as bytes, [`UnifiedVertex::SIZE`] for each.
    pub fn to_unified_bytes(&self) -> Result<Vec<u8>, Refusal> {
        lend(ALLOCATION_LIMIT, |out| self.unify_into(out))
    }

    /// The same into the first bytes of a lent output, and how many they are. The bytes behind them are left as they were.
    ///
    /// Refused by check 9, and by 10 with the bytes needed where the output is too short.
    pub fn unify_into(&self, out: &mut [u8]) -> Result<usize, Refusal> {
        let declaration = self.declaration_or_position_only();
        let lent = out.len();
        let told = calls::unified_vertices(self.data, self.vertex_stride, self.vertex_count, declaration.flags, declaration.types, out);
        Refusal::told(told, lent)
    }
}
