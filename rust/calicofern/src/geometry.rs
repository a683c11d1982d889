//! The geometries of a model.

use crate::bytes::{array, u16_at, u32_at, u8_at};
use crate::disagreement::{geometry_disagreements, Disagreement};
use crate::record::{Record, Records, DECLARATION, GEOMETRY, INDICES, VERTICES};
use crate::{VertexBufferLayout, VertexDeclaration, Vertices};

/// The geometries of a model, in order.
#[derive(Debug, Clone)]
pub struct Geometries<'a> {
    rest: Records<'a>,
}

impl<'a> Geometries<'a> {
    pub(crate) fn of(parts: Records<'a>) -> Self {
        Geometries { rest: parts }
    }
}

impl<'a> Iterator for Geometries<'a> {
    type Item = DrawableGeometry<'a>;

    fn next(&mut self) -> Option<DrawableGeometry<'a>> {
        self.rest.split_before(&[GEOMETRY]);
        let numbers = self.rest.next()?;
        Some(DrawableGeometry::read(numbers.body, self.rest.split_before(&[GEOMETRY])))
    }
}

/// A geometry of a list: what its block says, and what was found behind it.
#[derive(Debug, Clone, Copy)]
pub struct DrawableGeometry<'a> {
    /// Its shader id: the mapping's entry at its place, 0 where there is none.
    pub shader_id: u16,
    /// The number of indices, as its block says.
    pub indices_count: u32,
    /// The number of triangles, as its block says.
    pub triangles_count: u32,
    /// The number of vertices, as its block says; where that is 0, the buffer's.
    pub vertices_count: u16,
    /// The bytes from one vertex to the next, as its block says.
    pub vertex_stride: u16,
    /// What each vertex has, where that is stored.
    pub declaration: Option<VertexDeclaration>,
    /// Its vertices, where they were found.
    pub vertex_buffer: Option<Vertices<'a>>,
    /// Its indices, where their block was found.
    pub index_buffer: Option<IndexBuffer<'a>>,
}

impl<'a> DrawableGeometry<'a> {
    /// `numbers`: the body of its record. `parts`: the records behind it, up to the next geometry.
    fn read(numbers: &'a [u8], parts: Records<'a>) -> Self {
        let body = |kind| parts.into_iter().find(|record: &Record<'a>| record.kind == kind).map(|record| record.body);
        let declaration = body(DECLARATION).map(|bytes| VertexDeclaration::from_bytes(array(bytes, 0)));
        DrawableGeometry {
            shader_id: u16_at(numbers, 0),
            indices_count: u32_at(numbers, 2),
            triangles_count: u32_at(numbers, 6),
            vertices_count: u16_at(numbers, 10),
            vertex_stride: u16_at(numbers, 12),
            declaration,
            vertex_buffer: body(VERTICES).map(|bytes| Vertices {
                layout: VertexBufferLayout::from_number(u8_at(bytes, 0)),
                vertex_stride: u16_at(bytes, 1),
                vertex_count: u32_at(bytes, 3),
                declaration,
                data: bytes.get(7..).unwrap_or_default(),
            }),
            index_buffer: body(INDICES)
                .map(|bytes| IndexBuffer { indices_count: u32_at(bytes, 0), data: bytes.get(4..).unwrap_or_default() }),
        }
    }

    /// Its indices in threes: one triangle each. One or two indices too many are left out, and none are checked against the vertices.
    pub fn triangles(&self) -> impl ExactSizeIterator<Item = [u32; 3]> + Clone + 'a {
        let data = self.index_buffer.map_or(&[][..], |indices| indices.data);
        data.chunks_exact(12).map(|three| [u32_at(three, 0), u32_at(three, 4), u32_at(three, 8)])
    }

    /// Every pair of its numbers that disagrees. A hall whose counts disagree may be traced in part, and its reverberation still look
    /// plausible.
    ///
    /// ```
    /// # let system = std::fs::read(concat!(env!("CARGO_MANIFEST_DIR"), "/samples/damaged.system")).unwrap();
    /// use calicofern::Sections;
    /// let hall = Sections::new(&system, &[]).hall_list(Sections::SYSTEM)?;
    /// let balcony = hall.models().next().unwrap().geometries().nth(1).unwrap();
    /// for disagreement in balcony.disagreements() {
    ///     println!("{disagreement}");
    /// }
    /// assert!(!balcony.disagreements().is_empty());
    /// # Ok::<(), calicofern::Refusal>(())
    /// ```
    pub fn disagreements(&self) -> Vec<Disagreement> {
        geometry_disagreements(self)
    }
}

/// The indices of a geometry.
#[derive(Debug, Clone, Copy, PartialEq, Eq, Hash)]
pub struct IndexBuffer<'a> {
    /// The number of indices, as their block says.
    pub indices_count: u32,
    data: &'a [u8],
}

impl<'a> IndexBuffer<'a> {
    /// The indices that are there: as many as the block says, or none where they were not found.
    pub fn indices(&self) -> Indices<'a> {
        Indices { rest: self.data }
    }
}

/// The indices of a geometry, in order.
#[derive(Debug, Clone)]
pub struct Indices<'a> {
    rest: &'a [u8],
}

impl Iterator for Indices<'_> {
    type Item = u32;

    fn next(&mut self) -> Option<u32> {
        let (index, rest) = self.rest.split_first_chunk()?;
        self.rest = rest;
        Some(u32::from_le_bytes(*index))
    }

    fn size_hint(&self) -> (usize, Option<usize>) {
        (self.rest.len() / 4, Some(self.rest.len() / 4))
    }
}

impl ExactSizeIterator for Indices<'_> {}
