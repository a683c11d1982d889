//! Calls about vertices, with what they ask about held together.
use crate::{calls, Told};

/// What a geometry says of its vertices.
#[derive(Debug, Clone, Copy)]
pub struct Stream {
    pub va: u64,
    pub inline_pointer: u64,
    pub inline_count: u32,
    pub inline_stride: u16,
}

pub fn vertex_buffer(system: &[u8], graphics: &[u8], stream: Stream, out: &mut [u8]) -> Told {
    let inline = (stream.inline_pointer, stream.inline_count, stream.inline_stride);
    calls::vertex_buffer(system, graphics, stream.va, inline, out)
}

/// Vertices and how they are declared.
#[derive(Debug, Clone, Copy)]
pub struct Vertices<'a> {
    pub data: &'a [u8],
    pub stride: u16,
    pub count: u32,
    pub flags: u32,
    pub types: u64,
}

pub fn vertex_attributes(vertices: Vertices, index: u64, out: &mut [u8]) -> Told {
    let Vertices { data, stride, count, flags, types } = vertices;
    calls::vertex_attributes(data, stride, count, flags, types, index, out)
}

pub fn unified_vertices(vertices: Vertices, out: &mut [u8]) -> Told {
    let Vertices { data, stride, count, flags, types } = vertices;
    calls::unified_vertices(data, stride, count, flags, types, out)
}
