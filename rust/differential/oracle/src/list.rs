//! The list of document 01: records of body length u32, kind u16, body, in walk order.
use crate::vertex::{VertexBuffer, VertexBufferLayout, VertexDeclaration};
use crate::ydd::{DrawableGeometry, DrawableModel, IndexBuffer};

pub fn written(models: &[DrawableModel]) -> Vec<u8> {
    let mut bytes = vec![0; models.iter().map(model_length).sum()];
    write(&mut bytes, models);
    bytes
}

/// Writes the list over the first bytes of a slice that has room for it, each byte once, and says how many they are.
pub fn write(bytes: &mut [u8], models: &[DrawableModel]) -> usize {
    let mut out = Out { bytes, at: 0 };
    for model in models {
        out.model(model);
        for geometry in &model.geometries {
            out.geometry(geometry);
        }
    }
    out.at
}

fn model_length(model: &DrawableModel) -> usize {
    12 + 2 * model.shader_mapping.len() + model.geometries.iter().map(geometry_length).sum::<usize>()
}

fn geometry_length(geometry: &DrawableGeometry) -> usize {
    let declaration = |buffer: &VertexBuffer| if buffer.declaration.is_some() { 22 } else { 0 };
    let vertices = geometry.vertex_buffer.as_ref().map_or(0, |buffer| 13 + buffer.data.len() + declaration(buffer));
    let indices = geometry.index_buffer.as_ref().map_or(0, |buffer| 10 + 4 * buffer.indices.len());
    20 + vertices + indices
}

pub fn layout_number(layout: VertexBufferLayout) -> u8 {
    match layout {
        VertexBufferLayout::Legacy => 0,
        VertexBufferLayout::LegacyData2 => 1,
        VertexBufferLayout::Gen9 => 2,
        VertexBufferLayout::GeometryInline => 3,
    }
}

pub fn declaration_bytes(declaration: &VertexDeclaration) -> [u8; 16] {
    let mut bytes = [0; 16];
    bytes[0..4].copy_from_slice(&declaration.flags.to_le_bytes());
    bytes[4..6].copy_from_slice(&declaration.stride.to_le_bytes());
    bytes[6] = declaration.unknown_6h;
    bytes[7] = declaration.count;
    bytes[8..16].copy_from_slice(&declaration.types.to_le_bytes());
    bytes
}

struct Out<'a> {
    bytes: &'a mut [u8],
    at: usize,
}

impl Out<'_> {
    fn put(&mut self, bytes: &[u8]) {
        self.bytes[self.at..self.at + bytes.len()].copy_from_slice(bytes);
        self.at += bytes.len();
    }

    fn start(&mut self, kind: u16, length: usize) {
        self.put(&u32::try_from(length).unwrap().to_le_bytes());
        self.put(&kind.to_le_bytes());
    }

    fn model(&mut self, model: &DrawableModel) {
        self.start(1, 6 + 2 * model.shader_mapping.len());
        self.put(&model.skeleton_binding.to_le_bytes());
        self.put(&model.render_mask_flags.to_le_bytes());
        for id in &model.shader_mapping {
            self.put(&id.to_le_bytes());
        }
    }

    fn geometry(&mut self, geometry: &DrawableGeometry) {
        self.numbers(geometry);
        if let Some(buffer) = &geometry.vertex_buffer {
            if let Some(declaration) = &buffer.declaration {
                self.start(3, 16);
                self.put(&declaration_bytes(declaration));
            }
            self.vertices(buffer);
        }
        if let Some(buffer) = &geometry.index_buffer {
            self.indices(buffer);
        }
    }

    fn numbers(&mut self, geometry: &DrawableGeometry) {
        self.start(2, 14);
        self.put(&geometry.shader_id.to_le_bytes());
        self.put(&geometry.indices_count.to_le_bytes());
        self.put(&geometry.triangles_count.to_le_bytes());
        self.put(&geometry.vertices_count.to_le_bytes());
        self.put(&geometry.vertex_stride.to_le_bytes());
    }

    fn vertices(&mut self, buffer: &VertexBuffer) {
        self.start(4, 7 + buffer.data.len());
        self.put(&[layout_number(buffer.layout)]);
        self.put(&buffer.vertex_stride.to_le_bytes());
        self.put(&buffer.vertex_count.to_le_bytes());
        self.put(&buffer.data);
    }

    fn indices(&mut self, buffer: &IndexBuffer) {
        let length = 4 * buffer.indices.len();
        self.start(5, 4 + length);
        self.put(&buffer.indices_count.to_le_bytes());
        let to = &mut self.bytes[self.at..self.at + length];
        for (bytes, index) in to.chunks_exact_mut(4).zip(&buffer.indices) {
            bytes.copy_from_slice(&index.to_le_bytes());
        }
        self.at += length;
    }
}
