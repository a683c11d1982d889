//! Values to bytes, the part of `VertexData::read_xml_rows` behind the text.
use crate::blocks::vertex::{VertexData, VertexDeclaration};

/// The original's expression for an Rgba8Snorm byte. build.rs asserts that its line reads so.
pub fn snorm_byte(value: f32) -> u8 {
    ((value * 127.0).clamp(-127.0, 127.0) as i8) as u8
}

/// Rows of four values, each printed as text, through the original's function itself: four bytes or four halves a row.
pub fn rows(values: &[f32], nibble: u64) -> Vec<u8> {
    let text: String = values.chunks(4).map(|row| format!("{:?} {:?} {:?} {:?}\n", row[0], row[1], row[2], row[3])).collect();
    let declaration = VertexDeclaration::from_flags_types(1, nibble);
    VertexData::read_xml_rows(&text, &declaration).unwrap_or_else(|e| panic!("{e}")).bytes
}
