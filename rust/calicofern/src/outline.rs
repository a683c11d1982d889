//! How long the image of a hall is.

use crate::Models;

/// The most bytes that an image may have.
pub const IMAGE_LIMIT: u64 = 67_108_864;

/// What the length of an image depends on, for each geometry of each model.
#[derive(Debug, Clone, Default, PartialEq, Eq)]
pub struct Outline {
    pub models: Vec<Vec<Size>>,
}

#[derive(Debug, Clone, Copy, PartialEq, Eq)]
pub struct Size {
    pub vertex_bytes: usize,
    pub indices: usize,
}

/// The bytes of a part: the next part begins at a multiple of 16.
fn padded(length: u128) -> u128 {
    length.div_ceil(16) * 16
}

impl Outline {
    /// That of a list. What a geometry lacks has no bytes.
    pub fn of(list: &[u8]) -> Self {
        let sizes = |model: crate::DrawableModel<'_>| {
            model
                .geometries()
                .map(|geometry| Size {
                    vertex_bytes: geometry.vertex_buffer.map_or(0, |vertices| vertices.data.len()),
                    indices: geometry.index_buffer.map_or(0, |buffer| buffer.indices().len()),
                })
                .collect()
        };
        Outline { models: Models::of(list).map(sizes).collect() }
    }

    pub fn geometries(&self) -> usize {
        self.models.iter().map(Vec::len).sum()
    }

    /// The image's bytes. Lengths of slices are below 2^64, so no sum of them leaves 128 bits.
    pub fn image_length(&self) -> u128 {
        let mut length = 16 + padded(8 * self.models.len() as u128);
        for model in &self.models {
            let geometries = model.len() as u128;
            length += 0x30 + padded(8 * geometries) + padded(2 * geometries);
            length += model.iter().map(Size::image_length).sum::<u128>();
        }
        length
    }
}

impl Size {
    /// Block, vertex block, declaration, vertex bytes, index block and two-byte indices.
    fn image_length(&self) -> u128 {
        padded(0x98) + 0x80 + 16 + padded(self.vertex_bytes as u128) + 0x60 + padded(2 * self.indices as u128)
    }
}

#[cfg(test)]
mod tests {
    use super::*;
    use crate::{Hall, NewGeometry, Sections, VertexDeclaration};

    fn length(hall: &Hall) -> u128 {
        Outline::of(hall.list()).image_length()
    }

    fn saved(hall: &Hall) -> u128 {
        hall.save().unwrap().len() as u128
    }

    #[test]
    fn samples_have_the_length_of_their_images() {
        for name in ["shoebox", "layouts"] {
            let section = |end: &str| std::fs::read(format!("{}/samples/{name}.{end}", env!("CARGO_MANIFEST_DIR"))).unwrap_or_default();
            let (system, graphics) = (section("system"), section("graphics"));
            let hall = Hall::from_sections(&Sections::new(&system, &graphics), Sections::SYSTEM).unwrap();
            assert_eq!(length(&hall), saved(&hall), "{name}");
        }
        assert_eq!(length(&Hall::new()), 16);
    }

    #[test]
    fn grown_halls_have_the_length_of_their_images() {
        let (vertices, indices) = ([0; 18 * 40], [0, 1, 2].repeat(20));
        let mut hall = Hall::new();
        let mut number = 7usize;
        for step in 0..120 {
            number = number * 1103 % 65_521;
            if step % 9 == 0 {
                hall.add_model(0, 0).unwrap();
            }
            if step % 5 == 0 {
                continue;
            }
            let (count, stride, triangles) = (3 + number % 16, 12 + number / 16 % 29, 1 + number / 512 % 20);
            let given = NewGeometry {
                shader_id: 0,
                declaration: VertexDeclaration::position_only(stride as u16),
                vertex_stride: stride as u16,
                vertex_count: count as u32,
                vertices: &vertices[..count * stride],
                indices: &indices[..3 * triangles],
            };
            hall.add_geometry(given).unwrap();
            assert_eq!(length(&hall), saved(&hall), "step {step}");
        }
    }

    #[test]
    fn no_length_is_too_long() {
        let size = Size { vertex_bytes: usize::MAX, indices: usize::MAX };
        let outline = Outline { models: vec![vec![size; 3]; 2] };
        assert!(outline.image_length() > 6 * 3 * u128::from(u64::MAX));
        // any bytes
        assert_eq!(Outline::of(&[255; 100]).image_length(), 16);
    }
}
