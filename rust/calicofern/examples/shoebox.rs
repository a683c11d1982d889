//! A shoebox hall, built from nothing: six surfaces and a reflector over the stage, which is then hung lower. It is saved as a drawable's system section and
//! read back.
//!
//! cargo run --example shoebox [-- FILE]

use calicofern::{Hall, NewGeometry, Refusal, Sections, VertexAttributeValue, VertexComponentType, VertexDeclaration, VertexSemantic};
use std::error::Error;

const WIDTH: f32 = 20.0;
const LENGTH: f32 = 32.0;
const HEIGHT: f32 = 14.0;

const WOOD: u16 = 0;
const PLASTER: u16 = 1;
const REFLECTOR: u16 = 2;

/// Four corners, seen from the side that reflects.
type Quad = [[f32; 3]; 4];

fn main() -> Result<(), Box<dyn Error>> {
    let mut hall = Hall::new();
    hall.add_model(0, 0xFF)?;
    for (material, quad) in shell() {
        add_quad(&mut hall, material, quad)?;
    }
    // a model of its own, so that it can be taken out as a whole
    hall.add_model(0, 0xFF)?;
    add_quad(&mut hall, REFLECTOR, level(5.0, 15.0, 2.0, 8.0, 10.0))?;
    println!("built: {hall:?}, {} triangles", hall.triangle_count());

    lower(&mut hall, 1, 0, 1.5)?;
    println!("the reflector hangs at {} m", height(&hall, 1, 0)?);

    // a call that would break the hall is refused, and the hall stays as it was
    if let Err(refusal) = hall.replace_indices(1, 0, &[0, 1, 4]) {
        println!("refused: {refusal}");
    }

    let image = hall.save()?;
    let back = Hall::from_sections(&Sections::new(&image, &[]), Sections::SYSTEM)?;
    println!("saved: {} bytes; read back: {back:?}, {}", image.len(), if back == hall { "the same hall" } else { "another hall" });
    if let Some(path) = std::env::args().nth(1) {
        std::fs::write(&path, &image)?;
        println!("wrote {path}");
    }
    Ok(())
}

/// Floor, ceiling and four walls.
fn shell() -> [(u16, Quad); 6] {
    let (w, l, h) = (WIDTH, LENGTH, HEIGHT);
    [
        (WOOD, level(0.0, w, 0.0, l, 0.0)),
        (PLASTER, level(0.0, w, 0.0, l, h)),
        (PLASTER, [[0.0, 0.0, 0.0], [0.0, l, 0.0], [0.0, l, h], [0.0, 0.0, h]]),
        (PLASTER, [[w, 0.0, 0.0], [w, 0.0, h], [w, l, h], [w, l, 0.0]]),
        (PLASTER, [[0.0, 0.0, 0.0], [0.0, 0.0, h], [w, 0.0, h], [w, 0.0, 0.0]]),
        (WOOD, [[0.0, l, 0.0], [w, l, 0.0], [w, l, h], [0.0, l, h]]),
    ]
}

/// A rectangle at one height.
fn level(left: f32, right: f32, front: f32, back: f32, z: f32) -> Quad {
    [[left, front, z], [right, front, z], [right, back, z], [left, back, z]]
}

/// Two triangles, with positions of three floats.
fn add_quad(hall: &mut Hall, shader_id: u16, quad: Quad) -> Result<(), Refusal> {
    let declaration = VertexDeclaration::of(&[(VertexSemantic::Position, VertexComponentType::Float3)]);
    let vertices: Vec<u8> = quad.as_flattened().iter().flat_map(|number| number.to_le_bytes()).collect();
    let indices = &[0, 1, 2, 0, 2, 3];
    hall.add_geometry(NewGeometry {
        shader_id,
        declaration,
        vertex_stride: declaration.stride,
        vertex_count: 4,
        vertices: &vertices,
        indices,
    })
}

/// Moves every vertex of a geometry down.
fn lower(hall: &mut Hall, model: u64, geometry: u64, by: f32) -> Result<(), Refusal> {
    for (vertex, number) in hall.unified_vertices(model, geometry)?.iter().zip(0..) {
        let [x, y, z] = vertex.position;
        hall.set_attribute(model, geometry, number, VertexSemantic::Position, VertexAttributeValue::Float3([x, y, z - by]))?;
    }
    Ok(())
}

/// The height of a geometry's lowest vertex.
fn height(hall: &Hall, model: u64, geometry: u64) -> Result<f32, Refusal> {
    Ok(hall.unified_vertices(model, geometry)?.iter().map(|vertex| vertex.position[2]).fold(f32::INFINITY, f32::min))
}
