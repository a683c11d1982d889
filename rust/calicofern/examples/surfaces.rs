//! The surface of each material of a hall: what a prediction of reverberation starts from.
//!
//! cargo run --example surfaces -- samples/shoebox.system

use calicofern::{DrawableGeometry, Refusal, Sections};
use std::collections::BTreeMap;
use std::error::Error;

fn main() -> Result<(), Box<dyn Error>> {
    let path = std::env::args().nth(1).ok_or("give the file of a system section")?;
    let system = std::fs::read(path)?;
    let hall = Sections::new(&system, &[]).hall_list(Sections::SYSTEM)?;
    let mut surfaces = BTreeMap::new();
    for model in hall.models() {
        for geometry in model.geometries() {
            // a hall whose counts disagree would be traced in part
            if let Some(pair) = geometry.disagreements().first() {
                return Err(format!("shader {}: {pair}", geometry.shader_id).into());
            }
            *surfaces.entry(geometry.shader_id).or_insert(0.0) += area(&geometry)?;
        }
    }
    println!("shader  square metres");
    for (shader, area) in surfaces {
        println!("{shader:>6}  {area:>13.1}");
    }
    Ok(())
}

/// The area of a geometry's triangles.
fn area(geometry: &DrawableGeometry<'_>) -> Result<f64, Refusal> {
    let Some(vertices) = geometry.vertex_buffer else {
        return Ok(0.0);
    };
    let unified = vertices.to_unified_vertices()?;
    let corner = |index: u32| Some(unified.get(usize::try_from(index).ok()?)?.position.map(f64::from));
    let triangles = geometry.triangles().filter_map(|[a, b, c]| Some([corner(a)?, corner(b)?, corner(c)?]));
    Ok(triangles.map(triangle_area).sum())
}

/// Half of the length of the cross product of two sides.
fn triangle_area([a, b, c]: [[f64; 3]; 3]) -> f64 {
    let side = |end: [f64; 3]| [end[0] - a[0], end[1] - a[1], end[2] - a[2]];
    let (u, v) = (side(b), side(c));
    let cross = [u[1] * v[2] - u[2] * v[1], u[2] * v[0] - u[0] * v[2], u[0] * v[1] - u[1] * v[0]];
    cross.iter().map(|part| part * part).sum::<f64>().sqrt() / 2.0
}
