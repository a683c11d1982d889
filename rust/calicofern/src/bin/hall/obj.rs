//! Positions and triangles as Wavefront OBJ.

use crate::failure::Failure;
use crate::left_out::LeftOut;
use crate::mesh::{Mesh, Name};
use crate::output::Output;
use crate::progress::{self, Progress};
use crate::table::counted;
use calicofern::DrawableGeometry;
use std::io::{self, Write};

/// Writes geometries to a file, each as a group; what that came to, and what it left out.
pub fn write<'a>(
    geometries: impl Iterator<Item = (Name, DrawableGeometry<'a>)> + Clone,
    path: &str,
) -> Result<(String, Vec<String>), Failure> {
    let total = geometries.clone().map(|(_, geometry)| work(&geometry)).sum();
    let mut obj = Obj { out: Output::create(path)?, vertices: 0, triangles: 0, left_out: LeftOut::default() };
    let done = progress::of(&format!("writing {path}"), total, |progress| {
        geometries.into_iter().try_for_each(|(name, geometry)| obj.add(name, geometry, progress))
    });
    done.map_err(|error| obj.out.failed(error))?;
    let made = format!("{} and {}", counted(obj.vertices, "position", "positions"), counted(obj.triangles, "triangle", "triangles"));
    obj.out.finish()?;
    let left_out = obj.left_out.said();
    let said: String = left_out.iter().map(|said| format!("; {said}")).collect();
    Ok((format!("wrote {made} to {path}{said}\n"), left_out))
}

/// What a geometry's lines are counted as, for the progress.
fn work(geometry: &DrawableGeometry<'_>) -> u64 {
    let vertices = geometry.vertex_buffer.map_or(0, |vertices| u64::from(vertices.vertex_count));
    vertices + geometry.triangles().len() as u64
}

/// An OBJ file in the making.
struct Obj {
    out: Output,
    vertices: u64,
    triangles: u64,
    left_out: LeftOut,
}

impl Obj {
    /// Adds a geometry's positions and triangles. What has no place in an OBJ file is left out and counted.
    fn add(&mut self, name: Name, geometry: DrawableGeometry<'_>, progress: &Progress) -> io::Result<()> {
        let group = format!("model_{}_geometry_{}_shader_{}", name.model, name.geometry, geometry.shader_id);
        let mesh = match Mesh::of(name, geometry) {
            Ok(mesh) => mesh,
            Err(missing) => {
                writeln!(self.out, "# {group}: {}", missing.why)?;
                self.left_out.geometry(missing.name, missing.why);
                return Ok(());
            }
        };
        writeln!(self.out, "g {group}")?;
        let before = self.vertices;
        // OBJ has no way to write a NaN or an infinity: such vertices are not written, and those behind them move up
        let mut gaps = Vec::new();
        for (position, vertex) in mesh.positions.iter().zip(0u32..) {
            match position {
                [x, y, z] if [x, y, z].iter().all(|number| number.is_finite()) => writeln!(self.out, "v {x} {y} {z}")?,
                _ => gaps.push(vertex),
            }
        }
        self.vertices += (mesh.positions.len() - gaps.len()) as u64;
        progress.add(mesh.positions.len() as u64);
        let faces = Faces { before, count: mesh.positions.len() as u64, gaps: &gaps };
        mesh.geometry.triangles().try_for_each(|triangle| {
            progress.add(1);
            self.face(&faces, triangle)
        })
    }

    fn face(&mut self, faces: &Faces<'_>, triangle: [u32; 3]) -> io::Result<()> {
        if triangle.iter().any(|index| u64::from(*index) >= faces.count) {
            self.left_out.beyond += 1;
            return Ok(());
        }
        match triangle.map(|index| faces.number(index)) {
            [Some(a), Some(b), Some(c)] => {
                self.triangles += 1;
                writeln!(self.out, "f {a} {b} {c}")
            }
            _ => {
                self.left_out.no_number += 1;
                Ok(())
            }
        }
    }
}

/// How the corners of a geometry's triangles are numbered.
struct Faces<'a> {
    /// The positions written before its first.
    before: u64,
    count: u64,
    /// The vertices that are not written, in rising order.
    gaps: &'a [u32],
}

impl Faces<'_> {
    /// The number of a vertex's line: OBJ counts from 1, over all groups. None where it has no line.
    fn number(&self, index: u32) -> Option<u64> {
        let gaps_before = self.gaps.binary_search(&index).err()?;
        Some(self.before + u64::from(index) - gaps_before as u64 + 1)
    }
}

#[cfg(test)]
mod tests {
    use super::*;

    #[test]
    fn numbers_skip_what_is_not_written() {
        let faces = Faces { before: 10, count: 6, gaps: &[1, 4] };
        let numbers: Vec<Option<u64>> = (0..6).map(|index| faces.number(index)).collect();
        assert_eq!(numbers, [Some(11), None, Some(12), Some(13), None, Some(14)]);
    }
}
