//! The triangles of a list, one geometry at a time.

use crate::progress::{self, Progress};
use calicofern::{DrawableGeometry, Models};
use std::fmt;

/// A geometry of a model, both counted from 0.
#[derive(Debug, Clone, Copy, PartialEq, Eq, PartialOrd, Ord)]
pub struct Name {
    pub model: u64,
    pub geometry: u64,
}

/// `model 1 geometry 2`; with `{:#}` short, `1.2`.
impl fmt::Display for Name {
    fn fmt(&self, out: &mut fmt::Formatter<'_>) -> fmt::Result {
        match out.alternate() {
            true => write!(out, "{}.{}", self.model, self.geometry),
            false => write!(out, "model {} geometry {}", self.model, self.geometry),
        }
    }
}

/// A geometry's positions and triangles.
pub struct Mesh<'a> {
    pub name: Name,
    pub shader: u16,
    pub geometry: DrawableGeometry<'a>,
    pub positions: Vec<[f32; 3]>,
}

/// A geometry without triangles that can be drawn, and why.
pub struct Missing {
    pub name: Name,
    pub why: String,
}

pub struct Triangle {
    pub indices: [u32; 3],
    pub corners: [[f64; 3]; 3],
}

/// Why a triangle cannot be drawn.
pub enum Fault {
    /// An index is beyond the vertices.
    Beyond,
    /// A coordinate is a NaN or an infinity.
    NoNumber,
}

impl<'a> Mesh<'a> {
    pub fn of(name: Name, geometry: DrawableGeometry<'a>) -> Result<Mesh<'a>, Missing> {
        let missing = |why: String| Missing { name, why };
        let Some(vertices) = geometry.vertex_buffer.filter(|vertices| vertices.vertex_count > 0) else {
            return Err(missing("no vertices".to_string()));
        };
        match geometry.index_buffer.map_or(0, |indices| indices.indices().len()) {
            0 => return Err(missing("no indices".to_string())),
            1 | 2 => return Err(missing("fewer than three indices".to_string())),
            _ => {}
        }
        let positions = vertices.positions().map_err(|refusal| missing(format!("{} refuses its vertices", refusal.check())))?;
        Ok(Mesh { name, shader: geometry.shader_id, geometry, positions })
    }

    /// Its triangles, counted as they are taken.
    pub fn triangles<'b>(&'b self, progress: &'b Progress) -> impl Iterator<Item = Result<Triangle, Fault>> + 'b {
        self.geometry.triangles().map(|indices| {
            progress.add(1);
            self.triangle(indices)
        })
    }

    pub fn triangle_count(&self) -> u64 {
        self.geometry.triangles().len() as u64
    }

    fn triangle(&self, indices: [u32; 3]) -> Result<Triangle, Fault> {
        let mut corners = [[0.0; 3]; 3];
        for (corner, index) in corners.iter_mut().zip(indices) {
            let position = usize::try_from(index).ok().and_then(|index| self.positions.get(index)).ok_or(Fault::Beyond)?;
            *corner = position.map(f64::from);
        }
        let finite = corners.as_flattened().iter().all(|number| number.is_finite());
        finite.then_some(Triangle { indices, corners }).ok_or(Fault::NoNumber)
    }

    /// The vertices that are corners of triangles which can be drawn, with their numbers.
    pub fn corners(&self) -> impl Iterator<Item = (u32, [f32; 3])> + '_ {
        let mut used = vec![false; self.positions.len()];
        for indices in self.geometry.triangles().filter(|indices| self.triangle(*indices).is_ok()) {
            // they name vertices, as the triangle can be drawn
            indices.into_iter().for_each(|index| used[index as usize] = true);
        }
        let all = (0..).zip(&self.positions).zip(used);
        all.filter_map(|((number, position), used)| used.then_some((number, *position)))
    }
}

/// Every geometry in order, each gone before the next is made; `work` counts its triangles.
pub fn each<'a, E>(
    list: &'a [u8],
    what: &str,
    mut work: impl FnMut(Result<Mesh<'a>, Missing>, &Progress) -> Result<(), E>,
) -> Result<(), E> {
    let total = geometries(list).map(|(_, geometry)| geometry.triangles().len() as u64).sum();
    progress::of(what, total, |progress| geometries(list).try_for_each(|(name, geometry)| work(Mesh::of(name, geometry), progress)))
}

pub fn geometries(list: &[u8]) -> impl Iterator<Item = (Name, DrawableGeometry<'_>)> + Clone {
    Models::of(list).geometries().map(|(model, geometry, found)| (Name { model, geometry }, found))
}
