//! What a drawing shows, and what it leaves out.

use super::bounds::Bounds;
use super::strays::Strays;
use super::words::metres;
use crate::left_out::{are_left_out, LeftOut};
use crate::mesh::Name;
use crate::mesh::{each, Fault, Mesh, Triangle};
use crate::progress::Progress;
use crate::table::counted;
use std::collections::BTreeMap;
use std::convert::Infallible;

/// A geometry that is drawn.
pub struct Piece {
    pub name: Name,
    pub shader: u16,
    pub triangles: u64,
    pub bounds: Bounds,
}

impl Piece {
    pub fn title(&self) -> String {
        format!("{}, shader {}, {}", self.name, self.shader, counted(self.triangles, "triangle", "triangles"))
    }
}

pub struct Scene {
    /// In the order of the list.
    pub pieces: Vec<Piece>,
    pub bounds: Bounds,
    /// The number of triangles of each shader id.
    pub materials: BTreeMap<u16, u64>,
    pub hidden: Hidden,
}

/// What a drawing does not show.
#[derive(Default)]
pub struct Hidden {
    left_out: LeftOut,
    /// Triangles with a stray corner.
    astray: u64,
    strays: Option<Strays>,
}

impl Scene {
    pub fn of(list: &[u8]) -> Scene {
        let scene = Scene::without(list, Strays::of(list));
        match scene.pieces.is_empty() && scene.hidden.astray > 0 {
            true => Scene::without(list, None),
            false => scene,
        }
    }

    fn without(list: &[u8], strays: Option<Strays>) -> Scene {
        let hidden = Hidden { strays, ..Hidden::default() };
        let mut scene = Scene { pieces: Vec::new(), bounds: Bounds::NONE, materials: BTreeMap::new(), hidden };
        let Ok(()) = each::<Infallible>(list, "measuring the hall", |mesh, progress| {
            match mesh {
                Ok(mesh) => scene.add(&mesh, progress),
                Err(missing) => scene.hidden.left_out.geometry(missing.name, missing.why),
            }
            Ok(())
        });
        if scene.pieces.is_empty() {
            scene.bounds = Bounds { low: [0.0; 3], high: [0.0; 3] };
        }
        scene
    }

    fn add(&mut self, mesh: &Mesh<'_>, progress: &Progress) {
        let mut piece = Piece { name: mesh.name, shader: mesh.shader, triangles: 0, bounds: Bounds::NONE };
        for triangle in mesh.triangles(progress) {
            match triangle {
                Err(Fault::Beyond) => self.hidden.left_out.beyond += 1,
                Err(Fault::NoNumber) => self.hidden.left_out.no_number += 1,
                Ok(triangle) if !self.shows(&triangle) => self.hidden.astray += 1,
                Ok(triangle) => {
                    piece.triangles += 1;
                    triangle.corners.into_iter().for_each(|corner| piece.bounds.add(corner));
                }
            }
        }
        if piece.triangles > 0 {
            self.bounds.add(piece.bounds.low);
            self.bounds.add(piece.bounds.high);
            *self.materials.entry(piece.shader).or_default() += piece.triangles;
            self.pieces.push(piece);
        }
    }

    /// Whether a triangle has no stray corner.
    pub fn shows(&self, triangle: &Triangle) -> bool {
        let others = self.hidden.strays.as_ref().map(|strays| &strays.others);
        others.is_none_or(|others| triangle.corners.into_iter().all(|corner| others.contains(corner)))
    }

    pub fn triangles(&self) -> u64 {
        self.materials.values().sum()
    }
}

impl Hidden {
    /// In plain words, a sentence for each kind.
    pub fn said(&self) -> Vec<String> {
        let mut said = self.left_out.said();
        if let (Some(strays), 1..) = (&self.strays, self.astray) {
            let Strays { first, vertex, away, count, .. } = strays;
            let others = match count - 1 {
                0 => String::new(),
                more => format!(", and {} too", counted(more, "other is far away", "others are far away")),
            };
            let triangles = are_left_out(self.astray, "triangle", "triangles", if others.is_empty() { " at it" } else { " at them" });
            said.push(format!("{first} vertex {vertex} is {} away from the rest{others}: {triangles}", metres(*away)));
        }
        said
    }
}
