//! Vertices so far away that the rest would shrink to a dot.

use super::bounds::Bounds;
use crate::mesh::Name;
use crate::mesh::{each, geometries, Mesh};
use crate::progress::Progress;
use std::collections::{BinaryHeap, HashSet};
use std::convert::Infallible;

/// Fewer corners than this have no strays.
const FEWEST: u64 = 12;
/// A stray lies outside the box of the others by more than so many times its largest extent.
const FAR: f64 = 10.0;
/// One that belongs to something that stands far away as a whole, such as the walls around a detailed instrument, by more than this: then the others would
/// be less than a point of the drawing.
const FAR_AS_A_WHOLE: f64 = 1000.0;

/// The strays of a list. A vertex that is a corner of a triangle is one exactly when it is outside the box of the others.
#[derive(Debug, PartialEq)]
pub struct Strays {
    pub others: Bounds,
    /// The first of them, the number of its vertex, and how far it is from the others.
    pub first: Name,
    pub vertex: u32,
    pub away: f64,
    pub count: u64,
}

/// At most every hundredth vertex, and one in any case.
fn most(vertices: u64) -> u64 {
    (vertices / 100).max(1)
}

impl Strays {
    pub fn of(list: &[u8]) -> Option<Strays> {
        let spread = Spread::of(list);
        let core = spread.core()?;
        let mut found = Found { core, others: Bounds::NONE, far: Vec::new() };
        let Ok(()) = each::<Infallible>(list, "comparing vertices far away", |mesh, progress| {
            mesh.iter().for_each(|mesh| found.add(mesh, progress));
            Ok(())
        });
        found.strays(most(spread.vertices))
    }
}

/// The lowest and the highest coordinates on each axis, as many as may be strays and one more.
struct Spread {
    vertices: u64,
    kept: usize,
    lowest: [BinaryHeap<u32>; 3],
    /// Complemented, so that the highest come first.
    highest: [BinaryHeap<u32>; 3],
}

impl Spread {
    fn of(list: &[u8]) -> Spread {
        let corners = geometries(list).map(|(_, geometry)| {
            let vertices = geometry.vertex_buffer.map_or(0, |vertices| u64::from(vertices.vertex_count));
            vertices.min(geometry.triangles().size_hint().0 as u64 * 3)
        });
        let kept = usize::try_from(most(corners.sum())).unwrap_or(usize::MAX).saturating_add(1);
        let mut spread = Spread { vertices: 0, kept, lowest: Default::default(), highest: Default::default() };
        let Ok(()) = each::<Infallible>(list, "looking for vertices far away", |mesh, progress| {
            if let Ok(mesh) = mesh {
                mesh.corners().for_each(|(_, position)| spread.add(position));
                progress.add(mesh.triangle_count());
            }
            Ok(())
        });
        spread
    }

    fn add(&mut self, position: [f32; 3]) {
        self.vertices += 1;
        for (axis, number) in position.into_iter().enumerate() {
            keep(&mut self.lowest[axis], self.kept, ordered(number));
            keep(&mut self.highest[axis], self.kept, !ordered(number));
        }
    }

    /// The box that remains when on each side of each axis as many vertices are cut off as may be strays. None where no vertex lies far outside it.
    fn core(&self) -> Option<Bounds> {
        if self.vertices < FEWEST {
            return None;
        }
        let cut = usize::try_from(most(self.vertices)).ok()?;
        let (mut core, mut whole) = (Bounds::NONE, Bounds::NONE);
        for axis in 0..3 {
            let lowest = self.lowest[axis].clone().into_sorted_vec();
            let highest = self.highest[axis].clone().into_sorted_vec();
            (core.low[axis], core.high[axis]) = (number(*lowest.get(cut)?), number(!*highest.get(cut)?));
            (whole.low[axis], whole.high[axis]) = (number(*lowest.first()?), number(!*highest.first()?));
        }
        let far = core.off(whole.low).max(core.off(whole.high)) > FAR * core.largest();
        (far && core.largest() > 0.0).then_some(core)
    }
}

/// Keeps the least numbers, so many of them.
fn keep(least: &mut BinaryHeap<u32>, count: usize, number: u32) {
    if least.len() < count {
        least.push(number);
    } else if let Some(mut greatest) = least.peek_mut() {
        if number < *greatest {
            *greatest = number;
        }
    }
}

/// A float's bits so that they are ordered as the floats are.
fn ordered(number: f32) -> u32 {
    let bits = number.to_bits();
    if number.is_sign_negative() {
        !bits
    } else {
        bits | 1 << 31
    }
}

fn number(ordered: u32) -> f64 {
    f64::from(f32::from_bits(if ordered >> 31 == 1 { ordered & !(1 << 31) } else { !ordered }))
}

/// Vertices that may be strays, and the box of those that are not.
struct Found {
    core: Bounds,
    others: Bounds,
    far: Vec<Far>,
}

struct Far {
    name: Name,
    vertex: u32,
    position: [f32; 3],
    as_a_whole: bool,
}

impl Found {
    fn add(&mut self, mesh: &Mesh<'_>, progress: &Progress) {
        let reach = FAR * self.core.largest();
        let is_far = |point: [f64; 3]| self.core.off(point) > reach;
        let apart: HashSet<u32> = mesh
            .triangles(progress)
            .flatten()
            .filter(|triangle| triangle.corners.into_iter().all(is_far))
            .flat_map(|triangle| triangle.indices)
            .collect();
        let before = self.far.len();
        let mut corners = 0;
        for (vertex, position) in mesh.corners() {
            corners += 1;
            if is_far(position.map(f64::from)) {
                self.far.push(Far { name: mesh.name, vertex, position, as_a_whole: apart.contains(&vertex) });
            } else {
                self.others.add(position.map(f64::from));
            }
        }
        let new = &mut self.far[before..];
        // a tenth of a geometry is no slip of single vertices
        if new.len() > (corners / 10).max(1) {
            new.iter_mut().for_each(|far| far.as_a_whole = true);
        }
    }

    /// Those that are not far enough belong to the others, whose box grows with them.
    fn strays(mut self, most: u64) -> Option<Strays> {
        let mut others = self.others;
        let off = |bounds: &Bounds, far: &Far| bounds.off(far.position.map(f64::from));
        self.far.sort_by(|one, other| off(&self.others, one).total_cmp(&off(&self.others, other)));
        loop {
            let before = self.far.len();
            self.far.retain(|far| {
                let times = if far.as_a_whole { FAR_AS_A_WHOLE } else { FAR };
                let stray = off(&others, far) > times * others.largest();
                if !stray {
                    others.add(far.position.map(f64::from));
                }
                stray
            });
            if self.far.len() == before {
                break;
            }
        }
        let first = self.far.iter().min_by_key(|far| (far.name, far.vertex))?;
        let away = others.distance(first.position.map(f64::from));
        let strays = Strays { others, first: first.name, vertex: first.vertex, away, count: self.far.len() as u64 };
        (strays.count <= most && others.largest() > 0.0).then_some(strays)
    }
}

#[cfg(test)]
mod tests {
    use super::super::testing::{grid, list, Made};
    use super::*;

    fn strays(made: &[Made]) -> Option<(String, u32, u64)> {
        Strays::of(&list(made)).map(|strays| (strays.first.to_string(), strays.vertex, strays.count))
    }

    /// A floor of 20 m with so many vertices a side, some of them elsewhere.
    fn moved(side: u32, vertices: &[(usize, [f32; 3])]) -> Made {
        let mut made = grid(0, side, 20.0);
        for (vertex, position) in vertices {
            made.positions.as_mut().unwrap()[*vertex] = *position;
        }
        made
    }

    #[test]
    fn floats_are_ordered_as_bits() {
        let numbers = [-f32::MAX, -1.0, -0.0, 0.0, 1e-45, 1.0, f32::MAX];
        assert!(numbers.map(ordered).is_sorted());
        assert_eq!(numbers.map(|float| number(ordered(float))), numbers.map(f64::from));
    }

    #[test]
    fn one_vertex_far_away() {
        for far in [250.0, 1e6, 1e38, -1e38] {
            let found = Strays::of(&list(&[grid(0, 3, 5.0), moved(4, &[(7, [10.0, far, 0.0])])])).unwrap();
            assert_eq!((found.first.to_string().as_str(), found.vertex, found.count), ("model 0 geometry 1", 7, 1));
            assert!((found.away - f64::from(far.abs())).abs() <= 20.0 && found.others.largest() == 20.0, "{found:?}");
        }
        // ten times is not enough, and no corner of a triangle is no vertex
        assert_eq!(strays(&[moved(4, &[(7, [10.0, 219.0, 0.0])])]), None);
        let mut unused = grid(0, 4, 20.0);
        unused.positions.as_mut().unwrap().push([1e9; 3]);
        unused.count += 1;
        assert_eq!(strays(&[unused]), None);
    }

    #[test]
    fn several_vertices_far_away() {
        let made = moved(20, &[(399, [1e9, 1e9, 0.0]), (210, [1e6, 0.0, 0.0]), (150, [1e6, 1.0, 0.0]), (30, [0.0, 0.0, -3e38])]);
        assert_eq!(strays(&[made]), Some(("model 0 geometry 0".to_string(), 30, 4)));
        // more than a hundredth
        let fifth = [(399, [1e6; 3]), (210, [1e6; 3]), (150, [1e6; 3]), (30, [1e6; 3]), (33, [1e6; 3])];
        assert_eq!(strays(&[moved(20, &fifth)]), None);
        // too few to tell
        assert_eq!(strays(&[moved(3, &[(8, [1e6; 3])])]), None);
    }

    #[test]
    fn long_and_flat_halls_have_no_strays() {
        let mut corridor = grid(0, 20, 1.0);
        corridor.positions.as_mut().unwrap().iter_mut().for_each(|position| position[0] *= 1e6);
        assert_eq!(strays(&[corridor]), None);
        let mut line = grid(0, 20, 1.0);
        line.positions.as_mut().unwrap().iter_mut().for_each(|position| position[0] = 7.0);
        assert_eq!(strays(&[line]), None);
        assert_eq!(strays(&[Made::new(0, &[[1.0; 3]; 20], &(0..18).collect::<Vec<_>>())]), None);
    }

    /// A fine instrument of half a metre in a hall of few vertices: the hall is no stray, and a vertex far beyond it is.
    #[test]
    fn a_hall_around_something_small_is_no_stray() {
        let mut walls = grid(1, 2, 30.0);
        walls.positions.as_mut().unwrap().iter_mut().for_each(|[x, y, _]| (*x, *y) = (*x - 15.0, *y - 15.0));
        let fine = grid(0, 40, 0.5);
        assert_eq!(strays(&[fine.clone(), walls.clone()]), None);
        let mut broken = fine;
        broken.positions.as_mut().unwrap()[77] = [1e6; 3];
        assert_eq!(strays(&[walls, broken]), Some(("model 0 geometry 1".to_string(), 77, 1)));
    }
}
