//! Numbers of a drawable that ought to agree.

use crate::{Check, DrawableGeometry};
use std::fmt;

/// Two numbers of a model or a geometry that ought to agree and do not.
#[derive(Debug, Clone, Copy, PartialEq, Eq, PartialOrd, Ord, Hash)]
#[non_exhaustive]
pub struct Disagreement {
    /// The check of a sound hall that the pair would fail, 11 to 18 or 27; `None` where no check asks.
    pub check: Option<Check>,
    /// What the one is, and its value.
    pub one: (&'static str, u64),
    /// What the other is, and its value.
    pub other: (&'static str, u64),
}

impl fmt::Display for Disagreement {
    fn fmt(&self, out: &mut fmt::Formatter<'_>) -> fmt::Result {
        let ((one, first), (other, second)) = (self.one, self.other);
        write!(out, "{one} {first}, but {other} {second}")?;
        match self.check {
            Some(check) => write!(out, " ({check} of a sound hall)"),
            None => write!(out, " (not looked at in reading)"),
        }
    }
}

type Number = (&'static str, u64);

/// The pair, where its numbers differ.
pub fn equal(check: Check, one: Number, other: Number) -> Option<Disagreement> {
    (one.1 != other.1).then_some(Disagreement { check: Some(check), one, other })
}

/// The pair, where the first number is greater.
fn at_most(check: Check, one: Number, other: Number) -> Option<Disagreement> {
    (one.1 > other.1).then_some(Disagreement { check: Some(check), one, other })
}

pub fn geometry_disagreements(geometry: &DrawableGeometry<'_>) -> Vec<Disagreement> {
    let mut found = index_disagreements(geometry);
    found.extend(highest_disagreement(geometry));
    found.extend(degenerate_disagreement(geometry));
    found.extend(vertex_disagreements(geometry));
    found.extend(declaration_disagreements(geometry));
    found
}

/// The first pair that fails one of checks 11 and 14 to 17, for which no index has to be looked at.
pub fn count_disagreement(check: Check, geometry: &DrawableGeometry<'_>) -> Option<Disagreement> {
    let found = [index_disagreements(geometry), vertex_disagreements(geometry), declaration_disagreements(geometry)];
    found.into_iter().flatten().find(|pair| pair.check == Some(check))
}

fn index_disagreements(geometry: &DrawableGeometry<'_>) -> Vec<Disagreement> {
    let stored = ("index count", u64::from(geometry.indices_count));
    let triangles = ("3 x triangle count", 3 * u64::from(geometry.triangles_count));
    let mut found = vec![equal(Check::IndexCounts, stored, triangles)];
    match geometry.index_buffer {
        Some(buffer) => {
            let count = ("count of the index block", u64::from(buffer.indices_count));
            let held = ("indices found", buffer.indices().len() as u64);
            found.push(equal(Check::IndexCounts, stored, count));
            found.push(equal(Check::IndexCounts, count, held));
        }
        None => found.push(equal(Check::Records, stored, ("indices found", 0))),
    }
    found.into_iter().flatten().collect()
}

fn highest_disagreement(geometry: &DrawableGeometry<'_>) -> Option<Disagreement> {
    let needed = ("highest index + 1", u64::from(geometry.index_buffer?.indices().max()?) + 1);
    at_most(Check::IndexRange, needed, ("vertices found", u64::from(geometry.vertex_buffer?.vertex_count)))
}

/// Whether two of a triangle's indices are equal.
pub fn is_degenerate([a, b, c]: &[u32; 3]) -> bool {
    a == b || b == c || a == c
}

fn degenerate_disagreement(geometry: &DrawableGeometry<'_>) -> Option<Disagreement> {
    let found = ("triangles found", geometry.triangles().len() as u64);
    let sound = geometry.triangles().filter(|corners| !is_degenerate(corners)).count();
    equal(Check::DegenerateTriangle, found, ("triangles of three different indices", sound as u64))
}

fn vertex_disagreements(geometry: &DrawableGeometry<'_>) -> Vec<Disagreement> {
    let stored = ("vertex count", u64::from(geometry.vertices_count));
    let stride = ("stride", u64::from(geometry.vertex_stride));
    match geometry.vertex_buffer {
        Some(vertices) => {
            let count = ("vertices found", u64::from(vertices.vertex_count));
            let buffer = ("stride of the vertices found", u64::from(vertices.vertex_stride));
            [equal(Check::VertexCount, stored, count), equal(Check::Strides, stride, buffer)].into_iter().flatten().collect()
        }
        None => equal(Check::Records, stored, ("vertices found", 0)).into_iter().collect(),
    }
}

fn declaration_disagreements(geometry: &DrawableGeometry<'_>) -> Vec<Disagreement> {
    let Some(vertices) = geometry.vertex_buffer else {
        return Vec::new();
    };
    let stride = ("stride of the vertices found", u64::from(vertices.vertex_stride));
    let declaration = vertices.declaration_or_position_only();
    let size = ("bytes of the components", u64::from(declaration.size_in_bytes()));
    let mut found = vec![at_most(Check::Declaration, size, stride)];
    if geometry.declaration.is_some() {
        found.push(equal(Check::Strides, stride, ("stride of the declaration", u64::from(declaration.stride))));
        let one = ("count of the declaration", u64::from(declaration.count));
        let other = ("components", declaration.components().len() as u64);
        found.push((one.1 != other.1).then_some(Disagreement { check: None, one, other }));
    }
    found.into_iter().flatten().collect()
}

#[cfg(test)]
mod tests {
    use crate::{Check, Models};

    fn record(kind: u8, body: &[u8]) -> Vec<u8> {
        [&[body.len() as u8, 0, 0, 0, kind, 0], body].concat()
    }

    /// One model, one geometry, three Float3 positions, three indices.
    fn sound() -> Vec<u8> {
        let declaration = [1, 0, 0, 0, 12, 0, 0, 1, 6, 0, 0, 0, 0, 0, 0, 0];
        let vertices = [&[0, 12, 0, 3, 0, 0, 0][..], &[0; 36]].concat();
        let records = [
            record(1, &[0, 0, 0, 0, 0, 0, 5, 0]),
            record(2, &[5, 0, 3, 0, 0, 0, 1, 0, 0, 0, 3, 0, 12, 0]),
            record(3, &declaration),
            record(4, &vertices),
            record(5, &[3, 0, 0, 0, 0, 0, 0, 0, 1, 0, 0, 0, 2, 0, 0, 0]),
        ];
        records.concat()
    }

    /// The checks of the pairs that disagree in a list.
    fn checks(list: &[u8]) -> Vec<Option<u8>> {
        let model = Models::of(list).next().unwrap();
        let geometry = model.geometries().next().unwrap();
        model.disagreements().iter().chain(&geometry.disagreements()).map(|pair| pair.check.map(Check::number)).collect()
    }

    #[test]
    fn each_number_is_held_to_the_others() {
        assert_eq!(sound().len(), 127);
        assert_eq!(checks(&sound()), []);
        let changes: [(&str, usize, u8, &[Option<u8>]); 15] = [
            ("index count", 22, 6, &[Some(17), Some(17)]),
            ("triangle count", 26, 2, &[Some(17)]),
            ("vertex count", 30, 4, &[Some(16)]),
            ("stride", 32, 13, &[Some(14)]),
            ("stride of the declaration", 44, 13, &[Some(14)]),
            ("count of the declaration", 47, 2, &[None]),
            ("type of the position: 16 bytes", 48, 7, &[Some(15)]),
            ("stride of the vertices", 63, 11, &[Some(14), Some(15), Some(14)]),
            ("count of the vertices", 65, 4, &[Some(16)]),
            ("count of the index block", 111, 4, &[Some(17), Some(17)]),
            ("an index", 119, 3, &[Some(18)]),
            ("the second index, now the first", 119, 0, &[Some(27)]),
            ("the second index, now the third", 119, 2, &[Some(27)]),
            ("the third index, now the first", 123, 0, &[Some(27)]),
            // the fourth byte of an index: beyond the vertices, and different from the others
            ("the third index, far beyond", 126, 1, &[Some(18)]),
        ];
        for (what, at, value, expected) in changes {
            let mut list = sound();
            list[at] = value;
            assert_eq!(checks(&list), expected, "{what}");
        }
    }

    #[test]
    fn parts_that_are_missing_have_no_numbers() {
        let whole = sound();
        assert_eq!(checks(&whole[..105]), [Some(11)]);
        assert_eq!(checks(&whole[..56]), [Some(11), Some(11)]);
        // a mapping of two entries
        let longer = [record(1, &[0, 0, 0, 0, 0, 0, 5, 0, 6, 0]), whole[14..].to_vec()].concat();
        assert_eq!(checks(&longer), [Some(12)]);
    }
}
