//! A hall that can be edited.

use crate::calls::{self, Given, Told};
use crate::lend::{lend, ALLOCATION_LIMIT};
use crate::{
    explain, hall_check, DrawableGeometry, DrawableModel, Models, Place, Refusal, Sections, UnifiedVertex, VertexAttribute,
    VertexAttributeValue, VertexDeclaration, VertexSemantic,
};
use std::fmt;

/// A hall: models and their geometries, in which every count agrees and every triangle has three different indices (checks 11 to 19 and 27).
///
/// It owns the list's bytes. Every edit is judged before a byte is written, so a `Hall` is sound at every moment, and a refused call leaves it as it was.
/// Its buffer grows as edits need it. Two halls are equal when their lists are.
///
/// ```
/// use calicofern::{Hall, NewGeometry, VertexAttributeValue, VertexDeclaration, VertexSemantic};
///
/// let floor: Vec<u8> = [[0.0f32, 0.0, 0.0], [20.0, 0.0, 0.0], [0.0, 32.0, 0.0]].as_flattened().iter().flat_map(|f| f.to_le_bytes()).collect();
/// let mut hall = Hall::new();
/// hall.add_model(0, 0xFF)?;
/// hall.add_geometry(NewGeometry {
///     shader_id: 5,
///     declaration: VertexDeclaration::position_only(12),
///     vertex_stride: 12,
///     vertex_count: 3,
///     vertices: &floor,
///     indices: &[0, 1, 2],
/// })?;
/// hall.set_attribute(0, 0, 1, VertexSemantic::Position, VertexAttributeValue::Float3([22.0, 0.0, 0.0]))?;
/// assert_eq!(hall.unified_vertices(0, 0)?[1].position, [22.0, 0.0, 0.0]);
/// assert_eq!(hall.list().len(), 127);
///
/// let refusal = hall.replace_indices(0, 0, &[0, 1, 3]).unwrap_err();
/// assert_eq!(refusal.number(), 18);
/// let refusal = hall.replace_indices(0, 0, &[0, 1, 0]).unwrap_err();
/// assert_eq!(refusal.number(), 27);
/// assert_eq!(hall.geometry(0, 0).unwrap().triangles().next(), Some([0, 1, 2]));
/// # Ok::<(), calicofern::Refusal>(())
/// ```
#[derive(Clone, Default)]
pub struct Hall {
    /// Lent to the library as a whole. The hall is its first `n` bytes.
    buffer: Vec<u8>,
    n: usize,
}

/// A geometry to be added: what it is made of. Its counts of indices and triangles follow from its indices.
#[derive(Debug, Clone, Copy, PartialEq, Eq, Hash)]
pub struct NewGeometry<'a> {
    /// Its shader id.
    pub shader_id: u16,
    /// What each vertex has. Its stride must be the vertices'.
    pub declaration: VertexDeclaration,
    /// The bytes from one vertex to the next.
    pub vertex_stride: u16,
    /// The number of vertices, 1 to 65,535. Fewer than three make no triangle.
    pub vertex_count: u32,
    /// The bytes of the vertices: count times stride.
    pub vertices: &'a [u8],
    /// Three for each triangle, each below the number of vertices, and no two of a triangle equal.
    pub indices: &'a [u32],
}

impl Hall {
    /// A hall without models.
    pub fn new() -> Self {
        Hall::default()
    }

    /// The hall behind the LOD header at an address: [`Hall::take_in`] of a new one.
    ///
    /// ```
    /// use calicofern::{Hall, Sections};
    /// # let system = std::fs::read(concat!(env!("CARGO_MANIFEST_DIR"), "/samples/shoebox.system")).unwrap();
    /// let hall = Hall::from_sections(&Sections::new(&system, &[]), Sections::SYSTEM)?;
    /// assert_eq!(hall.models().count(), 2);
    /// # Ok::<(), calicofern::Refusal>(())
    /// ```
    pub fn from_sections(sections: &Sections<'_>, at: u64) -> Result<Self, Refusal> {
        let mut hall = Hall::new();
        hall.take_in(sections, at)?;
        Ok(hall)
    }

    /// The same with a limit of one's own: check 24 refuses a hall that has more bytes, and no more than these are allocated for it.
    ///
    /// ```
    /// use calicofern::{Check, Hall, Sections};
    /// # let system = std::fs::read(concat!(env!("CARGO_MANIFEST_DIR"), "/samples/shoebox.system")).unwrap();
    /// let refusal = Hall::from_sections_within(&Sections::new(&system, &[]), Sections::SYSTEM, 10_000).unwrap_err();
    /// assert_eq!(refusal.check(), Check::HallBuffer);
    /// assert!(refusal.to_string().ends_with(": 17397 bytes are needed, and the limit is 10000"));
    /// ```
    pub fn from_sections_within(sections: &Sections<'_>, at: u64, limit: usize) -> Result<Self, Refusal> {
        let made = lend(limit, |hall| {
            let lent = hall.len();
            Refusal::told(calls::take_in(hall, 0, sections.system, sections.graphics, at), lent)
        });
        let list = made.map_err(|refusal| explain::taking_in(refusal, sections, at, limit))?;
        Ok(Hall { n: list.len(), buffer: list })
    }

    /// A hall of a list that is at hand, such as a file written earlier. Refused by checks 11 to 19 and 27.
    ///
    /// ```
    /// use calicofern::Hall;
    /// assert_eq!(Hall::from_list(Vec::new())?, Hall::new());
    /// assert_eq!(Hall::from_list(vec![6, 0, 0]).unwrap_err().number(), 11);
    /// # Ok::<(), calicofern::Refusal>(())
    /// ```
    pub fn from_list(list: Vec<u8>) -> Result<Self, Refusal> {
        hall_check(&list)?;
        Ok(Hall { n: list.len(), buffer: list })
    }

    /// The hall as a list: records of body length u32, kind u16, body.
    pub fn list(&self) -> &[u8] {
        self.buffer.get(..self.n).unwrap_or_default()
    }

    /// The same, without a copy.
    pub fn into_list(mut self) -> Vec<u8> {
        self.buffer.truncate(self.n);
        self.buffer
    }

    /// Its models, in order.
    pub fn models(&self) -> Models<'_> {
        Models::of(self.list())
    }

    /// The model with a number, counted from 0.
    pub fn model(&self, model: u64) -> Option<DrawableModel<'_>> {
        self.models().nth(usize::try_from(model).ok()?)
    }

    /// The geometry with a number of a model, both counted from 0. It has a declaration, vertices and indices: every geometry of a hall does.
    pub fn geometry(&self, model: u64, geometry: u64) -> Option<DrawableGeometry<'_>> {
        self.model(model)?.geometries().nth(usize::try_from(geometry).ok()?)
    }

    /// Every geometry of every model, with the numbers of both.
    ///
    /// ```
    /// use calicofern::{Hall, Sections};
    /// # let system = std::fs::read(concat!(env!("CARGO_MANIFEST_DIR"), "/samples/shoebox.system")).unwrap();
    /// let hall = Hall::from_sections(&Sections::new(&system, &[]), Sections::SYSTEM)?;
    /// let numbers: Vec<(u64, u64)> = hall.geometries().map(|(model, geometry, _)| (model, geometry)).collect();
    /// assert_eq!(numbers, [(0, 0), (0, 1), (0, 2), (1, 0), (1, 1), (1, 2), (1, 3)]);
    /// # Ok::<(), calicofern::Refusal>(())
    /// ```
    pub fn geometries(&self) -> impl Iterator<Item = (u64, u64, DrawableGeometry<'_>)> + Clone {
        self.models().geometries()
    }

    /// The triangles of all geometries.
    pub fn triangle_count(&self) -> u64 {
        calls::triangle_count(self.list())
    }

    /// What a vertex has, in the order of the declaration. Refused by check 21 where there is no such model, geometry or vertex.
    pub fn attributes(&self, model: u64, geometry: u64, vertex: u64) -> Result<Vec<VertexAttribute>, Refusal> {
        let place = Place { model, geometry: Some(geometry), vertex: Some(vertex) };
        let found = self.geometry(model, geometry).and_then(|geometry| geometry.vertex_buffer);
        match found {
            Some(vertices) if vertex < u64::from(vertices.vertex_count) => vertices.read_vertex_attributes(vertex),
            _ => Err(explain::absent(self.list(), place)),
        }
    }

    /// All vertices of a geometry in one form. Refused by check 21 where there is no such model or geometry.
    pub fn unified_vertices(&self, model: u64, geometry: u64) -> Result<Vec<UnifiedVertex>, Refusal> {
        let place = Place { model, geometry: Some(geometry), vertex: None };
        let found = self.geometry(model, geometry).and_then(|geometry| geometry.vertex_buffer);
        found.ok_or_else(|| explain::absent(self.list(), place))?.to_unified_vertices()
    }

    /// Adds a model without geometries at the end.
    ///
    /// Refused by check 13 where there are 256 models, by 19 where the hall would be too large to be saved.
    pub fn add_model(&mut self, skeleton_binding: u32, render_mask_flags: u16) -> Result<(), Refusal> {
        let done = self.edit(|hall, n| calls::add_model(hall, n, skeleton_binding, render_mask_flags));
        done.map_err(|refusal| explain::adding_model(refusal, self.list()))
    }

    /// Adds a geometry at the end of the last model.
    ///
    /// Refused by check 21 where there is no model; by 11 where the vertices' bytes are not count times stride; by 13 where there are 16,384 geometries; by
    /// 14 to 18 and 27 where the geometry's own numbers are at fault; by 19 where the hall would be too large to be saved.
    pub fn add_geometry(&mut self, geometry: NewGeometry<'_>) -> Result<(), Refusal> {
        let given = Given {
            shader: geometry.shader_id,
            flags: geometry.declaration.flags,
            declared_stride: geometry.declaration.stride,
            unknown_6h: geometry.declaration.unknown_6h,
            declared_count: geometry.declaration.count,
            types: geometry.declaration.types,
            stride: geometry.vertex_stride,
            count: geometry.vertex_count,
            content: geometry.vertices,
            indices: geometry.indices,
        };
        let done = self.edit(|hall, n| calls::add_geometry(hall, n, given));
        done.map_err(|refusal| explain::adding_geometry(refusal, self.list(), &geometry))
    }

    /// Removes a geometry; later ones of its model get the number before. Refused by check 21 where there is no such model or geometry.
    pub fn remove_geometry(&mut self, model: u64, geometry: u64) -> Result<(), Refusal> {
        let done = self.edit(|hall, n| calls::remove_geometry(hall, n, model, geometry));
        let place = Place { model, geometry: Some(geometry), vertex: None };
        done.map_err(|refusal| explain::removing(refusal, self.list(), place))
    }

    /// Removes a model with its geometries; later ones get the number before. Refused by check 21 where there is no such model.
    ///
    /// ```
    /// use calicofern::Hall;
    /// let mut hall = Hall::new();
    /// hall.add_model(0, 1)?;
    /// hall.add_model(0, 2)?;
    /// hall.remove_model(0)?;
    /// assert_eq!(hall.models().next().unwrap().render_mask_flags, 2);
    /// assert_eq!(hall.remove_model(1).unwrap_err().number(), 21);
    /// # Ok::<(), calicofern::Refusal>(())
    /// ```
    pub fn remove_model(&mut self, model: u64) -> Result<(), Refusal> {
        let done = self.edit(|hall, n| calls::remove_model(hall, n, model));
        let place = Place { model, geometry: None, vertex: None };
        done.map_err(|refusal| explain::removing(refusal, self.list(), place))
    }

    /// Sets an attribute of one vertex; no other byte of the hall changes. The value is stored as the attribute's type stores it: halves are the nearest, of
    /// two the even one, and signed bytes are clamped and cut.
    ///
    /// Refused by check 21 where there is no such vertex, by 22 where the vertices have no such attribute, by 23 where the value has another number of floats
    /// than its type, or bytes for floats. Whether the value's name is the type's is not looked at: two floats may be given as `Float2` to a `Half2`.
    pub fn set_attribute(
        &mut self,
        model: u64,
        geometry: u64,
        vertex: u64,
        semantic: VertexSemantic,
        value: VertexAttributeValue,
    ) -> Result<(), Refusal> {
        let (shape, numbers) = value.passed();
        let target = [model, geometry, vertex, u64::from(semantic.index())];
        let done = self.edit(|hall, n| calls::set_attribute(hall, n, target, shape, numbers));
        let place = Place { model, geometry: Some(geometry), vertex: Some(vertex) };
        done.map_err(|refusal| explain::setting(refusal, self.list(), place, semantic, &value))
    }

    /// Replaces all indices of a geometry, and with them its counts of indices and triangles.
    ///
    /// Refused by check 21 where there is no such model or geometry; by 17 where the indices are not three for each triangle, or none; by 18 where one is not
    /// below the number of vertices; by 27 where two of a triangle are equal; by 19 where the hall would be too large to be saved.
    pub fn replace_indices(&mut self, model: u64, geometry: u64, indices: &[u32]) -> Result<(), Refusal> {
        let done = self.edit(|hall, n| calls::replace_indices(hall, n, model, geometry, indices));
        let place = Place { model, geometry: Some(geometry), vertex: None };
        done.map_err(|refusal| explain::replacing(refusal, self.list(), place, indices))
    }

    /// The hall becomes what two sections hold behind the LOD header at an address. What it held before is gone.
    ///
    /// Vertices without a declaration get a position of three floats, every layout becomes Legacy, and mappings are made of the shader ids. A header that
    /// is not inside its section has no models.
    ///
    /// Refused by checks 1 to 6 as [`Sections::hall_list`], and by 11 to 19 and 27 where what is there is no hall; 11 where a geometry lacks
    /// vertices or indices.
    pub fn take_in(&mut self, sections: &Sections<'_>, at: u64) -> Result<(), Refusal> {
        let done = self.edit(|hall, n| calls::take_in(hall, n, sections.system, sections.graphics, at));
        done.map_err(|refusal| explain::taking_in(refusal, sections, at, ALLOCATION_LIMIT))
    }

    /// The hall as a drawable's system section, its LOD header at [`Sections::SYSTEM`] and the graphics section empty. Taken in from there, it is the same
    /// hall again.
    ///
    /// Refused by check 20 only where that much memory, at most 64 MiB, cannot be had.
    ///
    /// ```
    /// use calicofern::{Hall, Sections};
    /// # let system = std::fs::read(concat!(env!("CARGO_MANIFEST_DIR"), "/samples/shoebox.system")).unwrap();
    /// let hall = Hall::from_sections(&Sections::new(&system, &[]), Sections::SYSTEM)?;
    /// let image = hall.save()?;
    /// assert_eq!(Hall::from_sections(&Sections::new(&image, &[]), Sections::SYSTEM)?, hall);
    /// assert_eq!(Hall::new().save()?, [0; 16]);
    /// # Ok::<(), calicofern::Refusal>(())
    /// ```
    pub fn save(&self) -> Result<Vec<u8>, Refusal> {
        lend(ALLOCATION_LIMIT, |out| self.save_into(out))
    }

    /// The same into the first bytes of a lent buffer, and how many they are. The bytes behind them are left as they were.
    ///
    /// Refused by check 20, with the bytes needed, where the buffer is too short.
    pub fn save_into(&self, out: &mut [u8]) -> Result<usize, Refusal> {
        let lent = out.len();
        Refusal::told(calls::save(&self.buffer, self.n, out), lent)
    }

    /// One call of the library. Where the buffer is too short, it is made longer and the call is tried again; so check 24 is seen only where that much memory
    /// cannot be had.
    fn edit(&mut self, call: impl Fn(&mut [u8], usize) -> Told) -> Result<(), Refusal> {
        let mut done = self.call(&call);
        if let Err(refusal) = done {
            if self.grow(&refusal) {
                done = self.call(&call);
            }
        }
        self.n = done?;
        Ok(())
    }

    fn call(&mut self, call: impl Fn(&mut [u8], usize) -> Told) -> Result<usize, Refusal> {
        let lent = self.buffer.len();
        Refusal::told(call(&mut self.buffer, self.n), lent)
    }

    /// Makes the buffer at least as long as the refused call needs; whether it did.
    fn grow(&mut self, refusal: &Refusal) -> bool {
        let Some(needed) = refusal.needed().and_then(|needed| usize::try_from(needed).ok()) else {
            return false;
        };
        if self.buffer.try_reserve(needed.saturating_sub(self.buffer.len())).is_err() {
            return false;
        }
        // all that was reserved, so that many small edits seldom ask for more
        self.buffer.resize(self.buffer.capacity(), 0);
        true
    }
}

impl PartialEq for Hall {
    fn eq(&self, other: &Self) -> bool {
        self.list() == other.list()
    }
}

impl Eq for Hall {}

impl std::hash::Hash for Hall {
    fn hash<H: std::hash::Hasher>(&self, state: &mut H) {
        self.list().hash(state);
    }
}

impl fmt::Debug for Hall {
    fn fmt(&self, out: &mut fmt::Formatter<'_>) -> fmt::Result {
        let geometries = self.geometries().count();
        write!(out, "Hall {{ models: {}, geometries: {geometries}, bytes: {} }}", self.models().count(), self.n)
    }
}

#[cfg(test)]
mod tests {
    use super::*;

    const GIVEN: Given<'_> = Given {
        shader: 5,
        flags: 1,
        declared_stride: 12,
        unknown_6h: 0,
        declared_count: 1,
        types: 6,
        stride: 12,
        count: 3,
        content: &[0; 36],
        indices: &[0, 1, 2],
    };

    const REFUSED: Told = Told { check: 27, size: 0 };

    /// The list of a hall of one triangle, which is as long as its buffer.
    fn sound() -> Vec<u8> {
        let mut hall = Hall::new();
        hall.edit(|hall, n| calls::add_model(hall, n, 0, 0)).unwrap();
        hall.edit(|hall, n| calls::add_geometry(hall, n, GIVEN)).unwrap();
        hall.into_list()
    }

    /// A call on a list: its answer, which changes no byte.
    fn refused(list: &[u8], call: impl Fn(&mut [u8], usize) -> Told) -> Told {
        let mut buffer = list.to_vec();
        let told = call(&mut buffer, list.len());
        assert_eq!(buffer, list);
        told
    }

    /// Lists written before check 27 was asked may have such triangles.
    #[test]
    fn an_old_hall_with_a_degenerate_triangle_is_refused_by_every_call() {
        let image = Hall::from_list(sound()).unwrap().save().unwrap();
        for (at, value) in [(115, 1), (119, 0), (119, 2), (123, 0), (123, 1)] {
            let mut old = sound();
            old[at] = value;
            assert_eq!(refused(&old, |hall, n| calls::add_model(hall, n, 0, 0)), REFUSED);
            assert_eq!(refused(&old, |hall, n| calls::add_geometry(hall, n, GIVEN)), REFUSED);
            // the calls that would leave a sound hall, too
            assert_eq!(refused(&old, |hall, n| calls::remove_geometry(hall, n, 0, 0)), REFUSED);
            assert_eq!(refused(&old, |hall, n| calls::remove_model(hall, n, 0)), REFUSED);
            assert_eq!(refused(&old, |hall, n| calls::set_attribute(hall, n, [0; 4], 3, [0; 4])), REFUSED);
            assert_eq!(refused(&old, |hall, n| calls::replace_indices(hall, n, 0, 0, &[0, 1, 2])), REFUSED);
            assert_eq!(refused(&old, |hall, n| calls::take_in(hall, n, &image, &[], Sections::SYSTEM)), REFUSED);
            let mut out = [7; 600];
            assert_eq!((calls::save(&old, old.len(), &mut out), out), (REFUSED, [7; 600]));
            // before anything that is asked of the arguments
            assert_eq!(refused(&old, |hall, n| calls::remove_model(hall, n, 9)), REFUSED);
            // it can still be looked at
            assert_eq!((calls::triangle_count(&old), Models::of(&old).count()), (1, 1));
        }
    }

    /// The library looks at up to 64 triangles at once: a degenerate one is seen wherever it stands, and an index out of range before it or behind it is told
    /// first. Triangles beside each other have equal indices throughout.
    #[test]
    fn given_triangles_are_asked_wherever_they_stand() {
        let list = sound();
        for count in [1, 2, 63, 64, 65, 128, 129, 200] {
            let given = |at: usize, triangle: [u32; 3], beyond: Option<usize>| {
                let mut triangles: Vec<[u32; 3]> = [[0, 1, 2], [2, 1, 0]].into_iter().cycle().take(count).collect();
                triangles[at] = triangle;
                beyond.into_iter().for_each(|at| triangles[at][at % 3] = 3);
                let indices = triangles.concat();
                let added = refused(&list, |hall, n| calls::add_geometry(hall, n, Given { indices: &indices, ..GIVEN }));
                let replaced = refused(&list, |hall, n| calls::replace_indices(hall, n, 0, 0, &indices));
                (added.check, replaced.check)
            };
            for at in 0..count {
                for triangle in [[0, 0, 1], [0, 1, 1], [1, 0, 1], [2, 2, 2]] {
                    assert_eq!(given(at, triangle, None), (27, 27), "{triangle:?} at {at} of {count}");
                    for beyond in [0, count / 2, count - 1].into_iter().filter(|beyond| *beyond != at) {
                        assert_eq!(given(at, triangle, Some(beyond)), (18, 18), "{triangle:?} at {at} of {count}, beyond {beyond}");
                    }
                }
            }
            // sound ones have no room
            if count > 1 {
                assert_eq!(given(0, [1, 2, 0], None), (24, 24), "{count}");
            }
        }
    }

    /// The buffer has no byte for a longer hall, so check 24 would be next.
    #[test]
    fn a_degenerate_triangle_comes_before_the_room_for_it() {
        let list = sound();
        for indices in [[0, 0, 1], [0, 1, 1], [1, 0, 1], [2, 2, 2]] {
            let longer = [&[0, 1, 2], &indices[..]].concat();
            let given = Given { indices: &longer, ..GIVEN };
            assert_eq!(refused(&list, |hall, n| calls::add_geometry(hall, n, given)), REFUSED);
            assert_eq!(refused(&list, |hall, n| calls::replace_indices(hall, n, 0, 0, &longer)), REFUSED);
        }
        let room = |given: Given<'_>| refused(&list, |hall, n| calls::add_geometry(hall, n, given));
        assert_eq!(room(GIVEN), Told { check: 24, size: 127 + 2 + 65 + 36 + 12 });
        assert_eq!(room(Given { indices: &[0, 0, 1, 0, 1, 3], ..GIVEN }), Told { check: 18, size: 0 });
        // its last 16 bytes are the indices
        let mut image = Hall::from_list(list.clone()).unwrap().save().unwrap();
        let taken_in = |image: &[u8]| refused(&[], |hall, n| calls::take_in(hall, n, image, &[], Sections::SYSTEM));
        assert_eq!(taken_in(&image), Told { check: 24, size: 127 });
        let last = image.len() - 12;
        image[last] = 0;
        assert_eq!(taken_in(&image), REFUSED);
        // the reader does not ask
        assert_eq!(calls::hall_list(&image, &[], Sections::SYSTEM, &mut [0; 127]), Told { check: 0, size: 127 });
    }
}
