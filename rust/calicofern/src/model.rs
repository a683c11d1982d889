//! The models of a list.

use crate::bytes::{u16_at, u32_at};
use crate::disagreement::{equal, Disagreement};
use crate::record::{Records, MODEL};
use crate::{calls, Check, DrawableGeometry, Geometries};

/// The models of a list, in order.
#[derive(Debug, Clone)]
pub struct Models<'a> {
    rest: Records<'a>,
}

impl<'a> Models<'a> {
    /// The models in a list's bytes. Any bytes will do: a record that is not whole ends the list.
    pub fn of(list: &'a [u8]) -> Self {
        Models { rest: Records::of(list) }
    }

    /// Every geometry of every model, with the numbers of both, counted from 0.
    pub fn geometries(self) -> impl Iterator<Item = (u64, u64, DrawableGeometry<'a>)> + Clone {
        self.zip(0..).flat_map(|(model, number)| model.geometries().zip(0..).map(move |(geometry, place)| (number, place, geometry)))
    }
}

impl<'a> Iterator for Models<'a> {
    type Item = DrawableModel<'a>;

    fn next(&mut self) -> Option<DrawableModel<'a>> {
        self.rest.split_before(&[MODEL]);
        let model = self.rest.next()?;
        Some(DrawableModel {
            skeleton_binding: u32_at(model.body, 0),
            render_mask_flags: u16_at(model.body, 4),
            mapping: model.body.get(6..).unwrap_or_default(),
            parts: self.rest.split_before(&[MODEL]),
        })
    }
}

/// A model of a list.
#[derive(Debug, Clone, Copy)]
pub struct DrawableModel<'a> {
    /// How it is bound to a skeleton.
    pub skeleton_binding: u32,
    /// In which passes it is drawn.
    pub render_mask_flags: u16,
    mapping: &'a [u8],
    parts: Records<'a>,
}

impl<'a> DrawableModel<'a> {
    /// The shader ids of its geometry pointers, one for each; empty where they were not found.
    pub fn shader_mapping(&self) -> impl ExactSizeIterator<Item = u16> + 'a {
        self.mapping.chunks_exact(2).map(|entry| u16_at(entry, 0))
    }

    /// Its geometries, in order.
    pub fn geometries(&self) -> Geometries<'a> {
        Geometries::of(self.parts)
    }

    /// The bone that it hangs off.
    ///
    /// ```
    /// # let system = std::fs::read(concat!(env!("CARGO_MANIFEST_DIR"), "/samples/layouts.system")).unwrap();
    /// # let graphics = std::fs::read(concat!(env!("CARGO_MANIFEST_DIR"), "/samples/layouts.graphics")).unwrap();
    /// use calicofern::Sections;
    /// let hall = Sections::new(&system, &graphics).hall_list(Sections::SYSTEM)?;
    /// let model = hall.models().next().unwrap();
    /// assert_eq!((model.skeleton_binding, model.bone_index(), model.is_skinned()), (0x0200_0100, 2, true));
    /// # Ok::<(), calicofern::Refusal>(())
    /// ```
    pub fn bone_index(&self) -> u8 {
        calls::bone_index(self.skeleton_binding)
    }

    /// Whether its vertices are bound to several bones.
    pub fn is_skinned(&self) -> bool {
        calls::is_skinned(self.skeleton_binding)
    }

    /// The numbers of the model itself that disagree: those of its geometries are theirs ([`crate::DrawableGeometry::disagreements`]).
    pub fn disagreements(&self) -> Vec<Disagreement> {
        let entries = self.shader_mapping().len() as u64;
        equal(Check::Mapping, ("shader mapping entries", entries), ("geometries", self.geometries().count() as u64)).into_iter().collect()
    }
}
