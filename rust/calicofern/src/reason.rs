//! Why a list is no hall: looked for after the library said by which check it is none.

use crate::detail::Detail;
use crate::disagreement::{count_disagreement, is_degenerate};
use crate::outline::Outline;
use crate::{Check, DrawableGeometry, DrawableModel, Models, Place, Refusal, VertexBufferLayout};

/// The refusal of a list by a check, with the first place that fails that very check and the numbers that disagree there. A list that is not ordered has
/// no numbers; checks 13 and 19 are about the whole.
pub fn of_list(check: Check, list: &[u8]) -> Refusal {
    match check {
        Check::Limits => counts(&Outline::of(list)),
        Check::ImageLength => image(&Outline::of(list)),
        Check::Mapping => first(check, list, of_model),
        _ => of_geometries(check, list, |geometry| geometry),
    }
}

/// The same for a list that was read from sections, of which a hall was to be made: layouts become Legacy, vertices without a declaration get one of a
/// position, and mappings are made of the shader ids.
pub fn of_reading(check: Check, list: &[u8]) -> Refusal {
    match check {
        Check::Mapping => Refusal::of(check),
        Check::Strides | Check::Declaration | Check::VertexCount | Check::IndexCounts | Check::IndexRange | Check::DegenerateTriangle => {
            of_geometries(check, list, taken_in)
        }
        _ => of_list(check, list),
    }
}

/// Check 13 of a hall that would have this outline.
pub fn counts(outline: &Outline) -> Refusal {
    let detail = Detail::Counts { models: outline.models.len() as u64, geometries: outline.geometries() as u64 };
    Refusal::of(Check::Limits).because(detail)
}

/// Check 19 of a hall that would have this outline.
pub fn image(outline: &Outline) -> Refusal {
    let refusal = Refusal::of(Check::ImageLength);
    u64::try_from(outline.image_length()).map_or(refusal, |bytes| refusal.because(Detail::Image { bytes }))
}

/// The first of some indices that is not below the number of vertices.
pub fn index_of(indices: impl Iterator<Item = u32>, vertices: u64) -> Option<Detail> {
    let found = indices.zip(0..).find(|(index, _)| u64::from(*index) >= vertices);
    found.map(|(index, at)| Detail::Index { at, index, vertices })
}

/// The first of some triangles that has two equal indices.
pub fn triangle_of(triangles: impl Iterator<Item = [u32; 3]>) -> Option<Detail> {
    triangles.zip(0..).find(|(corners, _)| is_degenerate(corners)).map(|(corners, at)| Detail::Triangle { at, corners })
}

/// A geometry as a hall would have it.
fn taken_in(mut geometry: DrawableGeometry<'_>) -> DrawableGeometry<'_> {
    if let Some(vertices) = &mut geometry.vertex_buffer {
        geometry.declaration = Some(vertices.declaration_or_position_only());
        vertices.declaration = geometry.declaration;
        vertices.layout = VertexBufferLayout::Legacy;
    }
    geometry
}

/// What is wrong with a model, and in which of its geometries.
type Found = (Option<u64>, Detail);

/// The first model that something is wrong with.
fn first<'a>(check: Check, list: &'a [u8], wrong: impl Fn(&DrawableModel<'a>) -> Option<Found>) -> Refusal {
    let found = Models::of(list).zip(0..).find_map(|(model, number)| wrong(&model).map(|found| (number, found)));
    match found {
        Some((model, (geometry, detail))) => Refusal::of(check).at(Place { model, geometry, vertex: None }).because(detail),
        None => Refusal::of(check),
    }
}

fn of_geometries<'a>(check: Check, list: &'a [u8], seen: impl Fn(DrawableGeometry<'a>) -> DrawableGeometry<'a>) -> Refusal {
    first(check, list, |model| {
        let mut geometries = model.geometries().map(&seen).zip(0..);
        geometries.find_map(|(geometry, number)| of_geometry(check, &geometry).map(|detail| (Some(number), detail)))
    })
}

/// Check 12 of a model: the numbers of entries, else the first entry that is another geometry's.
fn of_model(model: &DrawableModel<'_>) -> Option<Found> {
    if let Some(pair) = model.disagreements().first() {
        return Some((None, Detail::Pair(pair.one, pair.other)));
    }
    let mut entries = model.shader_mapping().zip(model.geometries()).zip(0..);
    let ((entry, geometry), number) = entries.find(|((entry, geometry), _)| *entry != geometry.shader_id)?;
    let shader = ("shader id", u64::from(geometry.shader_id));
    Some((Some(number), Detail::Pair(("shader mapping entry", u64::from(entry)), shader)))
}

/// Checks 14 to 18 and 27 of one geometry.
fn of_geometry(check: Check, geometry: &DrawableGeometry<'_>) -> Option<Detail> {
    let vertices = geometry.vertex_buffer?;
    let pair = || count_disagreement(check, geometry).map(|pair| Detail::Pair(pair.one, pair.other));
    match check {
        Check::Strides if vertices.layout != VertexBufferLayout::Legacy => Some(Detail::Layout(vertices.layout)),
        Check::Declaration if !geometry.declaration?.has_position() => geometry.declaration.map(Detail::Declared),
        Check::Strides | Check::Declaration => pair(),
        Check::VertexCount => pair().or((vertices.vertex_count == 0).then_some(Detail::One(("vertex count", 0)))),
        Check::IndexCounts => pair().or((geometry.indices_count == 0).then_some(Detail::One(("index count", 0)))),
        Check::IndexRange => index_of(geometry.index_buffer?.indices(), u64::from(vertices.vertex_count)),
        Check::DegenerateTriangle => triangle_of(geometry.triangles()),
        _ => None,
    }
}
