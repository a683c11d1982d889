//! Refusals of the calls that edit a hall, with the numbers that matter. Each is looked into only after the library refused, so an accepted call is as
//! quick as the library is. `list` is the hall as it was, which a refused call leaves alone.

use crate::detail::{Detail, Lacking, Level};
use crate::outline::{Outline, Size};
use crate::reason;
use crate::{Check, DrawableGeometry, HallList, Models, NewGeometry, Place, Refusal, Sections, VertexAttributeValue, VertexSemantic};

/// The longest list of a refused drawable that is looked into: sections whose pointers share nothing have none that is longer.
const READING_LIMIT: usize = 1 << 28;

/// Check 21: the first of the model, the geometry and the vertex that is not there, and how many there are.
pub fn absent(list: &[u8], place: Place) -> Refusal {
    let refusal = Refusal::of(Check::Target).at(place);
    match missing(list, place) {
        Some((level, there)) => refusal.because(Detail::Absent { level, there }),
        None => refusal,
    }
}

fn missing(list: &[u8], place: Place) -> Option<(Level, u64)> {
    let Some(model) = nth(Models::of(list), place.model) else {
        return Some((Level::Model, Models::of(list).count() as u64));
    };
    let number = place.geometry?;
    let Some(geometry) = nth(model.geometries(), number) else {
        return Some((Level::Geometry, model.geometries().count() as u64));
    };
    let there = u64::from(geometry.vertex_buffer.map_or(0, |vertices| vertices.vertex_count));
    (place.vertex? >= there).then_some((Level::Vertex, there))
}

fn nth<T>(mut items: impl Iterator<Item = T>, number: u64) -> Option<T> {
    items.nth(usize::try_from(number).ok()?)
}

fn geometry_at(list: &[u8], place: Place) -> Option<DrawableGeometry<'_>> {
    nth(nth(Models::of(list), place.model)?.geometries(), place.geometry?)
}

pub fn adding_model(refusal: Refusal, list: &[u8]) -> Refusal {
    let mut outline = Outline::of(list);
    outline.models.push(Vec::new());
    of_outline(refusal, &outline)
}

/// Checks 13 and 19 of a hall that would have this outline.
fn of_outline(refusal: Refusal, outline: &Outline) -> Refusal {
    match refusal.check() {
        Check::Limits => reason::counts(outline),
        Check::ImageLength => reason::image(outline),
        _ => refusal,
    }
}

pub fn adding_geometry(refusal: Refusal, list: &[u8], given: &NewGeometry<'_>) -> Refusal {
    if let Some(detail) = of_given(refusal.check(), given) {
        return refusal.because(detail);
    }
    let mut outline = Outline::of(list);
    if let Some(model) = outline.models.last_mut() {
        model.push(Size { vertex_bytes: given.vertices.len(), indices: given.indices.len() });
    }
    of_outline(refusal, &outline)
}

/// What is wrong with a geometry that was to be added, by checks 11, 14 to 18, 21 and 27.
fn of_given(check: Check, given: &NewGeometry<'_>) -> Option<Detail> {
    let (count, stride) = (given.vertex_count, given.vertex_stride);
    let declaration = given.declaration;
    let number = |what, number: u16| (what, u64::from(number));
    match check {
        Check::Records => Some(Detail::Content { given: given.vertices.len() as u64, count, stride }),
        Check::Strides => Some(Detail::Pair(number("stride", stride), number("stride of the declaration", declaration.stride))),
        Check::Declaration if !declaration.has_position() => Some(Detail::Declared(declaration)),
        Check::Declaration => Some(Detail::Pair(number("bytes of the components", declaration.size_in_bytes()), number("stride", stride))),
        Check::VertexCount => Some(Detail::Given(u64::from(count), "vertices are")),
        Check::IndexCounts => Some(given_indices(given.indices)),
        Check::IndexRange => reason::index_of(given.indices.iter().copied(), u64::from(count)),
        Check::DegenerateTriangle => reason::triangle_of(triangles(given.indices)),
        Check::Target => Some(Detail::Words("there is no model to add a geometry to: add a model first")),
        _ => None,
    }
}

fn given_indices(indices: &[u32]) -> Detail {
    Detail::Given(indices.len() as u64, if indices.len() == 1 { "index is" } else { "indices are" })
}

fn triangles(indices: &[u32]) -> impl Iterator<Item = [u32; 3]> + '_ {
    indices.chunks_exact(3).filter_map(|three| three.first_chunk().copied())
}

pub fn removing(refusal: Refusal, list: &[u8], place: Place) -> Refusal {
    match refusal.check() {
        Check::Target => absent(list, place),
        _ => refusal.at(place),
    }
}

pub fn setting(refusal: Refusal, list: &[u8], place: Place, semantic: VertexSemantic, value: &VertexAttributeValue) -> Refusal {
    let refusal = removing(refusal, list, place);
    // the library goes by the number
    let semantic = VertexSemantic::from_index(semantic.index());
    let Some(declaration) = geometry_at(list, place).and_then(|geometry| geometry.declaration) else {
        return refusal;
    };
    let component = declaration.components().into_iter().find(|component| component.semantic == semantic);
    match (refusal.check(), component) {
        (Check::Semantic, _) => refusal.because(Detail::Undeclared { semantic, declaration }),
        (Check::Shape, Some(component)) => {
            let (given, _) = value.passed();
            refusal.because(Detail::Shape { semantic, component_type: component.component_type, given })
        }
        _ => refusal,
    }
}

pub fn replacing(refusal: Refusal, list: &[u8], place: Place, indices: &[u32]) -> Refusal {
    let refusal = removing(refusal, list, place);
    let vertices = geometry_at(list, place).and_then(|geometry| geometry.vertex_buffer).map(|vertices| vertices.vertex_count);
    let detail = match (refusal.check(), vertices) {
        (Check::IndexCounts, _) => Some(given_indices(indices)),
        (Check::IndexRange, Some(vertices)) => reason::index_of(indices.iter().copied(), u64::from(vertices)),
        (Check::DegenerateTriangle, _) => reason::triangle_of(triangles(indices)),
        (Check::ImageLength, Some(_)) => return of_outline(refusal, &with_indices(list, place, indices.len())),
        _ => None,
    };
    detail.map_or(refusal, |detail| refusal.because(detail))
}

/// The outline of a hall in which one geometry has other indices.
fn with_indices(list: &[u8], place: Place, indices: usize) -> Outline {
    let mut outline = Outline::of(list);
    let model = usize::try_from(place.model).ok().and_then(|model| outline.models.get_mut(model));
    let geometry = place.geometry.and_then(|geometry| usize::try_from(geometry).ok());
    if let Some(size) = model.zip(geometry).and_then(|(model, geometry)| model.get_mut(geometry)) {
        size.indices = indices;
    }
    outline
}

/// What two sections hold is no hall. It is read as a list, of at most `limit` bytes, to find out why.
pub fn taking_in(refusal: Refusal, sections: &Sections<'_>, at: u64, limit: usize) -> Refusal {
    let check = refusal.check();
    if !check.is_of_halls() {
        return refusal;
    }
    let read = sections.hall_list_within(at, limit.min(READING_LIMIT));
    match (read, check) {
        (Ok(read), Check::Records) => lacking(&read).unwrap_or(refusal.because(LACKS)),
        (Err(_), Check::Records) => refusal.because(LACKS),
        (Ok(read), _) => reason::of_reading(check, read.as_bytes()),
        (Err(_), _) => refusal,
    }
}

const LACKS: Detail = Detail::Words("a geometry lacks its vertices or its indices: in a hall each has both");

/// Check 11 of a drawable: its first geometry without vertices or indices.
fn lacking(read: &HallList) -> Option<Refusal> {
    let lacks = |geometry: &DrawableGeometry<'_>| match (geometry.vertex_buffer, geometry.index_buffer) {
        (Some(_), Some(_)) => None,
        (None, Some(_)) => Some(Lacking::Vertices),
        (Some(_), None) => Some(Lacking::Indices),
        (None, None) => Some(Lacking::Both),
    };
    read.models().zip(0..).find_map(|(model, number)| {
        let (lacking, geometry) = model.geometries().zip(0..).find_map(|(geometry, place)| Some((lacks(&geometry)?, place)))?;
        let place = Place { model: number, geometry: Some(geometry), vertex: None };
        Some(Refusal::of(Check::Records).at(place).because(Detail::Lacks(lacking)))
    })
}
