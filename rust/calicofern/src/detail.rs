//! What is known of a refusal beside its check and its place.

use crate::outline::IMAGE_LIMIT;
use crate::{Place, VertexBufferLayout, VertexComponentType, VertexDeclaration, VertexSemantic};
use std::fmt;

/// What a number is, and the number.
pub type Number = (&'static str, u64);

/// What a call named and a hall has not.
#[derive(Debug, Clone, Copy, PartialEq, Eq, Hash)]
pub enum Level {
    Model,
    Geometry,
    Vertex,
}

/// What a geometry of a drawable lacks.
#[derive(Debug, Clone, Copy, PartialEq, Eq, Hash)]
pub enum Lacking {
    Vertices,
    Indices,
    Both,
}

#[derive(Debug, Clone, Copy, PartialEq, Eq, Hash)]
pub enum Detail {
    Nothing,
    /// An output that is too short. `limit`: whether `lent` is a limit on what would have been allocated.
    Bytes {
        needed: u64,
        lent: u64,
        limit: bool,
    },

    // ---- in place of the check's text
    Words(&'static str),
    /// The vertex bytes of a geometry that was to be added.
    Content {
        given: u64,
        count: u32,
        stride: u16,
    },
    /// How many of them there are.
    Absent {
        level: Level,
        there: u64,
    },
    Lacks(Lacking),
    Undeclared {
        semantic: VertexSemantic,
        declaration: VertexDeclaration,
    },
    /// `given`: the shape of the value, as the library takes it.
    Shape {
        semantic: VertexSemantic,
        component_type: VertexComponentType,
        given: u8,
    },
    Image {
        bytes: u64,
    },

    // ---- behind the check's text and the place
    /// Two numbers that ought to agree.
    Pair(Number, Number),
    /// How many of what a call gave.
    Given(u64, &'static str),
    /// A number that is wrong by itself.
    One(Number),
    /// The first index that names no vertex.
    Index {
        at: u64,
        index: u32,
        vertices: u64,
    },
    /// The first triangle with two equal indices.
    Triangle {
        at: u64,
        corners: [u32; 3],
    },
    /// A declaration without a position.
    Declared(VertexDeclaration),
    Layout(VertexBufferLayout),
    /// What a hall would have.
    Counts {
        models: u64,
        geometries: u64,
    },
}

impl Detail {
    /// The whole line behind `check N: `, where the check's own text is not needed.
    pub fn line(&self, place: Option<Place>) -> Option<String> {
        match *self {
            Self::Words(words) => Some(words.to_string()),
            Self::Content { given, count, stride } => {
                let product = u64::from(count) * u64::from(stride);
                let words = "the vertices' bytes are not their count times their stride";
                Some(format!("{words}: {given} given, but {count} x {stride} is {product}"))
            }
            Self::Absent { level, there } => place.map(|place| absent(place, level, there)),
            Self::Lacks(lacking) => place.map(|place| format!("{place} {lacking}")),
            Self::Undeclared { semantic, declaration } => place.map(|place| undeclared(place, semantic, &declaration)),
            Self::Shape { semantic, component_type, given } => Some(shape(semantic, component_type, given) + &behind(place)),
            Self::Image { bytes } => {
                let over = bytes.saturating_sub(IMAGE_LIMIT);
                let words = "the hall is too large to be saved: its image would have";
                Some(format!("{words} {bytes} bytes, {over} over the limit of {IMAGE_LIMIT}"))
            }
            _ => None,
        }
    }
}

/// What stands behind the check's text and the place.
impl fmt::Display for Detail {
    fn fmt(&self, out: &mut fmt::Formatter<'_>) -> fmt::Result {
        match self {
            Self::Bytes { needed, lent, limit: true } => write!(out, ": {needed} bytes are needed, and the limit is {lent}"),
            Self::Bytes { needed, lent, limit: false } => write!(out, ": {needed} bytes are needed, {lent} were lent"),
            Self::Pair((one, first), (other, second)) => write!(out, ": {one} {first}, but {other} {second}"),
            Self::Given(number, what) => write!(out, ": {number} {what} given"),
            Self::One((what, number)) => write!(out, ": {what} {number}"),
            Self::Index { at, index, vertices } => {
                write!(out, ": index {at} of the geometry is {index}, and it has {}", counted(*vertices, "vertex", "vertices"))
            }
            Self::Triangle { at, corners: [a, b, c] } => {
                let doubled = if a == b || a == c { a } else { b };
                let times = if a == b && b == c { "three times" } else { "twice" };
                write!(out, ": triangle {at} of the geometry is {a}, {b}, {c}, with index {doubled} {times}")
            }
            Self::Declared(declaration) => write!(out, ": the vertices have {declaration}"),
            Self::Layout(layout) => write!(out, ": the layout is {}, {layout}", layout.number()),
            Self::Counts { models, geometries } => {
                let models = counted(*models, "model", "models");
                write!(out, ": it would have {models} and {}", counted(*geometries, "geometry", "geometries"))
            }
            _ => Ok(()),
        }
    }
}

impl fmt::Display for Lacking {
    fn fmt(&self, out: &mut fmt::Formatter<'_>) -> fmt::Result {
        out.write_str(match self {
            Self::Vertices => "has no vertices: its address or inline data leads to none",
            Self::Indices => "has no index block: its address leads to none",
            Self::Both => "has no vertices and no index block: its addresses lead to none",
        })
    }
}

/// The place, set off from the words before it.
pub fn behind(place: Option<Place>) -> String {
    place.map_or(String::new(), |place| format!(": {place}"))
}

/// `1 model`, `2 models`, `no models`.
fn counted(number: u64, one: &str, many: &str) -> String {
    match number {
        0 => format!("no {many}"),
        1 => format!("1 {one}"),
        _ => format!("{number} {many}"),
    }
}

fn absent(place: Place, level: Level, there: u64) -> String {
    let model = place.model;
    let (geometry, vertex) = (place.geometry.unwrap_or(0), place.vertex.unwrap_or(0));
    let (what, has) = match level {
        Level::Model => (format!("model {model}"), format!("the hall has {}", counted(there, "model", "models"))),
        Level::Geometry => {
            (format!("geometry {geometry} of model {model}"), format!("it has {}", counted(there, "geometry", "geometries")))
        }
        Level::Vertex => {
            let what = format!("vertex {vertex} of model {model}, geometry {geometry}");
            (what, format!("it has {}", counted(there, "vertex", "vertices")))
        }
    };
    let from = if there == 0 { "" } else { ", numbered from 0" };
    format!("there is no {what}: {has}{from}")
}

fn undeclared(place: Place, semantic: VertexSemantic, declaration: &VertexDeclaration) -> String {
    let geometry = Place { vertex: None, ..place };
    let declared = declaration.components().into_iter().find(|component| component.semantic == semantic);
    match declared {
        Some(component) => {
            let found = component.component_type;
            format!("the vertices of {geometry} have no {semantic}: its type is {found}, which has no bytes")
        }
        None => format!("the vertices of {geometry} have no {semantic}: they have {declaration}"),
    }
}

fn shape(semantic: VertexSemantic, component_type: VertexComponentType, given: u8) -> String {
    let bytes = matches!(component_type, VertexComponentType::UByte4 | VertexComponentType::Colour);
    let wanted = match component_type.component_count() {
        _ if bytes => "four bytes",
        1 => "one number",
        2 => "two numbers",
        3 => "three numbers",
        _ => "four numbers",
    };
    let numbers = match (given, bytes) {
        (1, false) => "1 is".to_string(),
        (1, true) => "1 number is".to_string(),
        (2..=4, false) => format!("{given} are"),
        (2..=4, true) => format!("{given} numbers are"),
        (5, _) => "four bytes are".to_string(),
        _ => "none are".to_string(),
    };
    format!("{semantic} is {component_type}: {wanted}, {numbers} given")
}
