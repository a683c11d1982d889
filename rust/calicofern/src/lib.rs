//! The geometry of RAGE drawables: what a drawable's two sections hold, its vertices in one form, and the numbers that it packs them in.
//!
//! The work is done by a library that is proved: for every input it stays inside what it was lent, ends, and answers as its contract
//! says. This crate lends it slices and gives its answers Rust types. A call that cannot be done is refused with a [`Refusal`], which has
//! the number of the check that failed and says it in words; a refused call changes no byte of an output.
//!
//! ```
//! use calicofern::Sections;
//!
//! # fn main() -> Result<(), Box<dyn std::error::Error>> {
//! # let folder = concat!(env!("CARGO_MANIFEST_DIR"), "/samples/");
//! let system = std::fs::read(format!("{folder}shoebox.system"))?;
//! let hall = Sections::new(&system, &[]).hall_list(Sections::SYSTEM)?;
//! for model in hall.models() {
//!     for geometry in model.geometries() {
//!         assert!(geometry.disagreements().is_empty());
//!         let Some(vertices) = geometry.vertex_buffer else { continue };
//!         for vertex in vertices.to_unified_vertices()? {
//!             assert!(vertex.position[2] >= 0.0, "nothing lies below the floor");
//!         }
//!     }
//! }
//! # Ok(())
//! # }
//! ```
//!
//! | to do this | use |
//! |---|---|
//! | list the models and geometries of a drawable | [`Sections::hall_list`], [`HallList::models`] |
//! | check that a list is a hall, so that it may be edited and saved | [`hall_check`] |
//! | build a hall, or edit one | [`Hall`] |
//! | save a hall as a drawable | [`Hall::save`] |
//! | see where its counts disagree | [`DrawableGeometry::disagreements`], [`DrawableModel::disagreements`] |
//! | read vertices as they are stored, or in one form | [`Vertices::read_vertex_attributes`], [`Vertices::to_unified_vertices`] |
//! | read where the vertices are, and nothing else | [`Vertices::positions`] |
//! | find a vertex buffer by its address | [`Sections::vertex_buffer_at`] |
//! | ask why a call was refused | [`Refusal`], [`Check`] |
//! | convert halves and normalised bytes | [`convert`] |

#![deny(unsafe_code)]

mod attribute;
mod blocks;
mod buffer;
mod bytes;
#[allow(unsafe_code)]
mod calls;
mod check;
pub mod convert;
mod declaration;
mod detail;
mod disagreement;
mod explain;
mod geometry;
mod hall;
mod hall_check;
mod lend;
mod list;
mod model;
mod names;
mod outline;
mod reason;
mod record;
mod refusal;
mod sections;
mod types;
mod unified;

pub use attribute::{VertexAttribute, VertexAttributeValue};
pub use buffer::{InlineVertices, VertexBuffer, VertexBufferLayout, Vertices};
pub use check::Check;
pub use declaration::{VertexComponent, VertexDeclaration};
pub use disagreement::Disagreement;
pub use geometry::{DrawableGeometry, Geometries, IndexBuffer, Indices};
pub use hall::{Hall, NewGeometry};
pub use hall_check::hall_check;
pub use lend::ALLOCATION_LIMIT;
pub use list::HallList;
pub use model::{DrawableModel, Models};
pub use names::{nearest, UnknownName};
pub use refusal::{Place, Refusal};
pub use sections::Sections;
pub use types::{VertexComponentType, VertexSemantic};
pub use unified::UnifiedVertex;

/// The example of README.md, for the documentation tests.
#[cfg(doctest)]
#[doc = include_str!("../README.md")]
pub struct Readme;
