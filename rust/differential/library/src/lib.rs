//! The C functions of crates/exports, called through the declarations of rust/calicofern; and drawables, generated from a seed.
#[path = "../../../calicofern/src/calls.rs"]
mod calls;
pub mod drawables;
pub mod numbers;
mod vertices;

pub use calls::{
    add_geometry, add_model, bone_index, declaration_id, f16_to_f32, f32_to_f16, f32_to_snorm8, f32_to_unorm8, floats_to_halves,
    floats_to_snorm8, floats_to_unorm8, hall_check, hall_list, halves_to_floats, is_skinned, remove_geometry, remove_model,
    replace_indices, save, set_attribute, snorm8_to_f32, snorm8_to_floats, snorm_colour8, take_in, triangle_count, unorm8_to_f32,
    unorm8_to_floats, Given, Told,
};
pub use vertices::{unified_vertices, vertex_attributes, vertex_buffer, Stream, Vertices};
