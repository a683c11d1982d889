//! The original Rust as an oracle: a drawable's two sections and the address of a LOD header in, the hall list's bytes or a refusal out.
//!
//! The modules `math`, `resource`, `vertex`, `ydd`, `blocks::vertex` and `blocks::xml` are the original, brought in by build.rs. `hash`, `names`,
//! `xml`, `ytd`, `yft`, the rest of `blocks`, and the crates under stubs/, stand for what it names elsewhere and plays no part in geometry.
include!(concat!(env!("OUT_DIR"), "/original.rs"));

pub mod blocks;
pub mod encode;
mod hash;
pub mod list;
mod names;
mod xml;
mod yft;
mod ytd;

pub(crate) use hash::rage_joaat;
use resource::ResReader;
use ydd::DrawableLod;

/// What the original says of a LOD header: the models, or the number of document 01's check. Only 2, 3, 4 and 6 are in the original.
pub fn models(system: &[u8], graphics: &[u8], va: u64) -> Result<DrawableLod, u8> {
    let reader = ResReader { system, graphics };
    ydd::parse_lod_models_at(&reader, ydd::LodLevel::High, va).map_err(|error| check_of(&error.to_string()))
}

/// The triangles of a LOD; the rest of a drawable is not asked for.
pub fn triangle_count(lod: &DrawableLod) -> usize {
    let zero = math::Vec3::new(0.0, 0.0, 0.0);
    let drawable = ydd::Drawable {
        name: String::new(),
        name_hash: 0,
        bounds: ydd::DrawableBounds { center: zero, sphere_radius: 0.0, box_min: zero, box_max: zero },
        lod_distances: [0.0; 4],
        render_masks: [0; 4],
        shader_group: None,
        lods: Vec::new(),
    };
    drawable.triangle_count(lod)
}

/// The check that an error's text tells of.
pub fn check_of(text: &str) -> u8 {
    let checks = [
        (2, "model pointer array"),
        (3, "drawable model"),
        (4, "geometry pointer array"),
        (6, "drawable geometry"),
        (8, "vertex index"),
        (9, "unexpected end of vertex data"),
    ];
    let found = checks.iter().find(|(_, start)| text.starts_with(start));
    found.unwrap_or_else(|| panic!("an error of no check: {text}")).0
}
