//! Stands for the original's fragments, of which only the shape is named.
use crate::ydd::{Drawable, DrawableEntry};

pub struct Fragment {
    pub name: String,
    pub drawable: Option<Drawable>,
    pub extra_drawables: Vec<DrawableEntry>,
}

pub fn parse_yft(_data: &[u8]) -> anyhow::Result<Fragment> {
    unimplemented!("fragments are not read here")
}
